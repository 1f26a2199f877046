/* picolibc's unistd.h, with what POSIX and Linux have beside it. */
#include_next <unistd.h>

#ifndef _GUEST_UNISTD_H
#define _GUEST_UNISTD_H

#ifdef __cplusplus
extern "C" {
#endif

#ifndef _POSIX_VERSION
#define _POSIX_VERSION 200809L
#endif
#define _POSIX_MAPPED_FILES 200809L
#define _POSIX_FSYNC 200809L
#define _POSIX_NO_TRUNC 1
#define _POSIX_THREADS 200809L
#define _POSIX_THREAD_ATTR_STACKSIZE 200809L
#define _POSIX_THREAD_SAFE_FUNCTIONS 200809L
#define _POSIX_BARRIERS 200809L
#define _POSIX_READER_WRITER_LOCKS 200809L
#define _POSIX_SPIN_LOCKS 200809L
#define _POSIX_SEMAPHORES 200809L
#define _POSIX_TIMEOUTS 200809L
#define _POSIX_CLOCK_SELECTION 200809L
#define _POSIX_MONOTONIC_CLOCK 200809L

#ifndef F_ULOCK
#define F_ULOCK 0
#define F_LOCK 1
#define F_TLOCK 2
#define F_TEST 3
#endif

ssize_t pread(int fd, void *bytes, size_t size, off_t offset);
ssize_t pwrite(int fd, const void *bytes, size_t size, off_t offset);
int fdatasync(int fd);
#if __MISC_VISIBLE || __GNU_VISIBLE
extern char **environ;
int dup3(int fd, int to, int flags);
int eaccess(const char *path, int mode);
int euidaccess(const char *path, int mode);
char *get_current_dir_name(void);
int lockf(int fd, int command, off_t length);
#endif

#ifdef __cplusplus
}
#endif

#endif

/* picolibc's fcntl.h, with the flags and calls of POSIX that it hasn't. */
#include_next <fcntl.h>

#ifndef _GUEST_FCNTL_H
#define _GUEST_FCNTL_H

#ifdef __cplusplus
extern "C" {
#endif

#ifndef O_DSYNC
#define O_DSYNC O_SYNC
#define O_RSYNC O_SYNC
#endif
#ifndef O_NDELAY
#define O_NDELAY O_NONBLOCK
#endif

#define POSIX_FADV_NORMAL 0
#define POSIX_FADV_RANDOM 1
#define POSIX_FADV_SEQUENTIAL 2
#define POSIX_FADV_WILLNEED 3
#define POSIX_FADV_DONTNEED 4
#define POSIX_FADV_NOREUSE 5

int posix_fadvise(int fd, off_t offset, off_t length, int advice);
int posix_fallocate(int fd, off_t offset, off_t length);

#ifdef __cplusplus
}
#endif

#endif

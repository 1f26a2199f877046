/* picolibc's sys/stat.h, with the calls and constants of POSIX that it hasn't. */
#include_next <sys/stat.h>

#ifndef _GUEST_STAT_H
#define _GUEST_STAT_H

#ifdef __cplusplus
extern "C" {
#endif

#define UTIME_NOW ((1L << 30) - 1L)
#define UTIME_OMIT ((1L << 30) - 2L)

#ifndef S_IREAD
#define S_IREAD S_IRUSR
#define S_IWRITE S_IWUSR
#define S_IEXEC S_IXUSR
#endif

int lstat(const char *__restrict path, struct stat *__restrict status);
int lchmod(const char *path, mode_t mode);
int mknod(const char *path, mode_t mode, dev_t device);
#if __POSIX_VISIBLE >= 200809 || __MISC_VISIBLE
int fstatat(int directory, const char *__restrict path, struct stat *__restrict status, int flags);
int fchmodat(int directory, const char *path, mode_t mode, int flags);
int mkdirat(int directory, const char *path, mode_t mode);
int utimensat(int directory, const char *path, const struct timespec times[2], int flags);
int futimens(int fd, const struct timespec times[2]);
#endif

#ifdef __cplusplus
}
#endif

#endif

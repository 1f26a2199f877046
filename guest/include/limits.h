/* The limits of the compiler and of picolibc, and those of POSIX. */
#include_next <limits.h>

#ifndef _GUEST_LIMITS_H
#define _GUEST_LIMITS_H

#ifndef SSIZE_MAX
#define SSIZE_MAX LONG_MAX
#endif
#ifndef NAME_MAX
#define NAME_MAX 255
#endif
#ifndef PATH_MAX
#define PATH_MAX 4096
#endif
#ifndef IOV_MAX
#define IOV_MAX 1024
#endif
#ifndef PIPE_BUF
#define PIPE_BUF 512
#endif
#ifndef LINE_MAX
#define LINE_MAX 2048
#endif
#ifndef NGROUPS_MAX
#define NGROUPS_MAX 16
#endif
#ifndef HOST_NAME_MAX
#define HOST_NAME_MAX 255
#endif
#ifndef LOGIN_NAME_MAX
#define LOGIN_NAME_MAX 256
#endif
#ifndef TTY_NAME_MAX
#define TTY_NAME_MAX 32
#endif
#ifndef SYMLINK_MAX
#define SYMLINK_MAX 1024
#endif
#ifndef SYMLOOP_MAX
#define SYMLOOP_MAX 32
#endif
#ifndef WORD_BIT
#define WORD_BIT 32
#define LONG_BIT 64
#endif

#define _POSIX_ARG_MAX 4096
#define _POSIX_LINK_MAX 8
#define _POSIX_NAME_MAX 14
#define _POSIX_OPEN_MAX 20
#define _POSIX_PATH_MAX 256
#define _POSIX_PIPE_BUF 512
#define _POSIX_SSIZE_MAX 32767
#define _POSIX_SYMLOOP_MAX 8
#define _POSIX_HOST_NAME_MAX 255
#define _POSIX_LOGIN_NAME_MAX 9

#endif

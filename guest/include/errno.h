/* picolibc's errno.h, with the program's names, as GNU's C library has them. */
#include <sys/features.h>
#include_next <errno.h>

#ifndef _GUEST_ERRNO_H
#define _GUEST_ERRNO_H

#ifdef __cplusplus
extern "C" {
#endif

#if __GNU_VISIBLE
extern char *program_invocation_name, *program_invocation_short_name;
#endif

#ifdef __cplusplus
}
#endif

#endif

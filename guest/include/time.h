/* picolibc's time.h, with the clocks of POSIX. */
#include_next <time.h>

#ifndef _GUEST_TIME_H
#define _GUEST_TIME_H

#ifdef __cplusplus
extern "C" {
#endif

#ifndef CLOCK_MONOTONIC
#define CLOCK_MONOTONIC ((clockid_t)4)
#endif
#ifndef CLOCK_PROCESS_CPUTIME_ID
#define CLOCK_PROCESS_CPUTIME_ID ((clockid_t)2)
#endif
#ifndef CLOCK_THREAD_CPUTIME_ID
#define CLOCK_THREAD_CPUTIME_ID ((clockid_t)3)
#endif
#if __POSIX_VISIBLE || __MISC_VISIBLE
extern long timezone;
extern int daylight;
int clock_gettime(clockid_t clock, struct timespec *time);
int clock_getres(clockid_t clock, struct timespec *time);
int clock_settime(clockid_t clock, const struct timespec *time);
int clock_nanosleep(clockid_t clock, int flags, const struct timespec *time, struct timespec *rest);
int nanosleep(const struct timespec *time, struct timespec *rest);
#endif
#if __ISO_C_VISIBLE >= 2011
#define TIME_UTC 1
int timespec_get(struct timespec *time, int base);
#endif

#ifdef __cplusplus
}
#endif

#endif

/* Times, waiting for them, and random bytes. */
#define _GNU_SOURCE
#include "system.h"

#include <errno.h>
#include <sys/time.h>
#include <sys/timeb.h>
#include <sys/times.h>
#include <time.h>
#include <unistd.h>

#define NANOSECONDS UINT64_C(1000000000)
#define NEVER (UINT64_C(1) << 62) /* from here on no moment is reached */
#define MOST_RANDOM 65536         /* bytes of one call */

/* The sandbox's clock for one of C's, and 0, which it refuses, for a number of none. The time of the run stands for the processor's. */
uint32_t sandbox_clock(clockid_t clock)
{
    if (clock == CLOCK_REALTIME || clock == CLOCK_REALTIME_COARSE || clock == CLOCK_REALTIME_ALARM)
        return CLOUDABI_CLOCK_REALTIME;
    return clock <= CLOCK_BOOTTIME_ALARM ? CLOUDABI_CLOCK_MONOTONIC : 0;
}

static struct timespec timespec_of(cloudabi_timestamp_t nanoseconds)
{
    return (struct timespec){.tv_sec = (time_t)(nanoseconds / NANOSECONDS), .tv_nsec = (long)(nanoseconds % NANOSECONDS)};
}

static int now(uint32_t clock, struct timespec *time)
{
    cloudabi_timestamp_t nanoseconds;
    if (result(cloudabi_sys_clock_time_get(clock, 0, &nanoseconds)) != 0)
        return -1;
    *time = timespec_of(nanoseconds);
    return 0;
}

int clock_gettime(clockid_t clock, struct timespec *time)
{
    return now(sandbox_clock(clock), time);
}

int clock_getres(clockid_t clock, struct timespec *time)
{
    cloudabi_timestamp_t nanoseconds;
    if (result(cloudabi_sys_clock_res_get(sandbox_clock(clock), &nanoseconds)) != 0)
        return -1;
    if (time != NULL)
        *time = timespec_of(nanoseconds);
    return 0;
}

int clock_settime(clockid_t clock, const struct timespec *time)
{
    (void)clock, (void)time;
    errno = EPERM;
    return -1;
}

int timespec_get(struct timespec *time, int base)
{
    return base == 1 && now(CLOUDABI_CLOCK_REALTIME, time) == 0 ? base : 0;
}

int gettimeofday(struct timeval *restrict time, void *restrict zone)
{
    struct timespec found;
    (void)zone;
    if (now(CLOUDABI_CLOCK_REALTIME, &found) != 0)
        return -1;
    *time = (struct timeval){.tv_sec = found.tv_sec, .tv_usec = found.tv_nsec / 1000};
    return 0;
}

int settimeofday(const struct timeval *time, const struct timezone *zone)
{
    (void)time, (void)zone;
    errno = EPERM;
    return -1;
}

int adjtime(const struct timeval *change, struct timeval *left)
{
    (void)change, (void)left;
    errno = EPERM;
    return -1;
}

time_t time(time_t *to)
{
    struct timespec found;
    time_t seconds = now(CLOUDABI_CLOCK_REALTIME, &found) == 0 ? found.tv_sec : (time_t)-1;
    if (to != NULL)
        *to = seconds;
    return seconds;
}

int ftime(struct timeb *time)
{
    struct timespec found;
    if (now(CLOUDABI_CLOCK_REALTIME, &found) != 0)
        return -1;
    *time = (struct timeb){.time = found.tv_sec, .millitm = (unsigned short)(found.tv_nsec / 1000000)};
    return 0;
}

clock_t times(struct tms *used)
{
    struct timespec found;
    if (now(CLOUDABI_CLOCK_MONOTONIC, &found) != 0)
        return (clock_t)-1;
    clock_t ticks = (clock_t)found.tv_sec * CLOCKS_PER_SEC + (clock_t)found.tv_nsec / (NANOSECONDS / CLOCKS_PER_SEC);
    *used = (struct tms){.tms_utime = ticks};
    return ticks;
}

clock_t clock(void)
{
    struct tms used;
    return times(&used);
}

/* Waiting is for a moment of a clock. Nothing cuts it short, so that no time is ever left of it. */

static bool is_time(const struct timespec *time)
{
    return time->tv_sec >= 0 && time->tv_nsec >= 0 && time->tv_nsec < (long)NANOSECONDS;
}

cloudabi_timestamp_t nanoseconds_of(const struct timespec *time)
{
    uint64_t seconds = (uint64_t)time->tv_sec;
    return seconds >= NEVER / NANOSECONDS ? NEVER : seconds * NANOSECONDS + (uint64_t)time->tv_nsec;
}

static int wait_for(clockid_t clock, int flags, const struct timespec *time)
{
    if (!is_time(time)) {
        errno = EINVAL;
        return -1;
    }
    cloudabi_subscription_t due = {.kind = CLOUDABI_EVENTTYPE_CLOCK};
    due.clock.clock = sandbox_clock(clock);
    due.clock.timeout = nanoseconds_of(time);
    due.clock.flags = flags & TIMER_ABSTIME ? CLOUDABI_SUBSCRIPTION_CLOCK_ABSTIME : 0;
    cloudabi_event_t event;
    size_t events;
    return result(cloudabi_sys_poll(&due, &event, 1, &events));
}

int nanosleep(const struct timespec *time, struct timespec *rest)
{
    (void)rest;
    return wait_for(CLOCK_MONOTONIC, 0, time);
}

int clock_nanosleep(clockid_t clock, int flags, const struct timespec *time, struct timespec *rest)
{
    (void)rest;
    int before = errno;
    int failed = wait_for(clock, flags, time) == 0 ? 0 : errno;
    errno = before;
    return failed;
}

unsigned sleep(unsigned seconds)
{
    struct timespec time = {.tv_sec = (time_t)seconds};
    return nanosleep(&time, NULL) == 0 ? 0 : seconds;
}

int usleep(useconds_t microseconds)
{
    struct timespec time = timespec_of((cloudabi_timestamp_t)microseconds * 1000);
    return nanosleep(&time, NULL);
}

int setitimer(int timer, const struct itimerval *value, struct itimerval *before)
{
    (void)timer, (void)value, (void)before;
    errno = ENOSYS;
    return -1;
}

int getitimer(int timer, struct itimerval *value)
{
    (void)timer;
    *value = (struct itimerval){0};
    return 0;
}

unsigned alarm(unsigned seconds)
{
    (void)seconds;
    return 0;
}

/* Random bytes. */

int getentropy(void *buffer, size_t length)
{
    if (length > 256) {
        errno = EIO;
        return -1;
    }
    return result(cloudabi_sys_random_get(buffer, length));
}

ssize_t getrandom(void *buffer, size_t length, unsigned flags)
{
    (void)flags;
    for (size_t done = 0; done < length; done += MOST_RANDOM) {
        size_t count = length - done < MOST_RANDOM ? length - done : MOST_RANDOM;
        if (result(cloudabi_sys_random_get((char *)buffer + done, count)) != 0)
            return -1;
    }
    return (ssize_t)length;
}

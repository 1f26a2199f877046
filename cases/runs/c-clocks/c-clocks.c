/* Clocks, waits for them, and random bytes. */
#include "check.h"

#include <poll.h>
#include <stdint.h>
#include <stdlib.h>
#include <sys/random.h>
#include <sys/select.h>
#include <sys/time.h>
#include <sys/times.h>
#include <time.h>
#include <unistd.h>

#define MILLISECOND INT64_C(1000000)

static int64_t now(clockid_t clock)
{
    struct timespec time = {.tv_sec = -1};
    CHECK(clock_gettime(clock, &time) == 0 && time.tv_sec >= 0 && time.tv_nsec >= 0 && time.tv_nsec < 1000000000);
    return time.tv_sec * INT64_C(1000000000) + time.tv_nsec;
}

static void clocks(void)
{
    struct timespec resolution = {0}, of_c = {0};
    struct timeval of_day;
    struct tms used;
    int64_t first = now(CLOCK_MONOTONIC);
    CHECK(now(CLOCK_MONOTONIC) >= first);
    CHECK(clock_getres(CLOCK_MONOTONIC, &resolution) == 0 && resolution.tv_sec == 0 && resolution.tv_nsec > 0);
    CHECK(clock_getres(CLOCK_REALTIME, NULL) == 0);
    FAILS(clock_gettime((clockid_t)1000, &resolution), EINVAL);
    time_t seconds = time(NULL), again;
    CHECK(seconds != (time_t)-1 && time(&again) == again && again >= seconds);
    CHECK(gettimeofday(&of_day, NULL) == 0 && of_day.tv_sec >= seconds && of_day.tv_usec >= 0 && of_day.tv_usec < 1000000);
    CHECK(timespec_get(&of_c, TIME_UTC) == TIME_UTC && of_c.tv_sec >= seconds);
    CHECK(now(CLOCK_REALTIME) / 1000000000 >= seconds);
    CHECK(clock() != (clock_t)-1 && times(&used) != (clock_t)-1);
}

/* Each wait takes its time, and returns 0. */
static void waits(void)
{
    struct timespec moment, wait = {.tv_nsec = 3 * MILLISECOND}, rest = {.tv_sec = 7};
    struct timeval short_wait = {.tv_usec = 3000};
    int64_t before = now(CLOCK_MONOTONIC);
    CHECK(nanosleep(&wait, &rest) == 0 && rest.tv_sec == 7 && now(CLOCK_MONOTONIC) - before >= 3 * MILLISECOND);
    before = now(CLOCK_MONOTONIC);
    CHECK(usleep(3000) == 0 && now(CLOCK_MONOTONIC) - before >= 3 * MILLISECOND);
    before = now(CLOCK_MONOTONIC);
    CHECK(poll(NULL, 0, 3) == 0 && now(CLOCK_MONOTONIC) - before >= 3 * MILLISECOND);
    before = now(CLOCK_MONOTONIC);
    CHECK(select(0, NULL, NULL, NULL, &short_wait) == 0 && now(CLOCK_MONOTONIC) - before >= 3 * MILLISECOND);
    before = now(CLOCK_MONOTONIC);
    CHECK(clock_nanosleep(CLOCK_MONOTONIC, 0, &wait, NULL) == 0 && now(CLOCK_MONOTONIC) - before >= 3 * MILLISECOND);
    CHECK(clock_gettime(CLOCK_REALTIME, &moment) == 0);
    moment.tv_sec += (moment.tv_nsec + 3 * MILLISECOND) / 1000000000;
    moment.tv_nsec = (moment.tv_nsec + 3 * MILLISECOND) % 1000000000;
    CHECK(clock_nanosleep(CLOCK_REALTIME, TIMER_ABSTIME, &moment, NULL) == 0);
    CHECK(now(CLOCK_REALTIME) >= moment.tv_sec * INT64_C(1000000000) + moment.tv_nsec);
    CHECK(clock_nanosleep(CLOCK_MONOTONIC, TIMER_ABSTIME, &(struct timespec){0}, NULL) == 0 && sleep(0) == 0);
    FAILS(nanosleep(&(struct timespec){.tv_nsec = 1000000000}, NULL), EINVAL);
    FAILS(nanosleep(&(struct timespec){.tv_nsec = -1}, NULL), EINVAL);
    FAILS(nanosleep(&(struct timespec){.tv_sec = -1}, NULL), EINVAL);
    errno = 0;
    CHECK(clock_nanosleep(CLOCK_REALTIME, 0, &(struct timespec){.tv_sec = -1}, NULL) == EINVAL && errno == 0);
}

static void random_bytes(void)
{
    static unsigned char first[100000], second[100000];
    size_t differ = 0;
    CHECK(getentropy(first, 256) == 0 && getentropy(second, 256) == 0 && memcmp(first, second, 256) != 0);
    FAILS(getentropy(first, 257), EIO);
    CHECK(getrandom(first, sizeof first, 0) == sizeof first && getrandom(second, sizeof second, 0) == sizeof second);
    for (size_t at = 0; at < sizeof first; ++at)
        differ += first[at] != second[at];
    CHECK(differ > sizeof first - sizeof first / 100 && getrandom(first, 0, 0) == 0);
}

int main(void)
{
    clocks();
    waits();
    random_bytes();
    return finish();
}

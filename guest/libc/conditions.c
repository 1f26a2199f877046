/* Condition variables. Their attributes are the clock of pthread_cond_timedwait, 0 being CLOCK_REALTIME. */
#define _GNU_SOURCE
#include "lock_words.h"

#include <errno.h>
#include <pthread.h>

int pthread_cond_init(pthread_cond_t *condition, const pthread_condattr_t *attributes)
{
    *condition = (pthread_cond_t){.clock = attributes == NULL ? 0 : *attributes};
    return 0;
}

int pthread_cond_destroy(pthread_cond_t *condition)
{
    (void)condition;
    return 0;
}

int pthread_cond_signal(pthread_cond_t *condition)
{
    return wake_at(&condition->word, 1);
}

int pthread_cond_broadcast(pthread_cond_t *condition)
{
    return wake_at(&condition->word, UINT32_MAX);
}

/* Whoever has the mutex meanwhile counts for itself how often. */
static int wait_for(pthread_cond_t *condition, pthread_mutex_t *mutex, const struct deadline *deadline)
{
    int again = mutex->again;
    if (!has_word(&mutex->word))
        return EPERM;
    pthread_testcancel();
    mutex->again = 0;
    int error = wait_at(&condition->word, &mutex->word, deadline);
    mutex->again = again;
    pthread_testcancel();
    return error;
}

int pthread_cond_wait(pthread_cond_t *condition, pthread_mutex_t *mutex)
{
    return wait_for(condition, mutex, NULL);
}

int pthread_cond_clockwait(pthread_cond_t *condition, pthread_mutex_t *mutex, clockid_t clock, const struct timespec *time)
{
    struct deadline deadline;
    int error = make_deadline(clock, time, &deadline);
    return error != 0 ? error : wait_for(condition, mutex, &deadline);
}

int pthread_cond_timedwait(pthread_cond_t *condition, pthread_mutex_t *mutex, const struct timespec *time)
{
    return pthread_cond_clockwait(condition, mutex, condition->clock == 0 ? CLOCK_REALTIME : (clockid_t)condition->clock, time);
}

int pthread_condattr_init(pthread_condattr_t *attributes)
{
    *attributes = 0;
    return 0;
}

int pthread_condattr_destroy(pthread_condattr_t *attributes)
{
    (void)attributes;
    return 0;
}

int pthread_condattr_setclock(pthread_condattr_t *attributes, clockid_t clock)
{
    if (clock != CLOCK_REALTIME && clock != CLOCK_MONOTONIC)
        return EINVAL;
    *attributes = (pthread_condattr_t)clock;
    return 0;
}

int pthread_condattr_getclock(const pthread_condattr_t *attributes, clockid_t *clock)
{
    *clock = *attributes == 0 ? CLOCK_REALTIME : (clockid_t)*attributes;
    return 0;
}

/* Barriers: threads wait until the last of so many has come. */
#define _GNU_SOURCE
#include "lock_words.h"

#include <errno.h>
#include <pthread.h>

int pthread_barrier_init(pthread_barrier_t *barrier, const pthread_barrierattr_t *attributes, unsigned count)
{
    (void)attributes;
    if (count == 0)
        return EINVAL;
    *barrier = (pthread_barrier_t){.count = count};
    return 0;
}

/* Waits for those that leave still: one of them may have destroyed it as it came back. */
int pthread_barrier_destroy(pthread_barrier_t *barrier)
{
    int error = 0;
    lock_word(&barrier->word, true, NULL);
    while (barrier->leaving > 0)
        wait_at(&barrier->all_left, &barrier->word, NULL);
    if (barrier->waiting > 0)
        error = EBUSY;
    unlock_word(&barrier->word);
    return error;
}

static void leave(pthread_barrier_t *barrier)
{
    if (--barrier->leaving == 0)
        wake_at(&barrier->all_left, UINT32_MAX);
    unlock_word(&barrier->word);
}

int pthread_barrier_wait(pthread_barrier_t *barrier)
{
    lock_word(&barrier->word, true, NULL);
    unsigned round = barrier->round;
    if (++barrier->waiting == barrier->count) {
        ++barrier->round;
        barrier->leaving += barrier->waiting;
        barrier->waiting = 0;
        wake_at(&barrier->all_came, UINT32_MAX);
        leave(barrier);
        return PTHREAD_BARRIER_SERIAL_THREAD;
    }
    while (barrier->round == round)
        wait_at(&barrier->all_came, &barrier->word, NULL);
    leave(barrier);
    return 0;
}

int pthread_barrierattr_init(pthread_barrierattr_t *attributes)
{
    *attributes = 0;
    return 0;
}

int pthread_barrierattr_destroy(pthread_barrierattr_t *attributes)
{
    (void)attributes;
    return 0;
}

/* Semaphores: a number of free places, of which each wait takes one. */
#define _GNU_SOURCE
#include "lock_words.h"

#include <errno.h>
#include <pthread.h>
#include <semaphore.h>

static int fails(int error)
{
    errno = error;
    return -1;
}

int sem_init(sem_t *semaphore, int shared, unsigned value)
{
    (void)shared;
    if (value > SEM_VALUE_MAX)
        return fails(EINVAL);
    *semaphore = (sem_t){.value = value};
    return 0;
}

int sem_destroy(sem_t *semaphore)
{
    (void)semaphore;
    return 0;
}

/* Takes a place where one is free, with the lock held before; lets go of the lock. */
static int take_place(sem_t *semaphore, int otherwise)
{
    bool is_free = semaphore->value > 0;
    if (is_free)
        --semaphore->value;
    unlock_word(&semaphore->word);
    return is_free ? 0 : fails(otherwise);
}

int sem_trywait(sem_t *semaphore)
{
    lock_word(&semaphore->word, true, NULL);
    return take_place(semaphore, EAGAIN);
}

int sem_wait(sem_t *semaphore)
{
    pthread_testcancel();
    lock_word(&semaphore->word, true, NULL);
    while (semaphore->value == 0)
        wait_at(&semaphore->condition, &semaphore->word, NULL);
    return take_place(semaphore, EAGAIN);
}

/* The time is looked at where the thread would have to wait. */
int sem_clockwait(sem_t *semaphore, clockid_t clock, const struct timespec *time)
{
    struct deadline deadline;
    pthread_testcancel();
    lock_word(&semaphore->word, true, NULL);
    int error = semaphore->value > 0 ? 0 : make_deadline(clock, time, &deadline);
    while (semaphore->value == 0 && error == 0)
        error = wait_at(&semaphore->condition, &semaphore->word, &deadline);
    return take_place(semaphore, error);
}

int sem_timedwait(sem_t *semaphore, const struct timespec *time)
{
    return sem_clockwait(semaphore, CLOCK_REALTIME, time);
}

int sem_post(sem_t *semaphore)
{
    lock_word(&semaphore->word, true, NULL);
    bool is_full = semaphore->value == SEM_VALUE_MAX;
    if (!is_full) {
        ++semaphore->value;
        wake_at(&semaphore->condition, 1);
    }
    unlock_word(&semaphore->word);
    return is_full ? fails(EOVERFLOW) : 0;
}

int sem_getvalue(sem_t *semaphore, int *value)
{
    *value = (int)__atomic_load_n(&semaphore->value, __ATOMIC_RELAXED);
    return 0;
}

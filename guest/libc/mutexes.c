/* Mutexes: words that a thread locks for writing. A word keeps who has it, so that the kinds differ in what they say of that alone. */
#define _GNU_SOURCE
#include "lock_words.h"

#include <errno.h>
#include <limits.h>
#include <pthread.h>

int pthread_mutex_init(pthread_mutex_t *mutex, const pthread_mutexattr_t *attributes)
{
    *mutex = (pthread_mutex_t){.type = attributes == NULL ? PTHREAD_MUTEX_DEFAULT : *attributes};
    return 0;
}

int pthread_mutex_destroy(pthread_mutex_t *mutex)
{
    return (mutex->word & ~LOCK_MANAGED) != 0 ? EBUSY : 0;
}

/* Once more, for the thread that has it: `otherwise` where it is no mutex for that. */
static int lock_again(pthread_mutex_t *mutex, int otherwise)
{
    if (mutex->type != PTHREAD_MUTEX_RECURSIVE)
        return otherwise;
    if (mutex->again == INT_MAX)
        return EAGAIN;
    ++mutex->again;
    return 0;
}

/* A mutex that the thread has would be waited for without an end. */
int pthread_mutex_lock(pthread_mutex_t *mutex)
{
    return has_word(&mutex->word) ? lock_again(mutex, EDEADLK) : lock_word(&mutex->word, true, NULL);
}

int pthread_mutex_trylock(pthread_mutex_t *mutex)
{
    if (has_word(&mutex->word))
        return lock_again(mutex, EBUSY);
    return try_lock_word(&mutex->word, true) ? 0 : EBUSY;
}

/* The time is looked at where the thread would have to wait. */
int pthread_mutex_clocklock(pthread_mutex_t *mutex, clockid_t clock, const struct timespec *time)
{
    struct deadline deadline;
    int error = pthread_mutex_trylock(mutex);
    if (error != EBUSY)
        return error;
    if (has_word(&mutex->word))
        return EDEADLK;
    error = make_deadline(clock, time, &deadline);
    return error != 0 ? error : lock_word(&mutex->word, true, &deadline);
}

int pthread_mutex_timedlock(pthread_mutex_t *mutex, const struct timespec *time)
{
    return pthread_mutex_clocklock(mutex, CLOCK_REALTIME, time);
}

int pthread_mutex_unlock(pthread_mutex_t *mutex)
{
    if (mutex->again == 0 || !has_word(&mutex->word))
        return unlock_word(&mutex->word);
    --mutex->again;
    return 0;
}

int pthread_mutexattr_init(pthread_mutexattr_t *attributes)
{
    *attributes = PTHREAD_MUTEX_DEFAULT;
    return 0;
}

int pthread_mutexattr_destroy(pthread_mutexattr_t *attributes)
{
    (void)attributes;
    return 0;
}

int pthread_mutexattr_settype(pthread_mutexattr_t *attributes, int type)
{
    if (type < PTHREAD_MUTEX_NORMAL || type > PTHREAD_MUTEX_RECURSIVE)
        return EINVAL;
    *attributes = type;
    return 0;
}

int pthread_mutexattr_gettype(const pthread_mutexattr_t *attributes, int *type)
{
    *type = *attributes;
    return 0;
}

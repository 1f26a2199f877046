/*
 * Locks of readers and writers, and locks that spin, which wait as these do: there is one processor. Who comes first has the lock first,
 * so that a thread that reads and wants to read once more waits behind one that waits to write.
 */
#define _GNU_SOURCE
#include "lock_words.h"

#include <errno.h>
#include <pthread.h>

int pthread_rwlock_init(pthread_rwlock_t *lock, const pthread_rwlockattr_t *attributes)
{
    (void)attributes;
    *lock = (pthread_rwlock_t)PTHREAD_RWLOCK_INITIALIZER;
    return 0;
}

int pthread_rwlock_destroy(pthread_rwlock_t *lock)
{
    return (*lock & ~LOCK_MANAGED) != 0 ? EBUSY : 0;
}

static int lock_until(pthread_rwlock_t *lock, bool writes, clockid_t clock, const struct timespec *time)
{
    struct deadline deadline;
    if (try_lock_word(lock, writes))
        return 0;
    int error = make_deadline(clock, time, &deadline);
    return error != 0 ? error : lock_word(lock, writes, &deadline);
}

int pthread_rwlock_rdlock(pthread_rwlock_t *lock)
{
    return lock_word(lock, false, NULL);
}

int pthread_rwlock_tryrdlock(pthread_rwlock_t *lock)
{
    if (try_lock_word(lock, false))
        return 0;
    return (*lock & LOCK_WRITTEN) == 0 && (*lock & LOCK_COUNT) == LOCK_COUNT ? EAGAIN : EBUSY;
}

int pthread_rwlock_clockrdlock(pthread_rwlock_t *lock, clockid_t clock, const struct timespec *time)
{
    return lock_until(lock, false, clock, time);
}

int pthread_rwlock_timedrdlock(pthread_rwlock_t *lock, const struct timespec *time)
{
    return lock_until(lock, false, CLOCK_REALTIME, time);
}

int pthread_rwlock_wrlock(pthread_rwlock_t *lock)
{
    return lock_word(lock, true, NULL);
}

int pthread_rwlock_trywrlock(pthread_rwlock_t *lock)
{
    return try_lock_word(lock, true) ? 0 : EBUSY;
}

int pthread_rwlock_clockwrlock(pthread_rwlock_t *lock, clockid_t clock, const struct timespec *time)
{
    return lock_until(lock, true, clock, time);
}

int pthread_rwlock_timedwrlock(pthread_rwlock_t *lock, const struct timespec *time)
{
    return lock_until(lock, true, CLOCK_REALTIME, time);
}

int pthread_rwlock_unlock(pthread_rwlock_t *lock)
{
    return unlock_word(lock);
}

int pthread_rwlockattr_init(pthread_rwlockattr_t *attributes)
{
    *attributes = 0;
    return 0;
}

int pthread_rwlockattr_destroy(pthread_rwlockattr_t *attributes)
{
    (void)attributes;
    return 0;
}

/* Locks that spin. */

int pthread_spin_init(pthread_spinlock_t *lock, int shared)
{
    *lock = 0;
    return shared == PTHREAD_PROCESS_PRIVATE || shared == PTHREAD_PROCESS_SHARED ? 0 : EINVAL;
}

int pthread_spin_destroy(pthread_spinlock_t *lock)
{
    (void)lock;
    return 0;
}

int pthread_spin_trylock(pthread_spinlock_t *lock)
{
    return try_lock_word(lock, true) ? 0 : EBUSY;
}

int pthread_spin_lock(pthread_spinlock_t *lock)
{
    return lock_word(lock, true, NULL);
}

int pthread_spin_unlock(pthread_spinlock_t *lock)
{
    return unlock_word(lock);
}

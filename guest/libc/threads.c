/* C's threads are pthread.h's, with results of their own. */
#define _GNU_SOURCE
#include <errno.h>
#include <sched.h>
#include <stdint.h>
#include <threads.h>

static int outcome(int error)
{
    switch (error) {
    case 0: return thrd_success;
    case EBUSY: return thrd_busy;
    case ENOMEM: return thrd_nomem;
    case ETIMEDOUT: return thrd_timedout;
    default: return thrd_error;
    }
}

/* A function's int stands where its pointer would. */
int thrd_create(thrd_t *thread, thrd_start_t function, void *argument)
{
    int error = pthread_create(thread, NULL, (void *(*)(void *))(void (*)(void))function, argument);
    return error == EAGAIN ? thrd_nomem : outcome(error);
}

thrd_t thrd_current(void)
{
    return pthread_self();
}

int thrd_detach(thrd_t thread)
{
    return outcome(pthread_detach(thread));
}

int thrd_equal(thrd_t left, thrd_t right)
{
    return pthread_equal(left, right);
}

void thrd_exit(int code)
{
    pthread_exit((void *)(intptr_t)code);
}

int thrd_join(thrd_t thread, int *code)
{
    void *value;
    int error = pthread_join(thread, &value);
    if (error == 0 && code != NULL)
        *code = (int)(intptr_t)value;
    return outcome(error);
}

int thrd_sleep(const struct timespec *time, struct timespec *rest)
{
    return nanosleep(time, rest) == 0 ? 0 : errno == EINTR ? -1 : -2;
}

void thrd_yield(void)
{
    sched_yield();
}

int mtx_init(mtx_t *mutex, int type)
{
    pthread_mutexattr_t kind = type & mtx_recursive ? PTHREAD_MUTEX_RECURSIVE : PTHREAD_MUTEX_NORMAL;
    if ((type & ~(mtx_recursive | mtx_timed)) != 0)
        return thrd_error;
    return outcome(pthread_mutex_init(mutex, &kind));
}

void mtx_destroy(mtx_t *mutex)
{
    pthread_mutex_destroy(mutex);
}

int mtx_lock(mtx_t *mutex)
{
    return outcome(pthread_mutex_lock(mutex));
}

int mtx_timedlock(mtx_t *restrict mutex, const struct timespec *restrict time)
{
    return outcome(pthread_mutex_timedlock(mutex, time));
}

int mtx_trylock(mtx_t *mutex)
{
    return outcome(pthread_mutex_trylock(mutex));
}

int mtx_unlock(mtx_t *mutex)
{
    return outcome(pthread_mutex_unlock(mutex));
}

int cnd_init(cnd_t *condition)
{
    return outcome(pthread_cond_init(condition, NULL));
}

void cnd_destroy(cnd_t *condition)
{
    pthread_cond_destroy(condition);
}

int cnd_signal(cnd_t *condition)
{
    return outcome(pthread_cond_signal(condition));
}

int cnd_broadcast(cnd_t *condition)
{
    return outcome(pthread_cond_broadcast(condition));
}

int cnd_wait(cnd_t *condition, mtx_t *mutex)
{
    return outcome(pthread_cond_wait(condition, mutex));
}

int cnd_timedwait(cnd_t *restrict condition, mtx_t *restrict mutex, const struct timespec *restrict time)
{
    return outcome(pthread_cond_timedwait(condition, mutex, time));
}

int tss_create(tss_t *key, tss_dtor_t function)
{
    return outcome(pthread_key_create(key, function));
}

void tss_delete(tss_t key)
{
    pthread_key_delete(key);
}

void *tss_get(tss_t key)
{
    return pthread_getspecific(key);
}

int tss_set(tss_t key, void *value)
{
    return outcome(pthread_setspecific(key, value));
}

void call_once(once_flag *once, void (*function)(void))
{
    pthread_once(once, function);
}

/* Ends of threads that another one asks for, and what is done at the end of a thread. */
#define _GNU_SOURCE
#include "thread.h"

#include <errno.h>
#include <pthread.h>
#include <signal.h>
#include <stdbool.h>

void __pthread_cleanup_push(struct __pthread_cleanup *cleanup, void (*function)(void *), void *argument)
{
    struct thread *self = own_thread();
    *cleanup = (struct __pthread_cleanup){function, argument, self->cleanup};
    self->cleanup = cleanup;
}

void __pthread_cleanup_pop(struct __pthread_cleanup *cleanup, int is_done)
{
    own_thread()->cleanup = cleanup->__next;
    if (is_done)
        cleanup->__function(cleanup->__argument);
}

int pthread_setcancelstate(int state, int *before)
{
    struct thread *self = own_thread();
    if (state != PTHREAD_CANCEL_ENABLE && state != PTHREAD_CANCEL_DISABLE)
        return EINVAL;
    if (before != NULL)
        *before = self->cannot_be_cancelled ? PTHREAD_CANCEL_DISABLE : PTHREAD_CANCEL_ENABLE;
    self->cannot_be_cancelled = state == PTHREAD_CANCEL_DISABLE;
    return 0;
}

int pthread_setcanceltype(int type, int *before)
{
    if (before != NULL)
        *before = PTHREAD_CANCEL_DEFERRED;
    return type == PTHREAD_CANCEL_DEFERRED || type == PTHREAD_CANCEL_ASYNCHRONOUS ? 0 : EINVAL;
}

/* The thread finds it where it looks: nothing wakes one that waits. */
int pthread_cancel(pthread_t thread)
{
    __atomic_store_n(&((struct thread *)thread)->is_cancelled, true, __ATOMIC_RELEASE);
    return 0;
}

void pthread_testcancel(void)
{
    struct thread *self = own_thread();
    if (__atomic_load_n(&self->is_cancelled, __ATOMIC_ACQUIRE) && !self->cannot_be_cancelled)
        pthread_exit(PTHREAD_CANCELED);
}

/* A signal is the process's, and is raised by a thread for itself. */
int pthread_kill(pthread_t thread, int number)
{
    int error = errno, failed = 0;
    if (thread != pthread_self() && number != 0)
        return ENOSYS;
    if (number != 0 && raise(number) != 0)
        failed = errno;
    errno = error;
    return failed;
}

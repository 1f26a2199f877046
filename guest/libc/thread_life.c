/*
 * Threads: how they begin and end, and waiting for their end. A thread ends by giving back its lock `ended`, so that who sees it free knows
 * that its stack is of no use any more. That is the one that joins it; or, where nobody will, the next that makes, joins or leaves.
 */
#define _GNU_SOURCE
#include "library_lock.h"
#include "lock_words.h"
#include "system.h"
#include "thread.h"

#include <errno.h>
#include <stdlib.h>
#include <string.h>

#define LEAST_ALIGNMENT 64
#define NOBODY LOCK_COUNT /* no thread has this number */

/* Where the first thread's thread-local variables stand, of which so many bytes begin as the program says and the rest as zeros. */
extern char __tls_base[], __tls_data_size[], __tls_size[];

static struct thread first = {.ended = LOCK_WRITTEN | NOBODY};
static _Thread_local struct thread *own;
static char *initial_locals; /* as they are at the start; NULL where there was no memory for it */
static unsigned live_count = 1;

/* Detached threads that left or are about to, whose stacks are there still: a list by `next`. */
static struct thread *left_behind;

struct thread *own_thread(void)
{
    return own == NULL ? &first : own;
}

/* A lock that waits for its owner is that of the thread that says so; who waits for it meanwhile stays in the word. */
static void own_the_end(struct thread *thread)
{
    uint32_t now = __atomic_load_n(&thread->ended, __ATOMIC_RELAXED);
    while (!__atomic_compare_exchange_n(&thread->ended, &now, (now & LOCK_MANAGED) | LOCK_WRITTEN | thread_number(), false, __ATOMIC_ACQ_REL,
                                        __ATOMIC_RELAXED))
        ;
}

/* Before anything of the program runs. */
__attribute__((constructor(101))) static void keep_initial_locals(void)
{
    size_t size = (size_t)__tls_data_size;
    initial_locals = malloc(size + 1);
    if (initial_locals != NULL)
        memcpy(initial_locals, __tls_base, size);
    own_the_end(&first);
}

/* ---- stacks */

static void unmap(struct thread *thread)
{
    if (thread->mapping != NULL)
        cloudabi_sys_mem_unmap(thread->mapping, thread->mapped);
}

static void leave_behind(struct thread *thread)
{
    thread->next = __atomic_load_n(&left_behind, __ATOMIC_RELAXED);
    while (!__atomic_compare_exchange_n(&left_behind, &thread->next, thread, false, __ATOMIC_ACQ_REL, __ATOMIC_RELAXED))
        ;
}

/* Gives back the stacks of those that have ended. */
static void give_back(void)
{
    struct thread *next, *thread = __atomic_exchange_n(&left_behind, NULL, __ATOMIC_ACQ_REL);
    for (; thread != NULL; thread = next) {
        next = thread->next;
        if (__atomic_load_n(&thread->ended, __ATOMIC_ACQUIRE) == 0)
            unmap(thread);
        else
            leave_behind(thread);
    }
}

static uintptr_t below(uintptr_t address, size_t size)
{
    return (address - size) & ~(uintptr_t)(LEAST_ALIGNMENT - 1);
}

/* A mapping with a stack of this size, a page below it that can't be touched, and what is of the thread above it. */
static struct thread *make_place(size_t stack_size)
{
    size_t own_size = (size_t)__tls_size + sizeof(struct thread) + 2 * LEAST_ALIGNMENT;
    size_t length = (stack_size + own_size + 2 * PAGE - 1) & ~(size_t)(PAGE - 1);
    void *mapping;
    if (initial_locals == NULL || length < stack_size
        || cloudabi_sys_mem_map(NULL, length, CLOUDABI_PROT_READ | CLOUDABI_PROT_WRITE, CLOUDABI_MAP_ANON | CLOUDABI_MAP_PRIVATE, 0, 0, &mapping)
               != CLOUDABI_ESUCCESS)
        return NULL;
    cloudabi_sys_mem_protect(mapping, PAGE, 0);
    char *locals = (char *)below((uintptr_t)mapping + length, (size_t)__tls_size);
    struct thread *thread = (struct thread *)below((uintptr_t)locals, sizeof *thread);
    memcpy(locals, initial_locals, (size_t)__tls_data_size);
    *thread = (struct thread){.locals = locals, .ended = LOCK_WRITTEN | NOBODY, .mapping = mapping, .mapped = length};
    return thread;
}

/* ---- beginning */

__asm__(".text\n"
        ".globl begin_thread\n"
        "begin_thread:\n"
        "        ld      tp, 0(a1)\n"
        "        tail    run_thread\n");

extern char begin_thread[];

_Noreturn __attribute__((used)) void run_thread(cloudabi_tid_t number, struct thread *self)
{
    set_thread_number(number);
    own = self;
    own_the_end(self);
    pthread_exit(self->function(self->argument));
}

int pthread_create(pthread_t *thread, const pthread_attr_t *attributes, void *(*function)(void *), void *argument)
{
    pthread_attr_t usual;
    cloudabi_tid_t number;
    if (attributes == NULL) {
        pthread_attr_init(&usual);
        attributes = &usual;
    }
    give_back();
    struct thread *made = make_place(attributes->stack_size);
    if (made == NULL)
        return EAGAIN;
    made->function = function;
    made->argument = argument;
    made->state = attributes->detach_state == PTHREAD_CREATE_DETACHED ? THREAD_DETACHED : THREAD_JOINABLE;
    char *bottom = (char *)made->mapping + PAGE;
    cloudabi_threadattr_t how = {begin_thread, bottom, (uint64_t)((char *)made - bottom), made};
    has_threads = true;
    *thread = (pthread_t)made;
    __atomic_add_fetch(&live_count, 1, __ATOMIC_RELAXED);
    if (cloudabi_sys_thread_create(&how, &number) == CLOUDABI_ESUCCESS)
        return 0;
    __atomic_sub_fetch(&live_count, 1, __ATOMIC_RELAXED);
    unmap(made);
    return EAGAIN;
}

/* ---- ending */

_Noreturn static void leave(struct thread *self)
{
    int state = THREAD_JOINABLE;
    if (!__atomic_compare_exchange_n(&self->state, &state, THREAD_LEAVING, false, __ATOMIC_ACQ_REL, __ATOMIC_ACQUIRE)) {
        give_back();
        leave_behind(self);
    }
    cloudabi_sys_thread_exit(&self->ended, CLOUDABI_SCOPE_PRIVATE);
    abort();
}

/* The process ends with its last thread. */
_Noreturn void pthread_exit(void *value)
{
    struct thread *self = own_thread();
    self->cannot_be_cancelled = true;
    while (self->cleanup != NULL) {
        struct __pthread_cleanup *last = self->cleanup;
        self->cleanup = last->__next;
        last->__function(last->__argument);
    }
    if (end_own_values != NULL)
        end_own_values();
    self->value = value;
    if (__atomic_sub_fetch(&live_count, 1, __ATOMIC_ACQ_REL) == 0)
        exit(0);
    leave(self);
}

/* Waits until a thread has ended, and gives its stack back. */
static int wait_for_end(struct thread *thread, void **value, const struct deadline *deadline)
{
    int error = wait_for_word(&thread->ended, false, deadline);
    if (error != 0)
        return error;
    if (value != NULL)
        *value = thread->value;
    unmap(thread);
    give_back();
    return 0;
}

static int join(pthread_t thread, void **value, const struct deadline *deadline)
{
    struct thread *joined = (struct thread *)thread;
    pthread_testcancel();
    if (joined == own_thread())
        return EDEADLK;
    if (__atomic_load_n(&joined->state, __ATOMIC_ACQUIRE) == THREAD_DETACHED)
        return EINVAL;
    return wait_for_end(joined, value, deadline);
}

int pthread_join(pthread_t thread, void **value)
{
    return join(thread, value, NULL);
}

int pthread_tryjoin_np(pthread_t thread, void **value)
{
    static const struct deadline over = {CLOUDABI_CLOCK_MONOTONIC, 0};
    int error = join(thread, value, &over);
    return error == ETIMEDOUT ? EBUSY : error;
}

int pthread_clockjoin_np(pthread_t thread, void **value, clockid_t clock, const struct timespec *time)
{
    struct deadline deadline;
    int error = make_deadline(clock, time, &deadline);
    return error != 0 ? error : join(thread, value, &deadline);
}

int pthread_timedjoin_np(pthread_t thread, void **value, const struct timespec *time)
{
    return pthread_clockjoin_np(thread, value, CLOCK_REALTIME, time);
}

/* One that is on its way out has only its last call to make. */
int pthread_detach(pthread_t thread)
{
    struct thread *detached = (struct thread *)thread;
    int state = THREAD_JOINABLE;
    if (__atomic_compare_exchange_n(&detached->state, &state, THREAD_DETACHED, false, __ATOMIC_ACQ_REL, __ATOMIC_ACQUIRE))
        return 0;
    return state == THREAD_DETACHED ? EINVAL : wait_for_end(detached, NULL, NULL);
}

/* Those of the parent aren't here, and hold nothing up. */
void become_only_thread(void)
{
    live_count = 1;
    left_behind = NULL;
}

pthread_t pthread_self(void)
{
    return (pthread_t)own_thread();
}

int pthread_equal(pthread_t left, pthread_t right)
{
    return left == right;
}

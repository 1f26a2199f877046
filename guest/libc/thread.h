/*
 * A thread of a program with the C library. What is of the thread alone stands at the end of the mapping of its stack: its thread-local
 * variables, and before these this structure, below which the stack begins.
 */
#ifndef THREAD_H
#define THREAD_H

#include "cloudabi.h"

#include <pthread.h>
#include <stdbool.h>

struct thread {
    void *locals;   /* its thread-local variables: the first field, which it loads at its start */
    uint32_t ended; /* a lock that it writes until it has ended */
    int state;
    void *(*function)(void *);
    void *argument, *value;
    void *mapping; /* NULL of the first thread */
    size_t mapped;
    struct thread *next; /* of those that left behind their stacks */
    bool is_cancelled, cannot_be_cancelled;
    struct __pthread_cleanup *cleanup;
};

enum { THREAD_JOINABLE, THREAD_DETACHED, THREAD_LEAVING };

/* The thread that calls. */
struct thread *own_thread(void);

/* Calls the functions of keys of which the thread has a value; it is there where a program has keys. */
void end_own_values(void) __attribute__((weak));

/* In a child, where the thread that forked is alone. */
void become_only_thread(void) __attribute__((weak));

#endif

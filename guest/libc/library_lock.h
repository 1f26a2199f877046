/*
 * Locks of the library's own: a thread may take one several times. As long as a process has had one thread alone they cost a look at a
 * flag. HOLD keeps one until the block is left.
 */
#ifndef LIBRARY_LOCK_H
#define LIBRARY_LOCK_H

#include <stdbool.h>
#include <stdint.h>

struct library_lock {
    uint32_t word;
    unsigned holds;
};

/* Those of what there is once, in the order in which a thread takes them. A stream has one of its own, before that of descriptors. */
extern struct library_lock streams_lock, children_lock, descriptors_lock, allocation_lock;

/* Whether a thread was made. */
extern bool has_threads;

void take_lock(struct library_lock *lock);

/* True where no other thread has it. */
bool try_to_take(struct library_lock *lock);

/* Nothing where the thread doesn't have it. */
void let_go(struct library_lock *lock);

/* All of them, for a fork: none is held by a thread that isn't there in the child. */
void take_all_locks(void);
void let_go_of_all(void);

static inline struct library_lock *hold(struct library_lock *lock)
{
    if (!has_threads)
        return 0;
    take_lock(lock);
    return lock;
}

static inline void stop_holding(struct library_lock **held)
{
    if (*held != 0)
        let_go(*held);
}

#define HOLD(lock) __attribute__((cleanup(stop_holding), unused)) struct library_lock *held = hold(lock)

#endif

/*
 * Locks that are words of memory, and condition variables, which the sandbox keeps as far as threads wait for them. A word is free where
 * its low 31 bits are 0. A thread that has it for writing stands in it with bit 30, else it counts those that read. Bit 31 says that a
 * thread may wait, and that the sandbox alone lets go. All else is done here, by atomic operations.
 *
 * The functions give an error of errno.h, or 0.
 */
#ifndef LOCK_WORDS_H
#define LOCK_WORDS_H

#include "cloudabi.h"

#include <stdbool.h>
#include <time.h>

#define LOCK_WRITTEN UINT32_C(0x40000000)
#define LOCK_MANAGED UINT32_C(0x80000000)
#define LOCK_COUNT UINT32_C(0x3fffffff) /* of a word: the thread that writes, or how many read; no thread has this number */

/* Until when a thread waits: a time of one of the sandbox's clocks. */
struct deadline {
    uint32_t clock;
    cloudabi_timestamp_t time;
};

/* EINVAL where it is no time, or the clock none that goes on while a thread waits. */
int make_deadline(clockid_t clock, const struct timespec *time, struct deadline *deadline);

/* The number of the thread that calls. */
cloudabi_tid_t thread_number(void);

/* A new thread says its own. */
void set_thread_number(cloudabi_tid_t number);

/* Whether the thread has the lock for writing. */
bool has_word(const uint32_t *word);

/* Waits until the thread has the lock, or, where `deadline` isn't NULL, until then: ETIMEDOUT. EDEADLK where it writes already. */
int lock_word(uint32_t *word, bool writes, const struct deadline *deadline);

/* The same, for a lock that its owner will keep for long. */
int wait_for_word(uint32_t *word, bool writes, const struct deadline *deadline);

/* True where the thread has the lock now, without waiting. */
bool try_lock_word(uint32_t *word, bool writes);

/* EPERM where the lock is free, or another thread writes. */
int unlock_word(uint32_t *word);

/* Lets go of a lock that the thread writes, waits at the condition variable, and has the lock again: also for ETIMEDOUT. */
int wait_at(uint32_t *condition, uint32_t *word, const struct deadline *deadline);

/* Wakes so many of those that wait. */
int wake_at(uint32_t *condition, uint32_t count);

#endif

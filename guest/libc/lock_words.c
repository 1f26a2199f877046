/* Locks that are words of memory: by atomic operations where nobody waits, and else by the sandbox. */
#define _GNU_SOURCE
#include "lock_words.h"
#include "system.h"

#include <errno.h>

/* Where the sandbox puts the vector that says the number of the thread that began the program. */
#define START_BLOCK UINT64_C(0x3f00000000)

#define PATIENCE 6     /* how often a thread lets others go on while a lock stays as it is */
#define MOST_LOOKS 100 /* and how often in all */

static _Thread_local cloudabi_tid_t own_number;

static cloudabi_tid_t first_number(void)
{
    const cloudabi_auxv_t *entry = (const cloudabi_auxv_t *)START_BLOCK;
    while (entry->number != CLOUDABI_AT_TID && entry->number != CLOUDABI_AT_NULL)
        ++entry;
    return (cloudabi_tid_t)entry->value;
}

cloudabi_tid_t thread_number(void)
{
    if (own_number == 0)
        own_number = first_number();
    return own_number;
}

void set_thread_number(cloudabi_tid_t number)
{
    own_number = number;
}

int make_deadline(clockid_t clock, const struct timespec *time, struct deadline *deadline)
{
    if (time->tv_nsec < 0 || time->tv_nsec >= 1000000000L || (clock != CLOCK_REALTIME && clock != CLOCK_MONOTONIC))
        return EINVAL;
    deadline->clock = sandbox_clock(clock);
    deadline->time = time->tv_sec < 0 ? 0 : nanoseconds_of(time);
    return 0;
}

static uint32_t look_at(const uint32_t *word)
{
    return __atomic_load_n(word, __ATOMIC_RELAXED);
}

static bool exchange(uint32_t *word, uint32_t *wanted, uint32_t value)
{
    return __atomic_compare_exchange_n(word, wanted, value, false, __ATOMIC_ACQ_REL, __ATOMIC_RELAXED);
}

bool has_word(const uint32_t *word)
{
    return (look_at(word) & ~LOCK_MANAGED) == (LOCK_WRITTEN | thread_number());
}

/* Waits in the sandbox, with a clock behind the first subscription where there is a deadline. */
static int wait_in_sandbox(const cloudabi_subscription_t *first, const struct deadline *deadline)
{
    cloudabi_subscription_t subscriptions[2] = {*first, {.kind = CLOUDABI_EVENTTYPE_CLOCK}};
    cloudabi_event_t events[2];
    size_t count;
    if (deadline != NULL) {
        subscriptions[1].clock.clock = deadline->clock;
        subscriptions[1].clock.timeout = deadline->time;
        subscriptions[1].clock.flags = CLOUDABI_SUBSCRIPTION_CLOCK_ABSTIME;
    }
    cloudabi_errno_t error = cloudabi_sys_poll(subscriptions, events, deadline == NULL ? 1 : 2, &count);
    return error_number(error != CLOUDABI_ESUCCESS ? error : events[0].error);
}

static int lock_in_sandbox(uint32_t *word, bool writes, const struct deadline *deadline)
{
    cloudabi_subscription_t lock = {.kind = writes ? CLOUDABI_EVENTTYPE_LOCK_WRLOCK : CLOUDABI_EVENTTYPE_LOCK_RDLOCK};
    lock.lock.lock = word;
    lock.lock.scope = CLOUDABI_SCOPE_PRIVATE;
    return wait_in_sandbox(&lock, deadline);
}

/* What a free word becomes for a thread that writes, and a word that nobody writes for one that reads more. */
static uint32_t taken(uint32_t word, bool writes)
{
    return writes ? word | LOCK_WRITTEN | thread_number() : word + 1;
}

static bool can_take(uint32_t word, bool writes)
{
    return writes ? (word & ~LOCK_MANAGED) == 0 : (word & LOCK_WRITTEN) == 0 && (word & LOCK_COUNT) != LOCK_COUNT;
}

/* True where the word could be taken without the sandbox. */
static bool take_alone(uint32_t *word, bool writes)
{
    uint32_t now = look_at(word);
    while ((now & LOCK_MANAGED) == 0 && can_take(now, writes)) {
        if (exchange(word, &now, taken(now, writes)))
            return true;
    }
    return false;
}

int wait_for_word(uint32_t *word, bool writes, const struct deadline *deadline)
{
    return take_alone(word, writes) ? 0 : lock_in_sandbox(word, writes, deadline);
}

/*
 * A thread that waits in the sandbox is handed the lock, and then the one that let it go waits for it in turn: once threads wait for each
 * other so, they do it each time. So others go on first. Mostly the lock is held by a thread that was interrupted, or it goes round among
 * such; where it stays with one thread, that one waits for something itself.
 */
int lock_word(uint32_t *word, bool writes, const struct deadline *deadline)
{
    uint32_t before = 0;
    for (int looks = 0, same = 0; looks < MOST_LOOKS && same < PATIENCE && !has_word(word); ++looks) {
        if (take_alone(word, writes))
            return 0;
        uint32_t now = look_at(word);
        same = now == before ? same + 1 : 0;
        before = now;
        cloudabi_sys_thread_yield();
    }
    return wait_for_word(word, writes, deadline);
}

/* Where some read and a thread may wait to write, the sandbox alone knows whether one does: it is asked with a time that is over. */
bool try_lock_word(uint32_t *word, bool writes)
{
    static const struct deadline over = {CLOUDABI_CLOCK_MONOTONIC, 0};
    uint32_t now = look_at(word);
    while (can_take(now, writes)) {
        if (now > LOCK_MANAGED)
            return lock_in_sandbox(word, writes, &over) == 0;
        if (exchange(word, &now, taken(now, writes)))
            return true;
    }
    return false;
}

int unlock_word(uint32_t *word)
{
    uint32_t now = look_at(word);
    while ((now & LOCK_MANAGED) == 0) {
        if (now == 0 || ((now & LOCK_WRITTEN) && now != (LOCK_WRITTEN | thread_number())))
            return EPERM;
        if (exchange(word, &now, now & LOCK_WRITTEN ? 0 : now - 1))
            return 0;
    }
    return error_number(cloudabi_sys_lock_unlock(word, CLOUDABI_SCOPE_PRIVATE));
}

int wait_at(uint32_t *condition, uint32_t *word, const struct deadline *deadline)
{
    cloudabi_subscription_t wait = {.kind = CLOUDABI_EVENTTYPE_CONDVAR};
    wait.condvar.condvar = condition;
    wait.condvar.lock = word;
    wait.condvar.condvar_scope = CLOUDABI_SCOPE_PRIVATE;
    wait.condvar.lock_scope = CLOUDABI_SCOPE_PRIVATE;
    return wait_in_sandbox(&wait, deadline);
}

/* The word of a condition variable is 0 where nobody waits. */
int wake_at(uint32_t *condition, uint32_t count)
{
    if (__atomic_load_n(condition, __ATOMIC_SEQ_CST) == 0)
        return 0;
    return error_number(cloudabi_sys_condvar_signal(condition, CLOUDABI_SCOPE_PRIVATE, count));
}

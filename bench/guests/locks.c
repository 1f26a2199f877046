/*
 * A guest that takes and lets go of a lock by calls, lets two threads hand it to each other, or polls, as often as it is asked, and exits with 0. The script
 * bench/locks runs it. locks.elf is made of this text by `../../guest/cc --bare -O2 -s -o locks.elf locks.c`.
 *
 * Its argument data is a map. `pairs` has how often a lock that nobody else wants is taken and let go; `hands` how often each of two threads takes it and
 * lets it go; `polls` how often 256 subscriptions are polled, of which `ends` are reads of a pipe in which nothing waits and the others clocks that are due.
 */
#include "argdata.h"

#define WRITE_LOCKED UINT32_C(0x40000000)
#define MOST 256

static uint32_t lock, end = 1;
static int64_t hands;
_Alignas(16) static unsigned char stack[1024];

static void demand(bool is_so)
{
    if (!is_so)
        cloudabi_sys_proc_exit(1);
}

static void take(uint32_t *word)
{
    cloudabi_subscription_t subscription = {.kind = CLOUDABI_EVENTTYPE_LOCK_WRLOCK};
    cloudabi_event_t event;
    size_t count;
    subscription.lock.lock = word;
    subscription.lock.scope = CLOUDABI_SCOPE_PRIVATE;
    demand(cloudabi_sys_poll(&subscription, &event, 1, &count) == CLOUDABI_ESUCCESS && event.error == CLOUDABI_ESUCCESS);
}

static void take_and_let_go(int64_t times)
{
    while (times-- > 0) {
        take(&lock);
        demand(cloudabi_sys_lock_unlock(&lock, CLOUDABI_SCOPE_PRIVATE) == CLOUDABI_ESUCCESS);
    }
}

static void second(cloudabi_tid_t tid, void *argument)
{
    (void)argument;
    take_and_let_go(hands);
    __atomic_store_n(&end, WRITE_LOCKED | tid, __ATOMIC_RELEASE);
    cloudabi_sys_thread_exit(&end, CLOUDABI_SCOPE_PRIVATE);
}

/* Each has the lock in turn, once both are there. */
static void hand_over(void)
{
    cloudabi_threadattr_t attributes = {(void *)second, stack, sizeof stack, NULL};
    cloudabi_tid_t tid;
    take(&lock);
    demand(cloudabi_sys_thread_create(&attributes, &tid) == CLOUDABI_ESUCCESS);
    while ((__atomic_load_n(&lock, __ATOMIC_ACQUIRE) & UINT32_C(0x80000000)) == 0)
        cloudabi_sys_thread_yield();
    demand(cloudabi_sys_lock_unlock(&lock, CLOUDABI_SCOPE_PRIVATE) == CLOUDABI_ESUCCESS);
    take_and_let_go(hands);
    while (__atomic_load_n(&end, __ATOMIC_ACQUIRE) != 0)
        cloudabi_sys_thread_yield();
}

static void poll_all(int64_t times, int64_t ends)
{
    static cloudabi_subscription_t subscriptions[MOST];
    static cloudabi_event_t events[MOST];
    cloudabi_fd_t reading, writing;
    size_t count;
    demand(cloudabi_sys_fd_create2(CLOUDABI_FILETYPE_FIFO, &reading, &writing) == CLOUDABI_ESUCCESS);
    for (int64_t i = 0; i < MOST; ++i) {
        subscriptions[i].kind = i < ends ? CLOUDABI_EVENTTYPE_FD_READ : CLOUDABI_EVENTTYPE_CLOCK;
        if (i < ends)
            subscriptions[i].fd_readwrite.fd = reading;
        else
            subscriptions[i].clock.clock = CLOUDABI_CLOCK_MONOTONIC;
    }
    while (times-- > 0)
        demand(cloudabi_sys_poll(subscriptions, events, MOST, &count) == CLOUDABI_ESUCCESS && count == (size_t)(MOST - ends));
}

static int64_t number_of(const argdata_t *arguments, const char *key)
{
    argdata_t value;
    int64_t number;
    return argdata_map_find(arguments, key, &value) && argdata_get_int(&value, &number) ? number : 0;
}

void program_main(const argdata_t *arguments)
{
    take_and_let_go(number_of(arguments, "pairs"));
    hands = number_of(arguments, "hands");
    if (hands > 0)
        hand_over();
    poll_all(number_of(arguments, "polls"), number_of(arguments, "ends"));
}

/*
 * Threads of a guest without the C library that wait for locks and at condition variables, and are told when to go on. The first thread
 * sleeps until all others wait or have ended, and then says what a word is and what each thread does.
 *
 * A word is said as `0` where it is free, as a number where it is read, and as the name of the thread that writes it: `m` for the first,
 * `a` to `h` for those that were begun, and `?` for another one. `+` stands behind it where bit 31 is set. A thread is said as `w` while it
 * waits, as `h` once it has the lock, as `t` where its event has TIMEDOUT and it has the lock or not, as `f` where its call answers FAULT,
 * as `p`, `d` and `n` for the errors PERM, DEADLK and AGAIN of its event, and as `-` once it has ended.
 */
#ifndef LOCKERS_H
#define LOCKERS_H

#include "ends.h"

#define RDLOCK CLOUDABI_EVENTTYPE_LOCK_RDLOCK
#define WRLOCK CLOUDABI_EVENTTYPE_LOCK_WRLOCK
#define CONDVAR CLOUDABI_EVENTTYPE_CONDVAR
#define PRIVATE CLOUDABI_SCOPE_PRIVATE
#define MANAGED UINT32_C(0x80000000)
#define MOST_LOCKERS 8

/* What a thread waits for, until when, and where its events go; two places of its own where that is NULL. */
struct wait {
    uint8_t kind;
    uint32_t *lock, *condvar;
    bool has_deadline;
    uint32_t clock;
    uint64_t deadline;
    cloudabi_event_t *events;
};

struct locker {
    struct wait wait;
    cloudabi_tid_t tid;
    cloudabi_fd_t gate[2]; /* a byte lets it go on; the ends stay for the next one */
    bool exits;            /* it lets its lock go by its end */
    bool frees;            /* it lets its lock go whatever it was told */
    char state;
    cloudabi_event_t events[2];
    uint32_t end; /* the lock of its end */
    _Alignas(16) unsigned char stack[2048];
};

static struct locker lockers[MOST_LOCKERS];
static size_t lockers_count;
static uint32_t words[4];
#define lock_word (words[0])
#define condition_word (words[1])

static inline char letter_of(cloudabi_errno_t error)
{
    switch (error) {
    case CLOUDABI_ESUCCESS: return 'h';
    case CLOUDABI_ETIMEDOUT: return 't';
    case CLOUDABI_EFAULT: return 'f';
    case CLOUDABI_EPERM: return 'p';
    case CLOUDABI_EDEADLK: return 'd';
    case CLOUDABI_EAGAIN: return 'n';
    default: return '?';
    }
}

/* The error of the call, or else of the event, which has to be the only one, of the kind and with the userdata that were asked. */
static inline cloudabi_errno_t wait_for(const struct wait *wait, cloudabi_event_t *events)
{
    cloudabi_subscription_t subscriptions[2] = {{.userdata = 77, .kind = wait->kind}, {.userdata = 78, .kind = CLOUDABI_EVENTTYPE_CLOCK}};
    size_t count = 99;
    if (wait->kind == CONDVAR) {
        subscriptions[0].condvar.condvar = wait->condvar;
        subscriptions[0].condvar.lock = wait->lock;
        subscriptions[0].condvar.condvar_scope = PRIVATE;
        subscriptions[0].condvar.lock_scope = PRIVATE;
    } else {
        subscriptions[0].lock.lock = wait->lock;
        subscriptions[0].lock.scope = PRIVATE;
    }
    subscriptions[1].clock.clock = wait->clock;
    subscriptions[1].clock.timeout = wait->deadline;
    subscriptions[1].clock.flags = CLOUDABI_SUBSCRIPTION_CLOCK_ABSTIME;
    cloudabi_errno_t error = cloudabi_sys_poll(subscriptions, events, wait->has_deadline ? 2 : 1, &count);
    if (error != CLOUDABI_ESUCCESS)
        return error;
    bool is_so = count == 1 && events[0].userdata == 77 && events[0].kind == wait->kind;
    return is_so ? events[0].error : CLOUDABI_ENOSYS;
}

static inline void unlock(uint32_t *word)
{
    expect(cloudabi_sys_lock_unlock(word, PRIVATE));
}

static inline void lock_for(uint8_t kind, uint32_t *word)
{
    struct wait wait = {.kind = kind, .lock = word};
    cloudabi_event_t events[2];
    expect(wait_for(&wait, events));
}

static inline void signal_at(uint32_t *word, uint32_t count)
{
    expect(cloudabi_sys_condvar_signal(word, PRIVATE, count));
}

/* Ends the thread with a lock of its own. */
static inline void end_locker(struct locker *self)
{
    self->state = '-';
    __atomic_store_n(&self->end, WRITE_LOCKED | self->tid, __ATOMIC_RELEASE);
    expect(cloudabi_sys_thread_exit(&self->end, PRIVATE));
    cloudabi_sys_proc_exit(1);
}

/* What waits at a condition variable locks first. What has the lock in the end keeps it until it is told to go on. */
static inline void run_locker(cloudabi_tid_t tid, struct locker *self)
{
    self->tid = tid;
    if (self->wait.kind == CONDVAR)
        lock_for(WRLOCK, self->wait.lock);
    cloudabi_errno_t error = wait_for(&self->wait, self->wait.events != NULL ? self->wait.events : self->events);
    bool has_lock = error == CLOUDABI_ESUCCESS || (error == CLOUDABI_ETIMEDOUT && self->wait.kind == CONDVAR) || self->frees;
    __atomic_store_n(&self->state, letter_of(error), __ATOMIC_RELEASE);
    read_from(self->gate[0], 1);
    if (has_lock && self->exits) {
        self->state = '-';
        expect(cloudabi_sys_thread_exit(self->wait.lock, PRIVATE));
    }
    if (has_lock)
        unlock(self->wait.lock);
    end_locker(self);
}

static inline uint64_t now(void)
{
    cloudabi_timestamp_t time;
    expect(cloudabi_sys_clock_time_get(CLOUDABI_CLOCK_MONOTONIC, 0, &time));
    return time;
}

/* Whether pauses end at whole milliseconds of the clock, for times that others wait for between these. */
static bool has_whole_pauses;

static inline void sleep_until(uint64_t moment)
{
    cloudabi_subscription_t subscription = {.kind = CLOUDABI_EVENTTYPE_CLOCK};
    cloudabi_event_t event;
    size_t events;
    subscription.clock.clock = CLOUDABI_CLOCK_MONOTONIC;
    subscription.clock.timeout = moment;
    subscription.clock.flags = CLOUDABI_SUBSCRIPTION_CLOCK_ABSTIME;
    expect(cloudabi_sys_poll(&subscription, &event, 1, &events));
}

/* Waits until all others wait. */
static inline void pause(void)
{
    if (has_whole_pauses)
        sleep_until((now() / MILLISECOND + 2) * MILLISECOND);
    else
        sleep_for(MILLISECOND);
}

/* Begins a thread at a place, which waits then, or has what it wants. */
static inline struct locker *begin_at(size_t which, struct wait wait)
{
    struct locker *self = &lockers[which];
    cloudabi_threadattr_t attributes = {(void *)run_locker, self->stack, sizeof self->stack, self};
    self->wait = wait;
    self->state = 'w';
    self->exits = self->frees = false;
    if (self->gate[1] == 0)
        expect(cloudabi_sys_fd_create2(FIFO, &self->gate[0], &self->gate[1]));
    expect(cloudabi_sys_thread_create(&attributes, &self->tid));
    pause();
    return self;
}

static inline struct locker *begin_wait(struct wait wait)
{
    return begin_at(lockers_count++, wait);
}

static inline struct locker *begin_lock(uint8_t kind)
{
    return begin_wait((struct wait){.kind = kind, .lock = &lock_word});
}

static inline struct locker *begin_condition(void)
{
    return begin_wait((struct wait){.kind = CONDVAR, .lock = &lock_word, .condvar = &condition_word});
}

static inline void go_on(size_t which)
{
    write_to(lockers[which].gate[1], 1);
    pause();
}

/* Lets those go on that have the lock, one after another, until none has it. */
static inline void go_on_in_turn(void (*say_it)(void))
{
    for (size_t i = 0; i < lockers_count;) {
        bool has_lock = __atomic_load_n(&lockers[i].state, __ATOMIC_ACQUIRE) == 'h';
        if (has_lock) {
            go_on(i);
            say_it();
        }
        i = has_lock ? 0 : i + 1;
    }
}

static inline void say_letter(char letter)
{
    say((char[]){letter, 0});
}

static inline void say_owner(cloudabi_tid_t tid)
{
    char name = tid == 1 ? 'm' : '?';
    for (size_t i = 0; i < lockers_count; ++i)
        name = lockers[i].tid == tid ? (char)('a' + i) : name;
    say_letter(name);
}

static inline void say_word(const uint32_t *at)
{
    uint32_t word = __atomic_load_n(at, __ATOMIC_ACQUIRE);
    if (word & WRITE_LOCKED)
        say_owner(word & (WRITE_LOCKED - 1));
    else
        say_number(word & (WRITE_LOCKED - 1));
    if (word & MANAGED)
        say("+");
}

/* The lock, and what each thread does. */
static inline void say_state(void)
{
    say(" ");
    say_word(&lock_word);
    say(" ");
    for (size_t i = 0; i < lockers_count; ++i)
        say_letter(__atomic_load_n(&lockers[i].state, __ATOMIC_ACQUIRE));
    say(";");
}

/* How many threads have the lock, which one of them writes, and how many wait: who of several that were signalled comes first isn't known. */
static inline void say_how_many(void)
{
    size_t having = 0, waiting = 0;
    for (size_t i = 0; i < lockers_count; ++i) {
        char state = __atomic_load_n(&lockers[i].state, __ATOMIC_ACQUIRE);
        having += state == 'h';
        waiting += state == 'w';
    }
    say(lock_word & WRITE_LOCKED ? " x" : " 0");
    say(lock_word & MANAGED ? "+ " : " ");
    say_number(having);
    say("h");
    say_number(waiting);
    say("w;");
}

static inline void say_condition(void)
{
    say(" c");
    say_number(condition_word);
}

/* Begins a line, when all threads of the one before have ended. */
static inline void begin_line(const char *what)
{
    lockers_count = 0;
    for (size_t i = 0; i < sizeof words / sizeof words[0]; ++i)
        words[i] = 0;
    say(what);
    say(":");
}

#endif

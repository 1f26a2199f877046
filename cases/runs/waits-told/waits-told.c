/*
 * Lets a thread wait in a call or a poll, and does something that ends the wait. Then it gives way until the thread has its answer, and writes
 * what that is, and ` within two yields`, or after how many it came. It never sleeps meanwhile, so somebody is ready all the time. Where the thread
 * isn't told within a thousand yields, its answer is what it has once all others sleep. Of a time ten yields are prompt: each entry moves the clock, and
 * so does each that looks at it. What another process does may come beside it, so no number of yields is said there.
 *
 * The argument data is a sequence of a descriptor to write to, of what is to be done (`tasks` below), and of a file of ten bytes.
 */
#include "../../guests/processes.h"

#define FILE_GIVEN 1
#define PROMPT 2
#define PROMPT_OF_TIMES 10
#define MOST_YIELDS 1000
#define SOME_YIELDS 100

/* The thread that waits: in its call, or, where it polls, for its subscriptions. */
static struct thread waiter;
static cloudabi_subscription_t subscriptions[2];
static cloudabi_event_t events[2];
static bool polls;
static uint32_t is_answered;
static uint64_t prompt = PROMPT;
static bool counts = true;

static cloudabi_fd_t ends[2], others[2], silent[2], asked[2], child;
static uint32_t lock, condition;

static void make(uint32_t type, cloudabi_fd_t pair[2])
{
    expect(cloudabi_sys_fd_create2(type, &pair[0], &pair[1]));
}

static void pause(void)
{
    sleep_for(MILLISECOND);
}

static void duplicate(cloudabi_fd_t fd)
{
    cloudabi_fd_t copy;
    expect(cloudabi_sys_fd_dup(fd, &copy));
}

static void replace(cloudabi_fd_t fd, cloudabi_fd_t by)
{
    expect(cloudabi_sys_fd_replace(by, fd));
}

static void take_right(cloudabi_fd_t fd, cloudabi_rights_t right)
{
    cloudabi_fdstat_t stat;
    expect(cloudabi_sys_fd_stat_get(fd, &stat));
    stat.base &= ~right;
    expect(cloudabi_sys_fd_stat_put(fd, &stat, CLOUDABI_FDSTAT_RIGHTS));
}

static void rewind_file(void)
{
    cloudabi_filesize_t offset;
    expect(cloudabi_sys_fd_seek(FILE_GIVEN, 0, CLOUDABI_WHENCE_SET, &offset));
}

/* ---- the thread that waits */

static void call_and_tell(struct thread *self)
{
    make_call(&self->call);
    __atomic_store_n(&is_answered, 1, __ATOMIC_RELEASE);
}

static void poll_and_tell(struct thread *self)
{
    self->call.error = cloudabi_sys_poll(subscriptions, events, 2, &self->call.count);
    __atomic_store_n(&is_answered, 1, __ATOMIC_RELEASE);
}

static bool is_told(void)
{
    return __atomic_load_n(&is_answered, __ATOMIC_ACQUIRE) != 0;
}

static void start(void (*body)(struct thread *))
{
    is_answered = 0;
    start_body(&waiter, body);
    pause();
    if (is_told())
        say(" at once");
}

static void let_call(struct call call)
{
    polls = false;
    waiter.call = call;
    set_range(&waiter.call);
    start(call_and_tell);
}

static cloudabi_subscription_t subscription_of(uint8_t kind, cloudabi_fd_t fd)
{
    cloudabi_subscription_t made = {.kind = kind};
    if (kind == CLOUDABI_EVENTTYPE_PROC_TERMINATE)
        made.proc_terminate.fd = fd;
    else
        made.fd_readwrite.fd = fd;
    return made;
}

static cloudabi_subscription_t time_of(uint64_t moment)
{
    cloudabi_subscription_t made = {.kind = CLOUDABI_EVENTTYPE_CLOCK};
    made.clock.clock = CLOUDABI_CLOCK_MONOTONIC;
    made.clock.flags = CLOUDABI_SUBSCRIPTION_CLOCK_ABSTIME;
    made.clock.timeout = moment;
    return made;
}

static void let_poll_both(cloudabi_subscription_t first, cloudabi_subscription_t second)
{
    polls = true;
    subscriptions[0] = first;
    subscriptions[1] = second;
    start(poll_and_tell);
}

/* The thread polls for this and for a pipe in which nothing comes. */
static void let_poll(uint8_t kind, cloudabi_fd_t fd)
{
    make(FIFO, silent);
    let_poll_both(subscription_of(CLOUDABI_EVENTTYPE_FD_READ, silent[0]), subscription_of(kind, fd));
}

/* ---- what it was told, and when */

static void say_event(const cloudabi_event_t *event)
{
    say("event ");
    if (event->error != CLOUDABI_ESUCCESS)
        say(event->error == CLOUDABI_ETIMEDOUT ? "timed out " : "error ");
    switch (event->kind) {
    case CLOUDABI_EVENTTYPE_FD_READ:
    case CLOUDABI_EVENTTYPE_FD_WRITE:
        say(event->kind == CLOUDABI_EVENTTYPE_FD_READ ? "read " : "write ");
        say_number(event->fd_readwrite.nbytes);
        say(event->fd_readwrite.flags != 0 ? " hung up" : "");
        break;
    case CLOUDABI_EVENTTYPE_PROC_TERMINATE:
        say("end ");
        say_number(event->proc_terminate.code);
        break;
    case CLOUDABI_EVENTTYPE_CLOCK: say("clock"); break;
    case CLOUDABI_EVENTTYPE_LOCK_WRLOCK: say("lock"); break;
    default: say("condition");
    }
}

static void say_answer_of_waiter(void)
{
    say(" ");
    if (!polls || waiter.call.error != CLOUDABI_ESUCCESS)
        say_result(&waiter.call);
    else if (waiter.call.count == 1)
        say_event(&events[0]);
    else
        say("several events");
}

/* Gives way until the thread has its answer, but not for ever. */
static uint64_t yields_until_told(void)
{
    uint64_t yields = 0;
    for (; yields < MOST_YIELDS && !is_told(); ++yields)
        expect(cloudabi_sys_thread_yield());
    return yields;
}

/* Ends the line: what the thread was told, and when. */
static void end(void)
{
    uint64_t yields = yields_until_told();
    bool is_late = !is_told();
    pause();
    if (!has_ended(&waiter)) {
        say(" never told");
        end_line();
        cloudabi_sys_proc_exit(2);
    }
    say_answer_of_waiter();
    if (!counts) {
        end_line();
        return;
    }
    say(is_late ? " not within " : yields > prompt ? " after " : prompt == PROMPT ? " within two" : " within ten");
    if (is_late || yields > prompt)
        say_number(yields);
    say(" yields");
    end_line();
}

/* Gives way some time, in which the thread isn't to be told. */
static void let_wait(void)
{
    for (int yields = 0; yields < SOME_YIELDS; ++yields)
        expect(cloudabi_sys_thread_yield());
    say(is_told() ? " told too early" : " waits");
}

/* ---- an end that the thread waits at, of which a duplicate stays open */

/* How a thread waits, and which right it needs for that. */
struct way {
    void (*begin)(const char *what);
    int side; /* which of the ends it waits at */
    cloudabi_rights_t right;
    void (*give)(const cloudabi_fd_t pair[2]); /* does what it waits for, at the other end of these */
    void (*fill)(const cloudabi_fd_t pair[2]); /* makes it wait */
    uint32_t type;
};

static void give_byte(const cloudabi_fd_t pair[2])
{
    write_to(pair[1], 1);
}

static void give_room(const cloudabi_fd_t pair[2])
{
    read_from(pair[0], 4);
}

static void leave_empty(const cloudabi_fd_t pair[2])
{
    (void)pair;
}

static void fill_all(const cloudabi_fd_t pair[2])
{
    write_to(pair[1], 65536);
}

static const struct way *way;

static void begin_ends(const char *what)
{
    begin(what);
    rewind_file();
    make(way->type, ends);
    make(way->type, others);
    way->fill(ends);
    way->fill(others);
    duplicate(ends[way->side]);
}

static void begin_read(const char *what)
{
    begin_ends(what);
    let_call((struct call){.act = READ, .fd = ends[0], .room = 20});
}

static void begin_receive(const char *what)
{
    begin_ends(what);
    let_call((struct call){.act = RECEIVE, .fd = ends[0], .room = 20, .fds_room = 1});
}

static void begin_write(const char *what)
{
    begin_ends(what);
    let_call((struct call){.act = WRITE, .fd = ends[1], .room = 10});
}

static void begin_send(const char *what)
{
    begin_ends(what);
    let_call((struct call){.act = SEND, .fd = ends[1], .room = 10});
}

static void begin_read_poll(const char *what)
{
    begin_ends(what);
    let_poll(CLOUDABI_EVENTTYPE_FD_READ, ends[0]);
}

static void begin_write_poll(const char *what)
{
    begin_ends(what);
    let_poll(CLOUDABI_EVENTTYPE_FD_WRITE, ends[1]);
}

/* Another end takes the number's place, and the first one stays open. */
static void tell_of_other_ends(void)
{
    way->begin("number stands for another end");
    replace(ends[way->side], others[way->side]);
    let_wait();
    way->give(others);
    end();
    way->begin("number stands for another end, its first one gets ready");
    replace(ends[way->side], others[way->side]);
    way->give(ends);
    let_wait();
    way->give(others);
    end();
    way->begin("number stands for another end, then closed");
    replace(ends[way->side], others[way->side]);
    let_wait();
    close_end(ends[way->side]);
    end();
    way->begin("number stands for an end that is ready");
    way->give(others);
    replace(ends[way->side], others[way->side]);
    end();
}

static void tell_of_rights(void)
{
    way->begin("right taken");
    take_right(ends[way->side], way->right);
    end();
    way->begin("another right taken");
    take_right(ends[way->side], CLOUDABI_RIGHT_FILE_STAT_FGET);
    let_wait();
    way->give(ends);
    end();
}

static void tell_of_numbers(void)
{
    way->begin("what it waits for comes");
    way->give(ends);
    end();
    way->begin("number closed");
    close_end(ends[way->side]);
    end();
    way->begin("number stands for a file");
    replace(ends[way->side], FILE_GIVEN);
    end();
    tell_of_other_ends();
    tell_of_rights();
}

/* A poll isn't told of NONBLOCK. */
static void tell_of_flags(void)
{
    way->begin("NONBLOCK");
    set_flags(ends[way->side], NONBLOCK);
    if (polls) {
        let_wait();
        way->give(ends);
    }
    end();
    way->begin("another flag, then NONBLOCK");
    set_flags(ends[way->side], CLOUDABI_FDFLAG_APPEND);
    let_wait();
    set_flags(ends[way->side], NONBLOCK);
    if (polls) {
        let_wait();
        way->give(ends);
    }
    end();
}

static const struct way ways[] = {
    {begin_read, 0, CLOUDABI_RIGHT_FD_READ, give_byte, leave_empty, FIFO},
    {begin_receive, 0, CLOUDABI_RIGHT_FD_READ, give_byte, leave_empty, STREAM},
    {begin_write, 1, CLOUDABI_RIGHT_FD_WRITE, give_room, fill_all, FIFO},
    {begin_send, 1, CLOUDABI_RIGHT_FD_WRITE, give_room, fill_all, STREAM},
    {begin_read_poll, 0, CLOUDABI_RIGHT_POLL_FD_READWRITE, give_byte, leave_empty, FIFO},
    {begin_write_poll, 1, CLOUDABI_RIGHT_POLL_FD_READWRITE, give_room, fill_all, STREAM},
};

/* ---- what another process does, which shares the opens */

/* A child that waits until it is asked to do what the line tries. */
static bool in_asked_child(void)
{
    if (!in_child(&child))
        return false;
    read_from(asked[0], 1);
    return true;
}

static void begin_shared(const char *what)
{
    begin(what);
    make(FIFO, ends);
    make(FIFO, asked);
}

/* Has the child do it, and waits until that tells that it has, or until it has ended. */
static void ask(void)
{
    write_to(asked[1], 1);
    read_from(told[0], 1);
}

/* The child lives on, so that only what it did before is what ends the wait. */
static void set_by_child(void)
{
    if (in_asked_child()) {
        set_flags(ends[0], NONBLOCK);
        tell("x");
        wait_for_ever();
    }
}

static void tell_of_shared_opens(void)
{
    begin_shared("NONBLOCK by another process");
    set_by_child();
    let_call((struct call){.act = READ, .fd = ends[0], .room = 20});
    ask();
    end();
    begin_shared("NONBLOCK by another process, of an end that is polled");
    set_by_child();
    let_poll(CLOUDABI_EVENTTYPE_FD_READ, ends[0]);
    ask();
    let_wait();
    write_to(ends[1], 1);
    end();
    begin_shared("number closed by another process");
    if (in_asked_child()) {
        close_end(ends[0]);
        tell("x");
        wait_for_ever();
    }
    let_call((struct call){.act = READ, .fd = ends[0], .room = 20});
    ask();
    let_wait();
    write_to(ends[1], 1);
    end();
}

static void tell_of_ends(void)
{
    begin_shared("the last process that writes ends");
    if (in_asked_child())
        cloudabi_sys_proc_exit(0);
    close_end(told[1]);
    close_end(ends[1]);
    let_call((struct call){.act = READ, .fd = ends[0], .room = 20});
    ask();
    end();
    begin_shared("a process ends");
    if (in_asked_child())
        cloudabi_sys_proc_exit(5);
    close_end(told[1]);
    let_poll(CLOUDABI_EVENTTYPE_PROC_TERMINATE, child);
    ask();
    end();
}

static void tell_of_numbers_of_processes(void)
{
    begin_shared("number of a process closed");
    if (in_asked_child())
        wait_for_ever();
    duplicate(child);
    let_poll(CLOUDABI_EVENTTYPE_PROC_TERMINATE, child);
    close_end(child);
    end();
    begin_shared("number of a process stands for another one that has ended");
    if (in_asked_child())
        wait_for_ever();
    cloudabi_fd_t first = child;
    duplicate(first);
    if (in_child(&child))
        cloudabi_sys_proc_exit(6);
    let_poll(CLOUDABI_EVENTTYPE_PROC_TERMINATE, first);
    replace(first, child);
    end();
}

static void tell_of_others(void)
{
    counts = false;
    tell_of_shared_opens();
    tell_of_ends();
    tell_of_numbers_of_processes();
}

/* ---- locks, condition variables and times */

static uint64_t now(void)
{
    cloudabi_timestamp_t time;
    expect(cloudabi_sys_clock_time_get(CLOUDABI_CLOCK_MONOTONIC, 0, &time));
    return time;
}

static cloudabi_subscription_t lock_of(void)
{
    cloudabi_subscription_t made = {.kind = CLOUDABI_EVENTTYPE_LOCK_WRLOCK};
    made.lock.lock = &lock;
    made.lock.scope = CLOUDABI_SCOPE_PRIVATE;
    return made;
}

static cloudabi_subscription_t condition_of(void)
{
    cloudabi_subscription_t made = {.kind = CLOUDABI_EVENTTYPE_CONDVAR};
    made.condvar.condvar = &condition;
    made.condvar.lock = &lock;
    made.condvar.condvar_scope = made.condvar.lock_scope = CLOUDABI_SCOPE_PRIVATE;
    return made;
}

static void take_lock(void)
{
    cloudabi_subscription_t wanted = lock_of();
    size_t count;
    expect(cloudabi_sys_poll(&wanted, events, 1, &count));
}

static void let_go(void)
{
    expect(cloudabi_sys_lock_unlock(&lock, CLOUDABI_SCOPE_PRIVATE));
}

static void signal_one(void)
{
    expect(cloudabi_sys_condvar_signal(&condition, CLOUDABI_SCOPE_PRIVATE, 1));
}

/* The thread has the lock as it begins to wait for the condition. */
static void wait_for_condition(struct thread *self)
{
    take_lock();
    poll_and_tell(self);
    let_go();
}

static void lock_and_tell(struct thread *self)
{
    poll_and_tell(self);
    if (events[0].error == CLOUDABI_ESUCCESS)
        let_go();
}

/* A moment that comes when the thread has begun to wait, for which the first one sleeps a millisecond. */
static uint64_t soon(void)
{
    return now() + MILLISECOND + MILLISECOND / 2;
}

/* Gives way until the time has come. */
static void wait_until(uint64_t moment)
{
    while (now() < moment)
        expect(cloudabi_sys_thread_yield());
}

static void let_lock(void (*body)(struct thread *), cloudabi_subscription_t first, uint64_t moment)
{
    polls = true;
    subscriptions[0] = first;
    subscriptions[1] = time_of(moment);
    start(body);
}

static void tell_of_locks(void)
{
    begin("lock let go");
    take_lock();
    let_lock(lock_and_tell, lock_of(), UINT64_MAX);
    let_go();
    end();
    begin("condition signalled, lock free");
    let_lock(wait_for_condition, condition_of(), UINT64_MAX);
    signal_one();
    end();
    begin("condition signalled, then lock let go");
    let_lock(wait_for_condition, condition_of(), UINT64_MAX);
    take_lock();
    signal_one();
    let_wait();
    let_go();
    end();
}

static void tell_of_times(void)
{
    uint64_t moment;
    prompt = PROMPT_OF_TIMES;
    begin("time of a sleep");
    make(FIFO, silent);
    moment = soon();
    let_poll_both(time_of(UINT64_MAX), time_of(moment));
    wait_until(moment);
    end();
    begin("time of a poll");
    make(FIFO, silent);
    moment = soon();
    let_poll_both(subscription_of(CLOUDABI_EVENTTYPE_FD_READ, silent[0]), time_of(moment));
    wait_until(moment);
    end();
    begin("time at a lock");
    take_lock();
    moment = soon();
    let_lock(lock_and_tell, lock_of(), moment);
    wait_until(moment);
    end();
    let_go();
    begin("time at a condition, lock free");
    moment = soon();
    let_lock(wait_for_condition, condition_of(), moment);
    wait_until(moment);
    end();
    begin("time at a condition, then lock let go");
    moment = soon();
    let_lock(wait_for_condition, condition_of(), moment);
    take_lock();
    wait_until(moment);
    let_wait();
    let_go();
    end();
}

static const struct {
    const char *name;
    void (*tell)(void);
} parts[] = {{"others", tell_of_others}, {"locks", tell_of_locks}, {"times", tell_of_times}};

/* The tasks at an end, in the order of `ways`. */
static const char *const tasks[] = {"reads", "receives", "writes", "sends", "polls to read", "polls to write"};

void program_main(const argdata_t *arguments)
{
    const char *name = begin_program(arguments);
    given = FILE_GIVEN + 1;
    for (size_t i = 0; i < sizeof parts / sizeof parts[0]; ++i) {
        if (same_text(name, parts[i].name)) {
            parts[i].tell();
            cloudabi_sys_proc_exit(0);
        }
    }
    for (size_t i = 0; i < sizeof tasks / sizeof tasks[0]; ++i) {
        if (same_text(name, tasks[i])) {
            way = &ways[i];
            tell_of_numbers();
            tell_of_flags();
            cloudabi_sys_proc_exit(0);
        }
    }
    cloudabi_sys_proc_exit(255);
}

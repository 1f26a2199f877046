/*
 * Waits for the end of children by `poll`, and says each event: its userdata, its error, its type, and of the end of a process the signal and the
 * exit code. The argument data is a sequence of a descriptor to write to and of what is to be done (`tasks` below).
 */
#include "../../guests/processes.h"

static cloudabi_fd_t child, other;
static uint32_t lock_word;

static cloudabi_subscription_t end_of(uint64_t userdata, cloudabi_fd_t fd)
{
    cloudabi_subscription_t subscription = {.userdata = userdata, .kind = CLOUDABI_EVENTTYPE_PROC_TERMINATE};
    subscription.proc_terminate.fd = fd;
    return subscription;
}

static cloudabi_subscription_t time_of(uint64_t userdata, uint64_t timeout)
{
    cloudabi_subscription_t subscription = {.userdata = userdata, .kind = CLOUDABI_EVENTTYPE_CLOCK};
    subscription.clock.clock = CLOUDABI_CLOCK_MONOTONIC;
    subscription.clock.timeout = timeout;
    return subscription;
}

static void say_events(const cloudabi_subscription_t *subscriptions, size_t count)
{
    cloudabi_event_t events[4];
    cloudabi_errno_t error = cloudabi_sys_poll(subscriptions, events, count, &count);
    say(" ");
    if (error != CLOUDABI_ESUCCESS) {
        say_answer(error);
        return;
    }
    for (size_t i = 0; i < count; ++i) {
        say("(");
        say_number(events[i].userdata);
        say(" ");
        say_number(events[i].error);
        say(" ");
        say_number(events[i].kind);
        if (events[i].kind == CLOUDABI_EVENTTYPE_PROC_TERMINATE) {
            say(" ");
            say_number(events[i].proc_terminate.signal);
            say(" ");
            say_number(events[i].proc_terminate.code);
        }
        say(")");
    }
}

static void say_end(cloudabi_fd_t fd)
{
    cloudabi_subscription_t subscription = end_of(7, fd);
    say_events(&subscription, 1);
}

/* A child that ends so, and what is seen of it; it is seen again where it is asked again. */
static void ends_so(const char *what, void (*end)(void))
{
    begin(what);
    if (in_child(&child)) {
        end();
        wait_for_ever();
    }
    say_end(child);
    say_end(child);
    hear();
}

static void exit_with_0(void)
{
    cloudabi_sys_proc_exit(0);
}

static void exit_with_most(void)
{
    cloudabi_sys_proc_exit(UINT32_MAX);
}

static void raise_first(void)
{
    cloudabi_sys_proc_raise(CLOUDABI_SIGABRT);
}

static void raise_last(void)
{
    cloudabi_sys_proc_raise(CLOUDABI_SIGXFSZ);
}

static void trap(void)
{
    __asm__ volatile("ebreak");
}

static void read_nowhere(void)
{
    __asm__ volatile("ld zero, 0(zero)");
}

static void end_thread(void)
{
    lock_word = WRITE_LOCKED | 1;
    cloudabi_sys_thread_exit(&lock_word, CLOUDABI_SCOPE_PRIVATE);
}

static void written(void)
{
    begin("a byte, then the end");
    if (in_child(&child)) {
        tell("x");
        cloudabi_sys_proc_exit(3);
    }
    say(" ");
    hear_until('x');
    say_end(child);
    hear();
}

/* Two of which one lives: then time passes, then it ends, then both have. */
static void several(void)
{
    cloudabi_fd_t ends[2];
    begin("several");
    expect(cloudabi_sys_fd_create2(STREAM, &ends[0], &ends[1]));
    if (in_child(&child)) {
        read_from(ends[1], 1);
        cloudabi_sys_proc_exit(4);
    }
    cloudabi_subscription_t first[] = {time_of(1, MILLISECOND), end_of(2, child)};
    say_events(first, 2);
    if (in_child(&other))
        cloudabi_sys_proc_exit(5);
    cloudabi_subscription_t second[] = {end_of(3, child), end_of(4, other)};
    say_events(second, 2);
    write_to(ends[0], 1);
    say_end(child);
    cloudabi_subscription_t third[] = {end_of(5, other), time_of(6, 0), end_of(7, child), end_of(8, other)};
    say_events(third, 4);
    close_end(ends[0]);
    close_end(ends[1]);
    hear();
}

static void refused(void)
{
    cloudabi_fdstat_t stat = {.base = CLOUDABI_RIGHT_FILE_STAT_FGET};
    begin("without the right");
    if (in_child(&child))
        wait_for_ever();
    expect(cloudabi_sys_fd_dup(child, &other));
    expect(cloudabi_sys_fd_stat_put(other, &stat, CLOUDABI_FDSTAT_RIGHTS));
    say_end(other);
    say_end(told[1]);
    say_end(99);
    close_end(child);
    close_end(other);
    hear();
}

static void ends(void)
{
    written();
    ends_so("exits with 0", exit_with_0);
    ends_so("exits with the greatest code", exit_with_most);
    ends_so("the first signal", raise_first);
    ends_so("the last signal", raise_last);
    ends_so("a breakpoint", trap);
    ends_so("no memory", read_nowhere);
    ends_so("the last thread", end_thread);
    several();
    refused();
}

/* It runs until no turn is left. */
static void turns(void)
{
    ends_so("no turn left", spin);
}

static const struct {
    const char *name;
    void (*run)(void);
} tasks[] = {{"ends", ends}, {"turns", turns}};

void program_main(const argdata_t *arguments)
{
    const char *name = begin_program(arguments);
    for (size_t i = 0; i < sizeof tasks / sizeof tasks[0]; ++i)
        if (same_text(name, tasks[i].name))
            tasks[i].run();
}

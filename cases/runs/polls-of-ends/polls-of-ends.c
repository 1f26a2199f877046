/*
 * Lets a thread wait in a poll, then does something, and writes what came of it: the error, or its events, each with its userdata, its kind
 * and what belongs to that, as `(1 read 3)`. Where the thread waits still, it writes `waits`, and what came after a further deed. The argument
 * data is a sequence of a descriptor to write to and of what is to be done (`tasks` below).
 */
#include "../../guests/processes.h"

#define MOST 256

struct poller {
    struct thread thread; /* the first field: its body is given the thread */
    cloudabi_subscription_t subscriptions[MOST];
    cloudabi_event_t own_events[MOST], *events;
    size_t count, found;
    cloudabi_errno_t error;
};

static struct poller pollers[3];
static cloudabi_fd_t ends[2], others[2], child, other;

/* ---- subscriptions */

static cloudabi_subscription_t of(uint8_t kind, uint64_t userdata, cloudabi_fd_t fd)
{
    cloudabi_subscription_t made = {.userdata = userdata, .kind = kind};
    made.fd_readwrite.fd = fd;
    return made;
}

static cloudabi_subscription_t reading(uint64_t userdata, cloudabi_fd_t fd)
{
    return of(CLOUDABI_EVENTTYPE_FD_READ, userdata, fd);
}

static cloudabi_subscription_t writing(uint64_t userdata, cloudabi_fd_t fd)
{
    return of(CLOUDABI_EVENTTYPE_FD_WRITE, userdata, fd);
}

static cloudabi_subscription_t ending(uint64_t userdata, cloudabi_fd_t fd)
{
    return of(CLOUDABI_EVENTTYPE_PROC_TERMINATE, userdata, fd);
}

static cloudabi_subscription_t timing(uint64_t userdata, uint32_t clock, uint64_t timeout, uint16_t flags)
{
    cloudabi_subscription_t made = {.userdata = userdata, .kind = CLOUDABI_EVENTTYPE_CLOCK};
    made.clock.clock = clock;
    made.clock.timeout = timeout;
    made.clock.flags = flags;
    return made;
}

static cloudabi_subscription_t later(uint64_t userdata, uint64_t timeout)
{
    return timing(userdata, CLOUDABI_CLOCK_MONOTONIC, timeout, 0);
}

/* ---- the thread */

static void poll_all(struct poller *poller)
{
    poller->found = 0;
    poller->error = cloudabi_sys_poll(poller->subscriptions, poller->events, poller->count, &poller->found);
}

static void poll_in_thread(struct thread *self)
{
    poll_all((struct poller *)self);
}

static void pause(void)
{
    sleep_for(MILLISECOND);
}

static void say_event(const cloudabi_event_t *event)
{
    say(" (");
    say_number(event->userdata);
    if (event->error != CLOUDABI_ESUCCESS)
        say(" error");
    switch (event->kind) {
    case CLOUDABI_EVENTTYPE_FD_READ:
    case CLOUDABI_EVENTTYPE_FD_WRITE:
        say(event->kind == CLOUDABI_EVENTTYPE_FD_READ ? " read " : " write ");
        say_number(event->fd_readwrite.nbytes);
        if (event->fd_readwrite.flags == CLOUDABI_EVENT_FD_READWRITE_HANGUP)
            say(" hung up");
        else if (event->fd_readwrite.flags != 0)
            say(" ?");
        break;
    case CLOUDABI_EVENTTYPE_PROC_TERMINATE:
        say(" end ");
        say_number(event->proc_terminate.signal);
        say(" ");
        say_number(event->proc_terminate.code);
        break;
    default: say(event->kind == CLOUDABI_EVENTTYPE_CLOCK ? " clock" : " ?");
    }
    say(")");
}

static void say_answer_of(const struct poller *poller)
{
    if (poller->error != CLOUDABI_ESUCCESS) {
        say(" ");
        say_error(poller->error);
    }
    for (size_t i = 0; i < poller->found && poller->error == CLOUDABI_ESUCCESS; ++i)
        say_event(&poller->events[i]);
}

static void let_poll_in(struct poller *poller, const cloudabi_subscription_t *subscriptions, size_t count)
{
    for (size_t i = 0; i < count; ++i)
        poller->subscriptions[i] = subscriptions[i];
    poller->count = count;
    if (poller->events == NULL)
        poller->events = poller->own_events;
    start_body(&poller->thread, poll_in_thread);
    pause();
    if (has_ended(&poller->thread)) {
        say(" at once");
        say_answer_of(poller);
    }
}

#define LET_POLL(...) \
    let_poll_in(&pollers[0], (cloudabi_subscription_t[]){__VA_ARGS__}, sizeof((cloudabi_subscription_t[]){__VA_ARGS__}) / sizeof(cloudabi_subscription_t))

static void say_outcome(struct poller *poller)
{
    pause();
    if (has_ended(&poller->thread))
        say_answer_of(poller);
    else
        say(" waits");
}

static void end(void)
{
    say_outcome(&pollers[0]);
    end_line();
}

static void make(uint32_t type, cloudabi_fd_t pair[2])
{
    expect(cloudabi_sys_fd_create2(type, &pair[0], &pair[1]));
}

static void begin_ends(const char *what, uint32_t type)
{
    begin(what);
    make(type, ends);
    make(STREAM, others);
}

static void begin_read(const char *what, uint32_t type)
{
    begin_ends(what, type);
    LET_POLL(reading(1, ends[0]));
}

static void begin_write(const char *what, uint32_t type)
{
    begin_ends(what, type);
    write_to(ends[1], 65536);
    LET_POLL(writing(1, ends[1]));
}

/* ---- ends */

static void reads(void)
{
    begin_read("written to", FIFO);
    write_to(ends[1], 3);
    end();
    begin_read("the other end of a pair written to", STREAM);
    write_to(ends[1], 4);
    end();
    begin_read("sent a descriptor", STREAM);
    send_to(ends[1], 2, output, 1);
    end();
    begin_read("written no bytes", FIFO);
    write_to(ends[1], 0);
    say_outcome(&pollers[0]);
    write_to(ends[1], 1);
    end();
    begin_read("another channel written to", STREAM);
    write_to(others[1], 1);
    write_to(ends[0], 1);
    say_outcome(&pollers[0]);
    write_to(ends[1], 1);
    end();
    begin_read("writing end closed", FIFO);
    close_end(ends[1]);
    end();
    begin_read("other end closed", STREAM);
    close_end(ends[1]);
    end();
    begin_read("one of two writing ends closed", FIFO);
    expect(cloudabi_sys_fd_dup(ends[1], &other));
    close_end(ends[1]);
    say_outcome(&pollers[0]);
    close_end(other);
    end();
    begin_read("writing end on its way to an end that is closed", FIFO);
    send_to(others[0], 1, ends[1], 1);
    close_end(ends[1]);
    say_outcome(&pollers[0]);
    close_end(others[1]);
    end();
    begin_read("other end shut for writing", STREAM);
    shut(ends[1], WR);
    end();
    begin_read("own end shut for reading", STREAM);
    shut(ends[0], RD);
    end();
    begin_read("the other way shut", STREAM);
    shut(ends[0], WR);
    shut(ends[1], RD);
    say_outcome(&pollers[0]);
    write_to(ends[1], 2);
    end();
}

static void writes(void)
{
    begin_write("a part read", FIFO);
    read_from(ends[0], 4);
    end();
    begin_write("the other end of a pair read", STREAM);
    read_from(ends[0], 64);
    end();
    begin_write("nothing read", STREAM);
    read_from(ends[0], 0);
    write_to(ends[0], 5);
    say_outcome(&pollers[0]);
    read_from(ends[0], 1);
    end();
    begin_write("reading end closed", FIFO);
    close_end(ends[0]);
    end();
    begin_write("other end closed", STREAM);
    close_end(ends[0]);
    end();
    begin_write("other end shut for reading", STREAM);
    shut(ends[0], RD);
    end();
    begin_write("own end shut for writing", STREAM);
    shut(ends[1], WR);
    say_outcome(&pollers[0]);
    read_from(ends[0], 1);
    end();
    begin_ends("no room for descriptors", STREAM);
    for (int i = 0; i < 4; ++i)
        send_to(ends[1], 1, output, 16);
    LET_POLL(writing(1, ends[1]));
    end_line();
}

static cloudabi_fd_t duplicate(cloudabi_fd_t fd)
{
    cloudabi_fd_t copy;
    expect(cloudabi_sys_fd_dup(fd, &copy));
    return copy;
}

static void lower_rights(cloudabi_fd_t fd, cloudabi_rights_t rights)
{
    cloudabi_fdstat_t stat = {.base = rights};
    expect(cloudabi_sys_fd_stat_put(fd, &stat, CLOUDABI_FDSTAT_RIGHTS));
}

/* What the kernel looks up anew at the wake: the number, its rights and where the events go. What it was asked it keeps. */
static void looked_up_anew(void)
{
    begin_read("number closed, end open", FIFO);
    duplicate(ends[0]);
    close_end(ends[0]);
    end();
    begin_read("last number closed", FIFO);
    close_end(ends[0]);
    end();
    begin_read("right taken away", FIFO);
    lower_rights(ends[0], CLOUDABI_RIGHT_FD_READ);
    end();
    begin_read("another right taken away", FIFO);
    lower_rights(ends[0], CLOUDABI_RIGHT_POLL_FD_READWRITE);
    say_outcome(&pollers[0]);
    write_to(ends[1], 1);
    end();
    begin_read("number stands for an end with bytes", FIFO);
    write_to(others[1], 7);
    expect(cloudabi_sys_fd_replace(others[0], ends[0]));
    end();
    begin_read("number stands for an end without bytes", FIFO);
    expect(cloudabi_sys_fd_replace(others[0], ends[0]));
    say_outcome(&pollers[0]);
    write_to(others[1], 8);
    end();
    begin_read("number stands for a standard stream", FIFO);
    expect(cloudabi_sys_fd_replace(output, ends[0]));
    end();
    begin_read("NONBLOCK set", FIFO);
    set_flags(ends[0], NONBLOCK);
    say_outcome(&pollers[0]);
    write_to(ends[1], 1);
    end();
    begin_read("subscriptions changed", FIFO);
    pollers[0].subscriptions[0] = reading(9, output);
    say_outcome(&pollers[0]);
    write_to(ends[1], 2);
    end();
    begin_ends("one of two numbers closed", FIFO);
    LET_POLL(reading(1, ends[0]), reading(2, others[0]));
    close_end(others[0]);
    end();
}

static void no_room_for_events(void)
{
    void *memory;
    expect(cloudabi_sys_mem_map(NULL, 8192, CLOUDABI_PROT_READ | CLOUDABI_PROT_WRITE, CLOUDABI_MAP_ANON | CLOUDABI_MAP_PRIVATE, 0, 0, &memory));
    pollers[0].events = memory;
    begin_read("room for events gone", FIFO);
    expect(cloudabi_sys_mem_protect(memory, 4096, CLOUDABI_PROT_READ));
    write_to(ends[1], 3);
    say_outcome(&pollers[0]);
    expect(cloudabi_sys_mem_protect(memory, 4096, CLOUDABI_PROT_READ | CLOUDABI_PROT_WRITE));
    LET_POLL(reading(1, ends[0]));
    end_line();
    pollers[0].events = (cloudabi_event_t *)((char *)memory + 4096) - 1;
    begin_ends("room for the second event gone", FIFO);
    LET_POLL(reading(1, ends[0]), reading(2, others[0]));
    expect(cloudabi_sys_mem_unmap((char *)memory + 4096, 4096));
    write_to(ends[1], 3);
    end();
    pollers[0].events = NULL;
}

/* ---- several subscriptions */

static void several(void)
{
    begin_ends("two of one end", FIFO);
    expect(cloudabi_sys_fd_dup(ends[0], &other));
    LET_POLL(reading(1, ends[0]), reading(2, other), reading(1, ends[0]), reading(4, others[0]));
    write_to(ends[1], 3);
    end();
    begin_ends("both ways of one end", STREAM);
    write_to(ends[0], 65536);
    LET_POLL(writing(5, ends[0]), reading(4, ends[0]), reading(3, others[0]), writing(2, ends[0]));
    close_end(ends[1]);
    end();
    begin_ends("the last of many", FIFO);
    for (size_t i = 0; i < MOST; ++i)
        pollers[0].subscriptions[i] = reading(i, i == MOST - 1 ? others[0] : ends[0]);
    let_poll_in(&pollers[0], pollers[0].subscriptions, MOST);
    write_to(others[1], 1);
    end();
    begin_ends("all but the last of many", FIFO);
    let_poll_in(&pollers[0], pollers[0].subscriptions, MOST);
    write_to(ends[1], 1);
    pause();
    say(" ");
    say_number(pollers[0].found);
    say_event(&pollers[0].events[0]);
    say_event(&pollers[0].events[254]);
    end_line();
    begin_ends("three threads at one end", FIFO);
    for (size_t i = 0; i < 3; ++i)
        let_poll_in(&pollers[i], (cloudabi_subscription_t[]){reading(i, ends[0])}, 1);
    write_to(ends[1], 6);
    for (size_t i = 0; i < 3; ++i)
        say_outcome(&pollers[i]);
    end_line();
}

/* Time goes on to the first time of all, and the wake comes 1000 nanoseconds later. */
static void times(void)
{
    begin_ends("bytes before the time", FIFO);
    LET_POLL(later(1, 10 * MILLISECOND), reading(2, ends[0]));
    write_to(ends[1], 1);
    end();
    begin_ends("the time before bytes", FIFO);
    LET_POLL(reading(2, ends[0]), later(1, 10 * MILLISECOND));
    sleep_for(20 * MILLISECOND);
    write_to(ends[1], 1);
    end();
    begin("the second of two times");
    LET_POLL(later(1, 30 * MILLISECOND), later(2, 10 * MILLISECOND), later(3, UINT64_MAX), later(4, 20 * MILLISECOND));
    sleep_for(20 * MILLISECOND);
    end();
    begin("times that are one");
    LET_POLL(later(1, 10 * MILLISECOND), later(2, 11 * MILLISECOND), later(3, 10 * MILLISECOND), later(3, 10 * MILLISECOND));
    sleep_for(20 * MILLISECOND);
    end();
    begin("times before the wake");
    LET_POLL(later(1, 10 * MILLISECOND + 2000), later(2, 10 * MILLISECOND + 1000), later(3, 10 * MILLISECOND), later(4, 10 * MILLISECOND + 1001));
    sleep_for(20 * MILLISECOND);
    end();
    begin("times of both clocks");
    cloudabi_timestamp_t real, monotonic;
    expect(cloudabi_sys_clock_time_get(CLOUDABI_CLOCK_REALTIME, 0, &real));
    expect(cloudabi_sys_clock_time_get(CLOUDABI_CLOCK_MONOTONIC, 0, &monotonic));
    LET_POLL(timing(1, CLOUDABI_CLOCK_REALTIME, real + 10 * MILLISECOND + 1000, CLOUDABI_SUBSCRIPTION_CLOCK_ABSTIME),
             timing(2, CLOUDABI_CLOCK_MONOTONIC, monotonic + 10 * MILLISECOND, CLOUDABI_SUBSCRIPTION_CLOCK_ABSTIME),
             timing(3, CLOUDABI_CLOCK_REALTIME, 10 * MILLISECOND, 0), timing(4, CLOUDABI_CLOCK_REALTIME, 20 * MILLISECOND, 0),
             timing(5, CLOUDABI_CLOCK_REALTIME, UINT64_C(1) << 62, 0));
    sleep_for(20 * MILLISECOND);
    end();
    begin_ends("times that never come", FIFO);
    LET_POLL(timing(1, CLOUDABI_CLOCK_MONOTONIC, UINT64_C(1) << 62, CLOUDABI_SUBSCRIPTION_CLOCK_ABSTIME), reading(2, ends[0]), later(3, UINT64_MAX));
    sleep_for(UINT64_C(1) << 60);
    say_outcome(&pollers[0]);
    write_to(ends[1], 1);
    end();
}

/* ---- ends of processes */

/* A child that waits for a byte, and then ends by this signal, or else with this code. */
static cloudabi_fd_t make_child(uint32_t signal, uint32_t code)
{
    cloudabi_fd_t made;
    if (in_child(&made)) {
        read_from(ends[0], 1);
        if (signal != 0)
            cloudabi_sys_proc_raise(signal);
        cloudabi_sys_proc_exit(code);
    }
    return made;
}

static void processes(void)
{
    begin_ends("a child exits", FIFO);
    child = make_child(0, 5);
    LET_POLL(ending(1, child));
    write_to(ends[1], 1);
    end();
    begin_ends("a child's signal", FIFO);
    child = make_child(CLOUDABI_SIGUSR1, 5);
    LET_POLL(ending(1, child));
    write_to(ends[1], 1);
    end();
    begin_ends("a process and a time", FIFO);
    child = make_child(0, 6);
    LET_POLL(ending(1, child), later(2, 5 * MILLISECOND));
    sleep_for(10 * MILLISECOND);
    say_outcome(&pollers[0]);
    LET_POLL(later(2, 1000 * MILLISECOND), ending(1, child));
    write_to(ends[1], 1);
    end();
    begin_ends("number of a process closed", FIFO);
    child = make_child(0, 7);
    expect(cloudabi_sys_fd_dup(child, &other));
    LET_POLL(ending(1, child));
    close_end(child);
    say_outcome(&pollers[0]);
    write_to(ends[1], 1);
    LET_POLL(ending(1, other));
    end_line();
    begin_ends("last number of a process closed", FIFO);
    child = make_child(0, 7);
    LET_POLL(ending(1, child), reading(2, told[0]));
    close_end(told[1]);
    say_outcome(&pollers[0]);
    close_end(child);
    end();
    begin_ends("right taken away", FIFO);
    child = make_child(0, 7);
    LET_POLL(ending(1, child));
    lower_rights(child, CLOUDABI_RIGHT_FILE_STAT_FGET);
    end();
    begin_ends("a byte and the end", FIFO);
    if (in_child(&child)) {
        tell("x");
        cloudabi_sys_proc_exit(3);
    }
    close_end(told[1]);
    LET_POLL(ending(1, child));
    LET_POLL(reading(2, told[0]), ending(1, child));
    hear_until(0);
    end_line();
}

/* The signals by their numbers: those that end a process, those that it doesn't answer, and those that it refuses. */
static void signals(void)
{
    for (uint32_t signal = 1; signal <= 26; ++signal) {
        begin("signal");
        --line_length;
        say(" ");
        say_number(signal);
        say(":");
        if (in_child(&child))
            cloudabi_sys_proc_exit(100 + cloudabi_sys_proc_raise(signal));
        LET_POLL(ending(1, child));
        end_line();
    }
}

/* ---- deeds by chance, at two pipes and two pairs of streams, while three threads poll some of their ends and times. A line has the deed, and the
   answers that came. */

#define DEEDS 400
#define CHANNELS 4

static cloudabi_fd_t pairs[CHANNELS][2];
static bool is_closed[CHANNELS][2], is_polling[3];
static char large[65536];

static uint32_t chance(uint32_t below)
{
    static uint64_t state = 1;
    state = state * UINT64_C(6364136223846793005) + UINT64_C(1442695040888963407);
    return (uint32_t)(state >> 33) % below;
}

static uint64_t now(void)
{
    cloudabi_timestamp_t time;
    expect(cloudabi_sys_clock_time_get(CLOUDABI_CLOCK_MONOTONIC, 0, &time));
    return time;
}

/* Ends at a whole millisecond, for the times of polls that lie between these. */
static void pause_whole(void)
{
    cloudabi_subscription_t subscription = timing(0, CLOUDABI_CLOCK_MONOTONIC, (now() / MILLISECOND + 2) * MILLISECOND, CLOUDABI_SUBSCRIPTION_CLOCK_ABSTIME);
    cloudabi_event_t event;
    size_t events;
    expect(cloudabi_sys_poll(&subscription, &event, 1, &events));
}

/* The ends never wait, so that the first thread doesn't. */
static void make_channel(size_t which)
{
    make(which < CHANNELS / 2 ? FIFO : STREAM, pairs[which]);
    for (int side = 0; side < 2; ++side) {
        set_flags(pairs[which][side], NONBLOCK);
        is_closed[which][side] = false;
    }
    say("make ");
    say_number(which);
}

/* An end that is open, but for one time in many. */
static cloudabi_fd_t end_by_chance(void)
{
    for (uint32_t tries = 0;; ++tries) {
        uint32_t channel = chance(CHANNELS), side = chance(2);
        if (!is_closed[channel][side] || tries == 4)
            return pairs[channel][side];
    }
}

static void poll_by_chance(size_t which)
{
    struct poller *poller = &pollers[which];
    poller->count = 1 + chance(4);
    poller->events = poller->own_events;
    for (size_t i = 0; i < poller->count; ++i) {
        uint32_t kind = chance(5);
        cloudabi_fd_t fd = end_by_chance();
        uint64_t moment = (now() / MILLISECOND + 2 + chance(20)) * MILLISECOND + (1 + which * 4 + i) * 60000;
        poller->subscriptions[i] = kind < 2   ? reading(i, fd)
                                 : kind < 4 ? writing(i, fd)
                                            : timing(i, CLOUDABI_CLOCK_MONOTONIC, moment, CLOUDABI_SUBSCRIPTION_CLOCK_ABSTIME);
    }
    is_polling[which] = true;
    start_body(&poller->thread, poll_in_thread);
    say("poll ");
    say_number(which);
}

static void deed_by_chance(void)
{
    static const char *const names[] = {"write ", "read ", "shut ", "close "};
    uint32_t deed = chance(12), channel = chance(CHANNELS), side = chance(2);
    cloudabi_fd_t fd = pairs[channel][side];
    cloudabi_iovec_t range = {large, (size_t[]){1, 100, sizeof large}[chance(3)]};
    size_t count;
    if (is_closed[channel][0] && is_closed[channel][1]) {
        make_channel(channel);
        return;
    }
    deed = deed < 5 ? 0 : deed < 9 ? 1 : deed < 11 && !is_closed[channel][1 - side] ? 2 : 3;
    say(names[deed]);
    say_number(channel);
    say(side == 0 ? " first" : " second");
    switch (deed) {
    case 0: cloudabi_sys_fd_write(fd, &range, 1, &count); break;
    case 1: cloudabi_sys_fd_read(fd, &range, 1, &count); break;
    case 2: cloudabi_sys_sock_shutdown(fd, 1 + chance(3)); break;
    default: is_closed[channel][side] = cloudabi_sys_fd_close(fd) == CLOUDABI_ESUCCESS;
    }
}

static void deeds(void)
{
    for (size_t i = 0; i < CHANNELS; ++i) {
        make_channel(i);
        end_line();
    }
    for (int i = 0; i < DEEDS; ++i) {
        size_t which = chance(6);
        if (which < 3 && !is_polling[which])
            poll_by_chance(which);
        else
            deed_by_chance();
        pause_whole();
        for (size_t at = 0; at < 3; ++at) {
            if (is_polling[at] && has_ended(&pollers[at].thread)) {
                is_polling[at] = false;
                say("; ");
                say_number(at);
                say_answer_of(&pollers[at]);
            }
        }
        end_line();
    }
    cloudabi_sys_proc_exit(0);
}

static void stall(void)
{
    begin_ends("stalls", FIFO);
    end_line();
    LET_POLL(reading(1, ends[0]), timing(2, CLOUDABI_CLOCK_MONOTONIC, UINT64_C(1) << 62, CLOUDABI_SUBSCRIPTION_CLOCK_ABSTIME));
    child = make_child(0, 7);
    pollers[1].subscriptions[0] = ending(1, child);
    pollers[1].subscriptions[1] = reading(2, others[0]);
    pollers[1].events = pollers[1].own_events;
    pollers[1].count = 2;
    poll_all(&pollers[1]);
}

static void all_ends(void)
{
    reads();
    writes();
    looked_up_anew();
    no_room_for_events();
}

static const struct {
    const char *name;
    void (*run)(void);
} tasks[] = {
    {"ends", all_ends}, {"several", several}, {"times", times}, {"processes", processes}, {"signals", signals}, {"stall", stall},
    {"deeds", deeds},
};

void program_main(const argdata_t *arguments)
{
    const char *name = begin_program(arguments);
    for (size_t i = 0; i < sizeof tasks / sizeof tasks[0]; ++i)
        if (same_text(name, tasks[i].name))
            tasks[i].run();
}

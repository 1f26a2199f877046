/*
 * Polls both ways of an end in each state of its channels: how both ends were shut or closed, and what waits in either. A line has the state
 * and the two events, `-` where there is none. The argument data is a sequence of a descriptor to write to and of the ends: `pipes`, or `pairs`.
 */
#include "../../guests/ends.h"

static cloudabi_fd_t ends[2];

static void say_event(const cloudabi_event_t *event)
{
    say_number(event->fd_readwrite.nbytes);
    if (event->error != CLOUDABI_ESUCCESS)
        say("?");
    if (event->fd_readwrite.flags & CLOUDABI_EVENT_FD_READWRITE_HANGUP)
        say(" hung up");
}

/* The events of reading and of writing; a clock that is due keeps the poll from waiting. */
static void say_events(cloudabi_fd_t fd)
{
    cloudabi_subscription_t subscriptions[3] = {
        {.kind = CLOUDABI_EVENTTYPE_FD_READ}, {.kind = CLOUDABI_EVENTTYPE_FD_WRITE}, {.kind = CLOUDABI_EVENTTYPE_CLOCK},
    };
    cloudabi_event_t events[3];
    size_t count;
    subscriptions[0].fd_readwrite.fd = fd;
    subscriptions[1].fd_readwrite.fd = fd;
    subscriptions[2].clock.clock = CLOUDABI_CLOCK_MONOTONIC;
    expect(cloudabi_sys_poll(subscriptions, events, 3, &count));
    const cloudabi_event_t *event = events;
    say(": read ");
    if (event->kind == CLOUDABI_EVENTTYPE_FD_READ)
        say_event(event++);
    else
        say("-");
    say(", write ");
    if (event->kind == CLOUDABI_EVENTTYPE_FD_WRITE)
        say_event(event++);
    else
        say("-");
    if (event->kind != CLOUDABI_EVENTTYPE_CLOCK || count != (size_t)(event - events) + 1)
        say(" ?");
    end_line();
}

static const size_t amounts[] = {0, 3, 65536};
static const char *const names_of_amounts[] = {"nothing", "3", "all"};

#define AMOUNTS 3

/* How an end was shut, or that it was closed. */
static const struct {
    const char *name;
    uint32_t how;
    bool is_closed;
} sides[] = {{"open", 0, false}, {"not reading", RD, false}, {"not writing", WR, false}, {"shut", RD | WR, false}, {"closed", 0, true}};

static void leave(cloudabi_fd_t fd, size_t side)
{
    if (sides[side].how != 0)
        shut(fd, sides[side].how);
    if (sides[side].is_closed)
        close_end(fd);
}

static void pair(size_t own, size_t other, size_t coming, size_t going)
{
    expect(cloudabi_sys_fd_create2(STREAM, &ends[0], &ends[1]));
    if (amounts[coming] > 0)
        write_to(ends[1], amounts[coming]);
    if (amounts[going] > 0)
        write_to(ends[0], amounts[going]);
    leave(ends[0], own);
    leave(ends[1], other);
    say(sides[own].name);
    say(", other ");
    say(sides[other].name);
    say(", ");
    say(names_of_amounts[coming]);
    say(" to read, ");
    say(names_of_amounts[going]);
    say(" written");
    say_events(ends[0]);
    close_end(ends[0]);
    cloudabi_sys_fd_close(ends[1]);
}

static void pairs(void)
{
    for (size_t own = 0; own < 4; ++own)
        for (size_t other = 0; other < 5; ++other)
            for (size_t amount = 0; amount < AMOUNTS * AMOUNTS; ++amount)
                pair(own, other, amount / AMOUNTS, amount % AMOUNTS);
}

static void pipe_end(size_t which, bool is_closed, size_t amount)
{
    expect(cloudabi_sys_fd_create2(FIFO, &ends[0], &ends[1]));
    if (amounts[amount] > 0)
        write_to(ends[1], amounts[amount]);
    if (is_closed)
        close_end(ends[1 - which]);
    say(which == 0 ? "reading" : "writing");
    say(is_closed ? ", other closed, " : ", other open, ");
    say(names_of_amounts[amount]);
    say_events(ends[which]);
    close_end(ends[which]);
    if (!is_closed)
        close_end(ends[1 - which]);
}

static void pipes(void)
{
    for (size_t which = 0; which < 2; ++which)
        for (size_t state = 0; state < 2 * AMOUNTS; ++state)
            pipe_end(which, state >= AMOUNTS, state % AMOUNTS);
}

void program_main(const argdata_t *arguments)
{
    if (same_text(begin_program(arguments), "pairs"))
        pairs();
    else
        pipes();
}

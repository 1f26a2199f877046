/*
 * Tries calls on an end of a channel in each state of its channels, and writes a line for each state. The argument data is a sequence of a
 * descriptor to write to and of the end: `pipe`, which stands for both ends of a pipe, or `first` or `second` of a pair.
 *
 * A state: how the end itself was shut, and the other one, or that this was closed; what waits in each channel: nothing, 3 bytes, 65,530
 * bytes, 65,536 bytes, or four sends of a byte with 16 descriptors; and whether the end has NONBLOCK. What waits was sent before the ends were
 * shut. Each call is of 10 bytes: `read` is fd_read; `receive` sock_recv with room for two descriptors, `all` with WAITALL, `peek` with PEEK;
 * `write` is fd_write; `send` sock_send; `carry` sock_send with a descriptor. Behind the call stand its error, or its bytes, `+` and
 * how many descriptors came, and `cut` for FDS_TRUNCATED. Where it waits the other end is closed, and behind `waits,` stands what it answers
 * then. Each call has channels of its own.
 */
#include "../../guests/ends.h"

static const char *const shut_names[] = {"open", "RD", "WR", "RD+WR", "closed"};
static const char *const fill_names[] = {"nothing", "3", "65530", "65536", "4+64"};

enum { CLOSED = 4, SHUTS = 4 };
enum fill { NOTHING, FEW, MOST, FULL, CARRIED, FILLS };

struct state {
    uint32_t type;
    bool is_second; /* whether the calls are on the second end */
    uint32_t own, other; /* how they were shut, or CLOSED */
    enum fill fill;
    bool waits; /* whether the end hasn't NONBLOCK */
};

static const struct {
    const char *name;
    struct call call;
} calls[] = {
    {"read", {.act = READ}},
    {"receive", {.act = RECEIVE, .fds_room = 2}},
    {"all", {.act = RECEIVE, .fds_room = 2, .flags = WAITALL}},
    {"peek", {.act = RECEIVE, .fds_room = 2, .flags = PEEK}},
    {"write", {.act = WRITE}},
    {"send", {.act = SEND}},
    {"carry", {.act = SEND, .fds_room = 1}},
};

static struct thread thread;

static void fill_channel(cloudabi_fd_t fd, enum fill fill)
{
    static const size_t lengths[] = {[FEW] = 3, [MOST] = 65530, [FULL] = 65536};
    if (fill == CARRIED) {
        for (size_t i = 0; i < 4; ++i)
            send_to(fd, 1, output, 16);
    } else if (fill != NOTHING && write_to(fd, lengths[fill]) != lengths[fill]) {
        cloudabi_sys_proc_exit(1);
    }
}

/* Gives the ends in the state, the one that calls are on first. */
static void make_state(const struct state *state, cloudabi_fd_t ends[2])
{
    expect(cloudabi_sys_fd_create2(state->type, &ends[state->is_second], &ends[!state->is_second]));
    if (state->type == STREAM || !state->is_second)
        fill_channel(ends[1], state->fill);
    if (state->type == STREAM || state->is_second)
        fill_channel(ends[0], state->fill);
    if (!state->waits)
        set_flags(ends[0], NONBLOCK);
    if (state->own != 0)
        shut(ends[0], state->own);
    if (state->other == CLOSED)
        close_end(ends[1]);
    else if (state->other != 0)
        shut(ends[1], state->other);
}

/* Makes the call in a thread, and ends its wait by closing the other end. Gives whether that is closed. */
static bool call_in_thread(const struct state *state, struct call *call, cloudabi_fd_t other)
{
    bool is_closed = state->other == CLOSED;
    start_call(&thread, *call);
    sleep_for(MILLISECOND);
    if (!has_ended(&thread)) {
        say("waits,");
        if (!is_closed)
            close_end(other);
        is_closed = true;
        sleep_for(MILLISECOND);
    }
    if (!has_ended(&thread)) {
        say("for ever");
        end_line();
        cloudabi_sys_proc_exit(2);
    }
    *call = thread.call;
    return is_closed;
}

/* Bytes that were read are the first that were sent. */
static void check_bytes(const struct call *call)
{
    if (call->error != CLOUDABI_ESUCCESS || (call->act != READ && call->act != RECEIVE))
        return;
    for (size_t i = 0; i < call->count; ++i)
        if (call->bytes[i] != letters[i])
            say(" of other bytes");
}

static void try_call(const struct state *state, const char *name, struct call call)
{
    cloudabi_fd_t ends[2];
    bool is_closed = state->other == CLOSED;
    make_state(state, ends);
    call.fd = ends[0];
    call.room = 10;
    if (call.act == SEND)
        call.fds[0] = output;
    say(" ");
    say(name);
    say(" ");
    if (state->waits) {
        is_closed = call_in_thread(state, &call, ends[1]);
    } else {
        set_range(&call);
        make_call(&call);
    }
    say_result(&call);
    check_bytes(&call);
    for (size_t i = 0; i < call.fds_count; ++i)
        close_end(call.fds[i]);
    close_end(ends[0]);
    if (!is_closed)
        close_end(ends[1]);
}

static void try_state(const struct state *state)
{
    bool is_pipe = state->type == FIFO;
    say(is_pipe ? state->is_second ? "writing " : "reading " : "");
    say(shut_names[state->own]);
    say(" ");
    say(shut_names[state->other]);
    say(" ");
    say(fill_names[state->fill]);
    say(state->waits ? " -:" : " NONBLOCK:");
    for (size_t i = 0; i < sizeof calls / sizeof calls[0]; ++i)
        if (!is_pipe || calls[i].call.act == (state->is_second ? WRITE : READ))
            try_call(state, calls[i].name, calls[i].call);
    end_line();
}

/* Descriptors go through pairs alone, and these alone are shut. */
static void try_states(uint32_t type, bool is_second)
{
    struct state state = {.type = type, .is_second = is_second};
    bool is_pair = type == STREAM;
    for (state.own = 0; state.own < (is_pair ? SHUTS : 1); ++state.own)
        for (state.other = 0; state.other <= CLOSED; state.other += is_pair ? 1 : CLOSED)
            for (state.fill = NOTHING; state.fill < (is_pair ? FILLS : CARRIED); ++state.fill)
                for (int waits = 1; waits >= 0; --waits) {
                    state.waits = waits;
                    try_state(&state);
                }
}

void program_main(const argdata_t *arguments)
{
    const char *end = begin_program(arguments);
    if (same_text(end, "pipe")) {
        try_states(FIFO, false);
        try_states(FIFO, true);
    } else if (same_text(end, "first") || same_text(end, "second")) {
        try_states(STREAM, same_text(end, "second"));
    } else {
        cloudabi_sys_proc_exit(255);
    }
}

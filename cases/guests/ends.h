/*
 * Threads of a guest without the C library, each of which makes one call on an end of a channel, and what they need. Where a call fails
 * that should succeed, the program exits with 1.
 */
#ifndef ENDS_H
#define ENDS_H

#include "argdata.h"

#define WRITE_LOCKED UINT32_C(0x40000000)
#define MILLISECOND UINT64_C(1000000)
#define FIFO CLOUDABI_FILETYPE_FIFO
#define STREAM CLOUDABI_FILETYPE_SOCKET_STREAM
#define PEEK CLOUDABI_SOCK_RECV_PEEK
#define WAITALL CLOUDABI_SOCK_RECV_WAITALL
#define RD CLOUDABI_SHUT_RD
#define WR CLOUDABI_SHUT_WR
#define NONBLOCK CLOUDABI_FDFLAG_NONBLOCK

/* The descriptor that texts are written to. */
static cloudabi_fd_t output;

static inline void expect(cloudabi_errno_t error)
{
    if (error != CLOUDABI_ESUCCESS)
        cloudabi_sys_proc_exit(1);
}

/* ---- texts */

static char line[4096];
static size_t line_length;

static inline void say(const char *text)
{
    while (*text != 0 && line_length < sizeof line)
        line[line_length++] = *text++;
}

static inline void say_number(uint64_t number)
{
    if (number >= 10)
        say_number(number / 10);
    say((char[]){(char)('0' + number % 10), 0});
}

static inline void say_error(cloudabi_errno_t error)
{
    static const char *const names[] = {
        [CLOUDABI_EAGAIN] = "AGAIN", [CLOUDABI_EBADF] = "BADF", [CLOUDABI_EFAULT] = "FAULT", [CLOUDABI_EMFILE] = "MFILE",
        [CLOUDABI_ENOTCAPABLE] = "NOTCAPABLE", [CLOUDABI_ENOTSOCK] = "NOTSOCK", [CLOUDABI_EPIPE] = "PIPE",
    };
    if (error < sizeof names / sizeof names[0] && names[error] != NULL) {
        say(names[error]);
    } else {
        say("error ");
        say_number(error);
    }
}

static inline void end_line(void)
{
    size_t count;
    say("\n");
    cloudabi_iovec_t range = {line, line_length};
    expect(cloudabi_sys_fd_write(output, &range, 1, &count));
    line_length = 0;
}

/* ---- time */

/* Waits until all other threads wait or have ended, and so long by the clock MONOTONIC. */
static inline void sleep_for(uint64_t timeout)
{
    cloudabi_subscription_t subscription = {.kind = CLOUDABI_EVENTTYPE_CLOCK};
    cloudabi_event_t event;
    size_t events;
    subscription.clock.clock = CLOUDABI_CLOCK_MONOTONIC;
    subscription.clock.timeout = timeout;
    expect(cloudabi_sys_poll(&subscription, &event, 1, &events));
}

/* ---- calls on ends */

enum act { READ, RECEIVE, WRITE, SEND };

/* A call, and what came of it: the error, how many bytes, how many descriptors, the flags, and the bytes that were read. */
struct call {
    enum act act;
    cloudabi_fd_t fd;
    uint16_t flags;
    size_t room; /* for bytes, or how many are written */
    size_t fds_room; /* for descriptors, or how many are sent */
    cloudabi_fd_t fds[16];
    cloudabi_iovec_t range;
    char bytes[64];
    cloudabi_errno_t error;
    size_t count, fds_count;
    uint16_t came;
};

/* What is written: the letters in turn. */
static char letters[65536];

static inline void fill_letters(void)
{
    for (size_t i = 0; i < sizeof letters; ++i)
        letters[i] = (char)('a' + i % 26);
}

static inline void make_call(struct call *call)
{
    cloudabi_recv_out_t received = {0};
    cloudabi_send_out_t sent = {0};
    size_t count = 0;
    switch (call->act) {
    case READ:
        call->error = cloudabi_sys_fd_read(call->fd, &call->range, 1, &count);
        break;
    case WRITE:
        call->error = cloudabi_sys_fd_write(call->fd, &call->range, 1, &count);
        break;
    case RECEIVE: {
        cloudabi_recv_in_t in = {&call->range, 1, call->fds, call->fds_room, call->flags};
        call->error = cloudabi_sys_sock_recv(call->fd, &in, &received);
        count = received.datalen;
        break;
    }
    case SEND: {
        cloudabi_send_in_t in = {&call->range, 1, call->fds, call->fds_room, 0};
        call->error = cloudabi_sys_sock_send(call->fd, &in, &sent);
        count = sent.datalen;
        break;
    }
    }
    call->count = count;
    call->fds_count = received.fdslen;
    call->came = received.flags;
}

static inline void set_range(struct call *call)
{
    bool writes = call->act == WRITE || call->act == SEND;
    call->range = (cloudabi_iovec_t){writes ? letters : call->bytes, call->room};
}

/* The error, or how many bytes and descriptors. */
static inline void say_result(const struct call *call)
{
    if (call->error != CLOUDABI_ESUCCESS) {
        say_error(call->error);
        return;
    }
    say_number(call->count);
    if (call->fds_count != 0) {
        say("+");
        say_number(call->fds_count);
    }
    if (call->came == CLOUDABI_SOCK_RECV_FDS_TRUNCATED)
        say("cut");
    else if (call->came != 0)
        say("?");
}

/* Calls of the thread that asks, which must succeed. */

static inline size_t write_to(cloudabi_fd_t fd, size_t length)
{
    struct call call = {.act = WRITE, .fd = fd, .room = length};
    set_range(&call);
    make_call(&call);
    expect(call.error);
    return call.count;
}

/* Reads up to 64 bytes. */
static inline size_t read_from(cloudabi_fd_t fd, size_t length)
{
    struct call call = {.act = READ, .fd = fd, .room = length};
    set_range(&call);
    make_call(&call);
    expect(call.error);
    return call.count;
}

/* Sends bytes, and so many times this descriptor. */
static inline void send_to(cloudabi_fd_t fd, size_t length, cloudabi_fd_t sent, size_t times)
{
    struct call call = {.act = SEND, .fd = fd, .room = length, .fds_room = times};
    for (size_t i = 0; i < times; ++i)
        call.fds[i] = sent;
    set_range(&call);
    make_call(&call);
    expect(call.error);
}

static inline void set_flags(cloudabi_fd_t fd, uint16_t flags)
{
    cloudabi_fdstat_t stat = {.flags = flags};
    expect(cloudabi_sys_fd_stat_put(fd, &stat, CLOUDABI_FDSTAT_FLAGS));
}

static inline void shut(cloudabi_fd_t fd, uint32_t how)
{
    expect(cloudabi_sys_sock_shutdown(fd, how));
}

static inline void close_end(cloudabi_fd_t fd)
{
    expect(cloudabi_sys_fd_close(fd));
}

/* ---- threads */

/* A thread, and the call that it makes. Its word is 1 until it has ended; it is a lock that the thread's last call releases. */
struct thread {
    uint32_t word;
    struct call call;
    void (*body)(struct thread *self);
    _Alignas(16) unsigned char stack[2048];
};

static inline void make_own_call(struct thread *self)
{
    make_call(&self->call);
}

static inline void begin_thread(cloudabi_tid_t tid, void *argument)
{
    struct thread *self = argument;
    self->body(self);
    __atomic_store_n(&self->word, WRITE_LOCKED | tid, __ATOMIC_RELEASE);
    expect(cloudabi_sys_thread_exit(&self->word, CLOUDABI_SCOPE_PRIVATE));
    cloudabi_sys_proc_exit(1);
}

static inline void start_body(struct thread *thread, void (*body)(struct thread *))
{
    cloudabi_threadattr_t attributes = {(void *)begin_thread, thread->stack, sizeof thread->stack, thread};
    cloudabi_tid_t tid;
    thread->word = 1;
    thread->body = body;
    expect(cloudabi_sys_thread_create(&attributes, &tid));
}

static inline void start_call(struct thread *thread, struct call call)
{
    thread->call = call;
    set_range(&thread->call);
    start_body(thread, make_own_call);
}

static inline bool has_ended(struct thread *thread)
{
    return __atomic_load_n(&thread->word, __ATOMIC_ACQUIRE) == 0;
}

/* The descriptor and the text of the argument data, which is a sequence of both. */
static inline const char *begin_program(const argdata_t *arguments)
{
    argdata_t item;
    argdata_rest_t rest;
    const char *name;
    size_t length;
    if (!argdata_seq_begin(arguments, &rest) || !argdata_seq_next(&rest, &item) || !argdata_get_fd(&item, &output) ||
        !argdata_seq_next(&rest, &item) || !argdata_get_str(&item, &name, &length))
        cloudabi_sys_proc_exit(255);
    fill_letters();
    return name;
}

static inline bool same_text(const char *text, const char *other)
{
    while (*text != 0 && *text == *other)
        ++text, ++other;
    return *text == *other;
}

#endif

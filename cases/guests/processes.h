/*
 * Processes of a guest without the C library. What is tried is a line: children write to a pipe, and the process that made them hears all
 * that comes until nobody has its writing end any more, and says that they have ended. Where one lives on, the run stalls.
 */
#ifndef PROCESSES_H
#define PROCESSES_H

#include "ends.h"

/* The pipe, and how many descriptors the launch gave, which stay. */
static cloudabi_fd_t told[2];
static cloudabi_fd_t given = 1;

/* Begins a line with no descriptor of before, and with a pipe. */
static inline void begin(const char *what)
{
    for (cloudabi_fd_t fd = given; fd < 40; ++fd)
        cloudabi_sys_fd_close(fd);
    expect(cloudabi_sys_fd_create2(FIFO, &told[0], &told[1]));
    say(what);
    say(":");
}

/* Makes a child: true in it, where the pipe can only be written. */
static inline bool in_child(cloudabi_fd_t *process)
{
    cloudabi_tid_t thread;
    expect(cloudabi_sys_proc_fork(process, &thread));
    if (*process != CLOUDABI_PROCESS_CHILD)
        return false;
    cloudabi_sys_fd_close(told[0]);
    line_length = 0;
    return true;
}

/* Writes the line of a child to the pipe. */
static inline void tell_line(void)
{
    cloudabi_iovec_t range = {line, line_length};
    size_t count;
    expect(cloudabi_sys_fd_write(told[1], &range, 1, &count));
    line_length = 0;
}

static inline void tell(const char *text)
{
    say(text);
    tell_line();
}

/* Says what comes until a byte of this value, or, for 0, until the end. */
static inline void hear_until(char last)
{
    size_t count;
    do {
        cloudabi_iovec_t range = {line + line_length, 1};
        expect(cloudabi_sys_fd_read(told[0], &range, 1, &count));
        line_length += count;
    } while (count > 0 && (last == 0 || line[line_length - 1] != last));
    if (count == 0)
        say(" ended");
}

/* Lets go of the writing end, and says all that comes. */
static inline void hear(void)
{
    close_end(told[1]);
    hear_until(0);
    end_line();
}

/* An error that calls on processes answer, or SUCCESS. */
static inline void say_answer(cloudabi_errno_t error)
{
    static const char *const names[] = {
        [CLOUDABI_ESUCCESS] = "SUCCESS", [CLOUDABI_E2BIG] = "2BIG", [CLOUDABI_EINVAL] = "INVAL", [CLOUDABI_ENOEXEC] = "NOEXEC",
        [CLOUDABI_ENOTSUP] = "NOTSUP",
    };
    if (error < sizeof names / sizeof names[0] && names[error] != NULL)
        say(names[error]);
    else
        say_error(error);
}

/* Waits for ever. */
_Noreturn static inline void wait_for_ever(void)
{
    cloudabi_fd_t ends[2];
    expect(cloudabi_sys_fd_create2(FIFO, &ends[0], &ends[1]));
    read_from(ends[0], 1);
    cloudabi_sys_proc_exit(1);
}

_Noreturn static inline void spin(void)
{
    for (;;)
        __asm__ volatile("" ::: "memory");
}

/* Receives a byte with a descriptor. */
static inline cloudabi_fd_t receive_from(cloudabi_fd_t fd)
{
    struct call call = {.act = RECEIVE, .fd = fd, .room = 1, .fds_room = 1};
    set_range(&call);
    make_call(&call);
    expect(call.error);
    expect(call.fds_count == 1 ? CLOUDABI_ESUCCESS : CLOUDABI_EBADF);
    return call.fds[0];
}

static inline void say_hexadecimal(uint64_t number)
{
    if (number >= 16)
        say_hexadecimal(number / 16);
    say((char[]){"0123456789abcdef"[number % 16], 0});
}

static inline void say_bytes(const unsigned char *bytes, size_t length)
{
    for (size_t i = 0; i < length; ++i)
        say((char[]){"0123456789abcdef"[bytes[i] / 16], "0123456789abcdef"[bytes[i] % 16], 0});
}

/* The number of a new object: its maker's process, and the count. */
static inline void say_new_object(void)
{
    cloudabi_fd_t ends[2];
    cloudabi_filestat_t stat;
    expect(cloudabi_sys_fd_create2(FIFO, &ends[0], &ends[1]));
    expect(cloudabi_sys_file_stat_fget(ends[0], &stat));
    say(" object ");
    say_hexadecimal(stat.ino >> 32);
    say(".");
    say_number(stat.ino & UINT32_MAX);
    close_end(ends[0]);
    close_end(ends[1]);
}

static inline void say_random(void)
{
    unsigned char bytes[8];
    expect(cloudabi_sys_random_get(bytes, sizeof bytes));
    say(" random ");
    say_bytes(bytes, sizeof bytes);
}

#endif

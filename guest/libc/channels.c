/* Pipes and pairs of sockets: what makes them. */
#define _GNU_SOURCE
#include "system.h"

#include <errno.h>
#include <fcntl.h>
#include <sys/socket.h>
#include <unistd.h>

static int refuse(int error)
{
    errno = error;
    return -1;
}

/* File descriptors for two ends. Where only one is free neither end stays. */
static int take_ends(cloudabi_fd_t first, cloudabi_fd_t second, int fds[2], bool closes_on_exec)
{
    int one = take_descriptor(first, 0, closes_on_exec);
    if (one < 0) {
        cloudabi_sys_fd_close(second);
        return -1;
    }
    int other = take_descriptor(second, 0, closes_on_exec);
    if (other < 0) {
        close(one);
        return refuse(EMFILE);
    }
    fds[0] = one;
    fds[1] = other;
    return 0;
}

static int make_ends(uint32_t kind, int fds[2], bool waits, bool closes_on_exec)
{
    cloudabi_fd_t first, second;
    if (result(cloudabi_sys_fd_create2(kind, &first, &second)) != 0 || take_ends(first, second, fds, closes_on_exec) != 0)
        return -1;
    for (int at = 0; at < 2 && !waits; ++at)
        fcntl(fds[at], F_SETFL, O_NONBLOCK);
    return 0;
}

int pipe2(int fds[2], int flags)
{
    if ((flags & ~(O_NONBLOCK | O_CLOEXEC)) != 0)
        return refuse(EINVAL);
    return make_ends(CLOUDABI_FILETYPE_FIFO, fds, !(flags & O_NONBLOCK), (flags & O_CLOEXEC) != 0);
}

int pipe(int fds[2])
{
    return pipe2(fds, 0);
}

int socketpair(int domain, int type, int protocol, int fds[2])
{
    if (domain != AF_UNIX)
        return refuse(EAFNOSUPPORT);
    if ((type & ~(SOCK_NONBLOCK | SOCK_CLOEXEC)) != SOCK_STREAM)
        return refuse(EPROTOTYPE);
    if (protocol != 0)
        return refuse(EPROTONOSUPPORT);
    return make_ends(CLOUDABI_FILETYPE_SOCKET_STREAM, fds, !(type & SOCK_NONBLOCK), (type & SOCK_CLOEXEC) != 0);
}

/* Sending and receiving by sockets: bytes, and descriptors that travel with them. */
#define _GNU_SOURCE
#include "ranges.h"

#include <errno.h>
#include <limits.h>
#include <string.h>
#include <sys/socket.h>

#define MOST_CARRIED 16 /* descriptors that one message carries */

static int refuse(int error)
{
    errno = error;
    return -1;
}

/* What is no socket is ENOTSOCK, whether or not it lacks a right. */
static int refused(int fd, cloudabi_errno_t error)
{
    if (error != CLOUDABI_ENOTCAPABLE || is_socket(descriptor_kind(fd)))
        return result(error);
    return refuse(ENOTSOCK);
}

static bool has_ranges(const struct msghdr *message)
{
    if (message->msg_iovlen < 0 || message->msg_iovlen > IOV_MAX)
        errno = EMSGSIZE;
    return message->msg_iovlen >= 0 && message->msg_iovlen <= IOV_MAX;
}

static struct ranges ranges_of(const struct msghdr *message)
{
    return (struct ranges){.left = message->msg_iov, .count = (size_t)message->msg_iovlen};
}

/* Sending. */

/* Descriptors that a message is to carry. */
struct carried {
    cloudabi_fd_t fds[MOST_CARRIED];
    size_t count;
};

/* The descriptors of one list of file descriptors, behind those that are there. */
static int carry(struct carried *carried, const struct cmsghdr *head)
{
    size_t count = (head->cmsg_len - CMSG_LEN(0)) / sizeof(int);
    if (carried->count + count > MOST_CARRIED)
        return refuse(EINVAL);
    for (size_t at = 0; at < count; ++at) {
        int fd;
        memcpy(&fd, CMSG_DATA(head) + at * sizeof fd, sizeof fd);
        carried->fds[carried->count] = descriptor(fd);
        if (carried->fds[carried->count++] == NO_DESCRIPTOR)
            return refuse(EBADF);
    }
    return 0;
}

static int take_carried(const struct msghdr *message, struct carried *carried)
{
    const char *end = (const char *)message->msg_control + message->msg_controllen;
    carried->count = 0;
    for (struct cmsghdr *head = CMSG_FIRSTHDR(message); head != NULL; head = CMSG_NXTHDR(message, head)) {
        if (head->cmsg_len < CMSG_LEN(0) || head->cmsg_len > (size_t)(end - (const char *)head))
            return refuse(EINVAL);
        if (head->cmsg_level != SOL_SOCKET || head->cmsg_type != SCM_RIGHTS)
            return refuse(EINVAL);
        if (carry(carried, head) != 0)
            return -1;
    }
    return 0;
}

/* The descriptors go with the first byte. */
static ssize_t send_all(int fd, struct ranges ranges, const struct carried *carried)
{
    size_t done = 0;
    do {
        cloudabi_send_in_t in = {.fds = carried->fds, .fds_count = done == 0 ? carried->count : 0};
        cloudabi_send_out_t out;
        in.iovs = ranges_of_call(&ranges, &in.iovs_count);
        cloudabi_errno_t error = cloudabi_sys_sock_send(descriptor(fd), &in, &out);
        if (error != CLOUDABI_ESUCCESS)
            return done > 0 ? (ssize_t)done : refused(fd, error);
        done += out.datalen;
        pass_ranges(&ranges, out.datalen);
    } while (bytes_of_call(&ranges) > 0);
    return (ssize_t)done;
}

ssize_t sendmsg(int fd, const struct msghdr *message, int flags)
{
    struct carried carried;
    if ((flags & ~(MSG_NOSIGNAL | MSG_EOR | MSG_DONTROUTE)) != 0)
        return refuse(EOPNOTSUPP);
    if (!has_ranges(message) || take_carried(message, &carried) != 0)
        return -1;
    if (message->msg_namelen != 0) {
        uint8_t kind = descriptor_kind(fd);
        return refuse(kind == 0 ? EBADF : is_socket(kind) ? EISCONN : ENOTSOCK);
    }
    return send_all(fd, ranges_of(message), &carried);
}

ssize_t sendto(int fd, const void *bytes, size_t size, int flags, const struct sockaddr *address, socklen_t length)
{
    struct iovec range = {(void *)bytes, size < SSIZE_MAX ? size : SSIZE_MAX};
    struct msghdr message = {.msg_name = (void *)address, .msg_namelen = address == NULL ? 0 : length, .msg_iov = &range, .msg_iovlen = 1};
    return sendmsg(fd, &message, flags);
}

ssize_t send(int fd, const void *bytes, size_t size, int flags)
{
    return sendto(fd, bytes, size, flags, NULL, 0);
}

/* Receiving. */

/* What has come. */
struct received {
    size_t bytes;
    cloudabi_fd_t fds[MOST_CARRIED];
    size_t fds_count;
    uint16_t flags;
};

/* How many descriptors there is room for. */
static size_t room_for_descriptors(const struct msghdr *message)
{
    size_t room = message->msg_controllen < CMSG_LEN(0) ? 0 : (message->msg_controllen - CMSG_LEN(0)) / sizeof(int);
    return room < MOST_CARRIED ? room : MOST_CARRIED;
}

static cloudabi_errno_t receive_once(int fd, struct ranges *ranges, size_t room, uint16_t flags, struct received *received)
{
    cloudabi_recv_in_t in = {.fds = received->fds, .fds_count = room, .flags = flags};
    cloudabi_recv_out_t out;
    in.iovs = ranges_of_call(ranges, &in.iovs_count);
    cloudabi_errno_t error = cloudabi_sys_sock_recv(descriptor(fd), &in, &out);
    if (error != CLOUDABI_ESUCCESS)
        return error;
    received->bytes += out.datalen;
    received->fds_count = out.fdslen;
    received->flags = out.flags;
    pass_ranges(ranges, out.datalen);
    return error;
}

/* One call gives all that waits; only to wait for all of more than that takes further ones. Behind descriptors nothing is waited for, and
   a socket that never waits gives what there is. */
static cloudabi_errno_t receive(int fd, struct ranges ranges, size_t room, uint16_t flags, struct received *received)
{
    bool is_full;
    *received = (struct received){0};
    do {
        size_t before = received->bytes, asked = bytes_of_call(&ranges);
        cloudabi_errno_t error = receive_once(fd, &ranges, room, flags, received);
        if (error == CLOUDABI_EAGAIN && (flags & CLOUDABI_SOCK_RECV_WAITALL)) {
            flags &= (uint16_t)~CLOUDABI_SOCK_RECV_WAITALL;
            error = receive_once(fd, &ranges, room, flags, received);
        }
        if (error != CLOUDABI_ESUCCESS)
            return received->bytes > 0 ? CLOUDABI_ESUCCESS : error;
        is_full = received->bytes - before == asked && received->fds_count == 0 && received->flags == 0;
    } while (flags == CLOUDABI_SOCK_RECV_WAITALL && is_full && bytes_of_call(&ranges) > 0);
    return CLOUDABI_ESUCCESS;
}

/* Gives descriptors that came file descriptors. Those for which none is left are cut off. */
static void put_carried(struct msghdr *message, struct received *received, bool closes_on_exec)
{
    struct cmsghdr head = {.cmsg_level = SOL_SOCKET, .cmsg_type = SCM_RIGHTS};
    size_t count = 0;
    for (size_t at = 0; at < received->fds_count; ++at) {
        int fd = take_descriptor(received->fds[at], 0, closes_on_exec);
        if (fd < 0) {
            received->flags |= CLOUDABI_SOCK_RECV_FDS_TRUNCATED;
            continue;
        }
        memcpy((char *)message->msg_control + CMSG_LEN(count++ * sizeof fd), &fd, sizeof fd);
    }
    socklen_t space = count == 0 ? 0 : (socklen_t)CMSG_SPACE(count * sizeof(int));
    head.cmsg_len = (socklen_t)CMSG_LEN(count * sizeof(int));
    if (count > 0)
        memcpy(message->msg_control, &head, sizeof head);
    if (space < message->msg_controllen)
        message->msg_controllen = space;
}

ssize_t recvmsg(int fd, struct msghdr *message, int flags)
{
    struct received received;
    if ((flags & ~(MSG_PEEK | MSG_WAITALL | MSG_NOSIGNAL | MSG_CMSG_CLOEXEC)) != 0)
        return refuse(EOPNOTSUPP);
    if (!has_ranges(message))
        return -1;
    uint16_t how = (flags & MSG_PEEK ? CLOUDABI_SOCK_RECV_PEEK : 0) | (flags & MSG_WAITALL ? CLOUDABI_SOCK_RECV_WAITALL : 0);
    cloudabi_errno_t error = receive(fd, ranges_of(message), room_for_descriptors(message), how, &received);
    if (error != CLOUDABI_ESUCCESS)
        return refused(fd, error);
    int error_before = errno;
    put_carried(message, &received, (flags & MSG_CMSG_CLOEXEC) != 0);
    errno = error_before;
    message->msg_namelen = 0;
    message->msg_flags = (received.flags & CLOUDABI_SOCK_RECV_FDS_TRUNCATED ? MSG_CTRUNC : 0)
                       | (received.flags & CLOUDABI_SOCK_RECV_DATA_TRUNCATED ? MSG_TRUNC : 0);
    return (ssize_t)received.bytes;
}

ssize_t recvfrom(int fd, void *restrict bytes, size_t size, int flags, struct sockaddr *restrict address, socklen_t *restrict length)
{
    struct iovec range = {bytes, size < SSIZE_MAX ? size : SSIZE_MAX};
    struct msghdr message = {.msg_iov = &range, .msg_iovlen = 1};
    ssize_t count = recvmsg(fd, &message, flags);
    if (count >= 0 && address != NULL)
        *length = 0;
    return count;
}

ssize_t recv(int fd, void *bytes, size_t size, int flags)
{
    return recvfrom(fd, bytes, size, flags, NULL, NULL);
}

/* The sides that C counts from 0 on are bits of the sandbox's. */
int shutdown(int fd, int how)
{
    if (how != SHUT_RD && how != SHUT_WR && how != SHUT_RDWR)
        return refuse(EINVAL);
    return refused(fd, cloudabi_sys_sock_shutdown(descriptor(fd), (uint32_t)how + 1));
}

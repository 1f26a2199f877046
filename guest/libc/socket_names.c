/* Names and options of sockets. None has a name, since a pair needs none, and nothing from outside can be reached. */
#define _GNU_SOURCE
#include "system.h"

#include <errno.h>
#include <string.h>
#include <sys/socket.h>

#define ROOM_OF_SOCKET 65536 /* bytes that wait at most */

static int refuse(int error)
{
    errno = error;
    return -1;
}

static int if_socket(int fd)
{
    uint8_t kind = descriptor_kind(fd);
    return kind == 0 ? refuse(EBADF) : is_socket(kind) ? 0 : refuse(ENOTSOCK);
}

/* A name is the family alone, cut off where there is less room. */
int getsockname(int fd, struct sockaddr *restrict address, socklen_t *restrict length)
{
    sa_family_t family = AF_UNIX;
    if (if_socket(fd) != 0)
        return -1;
    memcpy(address, &family, *length < sizeof family ? *length : sizeof family);
    *length = sizeof family;
    return 0;
}

int getpeername(int fd, struct sockaddr *restrict address, socklen_t *restrict length)
{
    return getsockname(fd, address, length);
}

/* The value of an option that there is, or -1. */
static int option_of(int level, int option)
{
    if (level != SOL_SOCKET)
        return -1;
    switch (option) {
    case SO_TYPE: return SOCK_STREAM;
    case SO_DOMAIN: return AF_UNIX;
    case SO_SNDBUF: case SO_RCVBUF: return ROOM_OF_SOCKET;
    case SO_ERROR: case SO_PROTOCOL: case SO_ACCEPTCONN: return 0;
    default: return -1;
    }
}

int getsockopt(int fd, int level, int option, void *restrict value, socklen_t *restrict length)
{
    int found = option_of(level, option);
    if (if_socket(fd) != 0)
        return -1;
    if (found < 0)
        return refuse(ENOPROTOOPT);
    if (*length > sizeof found)
        *length = sizeof found;
    memcpy(value, &found, *length);
    return 0;
}

/* The room is as it is: to ask for another one is a wish. */
int setsockopt(int fd, int level, int option, const void *value, socklen_t length)
{
    (void)value, (void)length;
    if (if_socket(fd) != 0)
        return -1;
    return level == SOL_SOCKET && (option == SO_SNDBUF || option == SO_RCVBUF) ? 0 : refuse(ENOPROTOOPT);
}

int sockatmark(int fd)
{
    return if_socket(fd);
}

/* What has a name, or a partner outside, isn't there. */

int socket(int domain, int type, int protocol)
{
    (void)domain, (void)type, (void)protocol;
    return refuse(ENOSYS);
}

int bind(int fd, const struct sockaddr *address, socklen_t length)
{
    (void)fd, (void)address, (void)length;
    return refuse(ENOSYS);
}

int connect(int fd, const struct sockaddr *address, socklen_t length)
{
    return bind(fd, address, length);
}

int listen(int fd, int waiting)
{
    (void)fd, (void)waiting;
    return refuse(ENOSYS);
}

int accept4(int fd, struct sockaddr *restrict address, socklen_t *restrict length, int flags)
{
    (void)fd, (void)address, (void)length, (void)flags;
    return refuse(ENOSYS);
}

int accept(int fd, struct sockaddr *restrict address, socklen_t *restrict length)
{
    return accept4(fd, address, length, 0);
}

/* Files and standard streams are always ready. */
#ifndef _POLL_H
#define _POLL_H

#include <signal.h>
#include <time.h>

#ifdef __cplusplus
extern "C" {
#endif

struct pollfd {
    int fd;
    short events, revents;
};

typedef unsigned long nfds_t;

#define POLLIN 0x1
#define POLLPRI 0x2
#define POLLOUT 0x4
#define POLLERR 0x8
#define POLLHUP 0x10
#define POLLNVAL 0x20
#define POLLRDNORM 0x40
#define POLLWRNORM 0x100

int poll(struct pollfd fds[], nfds_t count, int timeout);
int ppoll(struct pollfd fds[], nfds_t count, const struct timespec *time, const sigset_t *mask);

#ifdef __cplusplus
}
#endif

#endif

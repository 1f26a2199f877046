/*
 * Waiting for descriptors. What isn't an end of a pipe or of a pair of sockets is always ready for what its rights allow. For the others
 * the sandbox is asked, as many at once as one call takes.
 */
#define _GNU_SOURCE
#include "system.h"

#include <errno.h>
#include <poll.h>
#include <pthread.h>
#include <stdlib.h>
#include <string.h>
#include <sys/select.h>

#define MOST_SUBSCRIPTIONS 256
#define TO_READ (POLLIN | POLLRDNORM)
#define TO_WRITE (POLLOUT | POLLWRNORM)

/* What one call of the sandbox is asked: the userdata of a subscription is the place of its pollfd. */
struct question {
    cloudabi_subscription_t subscriptions[MOST_SUBSCRIPTIONS];
    cloudabi_event_t events[MOST_SUBSCRIPTIONS];
    size_t count;
};

static bool ask(struct question *question, uint8_t kind, uint64_t place, cloudabi_fd_t fd)
{
    if (question->count == MOST_SUBSCRIPTIONS - 1)
        return false;
    cloudabi_subscription_t *added = &question->subscriptions[question->count++];
    *added = (cloudabi_subscription_t){.userdata = place, .kind = kind};
    added->fd_readwrite.fd = fd;
    return true;
}

/* Adds a time from now on, which never comes where there is none. */
static void ask_time(struct question *question, const struct timespec *time)
{
    cloudabi_subscription_t *added = &question->subscriptions[question->count++];
    *added = (cloudabi_subscription_t){.kind = CLOUDABI_EVENTTYPE_CLOCK};
    added->clock.clock = CLOUDABI_CLOCK_MONOTONIC;
    added->clock.timeout = time == NULL ? UINT64_MAX : nanoseconds_of(time);
}

/* Asks for one descriptor what it is to be ready for. What is ready at once is told here. False where it is too much for one call. */
static bool prepare(struct question *question, struct pollfd *one, uint64_t place)
{
    cloudabi_fdstat_t status;
    one->revents = 0;
    if (one->fd < 0)
        return true;
    cloudabi_fd_t fd = descriptor(one->fd);
    if (cloudabi_sys_fd_stat_get(fd, &status) != CLOUDABI_ESUCCESS) {
        one->revents = POLLNVAL;
        return true;
    }
    int reads = status.base & CLOUDABI_RIGHT_FD_READ ? one->events & TO_READ : 0;
    int writes = status.base & CLOUDABI_RIGHT_FD_WRITE ? one->events & TO_WRITE : 0;
    if (!is_end(status.kind)) {
        one->revents = (short)(reads | writes);
        return true;
    }
    return (reads == 0 || ask(question, CLOUDABI_EVENTTYPE_FD_READ, place, fd))
        && (writes == 0 || ask(question, CLOUDABI_EVENTTYPE_FD_WRITE, place, fd));
}

/* Whether the other side of a socket takes no bytes any more either. */
static bool is_gone(cloudabi_fd_t fd)
{
    struct question question = {.count = 0};
    size_t count;
    ask(&question, CLOUDABI_EVENTTYPE_FD_WRITE, 0, fd);
    ask_time(&question, &(struct timespec){0});
    return cloudabi_sys_poll(question.subscriptions, question.events, 2, &count) == CLOUDABI_ESUCCESS
        && question.events[0].kind == CLOUDABI_EVENTTYPE_FD_WRITE && (question.events[0].fd_readwrite.flags & CLOUDABI_EVENT_FD_READWRITE_HANGUP);
}

/* A pipe that nobody writes any more hangs up; a socket's end is a thing to read. Who writes where nobody reads fails. */
static int ways_of(const cloudabi_event_t *event, const struct pollfd *one)
{
    bool is_hung_up = (event->fd_readwrite.flags & CLOUDABI_EVENT_FD_READWRITE_HANGUP) != 0;
    bool reads = event->kind == CLOUDABI_EVENTTYPE_FD_READ, is_pipe = !is_socket(descriptor_kind(one->fd));
    int ways = one->events & (reads ? TO_READ : TO_WRITE);
    if (!is_hung_up)
        return ways;
    if (!reads)
        return ways | (is_pipe ? POLLERR : POLLHUP);
    if (is_pipe)
        return (event->fd_readwrite.nbytes > 0 ? ways : 0) | POLLHUP;
    return ways | (is_gone(descriptor(one->fd)) ? POLLHUP : 0);
}

static int count_ready(const struct pollfd *fds, nfds_t count)
{
    int ready = 0;
    for (nfds_t at = 0; at < count; ++at)
        ready += fds[at].revents != 0;
    return ready;
}

/* A descriptor that was closed meanwhile is told where it is looked at again. */
static int wait_for(struct pollfd *fds, nfds_t count, const struct timespec *time, struct question *question)
{
    static const struct timespec none;
    size_t found;
    question->count = 0;
    for (nfds_t at = 0; at < count; ++at) {
        if (!prepare(question, &fds[at], at)) {
            errno = EINVAL;
            return -1;
        }
    }
    int ready = count_ready(fds, count);
    if (ready > 0 && question->count == 0)
        return ready;
    ask_time(question, ready > 0 ? &none : time);
    cloudabi_errno_t error = cloudabi_sys_poll(question->subscriptions, question->events, question->count, &found);
    if (error == CLOUDABI_EBADF)
        return wait_for(fds, count, &none, question);
    if (error != CLOUDABI_ESUCCESS)
        return result(error);
    for (size_t at = 0; at < found; ++at) {
        struct pollfd *one = &fds[question->events[at].userdata];
        if (question->events[at].kind != CLOUDABI_EVENTTYPE_CLOCK)
            one->revents |= (short)ways_of(&question->events[at], one);
    }
    return count_ready(fds, count);
}

static int poll_until(struct pollfd *fds, nfds_t count, const struct timespec *time)
{
    if (time != NULL && (time->tv_sec < 0 || time->tv_nsec < 0 || time->tv_nsec >= 1000000000L)) {
        errno = EINVAL;
        return -1;
    }
    pthread_testcancel();
    struct question *question = malloc(sizeof *question);
    if (question == NULL)
        return -1;
    int ready = wait_for(fds, count, time, question);
    int error = errno;
    free(question);
    errno = error;
    return ready;
}

int poll(struct pollfd fds[], nfds_t count, int timeout)
{
    struct timespec time = {.tv_sec = timeout / 1000, .tv_nsec = timeout % 1000 * 1000000L};
    return poll_until(fds, count, timeout < 0 ? NULL : &time);
}

/* No signal comes from outside, so the mask holds none back. */
int ppoll(struct pollfd fds[], nfds_t count, const struct timespec *time, const sigset_t *mask)
{
    (void)mask;
    return poll_until(fds, count, time);
}

/* ---- sets */

static bool is_in(const fd_set *set, int fd)
{
    return set != NULL && FD_ISSET(fd, set);
}

/* The descriptors of the sets; how many. */
static nfds_t take_sets(int most, const fd_set *reading, const fd_set *writing, struct pollfd *fds)
{
    nfds_t count = 0;
    for (int fd = 0; fd < most; ++fd) {
        int events = (is_in(reading, fd) ? POLLIN : 0) | (is_in(writing, fd) ? POLLOUT : 0);
        if (events != 0)
            fds[count++] = (struct pollfd){.fd = fd, .events = (short)events};
    }
    return count;
}

/* Leaves one in a set where it is ready: 1, or 0. */
static int keep(fd_set *set, const struct pollfd *one, int event, int ways)
{
    if (!(one->events & event))
        return 0;
    if (one->revents & ways)
        return 1;
    FD_CLR(one->fd, set);
    return 0;
}

int pselect(int most, fd_set *reading, fd_set *writing, fd_set *other, const struct timespec *time, const sigset_t *mask)
{
    int ready = 0;
    (void)mask;
    if (most < 0 || most > MOST_DESCRIPTORS) {
        errno = EINVAL;
        return -1;
    }
    struct pollfd fds[most + 1];
    nfds_t count = take_sets(most, reading, writing, fds);
    if (poll_until(fds, count, time) < 0)
        return -1;
    for (nfds_t at = 0; at < count; ++at) {
        if (fds[at].revents & POLLNVAL) {
            errno = EBADF;
            return -1;
        }
    }
    for (nfds_t at = 0; at < count; ++at) {
        ready += keep(reading, &fds[at], POLLIN, POLLIN | POLLHUP | POLLERR);
        ready += keep(writing, &fds[at], POLLOUT, POLLOUT | POLLHUP | POLLERR);
    }
    for (int fd = 0; other != NULL && fd < most; ++fd)
        FD_CLR(fd, other);
    return ready;
}

int select(int most, fd_set *reading, fd_set *writing, fd_set *other, struct timeval *timeout)
{
    struct timespec time = {0};
    if (timeout != NULL)
        time = (struct timespec){.tv_sec = timeout->tv_sec, .tv_nsec = timeout->tv_usec * 1000L};
    return pselect(most, reading, writing, other, timeout == NULL ? NULL : &time, NULL);
}

/* Waiting for pipes, sockets, children and times by poll and select. */
#include "check.h"

#include <fcntl.h>
#include <poll.h>
#include <pthread.h>
#include <signal.h>
#include <stdint.h>
#include <stdlib.h>
#include <sys/select.h>
#include <sys/socket.h>
#include <sys/time.h>
#include <sys/wait.h>
#include <time.h>
#include <unistd.h>

static int ends[2], others[2];

static struct pollfd look_at(int fd, int events)
{
    return (struct pollfd){.fd = fd, .events = (short)events, .revents = -1};
}

/* What is ready of a descriptor now. */
static int ways(int fd, int events)
{
    struct pollfd one = look_at(fd, events);
    int count = poll(&one, 1, 0);
    return count == (one.revents != 0) ? one.revents : -1;
}

static long milliseconds(void)
{
    struct timespec time;
    clock_gettime(CLOCK_MONOTONIC, &time);
    return time.tv_sec * 1000 + time.tv_nsec / 1000000;
}

static void fill_up(int fd)
{
    char bytes[4096] = {0};
    int flags = fcntl(fd, F_GETFL);
    fcntl(fd, F_SETFL, flags | O_NONBLOCK);
    while (write(fd, bytes, sizeof bytes) > 0)
        ;
    fcntl(fd, F_SETFL, flags);
}

static void drain(int fd)
{
    char bytes[4096];
    int flags = fcntl(fd, F_GETFL);
    fcntl(fd, F_SETFL, flags | O_NONBLOCK);
    while (read(fd, bytes, sizeof bytes) > 0)
        ;
    fcntl(fd, F_SETFL, flags);
}

static void pipes(void)
{
    CHECK(pipe(ends) == 0 && ways(ends[0], POLLIN) == 0 && ways(ends[1], POLLOUT) == POLLOUT);
    CHECK(ways(ends[0], POLLOUT) == 0 && ways(ends[1], POLLIN) == 0);
    CHECK(write(ends[1], "abc", 3) == 3 && ways(ends[0], POLLIN) == POLLIN && ways(ends[0], POLLIN | POLLRDNORM) == (POLLIN | POLLRDNORM));
    fill_up(ends[1]);
    CHECK(ways(ends[1], POLLOUT) == 0 && ways(ends[0], POLLIN) == POLLIN);
    drain(ends[0]);
    CHECK(ways(ends[1], POLLOUT) == POLLOUT && ways(ends[0], POLLIN) == 0);
    CHECK(write(ends[1], "abc", 3) == 3 && close(ends[1]) == 0 && ways(ends[0], POLLIN) == (POLLIN | POLLHUP));
    drain(ends[0]);
    CHECK(ways(ends[0], POLLIN) == POLLHUP && close(ends[0]) == 0 && ways(ends[0], POLLIN) == POLLNVAL);
    CHECK(pipe(ends) == 0 && close(ends[0]) == 0 && ways(ends[1], POLLOUT) == (POLLOUT | POLLERR) && close(ends[1]) == 0);
}

static void sockets(void)
{
    CHECK(socketpair(AF_UNIX, SOCK_STREAM, 0, ends) == 0 && ways(ends[0], POLLIN | POLLOUT) == POLLOUT);
    CHECK(write(ends[1], "x", 1) == 1 && ways(ends[0], POLLIN | POLLOUT) == (POLLIN | POLLOUT));
    drain(ends[0]);
    CHECK(ways(ends[0], POLLIN) == 0 && shutdown(ends[1], SHUT_WR) == 0 && ways(ends[0], POLLIN) == POLLIN);
    CHECK(ways(ends[0], POLLOUT) == POLLOUT && close(ends[1]) == 0 && ways(ends[0], POLLIN) == (POLLIN | POLLHUP));
    CHECK(ways(ends[0], POLLIN | POLLOUT) == (POLLIN | POLLOUT | POLLHUP) && close(ends[0]) == 0);
}

static void several(void)
{
    struct pollfd all[4];
    CHECK(pipe(ends) == 0 && pipe(others) == 0 && write(others[1], "x", 1) == 1);
    all[0] = look_at(ends[0], POLLIN);
    all[1] = look_at(-5, POLLIN);
    all[2] = look_at(others[0], POLLIN);
    all[3] = look_at(ends[1], POLLOUT);
    CHECK(poll(all, 4, -1) == 2 && all[0].revents == 0 && all[1].revents == 0 && all[2].revents == POLLIN && all[3].revents == POLLOUT);
    all[1].fd = 999;
    CHECK(poll(all, 4, 1000000) == 3 && all[1].revents == POLLNVAL && all[2].revents == POLLIN && poll(all, 1, 0) == 0);
    CHECK(close(ends[0]) == 0 && close(ends[1]) == 0 && close(others[0]) == 0 && close(others[1]) == 0);
}

/* ---- waiting */

static void *writes_later(void *argument)
{
    nanosleep(&(struct timespec){.tv_nsec = 20000000}, NULL);
    return write(*(int *)argument, "later", 5) == 5 ? NULL : argument;
}

static void times(void)
{
    struct pollfd one;
    pthread_t thread;
    void *value;
    CHECK(pipe(ends) == 0);
    long before = milliseconds();
    one = look_at(ends[0], POLLIN);
    CHECK(poll(&one, 1, 20) == 0 && one.revents == 0 && milliseconds() - before >= 19);
    CHECK(ppoll(&one, 1, &(struct timespec){.tv_nsec = 20000000}, NULL) == 0 && milliseconds() - before >= 39 && poll(NULL, 0, 5) == 0);
    FAILS(ppoll(&one, 1, &(struct timespec){.tv_nsec = 1000000000}, NULL), EINVAL);
    CHECK(pthread_create(&thread, NULL, writes_later, &ends[1]) == 0 && poll(&one, 1, 1000000) == 1 && one.revents == POLLIN);
    CHECK(milliseconds() - before >= 59 && pthread_join(thread, &value) == 0 && value == NULL);
    drain(ends[0]);
    CHECK(pthread_create(&thread, NULL, writes_later, &ends[1]) == 0 && poll(&one, 1, -1) == 1 && pthread_join(thread, NULL) == 0);
    CHECK(close(ends[0]) == 0 && close(ends[1]) == 0);
}

static void sets(void)
{
    fd_set reading, writing, other;
    struct timeval time = {.tv_usec = 10000};
    CHECK(pipe(ends) == 0);
    FD_ZERO(&reading);
    FD_ZERO(&writing);
    FD_ZERO(&other);
    FD_SET(ends[0], &reading);
    FD_SET(ends[0], &other);
    CHECK(select(ends[1] + 1, &reading, &writing, &other, &time) == 0 && !FD_ISSET(ends[0], &reading) && !FD_ISSET(ends[0], &other));
    FD_SET(ends[0], &reading);
    FD_SET(ends[1], &writing);
    CHECK(select(ends[1] + 1, &reading, &writing, NULL, NULL) == 1 && !FD_ISSET(ends[0], &reading) && FD_ISSET(ends[1], &writing));
    FD_SET(ends[0], &reading);
    CHECK(write(ends[1], "x", 1) == 1 && select(ends[1] + 1, &reading, &writing, NULL, NULL) == 2 && FD_ISSET(ends[0], &reading));
    CHECK(pselect(ends[1] + 1, &reading, NULL, NULL, &(struct timespec){0}, NULL) == 1);
    CHECK(close(ends[1]) == 0);
    drain(ends[0]);
    CHECK(select(ends[0] + 1, &reading, NULL, NULL, NULL) == 1 && FD_ISSET(ends[0], &reading) && close(ends[0]) == 0);
    FAILS(select(ends[0] + 1, &reading, NULL, NULL, &time), EBADF);
    FAILS(select(-1, NULL, NULL, NULL, &time), EINVAL);
    CHECK(select(0, NULL, NULL, NULL, &time) == 0);
}

/* ---- children */

static pid_t child_with(int code, int signal)
{
    fflush(stdout);
    pid_t child = fork();
    if (child != 0)
        return child;
    if (signal != 0)
        raise(signal);
    _exit(code);
}

/* A child's end is seen where its writing end goes. */
static void ends_of_children(void)
{
    struct pollfd one;
    siginfo_t told;
    int status;
    CHECK(pipe(ends) == 0);
    pid_t child = child_with(3, 0);
    CHECK(close(ends[1]) == 0);
    one = look_at(ends[0], POLLIN);
    CHECK(poll(&one, 1, -1) == 1 && one.revents == POLLHUP && close(ends[0]) == 0);
    CHECK(waitid(P_PID, (id_t)child, &told, WEXITED | WNOWAIT) == 0 && told.si_pid == child && told.si_signo == SIGCHLD);
    CHECK(told.si_code == CLD_EXITED && told.si_status == 3 && waitpid(child, &status, 0) == child && WEXITSTATUS(status) == 3);
    child = child_with(0, SIGTERM);
    CHECK(waitid(P_ALL, 0, &told, WEXITED) == 0 && told.si_pid == child && told.si_code == CLD_KILLED && told.si_status == SIGTERM);
    FAILS(waitid(P_ALL, 0, &told, WEXITED), ECHILD);
    FAILS(waitid(P_PID, (id_t)child, &told, WEXITED), ECHILD);
    FAILS(waitid(P_ALL, 0, &told, WNOHANG), EINVAL);
}

static void *waits_for_any(void *argument)
{
    int status;
    *(pid_t *)argument = wait(&status);
    return (void *)(intptr_t)(WIFEXITED(status) ? WEXITSTATUS(status) : -1);
}

/* Each of two threads hears of another child. */
static void threads_and_children(void)
{
    pthread_t threads[2];
    pid_t children[2], heard[2] = {0};
    void *codes[2];
    CHECK(pipe(ends) == 0);
    for (int i = 0; i < 2; ++i) {
        fflush(stdout);
        children[i] = fork();
        if (children[i] == 0) {
            char byte;
            close(ends[1]);
            _exit(read(ends[0], &byte, 1) == 1 ? byte : 9);
        }
    }
    for (int i = 0; i < 2; ++i)
        CHECK(pthread_create(&threads[i], NULL, waits_for_any, &heard[i]) == 0);
    nanosleep(&(struct timespec){.tv_nsec = 10000000}, NULL);
    CHECK(write(ends[1], "\1\2", 2) == 2);
    for (int i = 0; i < 2; ++i)
        CHECK(pthread_join(threads[i], &codes[i]) == 0);
    CHECK((heard[0] == children[0] && heard[1] == children[1]) || (heard[0] == children[1] && heard[1] == children[0]));
    CHECK((intptr_t)codes[0] + (intptr_t)codes[1] == 3 && close(ends[0]) == 0 && close(ends[1]) == 0);
}

static pthread_mutex_t mutex = PTHREAD_MUTEX_INITIALIZER;

static void *goes_on(void *argument)
{
    while (!*(volatile int *)argument) {
        pthread_mutex_lock(&mutex);
        free(malloc(100));
        pthread_mutex_unlock(&mutex);
        sched_yield();
    }
    return NULL;
}

/* A child of several threads has the one that forked. */
static void forks_beside_threads(void)
{
    pthread_t threads[3];
    int is_over = 0, status;
    for (int i = 0; i < 3; ++i)
        CHECK(pthread_create(&threads[i], NULL, goes_on, &is_over) == 0);
    for (int i = 0; i < 5; ++i) {
        fflush(stdout);
        pthread_mutex_lock(&mutex);
        pid_t child = fork();
        pthread_mutex_unlock(&mutex);
        if (child == 0) {
            int no = 1;
            char *text = malloc(20);
            pthread_t own;
            snprintf(text, 20, "%d", i);
            if (pthread_create(&own, NULL, goes_on, &no) != 0 || pthread_join(own, NULL) != 0)
                _exit(99);
            exit(atoi(text));
        }
        CHECK(waitpid(child, &status, 0) == child && WIFEXITED(status) && WEXITSTATUS(status) == i);
    }
    is_over = 1;
    for (int i = 0; i < 3; ++i)
        CHECK(pthread_join(threads[i], NULL) == 0);
}

int main(void)
{
    pipes();
    sockets();
    several();
    times();
    sets();
    ends_of_children();
    threads_and_children();
    forks_beside_threads();
    return finish();
}

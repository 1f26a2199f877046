/* Waiting for the end of children. */
#define _GNU_SOURCE
#include "children.h"
#include "system.h"

#include <errno.h>
#include <pthread.h>
#include <signal.h>
#include <string.h>
#include <sys/procdesc.h>
#include <sys/resource.h>
#include <sys/wait.h>

#define ALWAYS (WUNTRACED | WCONTINUED | WEXITED) /* options that say nothing, since no child stops */

/* Waits until one of these has ended; with WNOHANG it looks. How many events there are, of which the first is kept. */
static int wait_for(const struct child *them, size_t count, int options, cloudabi_event_t *event)
{
    cloudabi_subscription_t subscriptions[count + 1];
    cloudabi_event_t events[count + 1];
    size_t found;
    memset(subscriptions, 0, sizeof subscriptions);
    for (size_t i = 0; i < count; ++i) {
        subscriptions[i] = (cloudabi_subscription_t){.userdata = i, .kind = CLOUDABI_EVENTTYPE_PROC_TERMINATE};
        subscriptions[i].proc_terminate.fd = them[i].fd;
    }
    if (options & WNOHANG) {
        subscriptions[count].kind = CLOUDABI_EVENTTYPE_CLOCK;
        subscriptions[count++].clock.clock = CLOUDABI_CLOCK_MONOTONIC;
    }
    if (result(cloudabi_sys_poll(subscriptions, events, count, &found)) != 0)
        return -1;
    *event = events[0];
    return event->kind == CLOUDABI_EVENTTYPE_PROC_TERMINATE;
}

static int status_of(const cloudabi_event_t *event)
{
    uint8_t signal = event->proc_terminate.signal;
    return signal != 0 ? signal_of_sandbox(signal) : (int)(event->proc_terminate.code & 0xff) << 8;
}

static bool are_options(int options, int known)
{
    if ((options & ~known) == 0)
        return true;
    errno = EINVAL;
    return false;
}

/* A child that has ended, and how. While this thread waits another one may have been told of it: then the children are looked at anew. */
static pid_t wait_for_child(pid_t process, int options, cloudabi_event_t *event)
{
    struct child them[MOST_CHILDREN];
    pthread_testcancel();
    for (;;) {
        size_t count = copy_children(process, them);
        if (count == 0) {
            errno = ECHILD;
            return -1;
        }
        int found = wait_for(them, count, options, event);
        if (found == 0)
            return 0;
        if (found < 0 && errno != EBADF && errno != EACCES)
            return -1;
        pid_t number = found < 0 ? 0 : them[event->userdata].number;
        if (number != 0 && ((options & WNOWAIT) || drop_child(number)))
            return number;
    }
}

pid_t waitpid(pid_t process, int *status, int options)
{
    cloudabi_event_t event;
    if (!are_options(options, WNOHANG | WUNTRACED | WCONTINUED))
        return -1;
    pid_t number = wait_for_child(process, options, &event);
    if (number > 0 && status != NULL)
        *status = status_of(&event);
    return number;
}

pid_t wait(int *status)
{
    return waitpid(-1, status, 0);
}

pid_t wait4(pid_t process, int *status, int options, struct rusage *usage)
{
    if (usage != NULL)
        memset(usage, 0, sizeof *usage);
    return waitpid(process, status, options);
}

pid_t wait3(int *status, int options, struct rusage *usage)
{
    return wait4(-1, status, options, usage);
}

static void tell(siginfo_t *told, pid_t number, const cloudabi_event_t *event)
{
    memset(told, 0, sizeof *told);
    if (number <= 0)
        return;
    int status = status_of(event);
    told->si_signo = SIGCHLD;
    told->si_pid = number;
    told->si_code = WIFEXITED(status) ? CLD_EXITED : CLD_KILLED;
    told->si_status = WIFEXITED(status) ? (int)event->proc_terminate.code : WTERMSIG(status);
}

/* P_PIDFD is a file descriptor of `pdfork`, which stays. */
int waitid(idtype_t kind, id_t which, siginfo_t *told, int options)
{
    cloudabi_event_t event;
    siginfo_t unheard;
    if (!are_options(options, ALWAYS | WSTOPPED | WNOHANG | WNOWAIT) || !(options & ALWAYS) || (kind == P_PID && (pid_t)which <= 0)) {
        errno = EINVAL;
        return -1;
    }
    struct child one = {0, descriptor((int)which)};
    pid_t number = kind == P_PIDFD ? wait_for(&one, 1, options, &event) : wait_for_child(kind == P_PID ? (pid_t)which : -1, options, &event);
    if (number >= 0)
        tell(told == NULL ? &unheard : told, number, &event);
    return number < 0 ? -1 : 0;
}

int pdwait(int fd, int *status, int options)
{
    struct child one = {0, descriptor(fd)};
    cloudabi_event_t event;
    if (!are_options(options, WNOHANG | WUNTRACED | WCONTINUED))
        return -1;
    int found = wait_for(&one, 1, options, &event);
    if (found > 0 && status != NULL)
        *status = status_of(&event);
    return found;
}

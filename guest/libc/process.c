/* The process: its end, its group, what it may use, and what needs a shell. */
#define _GNU_SOURCE
#include "library_lock.h"
#include "system.h"

#include <errno.h>
#include <sched.h>
#include <stdio.h>
#include <stdlib.h>
#include <string.h>
#include <sys/resource.h>
#include <unistd.h>

_Noreturn void _exit(int code)
{
    cloudabi_sys_proc_exit((uint32_t)code);
}

_Noreturn void _Exit(int code)
{
    _exit(code);
}

/* The functions of at_quick_exit, the last one first. */

static void (*at_quick[32])(void);
static size_t quick_count;

int at_quick_exit(void (*function)(void))
{
    if (quick_count == sizeof at_quick / sizeof *at_quick)
        return -1;
    at_quick[quick_count++] = function;
    return 0;
}

_Noreturn void quick_exit(int code)
{
    while (quick_count > 0)
        at_quick[--quick_count]();
    _exit(code);
}

static int absent(void)
{
    errno = ENOSYS;
    return -1;
}

pid_t getpgrp(void)
{
    return 1;
}

pid_t getpgid(pid_t process)
{
    (void)process;
    return 1;
}

pid_t getsid(pid_t process)
{
    (void)process;
    return 1;
}

pid_t setsid(void)
{
    return absent();
}

int setpgid(pid_t process, pid_t group)
{
    (void)process, (void)group;
    return absent();
}

/* There is no shell: that is what a NULL asks. */
int system(const char *command)
{
    return command == NULL ? 0 : absent();
}

FILE *popen(const char *command, const char *mode)
{
    (void)command, (void)mode;
    absent();
    return NULL;
}

int pclose(FILE *file)
{
    (void)file;
    errno = ECHILD;
    return -1;
}

int daemon(int stays, int keeps)
{
    (void)stays, (void)keeps;
    return absent();
}

int nice(int change)
{
    (void)change;
    return 0;
}

int getpriority(int which, id_t who)
{
    (void)which, (void)who;
    return 0;
}

int setpriority(int which, id_t who, int priority)
{
    (void)which, (void)who, (void)priority;
    return 0;
}

/* All is of one priority. */
int sched_get_priority_max(int policy)
{
    (void)policy;
    return 0;
}

int sched_get_priority_min(int policy)
{
    return sched_get_priority_max(policy);
}

int sched_yield(void)
{
    if (has_threads)
        cloudabi_sys_thread_yield();
    return 0;
}

/* Limits and what was used. */

int getrlimit(int resource, struct rlimit *limit)
{
    rlim_t most = resource == RLIMIT_STACK ? 1 << 20 : resource == RLIMIT_NOFILE ? MOST_DESCRIPTORS : resource == RLIMIT_FSIZE ? 64 << 20
                : resource == RLIMIT_AS || resource == RLIMIT_DATA ? 256 << 20 : resource == RLIMIT_CORE ? 0 : RLIM_INFINITY;
    *limit = (struct rlimit){most, most};
    return 0;
}

int setrlimit(int resource, const struct rlimit *limit)
{
    struct rlimit now;
    getrlimit(resource, &now);
    if (limit->rlim_cur <= limit->rlim_max && limit->rlim_max <= now.rlim_max)
        return 0;
    errno = limit->rlim_cur > limit->rlim_max ? EINVAL : EPERM;
    return -1;
}

int getrusage(int who, struct rusage *usage)
{
    (void)who;
    memset(usage, 0, sizeof *usage);
    return 0;
}

/* What a program may ask of the machine that it runs on: names, sizes and limits. */
#define _GNU_SOURCE
#include "system.h"

#include <errno.h>
#include <limits.h>
#include <pthread.h>
#include <semaphore.h>
#include <string.h>
#include <sys/utsname.h>
#include <unistd.h>

#define NAME "sandbox"

int uname(struct utsname *names)
{
    *names = (struct utsname){.sysname = "CloudABI", .nodename = NAME, .release = "0", .version = "Lunettetray", .machine = "riscv64"};
    return 0;
}

int gethostname(char *name, size_t size)
{
    if (size < sizeof NAME) {
        errno = ENAMETOOLONG;
        return -1;
    }
    strcpy(name, NAME);
    return 0;
}

int getpagesize(void)
{
    return PAGE;
}

/* -1 without an error stands for what isn't there. */
long sysconf(int name)
{
    switch (name) {
    case _SC_ARG_MAX: return 65536;
    case _SC_CHILD_MAX: return 254;
    case _SC_CLK_TCK: return 100;
    case _SC_OPEN_MAX: case _SC_STREAM_MAX: return MOST_DESCRIPTORS;
    case _SC_PAGESIZE: return PAGE;
    case _SC_NPROCESSORS_CONF: case _SC_NPROCESSORS_ONLN: return 1;
    case _SC_PHYS_PAGES: case _SC_AVPHYS_PAGES: return 65536;
    case _SC_VERSION: return 200809;
    case _SC_IOV_MAX: return IOV_MAX;
    case _SC_NGROUPS_MAX: return 1;
    case _SC_LINE_MAX: return LINE_MAX;
    case _SC_SYMLOOP_MAX: return 32;
    case _SC_HOST_NAME_MAX: case _SC_LOGIN_NAME_MAX: case _SC_TTY_NAME_MAX: return 255;
    case _SC_GETPW_R_SIZE_MAX: case _SC_GETGR_R_SIZE_MAX: return 1024;
    case _SC_THREAD_KEYS_MAX: return PTHREAD_KEYS_MAX;
    case _SC_THREAD_STACK_MIN: return PTHREAD_STACK_MIN;
    case _SC_THREAD_THREADS_MAX: return PTHREAD_THREADS_MAX;
    case _SC_THREAD_DESTRUCTOR_ITERATIONS: return PTHREAD_DESTRUCTOR_ITERATIONS;
    case _SC_SEM_VALUE_MAX: return SEM_VALUE_MAX;
    case _SC_MAPPED_FILES: case _SC_FSYNC: case _SC_MEMORY_PROTECTION: case _SC_REGEXP: case _SC_THREADS: case _SC_THREAD_ATTR_STACKSIZE:
    case _SC_THREAD_SAFE_FUNCTIONS: case _SC_BARRIERS: case _SC_READER_WRITER_LOCKS: case _SC_SPIN_LOCKS: case _SC_SEMAPHORES:
    case _SC_TIMEOUTS: case _SC_CLOCK_SELECTION: case _SC_MONOTONIC_CLOCK:
        return 200809;
    case _SC_JOB_CONTROL: case _SC_SAVED_IDS: case _SC_SHELL: case _SC_SPAWN: case _SC_TIMERS: case _SC_THREAD_PROCESS_SHARED: return -1;
    default: errno = EINVAL; return -1;
    }
}

static long limit_of_path(int name)
{
    switch (name) {
    case _PC_LINK_MAX: return 65535;
    case _PC_NAME_MAX: return 255;
    case _PC_PATH_MAX: return 1024;
    case _PC_SYMLINK_MAX: return 1024;
    case _PC_NO_TRUNC: case _PC_CHOWN_RESTRICTED: case _PC_2_SYMLINKS: return 1;
    case _PC_PIPE_BUF: return 512;
    case _PC_FILESIZEBITS: return 64;
    case _PC_TIMESTAMP_RESOLUTION: return 1;
    case _PC_MAX_CANON: case _PC_MAX_INPUT: return 255;
    case _PC_ASYNC_IO: case _PC_PRIO_IO: case _PC_SYNC_IO: case _PC_VDISABLE: return -1;
    default: errno = EINVAL; return -1;
    }
}

long pathconf(const char *path, int name)
{
    (void)path;
    return limit_of_path(name);
}

long fpathconf(int fd, int name)
{
    (void)fd;
    return limit_of_path(name);
}

size_t confstr(int name, char *room, size_t size)
{
    (void)name;
    if (size > 0)
        *room = '\0';
    return 1;
}

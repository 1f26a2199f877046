/* File descriptors: a table from the numbers of C to those of the sandbox. */
#define _GNU_SOURCE
#include "library_lock.h"
#include "system.h"

#include <errno.h>
#include <fcntl.h>
#include <stdarg.h>
#include <stdlib.h>
#include <string.h>
#include <sys/file.h>
#include <unistd.h>

struct entry {
    cloudabi_fd_t fd; /* one more than it is, so that zeros are no descriptor */
    bool closes_on_exec;
    char *path; /* of a directory */
};

static struct entry table[MOST_DESCRIPTORS];

static bool is_open(int fd)
{
    return fd >= 0 && fd < MOST_DESCRIPTORS && table[fd].fd != 0;
}

cloudabi_fd_t descriptor(int fd)
{
    return is_open(fd) ? table[fd].fd - 1 : NO_DESCRIPTOR;
}

uint8_t descriptor_kind(int fd)
{
    cloudabi_fdstat_t status;
    return cloudabi_sys_fd_stat_get(descriptor(fd), &status) == CLOUDABI_ESUCCESS ? status.kind : 0;
}

int result_of_file(int fd, cloudabi_errno_t error, int otherwise)
{
    uint8_t kind = error == CLOUDABI_ENOTCAPABLE ? descriptor_kind(fd) : 0;
    if (kind == 0 || kind == CLOUDABI_FILETYPE_REGULAR_FILE || kind == CLOUDABI_FILETYPE_DIRECTORY)
        return result(error);
    errno = otherwise;
    return -1;
}

void set_descriptor(int fd, cloudabi_fd_t to, bool closes_on_exec)
{
    HOLD(&descriptors_lock);
    free(table[fd].path);
    table[fd] = (struct entry){to + 1, closes_on_exec, NULL};
}

int take_descriptor(cloudabi_fd_t fd, int least, bool closes_on_exec)
{
    HOLD(&descriptors_lock);
    for (int free_one = least; free_one < MOST_DESCRIPTORS; ++free_one) {
        if (table[free_one].fd == 0) {
            set_descriptor(free_one, fd, closes_on_exec);
            return free_one;
        }
    }
    cloudabi_sys_fd_close(fd);
    errno = EMFILE;
    return -1;
}

const char *directory_path(int fd)
{
    return is_open(fd) ? table[fd].path : NULL;
}

void keep_directory_path(int fd, const char *path)
{
    HOLD(&descriptors_lock);
    free(table[fd].path);
    table[fd].path = strdup(path);
}

int close(int fd)
{
    HOLD(&descriptors_lock);
    int answer = result(cloudabi_sys_fd_close(descriptor(fd)));
    if (answer == 0) {
        free(table[fd].path);
        table[fd] = (struct entry){0};
    }
    return answer;
}

/* One more descriptor of the same open. */
static int copy_of(int fd, cloudabi_fd_t *copy)
{
    return result(cloudabi_sys_fd_dup(descriptor(fd), copy));
}

static int duplicate(int fd, int least, bool closes_on_exec)
{
    HOLD(&descriptors_lock);
    cloudabi_fd_t copy;
    if (least < 0 || least >= MOST_DESCRIPTORS) {
        errno = EINVAL;
        return -1;
    }
    if (copy_of(fd, &copy) != 0)
        return -1;
    int taken = take_descriptor(copy, least, closes_on_exec);
    if (taken >= 0 && table[fd].path != NULL)
        keep_directory_path(taken, table[fd].path);
    return taken;
}

int dup(int fd)
{
    return duplicate(fd, 0, false);
}

static int replace(int fd, int to, bool closes_on_exec)
{
    HOLD(&descriptors_lock);
    cloudabi_fd_t copy;
    if (to < 0 || to >= MOST_DESCRIPTORS || !is_open(fd)) {
        errno = EBADF;
        return -1;
    }
    if (copy_of(fd, &copy) != 0)
        return -1;
    if (is_open(to))
        cloudabi_sys_fd_close(descriptor(to));
    set_descriptor(to, copy, closes_on_exec);
    if (table[fd].path != NULL)
        keep_directory_path(to, table[fd].path);
    return to;
}

int dup2(int fd, int to)
{
    return fd == to && is_open(fd) ? fd : replace(fd, to, false);
}

int dup3(int fd, int to, int flags)
{
    if (fd != to)
        return replace(fd, to, (flags & O_CLOEXEC) != 0);
    errno = EINVAL;
    return -1;
}

static int flags_of(int fd)
{
    cloudabi_fdstat_t status;
    if (result(cloudabi_sys_fd_stat_get(descriptor(fd), &status)) != 0)
        return -1;
    bool reads = (status.base & CLOUDABI_RIGHT_FD_READ) != 0, writes = (status.base & CLOUDABI_RIGHT_FD_WRITE) != 0;
    return (reads && writes ? O_RDWR : writes ? O_WRONLY : O_RDONLY) | (status.flags & CLOUDABI_FDFLAG_APPEND ? O_APPEND : 0)
         | (status.flags & CLOUDABI_FDFLAG_NONBLOCK ? O_NONBLOCK : 0);
}

static int put_flags(int fd, int flags)
{
    cloudabi_fdstat_t status = {
        .flags = (uint16_t)((flags & O_APPEND ? CLOUDABI_FDFLAG_APPEND : 0) | (flags & O_NONBLOCK ? CLOUDABI_FDFLAG_NONBLOCK : 0)),
    };
    return result(cloudabi_sys_fd_stat_put(descriptor(fd), &status, CLOUDABI_FDSTAT_FLAGS));
}

/* A lock is always free: no other process has the file. */
static int lock_record(int command, struct flock *lock)
{
    if (command == F_GETLK)
        lock->l_type = F_UNLCK;
    return 0;
}

int fcntl(int fd, int command, ...)
{
    va_list list;
    va_start(list, command);
    long argument = va_arg(list, long);
    va_end(list);
    if (!is_open(fd)) {
        errno = EBADF;
        return -1;
    }
    switch (command) {
    case F_DUPFD: return duplicate(fd, (int)argument, false);
    case F_DUPFD_CLOEXEC: return duplicate(fd, (int)argument, true);
    case F_GETFD: return table[fd].closes_on_exec ? FD_CLOEXEC : 0;
    case F_SETFD: table[fd].closes_on_exec = (argument & FD_CLOEXEC) != 0; return 0;
    case F_GETFL: return flags_of(fd);
    case F_SETFL: return put_flags(fd, (int)argument);
    case F_GETLK: case F_SETLK: case F_SETLKW: return lock_record(command, (struct flock *)argument);
    default: errno = EINVAL; return -1;
    }
}

static int if_open(int fd)
{
    if (is_open(fd))
        return 0;
    errno = EBADF;
    return -1;
}

int flock(int fd, int operation)
{
    (void)operation;
    return if_open(fd);
}

int lockf(int fd, int command, off_t length)
{
    (void)command, (void)length;
    return if_open(fd);
}

/* The output of a run is a section of its report, and its input a file: neither is a terminal. */
int isatty(int fd)
{
    if (if_open(fd) == 0)
        errno = ENOTTY;
    return 0;
}

char *ttyname(int fd)
{
    isatty(fd);
    return NULL;
}

int ttyname_r(int fd, char *name, size_t size)
{
    (void)name, (void)size;
    return is_open(fd) ? ENOTTY : EBADF;
}

int getdtablesize(void)
{
    return MOST_DESCRIPTORS;
}

/* What a program is given beside the standard streams, as a file descriptor of C. */
int cloudabi_take_descriptor(uint32_t fd)
{
    return take_descriptor(fd, 3, false);
}

/* The sandbox's number of a file descriptor of C, or UINT32_MAX. */
uint32_t cloudabi_descriptor(int fd)
{
    return descriptor(fd);
}

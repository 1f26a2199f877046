/*
 * What the files here share: errors, file descriptors, and paths, over the calls of the sandbox.
 *
 * The argument data is a map. `args` has the words of argv, the program's name first. `stdin`, `stdout` and `stderr` are the
 * descriptors of the standard streams. `directories` is a map from names to descriptors of directories: the path `/data/a/b` is
 * `a/b` under the descriptor whose name is `/data`. The longest name that the path begins with counts. Slashes and `./` at the
 * front of a path and of a name don't count. A path without a slash at its front begins in the current directory, which is `/` at
 * the start. A path that begins with no name is EACCES, as what a descriptor refuses is. Each of these may be absent.
 */
#ifndef SYSTEM_H
#define SYSTEM_H

#include "argdata.h"

#include <stdbool.h>
#include <sys/types.h>
#include <time.h>

#define NO_DESCRIPTOR UINT32_MAX
#define MOST_DESCRIPTORS 1024
#define PATH_ROOM 4096
#define PAGE 4096

/* The number of errno.h for an error of the sandbox, and 0 for none. */
int error_number(cloudabi_errno_t error);

/* Sets errno to it. */
void set_errno(cloudabi_errno_t error);

/* -1 with errno set, or 0. */
static inline int result(cloudabi_errno_t error)
{
    if (error == CLOUDABI_ESUCCESS)
        return 0;
    set_errno(error);
    return -1;
}

/* The same for a call that only files and directories have: another errno where the descriptor is of something else, and so lacks a right. */
int result_of_file(int fd, cloudabi_errno_t error, int otherwise);

/* The sandbox's descriptor of a file descriptor, or NO_DESCRIPTOR. */
cloudabi_fd_t descriptor(int fd);

/* The type of what a file descriptor is of, or 0. */
uint8_t descriptor_kind(int fd);

static inline bool is_socket(uint8_t kind)
{
    return kind == CLOUDABI_FILETYPE_SOCKET_STREAM || kind == CLOUDABI_FILETYPE_SOCKET_DGRAM;
}

/* An end of a pipe or of a pair of sockets: it has no offset, and gives what waits in it alone. */
static inline bool is_end(uint8_t kind)
{
    return kind == CLOUDABI_FILETYPE_FIFO || is_socket(kind);
}

/* The lowest free file descriptor from `least` on gets the sandbox's descriptor; that one is closed where there is none, EMFILE. */
int take_descriptor(cloudabi_fd_t fd, int least, bool closes_on_exec);

/* Gives a file descriptor another meaning, without closing what it had: at the start, and for dup2. */
void set_descriptor(int fd, cloudabi_fd_t to, bool closes_on_exec);

/* The path under which a directory was opened, for fchdir; NULL where it isn't known. */
const char *directory_path(int fd);
void keep_directory_path(int fd, const char *path);

/* A child has none of its parent's signals that wait, and no thread of its parent has a stream. */
void drop_pending_signals(void);
void free_streams(void) __attribute__((weak));

/* The number in C of a signal of the sandbox. */
int signal_of_sandbox(uint8_t signal);

/* The sandbox's clock for one of C's, and 0, which it refuses, for a number of none. */
uint32_t sandbox_clock(clockid_t clock);

/* A time from 0 on, in nanoseconds; one that never comes, where it has too many. */
cloudabi_timestamp_t nanoseconds_of(const struct timespec *time);

/* Where a path leads: a directory's descriptor, and the path below it. */
struct place {
    cloudabi_fd_t directory;
    const char *path;
    char room[PATH_ROOM]; /* of a path that was joined to the current directory's */
};

/* The directories of the launch. */
void take_directories(const argdata_t *arguments);

/* These directories one after another: the name without slashes at its front, and the descriptor. */
bool begin_directories(argdata_rest_t *rest);
bool next_directory(argdata_rest_t *rest, const char **name, cloudabi_fd_t *fd);

/* Says on standard error what of the argument data means nothing here. */
void check_launch(const argdata_t *arguments);

cloudabi_errno_t find_place(const char *path, struct place *place);

/* The same for a path that begins in a directory's file descriptor, or in the current one by AT_FDCWD. */
cloudabi_errno_t find_place_at(int directory, const char *path, struct place *place);

/* The path from the root on, which begins with a slash; false with errno ENAMETOOLONG. */
bool absolute_path(const char *path, char *whole);

/* The lookup of a place, which follows a symbolic link at its end or doesn't. */
cloudabi_lookup_t lookup_of(const struct place *place, bool follows);

#endif

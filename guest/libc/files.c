/* Opening of files, and what makes, moves and removes names. */
#define _GNU_SOURCE
#include "system.h"

#include <errno.h>
#include <fcntl.h>
#include <stdarg.h>
#include <stdio.h>
#include <stdlib.h>
#include <string.h>
#include <sys/stat.h>
#include <unistd.h>

/* The rights that an open with these flags must have. */
static cloudabi_rights_t needed_rights(int flags)
{
    int access = flags & O_ACCMODE;
    if (flags & O_DIRECTORY)
        return 0;
    if (flags & O_EXEC)
        return CLOUDABI_RIGHT_PROC_EXEC;
    return (access != O_WRONLY ? CLOUDABI_RIGHT_FD_READ : 0) | (access != O_RDONLY ? CLOUDABI_RIGHT_FD_WRITE : 0);
}

/* The rights that it has too where the directory gives them. What is opened to be read may be a directory. */
static cloudabi_rights_t further_rights(int flags)
{
    cloudabi_rights_t changing = CLOUDABI_RIGHT_FILE_ALLOCATE | CLOUDABI_RIGHT_FILE_STAT_FPUT_SIZE
                               | CLOUDABI_RIGHT_FILE_STAT_FPUT_TIMES;
    if (flags & O_DIRECTORY)
        return CLOUDABI_RIGHTS_DIRECTORY;
    cloudabi_rights_t all = CLOUDABI_RIGHTS_FILE & ~(CLOUDABI_RIGHT_FD_READ | CLOUDABI_RIGHT_FD_WRITE
                                                     | CLOUDABI_RIGHT_MEM_MAP_EXEC | CLOUDABI_RIGHT_PROC_EXEC);
    return (flags & O_ACCMODE) == O_RDONLY ? (all & ~changing) | CLOUDABI_RIGHTS_DIRECTORY : all;
}

/* Opens what is at the place, and leaves the sandbox's descriptor. */
static cloudabi_errno_t open_place(const struct place *place, int flags, cloudabi_fd_t *fd)
{
    cloudabi_fdstat_t directory;
    cloudabi_errno_t error = cloudabi_sys_fd_stat_get(place->directory, &directory);
    if (error != CLOUDABI_ESUCCESS)
        return error;
    uint32_t oflags = (flags & O_CREAT ? CLOUDABI_O_CREAT : 0) | (flags & O_DIRECTORY ? CLOUDABI_O_DIRECTORY : 0)
                    | (flags & O_EXCL ? CLOUDABI_O_EXCL : 0) | (flags & O_TRUNC ? CLOUDABI_O_TRUNC : 0);
    bool may_be_directory = (flags & O_DIRECTORY) || (flags & (O_ACCMODE | O_CREAT | O_TRUNC)) == O_RDONLY;
    cloudabi_fdstat_t asked = {
        .flags = (flags & O_APPEND ? CLOUDABI_FDFLAG_APPEND : 0) | (flags & O_NONBLOCK ? CLOUDABI_FDFLAG_NONBLOCK : 0),
        .base = needed_rights(flags) | (further_rights(flags) & directory.inheriting),
        .inheriting = may_be_directory ? directory.inheriting : 0,
    };
    cloudabi_lookup_t lookup = lookup_of(place, !(flags & O_NOFOLLOW));
    return cloudabi_sys_file_open(lookup, place->path, strlen(place->path), oflags, &asked, fd);
}

/* Keeps the path of a directory that was opened, where it is known. */
static void keep_path(int fd, int directory, const char *path)
{
    char whole[PATH_ROOM];
    const char *above = directory == AT_FDCWD || *path == '/' ? NULL : directory_path(directory);
    if (directory == AT_FDCWD || *path == '/') {
        if (absolute_path(path, whole))
            keep_directory_path(fd, whole);
    } else if (above != NULL && strlen(above) + 1 + strlen(path) < sizeof whole) {
        keep_directory_path(fd, strcat(strcat(strcpy(whole, above), "/"), path));
    }
}

/* A directory may only be read. */
static int open_at(int directory, const char *path, int flags)
{
    struct place place;
    cloudabi_fd_t fd;
    cloudabi_fdstat_t status;
    cloudabi_errno_t error = find_place_at(directory, path, &place);
    if (error == CLOUDABI_ESUCCESS)
        error = open_place(&place, flags, &fd);
    if (result(error) != 0)
        return -1;
    bool is_directory = cloudabi_sys_fd_stat_get(fd, &status) == CLOUDABI_ESUCCESS && status.kind == CLOUDABI_FILETYPE_DIRECTORY;
    if (is_directory && (flags & O_ACCMODE) != O_RDONLY) {
        cloudabi_sys_fd_close(fd);
        errno = EISDIR;
        return -1;
    }
    int taken = take_descriptor(fd, 0, (flags & O_CLOEXEC) != 0);
    if (taken >= 0 && is_directory)
        keep_path(taken, directory, path);
    return taken;
}

int open(const char *path, int flags, ...)
{
    return open_at(AT_FDCWD, path, flags);
}

int openat(int directory, const char *path, int flags, ...)
{
    return open_at(directory, path, flags);
}

int creat(const char *path, mode_t mode)
{
    (void)mode;
    return open_at(AT_FDCWD, path, O_WRONLY | O_CREAT | O_TRUNC);
}

/* The length of a directory's path, which may end with slashes. */
static size_t length_of_directory(const struct place *place)
{
    size_t length = strlen(place->path);
    while (length > 1 && place->path[length - 1] == '/')
        --length;
    return length;
}

int mkdirat(int directory, const char *path, mode_t mode)
{
    struct place place;
    (void)mode;
    cloudabi_errno_t error = find_place_at(directory, path, &place);
    if (error == CLOUDABI_ESUCCESS)
        error = cloudabi_sys_file_create(place.directory, place.path, length_of_directory(&place), CLOUDABI_FILETYPE_DIRECTORY);
    if (error == CLOUDABI_EINVAL)
        error = CLOUDABI_EEXIST; /* `.` and `..` are there */
    return result(error);
}

int mkdir(const char *path, mode_t mode)
{
    return mkdirat(AT_FDCWD, path, mode);
}

/* Only files, directories and symbolic links can be made. */

int mknod(const char *path, mode_t mode, dev_t device)
{
    (void)path, (void)mode, (void)device;
    errno = EPERM;
    return -1;
}

int mkfifo(const char *path, mode_t mode)
{
    return mknod(path, mode, 0);
}

static bool ends_with_slash(const struct place *place)
{
    size_t length = strlen(place->path);
    return length > 1 && place->path[length - 1] == '/';
}

/* A path that ends with a slash can only be a directory's. */
static cloudabi_errno_t if_directory(const struct place *place)
{
    cloudabi_filestat_t file;
    cloudabi_errno_t error = cloudabi_sys_file_stat_get(lookup_of(place, false), place->path, length_of_directory(place), &file);
    return error == CLOUDABI_ESUCCESS && file.kind != CLOUDABI_FILETYPE_DIRECTORY ? CLOUDABI_ENOTDIR : error;
}

int renameat(int old_directory, const char *old, int new_directory, const char *new_path)
{
    struct place from, to;
    cloudabi_errno_t error = find_place_at(old_directory, old, &from);
    if (error == CLOUDABI_ESUCCESS)
        error = find_place_at(new_directory, new_path, &to);
    if (error == CLOUDABI_ESUCCESS && (ends_with_slash(&from) || ends_with_slash(&to)))
        error = if_directory(&from);
    if (error == CLOUDABI_ESUCCESS)
        error = cloudabi_sys_file_rename(from.directory, from.path, length_of_directory(&from), to.directory, to.path,
                                         length_of_directory(&to));
    return result(error);
}

int rename(const char *old, const char *new_path)
{
    return renameat(AT_FDCWD, old, AT_FDCWD, new_path);
}

int unlinkat(int directory, const char *path, int flags)
{
    struct place place;
    bool is_directory = (flags & AT_REMOVEDIR) != 0;
    cloudabi_errno_t error = find_place_at(directory, path, &place);
    if (error == CLOUDABI_ESUCCESS)
        error = cloudabi_sys_file_unlink(place.directory, place.path, is_directory ? length_of_directory(&place) : strlen(place.path),
                                         is_directory ? CLOUDABI_UNLINK_REMOVEDIR : 0);
    return result(error);
}

int unlink(const char *path)
{
    return unlinkat(AT_FDCWD, path, 0);
}

int rmdir(const char *path)
{
    return unlinkat(AT_FDCWD, path, AT_REMOVEDIR);
}

/* A directory is EPERM to unlink. */
int remove(const char *path)
{
    int error = errno;
    if (unlink(path) == 0)
        return 0;
    if (errno != EPERM)
        return -1;
    errno = error;
    return rmdir(path);
}

int linkat(int old_directory, const char *old, int new_directory, const char *new_path, int flags)
{
    struct place from, to;
    cloudabi_errno_t error = find_place_at(old_directory, old, &from);
    if (error == CLOUDABI_ESUCCESS)
        error = find_place_at(new_directory, new_path, &to);
    if (error == CLOUDABI_ESUCCESS)
        error = cloudabi_sys_file_link(lookup_of(&from, (flags & AT_SYMLINK_FOLLOW) != 0), from.path, strlen(from.path), to.directory,
                                       to.path, strlen(to.path));
    return result(error);
}

int link(const char *old, const char *new_path)
{
    return linkat(AT_FDCWD, old, AT_FDCWD, new_path, 0);
}

int symlinkat(const char *text, int directory, const char *path)
{
    struct place place;
    cloudabi_errno_t error = find_place_at(directory, path, &place);
    if (error == CLOUDABI_ESUCCESS)
        error = cloudabi_sys_file_symlink(text, strlen(text), place.directory, place.path, strlen(place.path));
    return result(error);
}

int symlink(const char *text, const char *path)
{
    return symlinkat(text, AT_FDCWD, path);
}

ssize_t readlinkat(int directory, const char *restrict path, char *restrict text, size_t size)
{
    struct place place;
    size_t count;
    cloudabi_errno_t error = find_place_at(directory, path, &place);
    if (error == CLOUDABI_ESUCCESS)
        error = cloudabi_sys_file_readlink(place.directory, place.path, strlen(place.path), text, size, &count);
    return result(error) == 0 ? (ssize_t)count : -1;
}

ssize_t readlink(const char *restrict path, char *restrict text, size_t size)
{
    return readlinkat(AT_FDCWD, path, text, size);
}

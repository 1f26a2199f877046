/* Paths: the directories of the launch, the current directory, and names without symbolic links. */
#define _GNU_SOURCE
#include "system.h"

#include <errno.h>
#include <fcntl.h>
#include <limits.h>
#include <stdlib.h>
#include <string.h>
#include <sys/stat.h>
#include <unistd.h>

#define MOST_LINKS 32 /* that a path may lead through */

static argdata_t directories;
static char changed[PATH_ROOM]; /* the current directory since `chdir`: without symbolic links, `..` and slashes at the end */

static const char *current(void)
{
    return *changed == '\0' ? "/" : changed;
}

void take_directories(const argdata_t *arguments)
{
    argdata_map_find(arguments, "directories", &directories);
}

/* What stands behind slashes and dots that lead nowhere. */
static const char *behind_front(const char *path)
{
    for (;;) {
        while (*path == '/')
            ++path;
        if (path[0] != '.' || (path[1] != '/' && path[1] != '\0'))
            return path;
        ++path;
    }
}

static size_t length_of_name(const char *name)
{
    size_t length = strlen(name);
    while (length > 0 && name[length - 1] == '/')
        --length;
    return length;
}

/* The rest of the path behind the directory's name, or NULL where it doesn't begin with that name. */
static const char *behind_name(const char *path, const char *name)
{
    size_t length = length_of_name(name);
    if (strncmp(path, name, length) != 0 || (length > 0 && path[length] != '/' && path[length] != '\0'))
        return NULL;
    return behind_front(path + length);
}

bool begin_directories(argdata_rest_t *rest)
{
    return argdata_map_begin(&directories, rest);
}

bool next_directory(argdata_rest_t *rest, const char **name, cloudabi_fd_t *fd)
{
    argdata_t key, value;
    size_t length;
    while (argdata_map_next(rest, &key, &value)) {
        if (argdata_get_str(&key, name, &length) && argdata_get_fd(&value, fd)) {
            *name = behind_front(*name);
            return true;
        }
    }
    return false;
}

/* Removes the last name of a path; the root has none. */
static void drop_name(char *path)
{
    char *slash = strrchr(path, '/');
    slash[slash == path] = '\0';
}

static bool append_name(char *path, const char *name, size_t length)
{
    size_t before = strlen(path);
    if (before + 1 + length >= PATH_ROOM) {
        errno = ENAMETOOLONG;
        return false;
    }
    if (before > 1)
        path[before++] = '/';
    memcpy(path + before, name, length);
    path[before + length] = '\0';
    return true;
}

/* Only the `..` at the front are taken off: the current directory has no symbolic link, and what is behind a name may be one. */
bool absolute_path(const char *path, char *whole)
{
    strcpy(whole, *path == '/' ? "/" : current());
    path = behind_front(path);
    while (path[0] == '.' && path[1] == '.' && (path[2] == '/' || path[2] == '\0')) {
        drop_name(whole);
        path = behind_front(path + 2);
    }
    return *path == '\0' || append_name(whole, path, strlen(path));
}

cloudabi_errno_t find_place(const char *path, struct place *place)
{
    argdata_rest_t rest;
    const char *name;
    cloudabi_fd_t fd;
    place->path = NULL;
    if (*path == '\0')
        return CLOUDABI_ENOENT;
    if (*path != '/' && current()[1] != '\0') {
        if (!absolute_path(path, place->room))
            return CLOUDABI_ENAMETOOLONG;
        path = place->room;
    }
    path = behind_front(path);
    if (!begin_directories(&rest))
        return CLOUDABI_ENOTCAPABLE;
    while (next_directory(&rest, &name, &fd)) {
        const char *behind = behind_name(path, name);
        if (behind != NULL && (place->path == NULL || behind > place->path)) {
            place->directory = fd;
            place->path = behind;
        }
    }
    if (place->path == NULL)
        return CLOUDABI_ENOTCAPABLE;
    if (*place->path == '\0')
        place->path = ".";
    return CLOUDABI_ESUCCESS;
}

cloudabi_errno_t find_place_at(int directory, const char *path, struct place *place)
{
    if (directory == AT_FDCWD || *path == '/')
        return find_place(path, place);
    if (*path == '\0')
        return CLOUDABI_ENOENT;
    place->directory = descriptor(directory);
    place->path = path;
    return place->directory == NO_DESCRIPTOR ? CLOUDABI_EBADF : CLOUDABI_ESUCCESS;
}

cloudabi_lookup_t lookup_of(const struct place *place, bool follows)
{
    return (cloudabi_lookup_t){place->directory, follows ? CLOUDABI_LOOKUP_SYMLINK_FOLLOW : 0};
}

/* Whether the path is above a directory of the launch: it has no descriptor, but a program may stand there. */
static bool is_above_directory(const char *path)
{
    argdata_rest_t rest;
    const char *name;
    cloudabi_fd_t fd;
    size_t length = strlen(path = behind_front(path));
    if (length == 0)
        return true;
    if (!argdata_map_begin(&directories, &rest))
        return false;
    while (next_directory(&rest, &name, &fd)) {
        if (strncmp(path, name, length) == 0 && name[length] == '/')
            return true;
    }
    return false;
}

/* What a name that was appended is: its symbolic link's text, nothing where it is none, or -1. */
static ssize_t text_of_link(const char *path, char *text)
{
    ssize_t length = readlink(path, text, PATH_ROOM - 1);
    struct stat status;
    if (length >= 0 || errno == EINVAL || is_above_directory(path))
        return length < 0 ? 0 : length;
    if (errno == EACCES && lstat(path, &status) == 0)
        return 0; /* no right to read links */
    return -1;
}

/* Puts the text of a link before what is left of a path. */
static bool put_before(char *left, const char *text, size_t length, const char *behind)
{
    size_t rest = strlen(behind);
    if (length + 1 + rest >= PATH_ROOM) {
        errno = ENAMETOOLONG;
        return false;
    }
    memmove(left + length + 1, behind, rest + 1);
    memcpy(left, text, length);
    left[length] = '/';
    return true;
}

/* Takes names from `left` to the end of `whole` until none is left. Both have PATH_ROOM bytes. */
static bool resolve(char *whole, char *left)
{
    char text[PATH_ROOM];
    int links = 0;
    const char *name = behind_front(left);
    while (*name != '\0') {
        size_t length = strcspn(name, "/");
        const char *behind = name + length;
        if (length == 2 && name[0] == '.' && name[1] == '.') {
            drop_name(whole);
            name = behind_front(behind);
            continue;
        }
        if (!append_name(whole, name, length))
            return false;
        ssize_t found = text_of_link(whole, text);
        if (found < 0)
            return false;
        name = behind_front(behind);
        if (found == 0)
            continue;
        if (++links > MOST_LINKS || text[0] == '/') {
            errno = text[0] == '/' ? EACCES : ELOOP;
            return false;
        }
        drop_name(whole);
        if (!put_before(left, text, (size_t)found, name))
            return false;
        name = behind_front(left);
    }
    return true;
}

char *realpath(const char *restrict path, char *restrict resolved)
{
    char whole[PATH_ROOM], left[PATH_ROOM];
    if (path == NULL || *path == '\0') {
        errno = path == NULL ? EINVAL : ENOENT;
        return NULL;
    }
    if (strlen(path) >= PATH_ROOM) {
        errno = ENAMETOOLONG;
        return NULL;
    }
    strcpy(left, path);
    strcpy(whole, *path == '/' ? "/" : current());
    if (!resolve(whole, left))
        return NULL;
    return resolved == NULL ? strdup(whole) : strcpy(resolved, whole);
}

int chdir(const char *path)
{
    char whole[PATH_ROOM];
    if (realpath(path, whole) == NULL)
        return -1;
    if (!is_above_directory(whole)) {
        int fd = open(whole, O_RDONLY | O_DIRECTORY);
        if (fd < 0)
            return -1;
        close(fd);
    }
    strcpy(changed, whole);
    return 0;
}

int fchdir(int fd)
{
    const char *path = directory_path(fd);
    if (path != NULL)
        return chdir(path);
    errno = descriptor(fd) == NO_DESCRIPTOR ? EBADF : ENOTDIR;
    return -1;
}

char *getcwd(char *room, size_t size)
{
    size_t needed = strlen(current()) + 1;
    if (room == NULL)
        return strdup(current());
    if (size == 0) {
        errno = EINVAL;
        return NULL;
    }
    if (size < needed) {
        errno = ERANGE;
        return NULL;
    }
    return memcpy(room, current(), needed);
}

char *getwd(char *room)
{
    return getcwd(room, PATH_MAX);
}

char *get_current_dir_name(void)
{
    return strdup(current());
}

/* Reading of directories. A stream has the entries of one call; its places are the sandbox's positions of entries. */
#define _GNU_SOURCE
#include "system.h"

#include <dirent.h>
#include <errno.h>
#include <fcntl.h>
#include <stdlib.h>
#include <string.h>
#include <unistd.h>

#define ROOM 4096

struct __directory {
    int fd;
    cloudabi_dircookie_t next; /* of the entry behind those in the room */
    size_t begin, end;         /* of the entries in the room */
    long place;                /* of the entry that is read next: `.` and `..` are 0 and 1 */
    struct dirent entry;
    char room[ROOM];
};

DIR *fdopendir(int fd)
{
    cloudabi_fdstat_t status;
    if (result(cloudabi_sys_fd_stat_get(descriptor(fd), &status)) != 0)
        return NULL;
    if (status.kind != CLOUDABI_FILETYPE_DIRECTORY) {
        errno = ENOTDIR;
        return NULL;
    }
    DIR *directory = calloc(1, sizeof *directory);
    if (directory != NULL)
        directory->fd = fd;
    return directory;
}

DIR *opendir(const char *path)
{
    int fd = open(path, O_RDONLY | O_DIRECTORY | O_CLOEXEC);
    DIR *directory = fd < 0 ? NULL : fdopendir(fd);
    if (directory == NULL && fd >= 0)
        close(fd);
    return directory;
}

int closedir(DIR *directory)
{
    int failed = close(directory->fd);
    free(directory);
    return failed;
}

int dirfd(DIR *directory)
{
    return directory->fd;
}

static unsigned char type_of(uint8_t kind)
{
    switch (kind) {
    case CLOUDABI_FILETYPE_DIRECTORY: return DT_DIR;
    case CLOUDABI_FILETYPE_REGULAR_FILE: return DT_REG;
    case CLOUDABI_FILETYPE_SYMBOLIC_LINK: return DT_LNK;
    default: return DT_UNKNOWN;
    }
}

/* Fills the room with entries; false at the end and where it fails. */
static bool read_entries(DIR *directory)
{
    size_t count;
    directory->begin = directory->end = 0;
    if (result(cloudabi_sys_file_readdir(descriptor(directory->fd), directory->room, ROOM, directory->next, &count)) != 0)
        return false;
    directory->end = count;
    return count > 0;
}

/* The next whole entry in the room, or NULL. */
static const cloudabi_dirent_t *entry_in_room(DIR *directory, cloudabi_dirent_t *entry)
{
    size_t left = directory->end - directory->begin;
    if (left < sizeof *entry)
        return NULL;
    memcpy(entry, directory->room + directory->begin, sizeof *entry);
    return left - sizeof *entry < entry->namlen ? NULL : entry;
}

static struct dirent *dots(DIR *directory)
{
    directory->entry = (struct dirent){.d_type = DT_DIR, .d_ino = 1, .d_off = directory->place + 1};
    strcpy(directory->entry.d_name, directory->place == 0 ? "." : "..");
    ++directory->place;
    return &directory->entry;
}

struct dirent *readdir(DIR *directory)
{
    cloudabi_dirent_t found;
    if (directory->place < 2)
        return dots(directory);
    if (entry_in_room(directory, &found) == NULL && (!read_entries(directory) || entry_in_room(directory, &found) == NULL))
        return NULL;
    const char *name = directory->room + directory->begin + sizeof found;
    directory->entry = (struct dirent){.d_ino = found.ino, .d_type = type_of(found.kind), .d_off = ++directory->place};
    memcpy(directory->entry.d_name, name, found.namlen);
    directory->entry.d_name[found.namlen] = '\0';
    directory->begin += sizeof found + found.namlen;
    directory->next = found.next;
    return &directory->entry;
}

int readdir_r(DIR *directory, struct dirent *entry, struct dirent **found)
{
    int error = errno, failed;
    errno = 0;
    struct dirent *next = readdir(directory);
    failed = next == NULL ? errno : 0;
    errno = error;
    if (next != NULL)
        *entry = *next;
    *found = next == NULL ? NULL : entry;
    return failed;
}

long telldir(DIR *directory)
{
    return directory->place;
}

void seekdir(DIR *directory, long place)
{
    directory->place = place;
    directory->next = place < 2 ? 0 : (cloudabi_dircookie_t)place - 2;
    directory->begin = directory->end = 0;
}

void rewinddir(DIR *directory)
{
    seekdir(directory, 0);
}

int alphasort(const struct dirent **left, const struct dirent **right)
{
    return strcmp((*left)->d_name, (*right)->d_name);
}

int versionsort(const struct dirent **left, const struct dirent **right)
{
    return strverscmp((*left)->d_name, (*right)->d_name);
}

static void free_names(struct dirent **names, size_t count)
{
    while (count > 0)
        free(names[--count]);
    free(names);
}

/* Adds a copy of an entry. */
static bool add_name(struct dirent ***names, size_t count, const struct dirent *entry)
{
    struct dirent *copy = malloc(sizeof *copy);
    struct dirent **larger = count % 8 == 0 ? realloc(*names, (count + 8) * sizeof **names) : *names;
    if (larger != NULL)
        *names = larger;
    if (copy == NULL || larger == NULL) {
        free(copy);
        return false;
    }
    *copy = *entry;
    (*names)[count] = copy;
    return true;
}

int scandir(const char *path, struct dirent ***names, int (*takes)(const struct dirent *),
            int (*compares)(const struct dirent **, const struct dirent **))
{
    struct dirent **found = NULL;
    struct dirent *entry;
    size_t count = 0;
    DIR *directory = opendir(path);
    if (directory == NULL)
        return -1;
    errno = 0;
    while ((entry = readdir(directory)) != NULL) {
        if (takes != NULL && !takes(entry))
            continue;
        if (!add_name(&found, count, entry))
            break;
        ++count;
    }
    int error = errno;
    closedir(directory);
    if (error != 0) {
        free_names(found, count);
        errno = error;
        return -1;
    }
    if (compares != NULL && count > 0)
        qsort(found, count, sizeof *found, (int (*)(const void *, const void *))compares);
    *names = found;
    return (int)count;
}

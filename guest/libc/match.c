/* glob: the paths that fit a pattern, part by part. */
#define _GNU_SOURCE
#include "system.h"

#include <dirent.h>
#include <errno.h>
#include <fnmatch.h>
#include <glob.h>
#include <stdlib.h>
#include <string.h>
#include <sys/stat.h>

struct search {
    int flags;
    int (*fails)(const char *path, int error);
    char **paths;
    size_t count;
};

static int add_path(struct search *search, const char *path, bool is_marked)
{
    char **larger = realloc(search->paths, (search->count + 1) * sizeof *larger);
    if (larger == NULL)
        return GLOB_NOSPACE;
    search->paths = larger;
    char *copy = malloc(strlen(path) + 2);
    if (copy == NULL)
        return GLOB_NOSPACE;
    strcat(strcpy(copy, path), is_marked ? "/" : "");
    larger[search->count++] = copy;
    return 0;
}

/* A path that is complete, where there is something. */
static int add_if_there(struct search *search, const char *path)
{
    struct stat status;
    if (lstat(path, &status) != 0)
        return 0;
    bool is_directory = (search->flags & GLOB_MARK) && stat(path, &status) == 0 && S_ISDIR(status.st_mode);
    size_t length = strlen(path);
    return add_path(search, path, is_directory && length > 0 && path[length - 1] != '/');
}

/* Copies a part of a pattern that has no sign but escaped ones. */
static void append_plain(char *path, const char *part, size_t length, bool has_escapes)
{
    path += strlen(path);
    for (size_t at = 0; at < length; ++at) {
        if (has_escapes && part[at] == '\\' && at + 1 < length)
            ++at;
        *path++ = part[at];
    }
    *path = '\0';
}

static int search_from(struct search *search, char *path, const char *pattern);

/* All names of a directory that fit a part. */
static int search_names(struct search *search, char *path, const char *part, const char *behind)
{
    size_t length = strlen(path);
    struct dirent *entry;
    int found = 0;
    DIR *directory = opendir(length == 0 ? "." : path);
    if (directory == NULL) {
        bool is_refused = search->fails != NULL && search->fails(path, errno) != 0;
        return is_refused || (search->flags & GLOB_ERR) ? GLOB_ABORTED : 0;
    }
    int how = FNM_PERIOD | (search->flags & GLOB_NOESCAPE ? FNM_NOESCAPE : 0);
    while (found == 0 && (entry = readdir(directory)) != NULL) {
        if (fnmatch(part, entry->d_name, how) != 0 || length + strlen(entry->d_name) + 2 > PATH_ROOM)
            continue;
        strcpy(path + length, entry->d_name);
        found = search_from(search, path, behind);
    }
    path[length] = '\0';
    closedir(directory);
    return found;
}

/* Goes on behind a path with the rest of the pattern. */
static int search_from(struct search *search, char *path, const char *pattern)
{
    char part[PATH_ROOM];
    size_t before = strlen(path), slashes = strspn(pattern, "/");
    if (before + slashes + 2 > PATH_ROOM)
        return 0;
    strncat(path, pattern, slashes);
    pattern += slashes;
    size_t length = strcspn(pattern, "/");
    int found;
    if (length == 0) {
        found = add_if_there(search, path);
    } else {
        memcpy(part, pattern, length < PATH_ROOM ? length : PATH_ROOM - 1);
        part[length < PATH_ROOM ? length : PATH_ROOM - 1] = '\0';
        if (strpbrk(part, "*?[") != NULL) {
            found = search_names(search, path, part, pattern + length);
        } else if (strlen(path) + length + 2 <= PATH_ROOM) {
            append_plain(path, part, length, !(search->flags & GLOB_NOESCAPE));
            found = search_from(search, path, pattern + length);
        } else {
            found = 0;
        }
    }
    path[before] = '\0';
    return found;
}

static int compare(const void *left, const void *right)
{
    return strcmp(*(char *const *)left, *(char *const *)right);
}

/* Puts what was found behind what was there. */
static int give(struct search *search, glob_t *found)
{
    size_t before = search->flags & GLOB_APPEND ? found->gl_pathc : 0, offset = search->flags & GLOB_DOOFFS ? found->gl_offs : 0;
    char **old = search->flags & GLOB_APPEND ? found->gl_pathv : NULL;
    char **paths = realloc(old, (offset + before + search->count + 1) * sizeof *paths);
    if (paths == NULL)
        return GLOB_NOSPACE;
    if (old == NULL)
        memset(paths, 0, offset * sizeof *paths);
    if (search->count > 0)
        memcpy(paths + offset + before, search->paths, search->count * sizeof *paths);
    paths[offset + before + search->count] = NULL;
    found->gl_pathv = paths;
    found->gl_pathc = before + search->count;
    return 0;
}

int glob(const char *restrict pattern, int flags, int (*fails)(const char *path, int error), glob_t *restrict found)
{
    struct search search = {.flags = flags, .fails = fails};
    char path[PATH_ROOM] = "";
    if (!(flags & GLOB_APPEND))
        *found = (glob_t){.gl_offs = flags & GLOB_DOOFFS ? found->gl_offs : 0};
    int failed = search_from(&search, path, pattern);
    if (failed == 0 && search.count == 0)
        failed = flags & GLOB_NOCHECK ? add_path(&search, pattern, false) : GLOB_NOMATCH;
    if (search.count > 0 && !(flags & GLOB_NOSORT))
        qsort(search.paths, search.count, sizeof *search.paths, compare);
    int refused = search.count > 0 ? give(&search, found) : 0;
    free(search.paths);
    return failed != 0 ? failed : refused;
}

void globfree(glob_t *found)
{
    for (size_t at = 0; at < found->gl_pathc; ++at)
        free(found->gl_pathv[found->gl_offs + at]);
    free(found->gl_pathv);
    *found = (glob_t){0};
}

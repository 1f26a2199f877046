/* Walks of trees: ftw and nftw. */
#define _GNU_SOURCE
#include "system.h"

#include <dirent.h>
#include <errno.h>
#include <ftw.h>
#include <stdlib.h>
#include <string.h>
#include <unistd.h>

/* A walk: what is called, and how. */
struct walk {
    int (*does)(const char *path, const struct stat *status, int kind, struct FTW *place);
    int (*simply)(const char *path, const struct stat *status, int kind);
    int flags;
};

static int call(const struct walk *walk, const char *path, const struct stat *status, int kind, struct FTW place)
{
    if (walk->simply == NULL)
        return walk->does(path, status, kind, &place);
    return walk->simply(path, status, kind == FTW_SLN ? FTW_NS : kind);
}

static int kind_of(const struct walk *walk, const char *path, struct stat *status)
{
    bool is_physical = (walk->flags & FTW_PHYS) != 0;
    if ((is_physical ? lstat : stat)(path, status) == 0)
        return S_ISDIR(status->st_mode) ? FTW_D : S_ISLNK(status->st_mode) ? FTW_SL : FTW_F;
    if (errno == ENOENT && !is_physical && lstat(path, status) == 0)
        return FTW_SLN;
    memset(status, 0, sizeof *status);
    return FTW_NS;
}

static int walk_path(const struct walk *walk, char *path, int level);

/* Walks what is in a directory. The room behind the path is the names'. */
static int walk_entries(const struct walk *walk, DIR *directory, char *path, int level)
{
    struct dirent *entry;
    size_t length = strlen(path);
    int found = 0;
    while (found == 0 && (entry = readdir(directory)) != NULL) {
        if (strcmp(entry->d_name, ".") == 0 || strcmp(entry->d_name, "..") == 0)
            continue;
        if (length + strlen(entry->d_name) + 2 > PATH_ROOM) {
            errno = ENAMETOOLONG;
            return -1;
        }
        strcpy(path + length, length > 0 && path[length - 1] == '/' ? "" : "/");
        strcat(path, entry->d_name);
        found = walk_path(walk, path, level + 1);
        path[length] = '\0';
    }
    return found;
}

static int walk_path(const struct walk *walk, char *path, int level)
{
    struct stat status;
    int kind = kind_of(walk, path, &status);
    const char *slash = strrchr(path, '/');
    struct FTW place = {slash == NULL || slash[1] == '\0' ? 0 : (int)(slash + 1 - path), level};
    if (kind == FTW_NS && level == 0)
        return -1;
    DIR *directory = kind == FTW_D ? opendir(path) : NULL;
    if (kind == FTW_D && directory == NULL)
        kind = FTW_DNR;
    bool is_last = directory != NULL && (walk->flags & FTW_DEPTH);
    int found = is_last ? 0 : call(walk, path, &status, kind, place);
    if (directory != NULL) {
        if (found == 0)
            found = walk_entries(walk, directory, path, level);
        closedir(directory);
    }
    return found == 0 && is_last ? call(walk, path, &status, FTW_DP, place) : found;
}

static int walk_from(const struct walk *walk, const char *path)
{
    char room[PATH_ROOM];
    if (strlen(path) + 1 > sizeof room) {
        errno = ENAMETOOLONG;
        return -1;
    }
    return walk_path(walk, strcpy(room, path), 0);
}

int nftw(const char *path, int (*does)(const char *path, const struct stat *status, int kind, struct FTW *place), int most, int flags)
{
    struct walk walk = {.does = does, .flags = flags};
    (void)most;
    return walk_from(&walk, path);
}

int ftw(const char *path, int (*does)(const char *path, const struct stat *status, int kind), int most)
{
    struct walk walk = {.simply = does};
    (void)most;
    return walk_from(&walk, path);
}

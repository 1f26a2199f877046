/* Directories: their streams, the calls that begin at one, walks, and names that fit a pattern. */
#include "check.h"

#include <dirent.h>
#include <fcntl.h>
#include <fnmatch.h>
#include <ftw.h>
#include <glob.h>
#include <stdlib.h>
#include <sys/stat.h>
#include <unistd.h>

static void make(const char *path)
{
    int fd = open(path, O_WRONLY | O_CREAT | O_EXCL, 0644);
    CHECK(fd >= 0 && write(fd, path, strlen(path)) > 0 && close(fd) == 0);
}

static int is_name(const struct dirent *entry)
{
    return entry->d_name[0] != '.';
}

static int compare(const void *left, const void *right)
{
    return strcmp(*(char *const *)left, *(char *const *)right);
}

static void reads(void)
{
    struct dirent *entry;
    char *names[8];
    int count = 0, dots = 0, types = 0;
    DIR *directory = opendir("tree");
    CHECK(directory != NULL && dirfd(directory) >= 0);
    while ((entry = readdir(directory)) != NULL) {
        if (entry->d_name[0] == '.')
            dots += 1;
        else if (count < 8)
            names[count++] = strdup(entry->d_name);
        types += entry->d_type == DT_DIR;
    }
    qsort(names, (size_t)count, sizeof *names, compare);
    CHECK(dots == 2 && count == 4 && types == 3 && strcmp(names[0], "a.c") == 0 && strcmp(names[3], "sub") == 0);
    while (count > 0)
        free(names[--count]);
    rewinddir(directory);
    CHECK(readdir(directory) != NULL && readdir(directory) != NULL && readdir(directory) != NULL);
    long place = telldir(directory);
    entry = readdir(directory);
    char name[256];
    strcpy(name, entry->d_name);
    seekdir(directory, place);
    CHECK((entry = readdir(directory)) != NULL && strcmp(entry->d_name, name) == 0 && closedir(directory) == 0);
    CHECK(opendir("absent") == NULL && errno == ENOENT);
    CHECK(opendir("tree/a.c") == NULL && errno == ENOTDIR);
}

static void scans(void)
{
    struct dirent **names;
    int count = scandir("tree", &names, is_name, alphasort);
    CHECK(count == 4 && strcmp(names[0]->d_name, "a.c") == 0 && strcmp(names[1]->d_name, "b.c") == 0 && strcmp(names[2]->d_name, "link") == 0);
    while (count > 0)
        free(names[--count]);
    free(names);
    CHECK(scandir("absent", &names, NULL, NULL) == -1 && errno == ENOENT);
}

/* More entries than one call gives. */
static void many(void)
{
    char name[64];
    int count = 0;
    CHECK(mkdir("many", 0755) == 0);
    for (int at = 0; at < 300; ++at) {
        snprintf(name, sizeof name, "many/%03d-a-name-that-is-longer-than-most", at);
        int fd = open(name, O_WRONLY | O_CREAT, 0644);
        if (fd >= 0)
            close(fd);
    }
    DIR *directory = opendir("many");
    while (readdir(directory) != NULL)
        ++count;
    CHECK(count == 302 && closedir(directory) == 0);
    for (int at = 0; at < 300; ++at) {
        snprintf(name, sizeof name, "many/%03d-a-name-that-is-longer-than-most", at);
        count -= unlink(name) == 0;
    }
    CHECK(count == 2 && rmdir("many") == 0);
}

static void at_directories(void)
{
    struct stat status;
    char text[16];
    int directory = open("tree", O_RDONLY | O_DIRECTORY), fd;
    CHECK(directory >= 0 && (fd = openat(directory, "a.c", O_RDONLY)) >= 0 && close(fd) == 0);
    CHECK(fstatat(directory, "sub", &status, 0) == 0 && S_ISDIR(status.st_mode));
    CHECK(fstatat(directory, "link", &status, AT_SYMLINK_NOFOLLOW) == 0 && S_ISLNK(status.st_mode) && faccessat(directory, "b.c", R_OK, 0) == 0);
    CHECK(mkdirat(directory, "new", 0755) == 0 && renameat(directory, "new", AT_FDCWD, "tree/newer") == 0);
    CHECK(unlinkat(directory, "newer", AT_REMOVEDIR) == 0 && symlinkat("a.c", directory, "point") == 0);
    CHECK(readlinkat(directory, "point", text, sizeof text) == 3 && linkat(directory, "a.c", directory, "hard", 0) == 0);
    CHECK(unlinkat(directory, "point", 0) == 0 && unlinkat(directory, "hard", 0) == 0);
    FAILS(openat(directory, "absent", O_RDONLY), ENOENT);
    FAILS(openat(999, "a.c", O_RDONLY), EBADF);
    CHECK(openat(999, "/", O_RDONLY) >= 0);
    DIR *stream = fdopendir(dup(directory));
    CHECK(stream != NULL && readdir(stream) != NULL && closedir(stream) == 0);
    CHECK(fchdir(directory) == 0 && access("a.c", F_OK) == 0 && chdir("..") == 0 && access("tree", F_OK) == 0 && close(directory) == 0);
}

static int walked, directories, last_level;

static int walk(const char *path, const struct stat *status, int kind, struct FTW *place)
{
    ++walked;
    directories += kind == FTW_D || kind == FTW_DP;
    last_level = place->level;
    return strcmp(path + place->base, "stop") == 0 || (kind == FTW_F && !S_ISREG(status->st_mode)) ? 7 : 0;
}

static int walk_simply(const char *path, const struct stat *status, int kind)
{
    (void)path, (void)status;
    ++walked;
    return kind == FTW_NS;
}

static void walks(void)
{
    CHECK(nftw("tree", walk, 5, FTW_PHYS) == 0 && walked == 6 && directories == 2);
    walked = directories = 0;
    CHECK(nftw("tree", walk, 5, FTW_PHYS | FTW_DEPTH) == 0 && walked == 6 && last_level == 0);
    CHECK(nftw("absent", walk, 5, 0) == -1 && errno == ENOENT);
    walked = 0;
    CHECK(ftw("tree", walk_simply, 5) == 0 && walked == 6);
}

static void patterns(void)
{
    glob_t found;
    CHECK(glob("tree/*.c", 0, NULL, &found) == 0 && found.gl_pathc == 2 && strcmp(found.gl_pathv[0], "tree/a.c") == 0);
    CHECK(glob("tree/s*/[a-d]eep", GLOB_APPEND, NULL, &found) == 0 && found.gl_pathc == 3 && strcmp(found.gl_pathv[2], "tree/sub/deep") == 0);
    globfree(&found);
    CHECK(glob("tree/*.h", 0, NULL, &found) == GLOB_NOMATCH);
    CHECK(glob("tree/*.h", GLOB_NOCHECK, NULL, &found) == 0 && strcmp(found.gl_pathv[0], "tree/*.h") == 0);
    globfree(&found);
    CHECK(glob("*/sub", GLOB_MARK, NULL, &found) == 0 && found.gl_pathc == 1 && strcmp(found.gl_pathv[0], "tree/sub/") == 0);
    globfree(&found);
    CHECK(fnmatch("a*[!c]", "abd", 0) == 0 && fnmatch("*.c", "x.h", 0) == FNM_NOMATCH && fnmatch("*", ".x", FNM_PERIOD) == FNM_NOMATCH);
}

int main(int argc, char **argv)
{
    if (argc < 2 || chdir(argv[1]) != 0)
        return 2;
    CHECK(mkdir("tree", 0755) == 0 && mkdir("tree/sub", 0755) == 0 && symlink("b.c", "tree/link") == 0);
    make("tree/a.c");
    make("tree/b.c");
    make("tree/sub/deep");
    reads();
    scans();
    many();
    at_directories();
    walks();
    patterns();
    CHECK(unlink("tree/sub/deep") == 0 && rmdir("tree/sub") == 0 && unlink("tree/a.c") == 0 && unlink("tree/b.c") == 0);
    CHECK(unlink("tree/link") == 0 && rmdir("tree") == 0);
    return finish();
}

/* Names and files: making, moving, linking, what is known of them, times, sizes, and paths. */
#include "check.h"

#include <fcntl.h>
#include <limits.h>
#include <stdlib.h>
#include <sys/stat.h>
#include <sys/time.h>
#include <unistd.h>
#include <utime.h>

static void make(const char *path, const char *text)
{
    int fd = open(path, O_WRONLY | O_CREAT | O_TRUNC, 0644);
    CHECK(fd >= 0 && write(fd, text, strlen(text)) == (ssize_t)strlen(text) && close(fd) == 0);
}

static void opens(void)
{
    int fd;
    make("file", "hello");
    FAILS(open("absent", O_RDONLY), ENOENT);
    FAILS(open("file", O_WRONLY | O_CREAT | O_EXCL, 0644), EEXIST);
    FAILS(open("file/x", O_RDONLY), ENOTDIR);
    FAILS(open("file", O_RDONLY | O_DIRECTORY), ENOTDIR);
    FAILS(open(".", O_WRONLY), EISDIR);
    FAILS(open("", O_RDONLY), ENOENT);
    CHECK((fd = open("file", O_WRONLY | O_APPEND)) >= 0 && write(fd, "!", 1) == 1 && close(fd) == 0);
    CHECK((fd = creat("made", 0600)) >= 0 && close(fd) == 0 && access("made", F_OK) == 0);
    CHECK((fd = open("made", O_RDWR | O_CLOEXEC)) >= 0 && fcntl(fd, F_GETFD) == FD_CLOEXEC && close(fd) == 0);
    FAILS(close(fd), EBADF);
    CHECK(unlink("made") == 0);
    FAILS(unlink("made"), ENOENT);
}

static void tells(void)
{
    struct stat file, other, directory;
    CHECK(stat("file", &file) == 0 && S_ISREG(file.st_mode) && file.st_size == 6 && file.st_nlink == 1 && (file.st_mode & S_IRUSR));
    CHECK(stat(".", &directory) == 0 && S_ISDIR(directory.st_mode) && directory.st_ino != file.st_ino);
    int fd = open("file", O_RDONLY);
    CHECK(fstat(fd, &other) == 0 && other.st_ino == file.st_ino && other.st_dev == file.st_dev && other.st_size == 6 && close(fd) == 0);
    CHECK(sizeof file.st_ino == 8);
    FAILS(stat("absent", &other), ENOENT);
    FAILS(fstat(999, &other), EBADF);
    CHECK(access("file", R_OK | W_OK) == 0);
    FAILS(access("file", X_OK), EACCES);
    FAILS(access("absent", F_OK), ENOENT);
    CHECK(access(".", R_OK | W_OK | X_OK) == 0 && faccessat(AT_FDCWD, "file", R_OK, 0) == 0);
    CHECK(chmod("file", 0644) == 0 && chown("file", getuid(), getgid()) == 0);
    FAILS(chmod("absent", 0644), ENOENT);
}

static void links(void)
{
    struct stat file, link_status;
    char text[16] = "";
    CHECK(link("file", "second") == 0 && stat("second", &file) == 0 && file.st_nlink == 2);
    FAILS(link("file", "second"), EEXIST);
    FAILS(link("absent", "third"), ENOENT);
    CHECK(symlink("file", "pointer") == 0 && lstat("pointer", &link_status) == 0 && S_ISLNK(link_status.st_mode) && link_status.st_size == 4);
    CHECK(stat("pointer", &link_status) == 0 && S_ISREG(link_status.st_mode) && link_status.st_ino == file.st_ino);
    CHECK(readlink("pointer", text, sizeof text) == 4 && memcmp(text, "file", 5) == 0 && readlink("pointer", text, 2) == 2);
    FAILS(readlink("file", text, sizeof text), EINVAL);
    FAILS(symlink("x", "pointer"), EEXIST);
    CHECK(symlink("loop", "loop") == 0);
    FAILS(open("loop", O_RDONLY), ELOOP);
    FAILS(open("pointer", O_RDONLY | O_NOFOLLOW), ELOOP);
    CHECK(symlink("nowhere", "broken") == 0);
    FAILS(stat("broken", &file), ENOENT);
    CHECK(lstat("broken", &file) == 0 && unlink("broken") == 0 && unlink("loop") == 0 && unlink("pointer") == 0 && unlink("second") == 0);
    CHECK(stat("file", &file) == 0 && file.st_nlink == 1);
}

static void moves(void)
{
    make("old", "x");
    CHECK(rename("old", "new") == 0 && access("old", F_OK) == -1 && access("new", F_OK) == 0);
    FAILS(rename("old", "new"), ENOENT);
    CHECK(mkdir("a", 0755) == 0 && mkdir("a/b", 0755) == 0 && mkdir("c/", 0755) == 0);
    FAILS(mkdir("a", 0755), EEXIST);
    FAILS(mkdir("x/y", 0755), ENOENT);
    FAILS(rename("a", "a/b/c"), EINVAL);
    FAILS(rename("new", "a"), EISDIR);
    FAILS(rename("a", "new"), ENOTDIR);
    FAILS(rename("new/", "newer"), ENOTDIR);
    CHECK(rename("c/", "e/") == 0 && rename("e", "c") == 0);
    FAILS(rmdir("a"), ENOTEMPTY);
    FAILS(rmdir("new"), ENOTDIR);
    CHECK(rename("a/b", "c") == 0 && rmdir("c/") == 0 && rmdir("a") == 0 && remove("new") == 0);
    CHECK(mkdir("d", 0755) == 0 && remove("d") == 0);
}

static void times(void)
{
    struct timespec both[2] = {{1000000000, 5}, {1234567890, 123456789}}, omitted[2] = {{0, UTIME_OMIT}, {77, 0}};
    struct timeval micro[2] = {{5, 6}, {7, 8}};
    struct utimbuf seconds = {11, 22};
    struct stat file;
    CHECK(utimensat(AT_FDCWD, "file", both, 0) == 0 && stat("file", &file) == 0);
    CHECK(file.st_atim.tv_sec == 1000000000 && file.st_mtim.tv_sec == 1234567890 && file.st_mtim.tv_nsec == 123456789);
    CHECK(file.st_mtime == 1234567890);
    CHECK(utimensat(AT_FDCWD, "file", omitted, 0) == 0 && stat("file", &file) == 0 && file.st_atime == 1000000000 && file.st_mtime == 77);
    CHECK(utimes("file", micro) == 0 && stat("file", &file) == 0 && file.st_atim.tv_nsec == 6000 && file.st_mtime == 7);
    CHECK(utime("file", &seconds) == 0 && stat("file", &file) == 0 && file.st_atime == 11 && file.st_mtime == 22);
    int fd = open("file", O_RDWR);
    CHECK(futimens(fd, both) == 0 && fstat(fd, &file) == 0 && file.st_mtime == 1234567890 && close(fd) == 0);
    CHECK(utime("file", NULL) == 0);
    FAILS(utime("absent", NULL), ENOENT);
}

static void sizes(void)
{
    struct stat file;
    char bytes[8];
    CHECK(truncate("file", 3) == 0 && stat("file", &file) == 0 && file.st_size == 3);
    int fd = open("file", O_RDWR);
    CHECK(ftruncate(fd, 6) == 0 && read(fd, bytes, 8) == 6 && memcmp(bytes, "hel\0\0", 6) == 0);
    CHECK(posix_fallocate(fd, 4, 6) == 0 && fstat(fd, &file) == 0 && file.st_size == 10);
    CHECK(fsync(fd) == 0 && fdatasync(fd) == 0);
    FAILS(ftruncate(fd, -1), EINVAL);
    CHECK(close(fd) == 0);
    FAILS(truncate("absent", 0), ENOENT);
}

static void paths(void)
{
    char before[PATH_MAX], now[PATH_MAX], resolved[PATH_MAX], wanted[PATH_MAX + 16];
    CHECK(getcwd(before, sizeof before) == before);
    CHECK(mkdir("top", 0755) == 0 && mkdir("top/low", 0755) == 0 && symlink("low", "top/same") == 0 && chdir("top/same") == 0);
    snprintf(wanted, sizeof wanted, "%s/top/low", before);
    CHECK(getcwd(now, sizeof now) != NULL && strcmp(now, wanted) == 0);
    make("inside", "x");
    CHECK(access("../low/inside", F_OK) == 0 && access("../../file", F_OK) == 0 && access(wanted, F_OK) == 0);
    snprintf(wanted, sizeof wanted, "%s/top/low/inside", before);
    CHECK(realpath("../same/./inside", resolved) == resolved && strcmp(resolved, wanted) == 0);
    CHECK(realpath("absent", resolved) == NULL && errno == ENOENT && getcwd(now, 2) == NULL && errno == ERANGE);
    FAILS(chdir("inside"), ENOTDIR);
    FAILS(chdir("absent"), ENOENT);
    CHECK(chdir("..") == 0 && access("low/inside", F_OK) == 0 && chdir(before) == 0);
    CHECK(unlink("top/low/inside") == 0 && unlink("top/same") == 0 && rmdir("top/low") == 0 && rmdir("top") == 0);
}

int main(int argc, char **argv)
{
    if (argc < 2 || chdir(argv[1]) != 0)
        return 2;
    opens();
    tells();
    links();
    moves();
    times();
    sizes();
    paths();
    CHECK(unlink("file") == 0);
    return finish();
}

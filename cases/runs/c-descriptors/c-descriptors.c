/* File descriptors: transfers, offsets, copies, flags, mappings, and waiting. */
#include "check.h"

#include <fcntl.h>
#include <poll.h>
#include <stdlib.h>
#include <sys/file.h>
#include <sys/ioctl.h>
#include <sys/mman.h>
#include <sys/select.h>
#include <sys/stat.h>
#include <sys/uio.h>
#include <termios.h>
#include <unistd.h>

static void transfers(int fd)
{
    char bytes[16], left[4], right[8];
    struct iovec out[2] = {{"abc", 3}, {"defgh", 5}}, in[2] = {{left, 4}, {right, 8}};
    CHECK(write(fd, "0123456789", 10) == 10 && lseek(fd, 0, SEEK_CUR) == 10 && lseek(fd, 2, SEEK_SET) == 2);
    CHECK(read(fd, bytes, 3) == 3 && memcmp(bytes, "234", 3) == 0 && lseek(fd, -1, SEEK_END) == 9);
    CHECK(read(fd, bytes, 5) == 1 && read(fd, bytes, 5) == 0);
    CHECK(pread(fd, bytes, 4, 6) == 4 && memcmp(bytes, "6789", 4) == 0 && lseek(fd, 0, SEEK_CUR) == 10);
    CHECK(pwrite(fd, "XY", 2, 1) == 2 && pread(fd, bytes, 4, 0) == 4 && memcmp(bytes, "0XY3", 4) == 0);
    CHECK(lseek(fd, 0, SEEK_SET) == 0 && writev(fd, out, 2) == 8 && lseek(fd, 0, SEEK_SET) == 0 && readv(fd, in, 2) == 10);
    CHECK(memcmp(left, "abcd", 4) == 0 && memcmp(right, "efgh89", 6) == 0);
    CHECK(preadv(fd, in, 2, 1) == 9 && memcmp(left, "bcde", 4) == 0 && pwritev(fd, out, 1, 20) == 3 && lseek(fd, 0, SEEK_END) == 23);
    FAILS(lseek(fd, -1, SEEK_SET), EINVAL);
    FAILS(pread(fd, bytes, 1, -1), EINVAL);
    FAILS(read(999, bytes, 1), EBADF);
    FAILS(write(-1, bytes, 1), EBADF);
    CHECK(read(fd, bytes, 0) == 0 && write(fd, bytes, 0) == 0);
    int only_read = open("bytes", O_RDONLY), only_write = open("bytes", O_WRONLY), directory = open(".", O_RDONLY);
    FAILS(write(only_read, bytes, 1), EBADF);
    FAILS(read(only_write, bytes, 1), EBADF);
    FAILS(read(directory, bytes, 1), EISDIR);
    CHECK(close(only_read) == 0 && close(only_write) == 0 && close(directory) == 0);
}

static void large(int fd)
{
    size_t size = 200000;
    char *out = malloc(size), *in = malloc(size);
    for (size_t at = 0; at < size; ++at)
        out[at] = (char)(at * 13 + at / 255);
    CHECK(ftruncate(fd, 0) == 0 && lseek(fd, 0, SEEK_SET) == 0 && write(fd, out, size) == (ssize_t)size);
    CHECK(pread(fd, in, size, 0) == (ssize_t)size && memcmp(in, out, size) == 0);
    CHECK(lseek(fd, 0, SEEK_SET) == 0 && read(fd, in, size + 0) == (ssize_t)size && pread(fd, in, size, (off_t)size - 5) == 5);
    free(out);
    free(in);
}

static void copies(int fd)
{
    char byte;
    int copy = dup(fd), other;
    CHECK(copy > fd && lseek(fd, 7, SEEK_SET) == 7 && lseek(copy, 0, SEEK_CUR) == 7);
    CHECK(dup2(fd, 50) == 50 && dup2(50, 50) == 50 && close(50) == 0);
    FAILS(dup2(50, 51), EBADF);
    FAILS(dup(999), EBADF);
    CHECK((other = fcntl(fd, F_DUPFD, 20)) == 20 && close(20) == 0);
    CHECK(close(fd) == 0 && read(copy, &byte, 1) == 1 && dup2(copy, fd) == fd && close(copy) == 0);
    CHECK(dup3(fd, 30, O_CLOEXEC) == 30 && fcntl(30, F_GETFD) == FD_CLOEXEC && fcntl(30, F_SETFD, 0) == 0 && fcntl(30, F_GETFD) == 0);
    CHECK(close(30) == 0 && (other = dup(fd)) == copy && close(other) == 0);
}

static void flags(int fd)
{
    struct flock lock = {.l_type = F_WRLCK, .l_whence = SEEK_SET};
    CHECK((fcntl(fd, F_GETFL) & O_ACCMODE) == O_RDWR);
    CHECK(fcntl(fd, F_SETFL, O_APPEND) == 0 && (fcntl(fd, F_GETFL) & O_APPEND) && lseek(fd, 0, SEEK_SET) == 0 && write(fd, "end", 3) == 3);
    CHECK(lseek(fd, 0, SEEK_CUR) == 200003 && fcntl(fd, F_SETFL, 0) == 0);
    CHECK(fcntl(fd, F_SETLK, &lock) == 0 && fcntl(fd, F_GETLK, &lock) == 0 && lock.l_type == F_UNLCK);
    CHECK(flock(fd, LOCK_EX) == 0 && flock(fd, LOCK_UN) == 0);
    FAILS(fcntl(999, F_GETFD), EBADF);
}

static void mappings(int fd)
{
    struct stat status;
    CHECK(fstat(fd, &status) == 0 && status.st_size == 200003);
    char *bytes = mmap(NULL, 200003, PROT_READ, MAP_PRIVATE, fd, 0);
    CHECK(bytes != MAP_FAILED && memcmp(bytes + 200000, "end", 3) == 0 && bytes[200003] == 0 && munmap(bytes, 200003) == 0);
    bytes = mmap(NULL, 4096, PROT_READ | PROT_WRITE, MAP_PRIVATE, fd, 196608);
    CHECK(bytes != MAP_FAILED && memcmp(bytes + 3392, "end", 3) == 0 && (bytes[3392] = 'E') == 'E' && munmap(bytes, 4096) == 0);
    CHECK(pread(fd, printed, 1, 200000) == 1 && printed[0] == 'e');
    bytes = mmap(NULL, 10000, PROT_READ | PROT_WRITE, MAP_PRIVATE | MAP_ANONYMOUS, -1, 0);
    CHECK(bytes != MAP_FAILED && bytes[9999] == 0 && (bytes[9999] = 1) == 1);
    CHECK(mprotect(bytes, 4096, PROT_READ) == 0 && munmap(bytes, 10000) == 0);
    bytes = mmap(NULL, 8192, PROT_READ | PROT_WRITE, MAP_PRIVATE | MAP_ANONYMOUS, -1, 0);
    bytes[0] = bytes[8191] = 'x';
    bytes = mremap(bytes, 8192, 40000, MREMAP_MAYMOVE);
    CHECK(bytes != MAP_FAILED && bytes[0] == 'x' && bytes[8191] == 'x' && bytes[8192] == 0 && bytes[39999] == 0);
    CHECK(mremap(bytes, 40000, 4096, 0) == bytes && bytes[0] == 'x' && mremap(bytes, 4096, 0, 0) == MAP_FAILED && errno == EINVAL);
    CHECK(munmap(bytes, 4096) == 0);
    CHECK(mmap(NULL, 0, PROT_READ, MAP_PRIVATE | MAP_ANONYMOUS, -1, 0) == MAP_FAILED && errno == EINVAL);
    CHECK(mmap(NULL, 4096, PROT_READ, MAP_PRIVATE, fd, 1) == MAP_FAILED && errno == EINVAL);
    CHECK(mmap(NULL, 4096, PROT_READ, MAP_PRIVATE, 999, 0) == MAP_FAILED && errno == EBADF);
}

static void waits(int fd)
{
    struct pollfd both[2] = {{.fd = fd, .events = POLLIN | POLLOUT}, {.fd = 999, .events = POLLIN}};
    struct termios settings;
    struct winsize size;
    fd_set reading;
    CHECK(poll(both, 2, 0) == 2 && both[0].revents == (POLLIN | POLLOUT) && both[1].revents == POLLNVAL);
    FD_ZERO(&reading);
    FD_SET(fd, &reading);
    CHECK(select(fd + 1, &reading, NULL, NULL, NULL) == 1 && FD_ISSET(fd, &reading));
    CHECK(isatty(fd) == 0 && errno == ENOTTY && isatty(999) == 0 && errno == EBADF);
    FAILS(tcgetattr(fd, &settings), ENOTTY);
    FAILS(ioctl(fd, TIOCGWINSZ, &size), ENOTTY);
}

int main(int argc, char **argv)
{
    if (argc < 2 || chdir(argv[1]) != 0)
        return 2;
    int fd = open("bytes", O_RDWR | O_CREAT | O_TRUNC, 0644);
    CHECK(fd >= 3);
    transfers(fd);
    large(fd);
    copies(fd);
    flags(fd);
    mappings(fd);
    waits(fd);
    CHECK(close(fd) == 0 && unlink("bytes") == 0);
    return finish();
}

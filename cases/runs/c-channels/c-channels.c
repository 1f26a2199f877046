/* Pipes, pairs of sockets, and descriptors that travel through them. */
#include "check.h"

#include <fcntl.h>
#include <signal.h>
#include <stdlib.h>
#include <sys/socket.h>
#include <sys/stat.h>
#include <sys/uio.h>
#include <unistd.h>

#define PIPE_ROOM 65536
#define LARGE 100000

static char large[LARGE], came[200000];

static int close_both(const int ends[2])
{
    return close(ends[0]) == 0 && close(ends[1]) == 0;
}

static int is_text(ssize_t count, const char *bytes, const char *wanted)
{
    return count == (ssize_t)strlen(wanted) && memcmp(bytes, wanted, strlen(wanted)) == 0;
}

static void pipes(void)
{
    struct stat status;
    int ends[2], copy;
    char bytes[16];
    CHECK(pipe(ends) == 0 && ends[0] >= 3 && ends[1] > ends[0] && fcntl(ends[0], F_GETFD) == 0);
    CHECK(write(ends[1], "abc", 3) == 3 && write(ends[1], "defg", 4) == 4 && write(ends[1], bytes, 0) == 0);
    CHECK(is_text(read(ends[0], bytes, 2), bytes, "ab") && is_text(read(ends[0], bytes, 16), bytes, "cdefg") && read(ends[0], bytes, 0) == 0);
    CHECK((fcntl(ends[0], F_GETFL) & O_ACCMODE) == O_RDONLY && (fcntl(ends[1], F_GETFL) & O_ACCMODE) == O_WRONLY);
    CHECK(fstat(ends[0], &status) == 0 && S_ISFIFO(status.st_mode) && fstat(ends[1], &status) == 0 && S_ISFIFO(status.st_mode));
    CHECK(isatty(ends[0]) == 0 && errno == ENOTTY);
    FAILS(lseek(ends[0], 0, SEEK_CUR), ESPIPE);
    FAILS(pread(ends[0], bytes, 1, 0), ESPIPE);
    FAILS(read(ends[1], bytes, 1), EBADF);
    FAILS(write(ends[0], bytes, 1), EBADF);
    FAILS(fsync(ends[1]), EINVAL);
    FAILS(ftruncate(ends[1], 0), EINVAL);
    CHECK((copy = dup(ends[1])) >= 3 && close(ends[1]) == 0 && fcntl(ends[0], F_SETFL, O_NONBLOCK) == 0);
    FAILS(read(ends[0], bytes, 1), EAGAIN);
    CHECK(write(copy, "end", 3) == 3 && close(copy) == 0);
    CHECK(is_text(read(ends[0], bytes, 16), bytes, "end") && read(ends[0], bytes, 16) == 0 && read(ends[0], bytes, 16) == 0);
    CHECK(close(ends[0]) == 0);
    FAILS(read(ends[0], bytes, 1), EBADF);
}

static void flags(void)
{
    int ends[2];
    char byte;
    CHECK(pipe2(ends, O_NONBLOCK | O_CLOEXEC) == 0 && fcntl(ends[0], F_GETFD) == FD_CLOEXEC && fcntl(ends[1], F_GETFD) == FD_CLOEXEC);
    CHECK((fcntl(ends[0], F_GETFL) & O_NONBLOCK) && (fcntl(ends[1], F_GETFL) & O_NONBLOCK));
    FAILS(read(ends[0], &byte, 1), EAGAIN);
    CHECK(fcntl(ends[0], F_SETFL, 0) == 0 && !(fcntl(ends[0], F_GETFL) & O_NONBLOCK) && (fcntl(ends[1], F_GETFL) & O_NONBLOCK));
    CHECK(close(ends[0]) == 0);
    FAILS(write(ends[1], "x", 1), EPIPE);
    CHECK(write(ends[1], "x", 0) == 0 && close(ends[1]) == 0);
    FAILS(pipe2(ends, O_APPEND), EINVAL);
}

static void full_pipes(void)
{
    struct iovec both[2] = {{large, 40000}, {large + 40000, LARGE - 40000}};
    int ends[2];
    CHECK(pipe2(ends, O_NONBLOCK) == 0 && write(ends[1], large, LARGE) == PIPE_ROOM);
    FAILS(write(ends[1], large, 1), EAGAIN);
    CHECK(read(ends[0], came, 4096) == 4096 && write(ends[1], large + PIPE_ROOM, 4096) == 4096);
    CHECK(read(ends[0], came + 4096, sizeof came - 4096) == PIPE_ROOM && memcmp(came, large, PIPE_ROOM + 4096) == 0);
    FAILS(read(ends[0], came, 1), EAGAIN);
    CHECK(writev(ends[1], both, 2) == PIPE_ROOM && read(ends[0], came, sizeof came) == PIPE_ROOM && memcmp(came, large, PIPE_ROOM) == 0);
    CHECK(close_both(ends));
    CHECK(pipe(ends) == 0 && write(ends[1], large, PIPE_ROOM) == PIPE_ROOM && read(ends[0], came, sizeof came) == PIPE_ROOM);
    CHECK(write(ends[1], large, 10) == 10 && read(ends[0], came, sizeof came) == 10 && close_both(ends));
}

static void ranges(void)
{
    char left[4], right[4], last[4];
    struct iovec out[3] = {{"abc", 3}, {NULL, 0}, {"defgh", 5}}, in[3] = {{left, 4}, {right, 4}, {last, 4}};
    int ends[2];
    CHECK(pipe(ends) == 0 && writev(ends[1], out, 3) == 8 && readv(ends[0], in, 3) == 8);
    CHECK(memcmp(left, "abcd", 4) == 0 && memcmp(right, "efgh", 4) == 0);
    CHECK(writev(ends[1], out, 1) == 3 && readv(ends[0], in, 3) == 3 && memcmp(left, "abc", 3) == 0);
    CHECK(close_both(ends) && socketpair(AF_UNIX, SOCK_STREAM, 0, ends) == 0);
    CHECK(writev(ends[1], out, 3) == 8 && readv(ends[0], in, 3) == 8 && memcmp(right, "efgh", 4) == 0 && close_both(ends));
}

static void streams(void)
{
    char line[16];
    int ends[2];
    CHECK(pipe(ends) == 0);
    FILE *in = fdopen(ends[0], "r"), *out = fdopen(ends[1], "w");
    CHECK(in != NULL && out != NULL && fdopen(ends[1], "r") == NULL);
    CHECK(fprintf(out, "one\n%d", 2) == 5 && fflush(out) == 0 && fgets(line, sizeof line, in) != NULL && strcmp(line, "one\n") == 0);
    FAILS(fseek(in, 0, SEEK_SET), ESPIPE);
    CHECK(fclose(out) == 0 && fgets(line, sizeof line, in) != NULL && strcmp(line, "2") == 0);
    CHECK(fgets(line, sizeof line, in) == NULL && feof(in) && !ferror(in) && fclose(in) == 0);
}

static void pairs(void)
{
    struct stat status;
    int ends[2];
    char bytes[16];
    CHECK(socketpair(AF_UNIX, SOCK_STREAM, 0, ends) == 0 && ends[0] >= 3 && ends[1] > ends[0] && (fcntl(ends[0], F_GETFL) & O_ACCMODE) == O_RDWR);
    CHECK(fstat(ends[1], &status) == 0 && S_ISSOCK(status.st_mode) && isatty(ends[0]) == 0 && errno == ENOTTY);
    FAILS(lseek(ends[0], 0, SEEK_SET), ESPIPE);
    CHECK(send(ends[0], "there", 5, 0) == 5 && send(ends[1], "back", 4, MSG_NOSIGNAL) == 4 && send(ends[0], bytes, 0, 0) == 0);
    CHECK(is_text(recv(ends[1], bytes, 3, 0), bytes, "the") && is_text(recv(ends[1], bytes, 16, 0), bytes, "re"));
    CHECK(is_text(recv(ends[0], bytes, 2, MSG_PEEK), bytes, "ba") && is_text(recv(ends[0], bytes, 16, MSG_PEEK), bytes, "back"));
    CHECK(is_text(recv(ends[0], bytes, 16, 0), bytes, "back"));
    CHECK(write(ends[0], "abc", 3) == 3 && send(ends[0], "def", 3, 0) == 3 && is_text(recv(ends[1], bytes, 6, MSG_WAITALL), bytes, "abcdef"));
    CHECK(send(ends[0], "ghi", 3, 0) == 3 && is_text(read(ends[1], bytes, 16), bytes, "ghi"));
    CHECK(close_both(ends) && socketpair(AF_UNIX, SOCK_STREAM | SOCK_NONBLOCK | SOCK_CLOEXEC, 0, ends) == 0);
    CHECK((fcntl(ends[1], F_GETFL) & O_NONBLOCK) && fcntl(ends[0], F_GETFD) == FD_CLOEXEC);
    FAILS(recv(ends[0], bytes, 16, 0), EAGAIN);
    FAILS(recv(ends[0], bytes, 16, MSG_WAITALL), EAGAIN);
    CHECK(send(ends[1], "few", 3, 0) == 3 && is_text(recv(ends[0], bytes, 16, MSG_WAITALL), bytes, "few") && close_both(ends));
}

/* What a socket took until it was full comes out again. */
static void full_sockets(void)
{
    int ends[2];
    ssize_t count, sent = 0, received = 0;
    CHECK(socketpair(AF_UNIX, SOCK_STREAM, 0, ends) == 0 && fcntl(ends[0], F_SETFL, O_NONBLOCK) == 0 && fcntl(ends[1], F_SETFL, O_NONBLOCK) == 0);
    while ((count = send(ends[0], large, 10000, 0)) > 0)
        sent += count;
    CHECK(count == -1 && errno == EAGAIN && sent >= 10000);
    CHECK(recv(ends[1], came, 10000, 0) == 10000 && memcmp(came, large, 10000) == 0);
    received = 10000;
    while ((count = recv(ends[1], came, sizeof came, 0)) > 0)
        received += count;
    CHECK(count == -1 && errno == EAGAIN && received == sent);
    CHECK(send(ends[0], "x", 1, 0) == 1 && recv(ends[1], came, 1, 0) == 1 && close_both(ends));
}

static void shuts(void)
{
    int ends[2];
    char bytes[16];
    CHECK(socketpair(AF_UNIX, SOCK_STREAM, 0, ends) == 0 && send(ends[0], "last", 4, 0) == 4 && shutdown(ends[0], SHUT_WR) == 0);
    FAILS(send(ends[0], "x", 1, 0), EPIPE);
    FAILS(write(ends[0], "x", 1), EPIPE);
    CHECK(is_text(recv(ends[1], bytes, 16, MSG_WAITALL), bytes, "last") && recv(ends[1], bytes, 16, 0) == 0 && read(ends[1], bytes, 16) == 0);
    CHECK(send(ends[1], "back", 4, 0) == 4 && is_text(recv(ends[0], bytes, 16, 0), bytes, "back") && shutdown(ends[0], SHUT_WR) == 0);
    CHECK(shutdown(ends[0], SHUT_RD) == 0 && recv(ends[0], bytes, 16, 0) == 0);
    FAILS(send(ends[1], "x", 1, 0), EPIPE);
    CHECK(close_both(ends) && socketpair(AF_UNIX, SOCK_STREAM, 0, ends) == 0 && shutdown(ends[1], SHUT_RDWR) == 0);
    FAILS(send(ends[0], "x", 1, 0), EPIPE);
    FAILS(send(ends[1], "x", 1, 0), EPIPE);
    CHECK(recv(ends[0], bytes, 16, 0) == 0 && recv(ends[1], bytes, 16, 0) == 0);
    FAILS(shutdown(ends[0], 99), EINVAL);
    CHECK(close_both(ends) && socketpair(AF_UNIX, SOCK_STREAM, 0, ends) == 0 && send(ends[0], "left", 4, 0) == 4 && close(ends[0]) == 0);
    FAILS(send(ends[1], "x", 1, 0), EPIPE);
    CHECK(is_text(recv(ends[1], bytes, 16, 0), bytes, "left") && recv(ends[1], bytes, 16, 0) == 0 && close(ends[1]) == 0);
}

static void mistakes(int file)
{
    int ends[2], pair[2];
    char byte;
    FAILS(socketpair(9999, SOCK_STREAM, 0, pair), EAFNOSUPPORT);
    FAILS(socketpair(AF_UNIX, SOCK_STREAM, 99, pair), EPROTONOSUPPORT);
    CHECK(pipe(ends) == 0 && socketpair(AF_UNIX, SOCK_STREAM, 0, pair) == 0);
    FAILS(recv(ends[0], &byte, 1, 0), ENOTSOCK);
    FAILS(recv(ends[1], &byte, 1, 0), ENOTSOCK);
    FAILS(send(ends[1], "x", 1, 0), ENOTSOCK);
    FAILS(send(ends[0], "x", 1, 0), ENOTSOCK);
    FAILS(send(file, "x", 1, 0), ENOTSOCK);
    FAILS(recv(file, &byte, 1, 0), ENOTSOCK);
    FAILS(shutdown(ends[0], SHUT_RD), ENOTSOCK);
    FAILS(shutdown(file, SHUT_RD), ENOTSOCK);
    FAILS(send(999, "x", 1, 0), EBADF);
    FAILS(recv(999, &byte, 1, 0), EBADF);
    FAILS(shutdown(999, SHUT_RD), EBADF);
    FAILS(sendto(pair[0], "x", 1, 0, &(struct sockaddr){.sa_family = AF_UNIX}, sizeof(struct sockaddr)), EISCONN);
    CHECK(close_both(ends) && close_both(pair));
}

static void options(void)
{
    struct sockaddr address;
    socklen_t length = sizeof address, size = sizeof(int);
    int pair[2], ends[2], value = -1;
    CHECK(socketpair(AF_UNIX, SOCK_STREAM, 0, pair) == 0 && pipe(ends) == 0);
    CHECK(getsockopt(pair[0], SOL_SOCKET, SO_TYPE, &value, &size) == 0 && value == SOCK_STREAM && size == sizeof value);
    CHECK(getsockopt(pair[0], SOL_SOCKET, SO_ERROR, &value, &size) == 0 && value == 0);
    CHECK(getsockopt(pair[0], SOL_SOCKET, SO_ACCEPTCONN, &value, &size) == 0 && value == 0);
    FAILS(getsockopt(pair[0], SOL_SOCKET, 9999, &value, &size), ENOPROTOOPT);
    FAILS(setsockopt(pair[0], SOL_SOCKET, 9999, &value, size), ENOPROTOOPT);
    FAILS(getsockopt(ends[0], SOL_SOCKET, SO_TYPE, &value, &size), ENOTSOCK);
    CHECK(getsockname(pair[0], &address, &length) == 0 && address.sa_family == AF_UNIX && length == sizeof address.sa_family);
    length = sizeof address;
    CHECK(getpeername(pair[0], &address, &length) == 0 && address.sa_family == AF_UNIX && length == sizeof address.sa_family);
    CHECK(close_both(ends) && close_both(pair));
}

/* Messages with descriptors. */

union control {
    struct cmsghdr head;
    char bytes[CMSG_SPACE(16 * sizeof(int))];
};

/* Sends a text, and behind its first byte so many descriptors. */
static ssize_t send_with(int to, const char *text, const int *fds, size_t count)
{
    union control control = {0};
    struct iovec range = {(char *)text, strlen(text)};
    struct msghdr message = {.msg_iov = &range, .msg_iovlen = 1, .msg_control = &control, .msg_controllen = CMSG_SPACE(count * sizeof *fds)};
    control.head.cmsg_level = SOL_SOCKET;
    control.head.cmsg_type = SCM_RIGHTS;
    control.head.cmsg_len = CMSG_LEN(count * sizeof *fds);
    memcpy(CMSG_DATA(&control.head), fds, count * sizeof *fds);
    return sendmsg(to, &message, 0);
}

/* What came last by receive_with. */
static char text[64];
static int taken[16], taken_count, was_cut;

static ssize_t receive_with(int from, size_t room, int flags)
{
    union control control;
    struct iovec range = {text, sizeof text};
    struct msghdr message = {.msg_iov = &range, .msg_iovlen = 1, .msg_control = room == 0 ? NULL : &control,
                             .msg_controllen = room == 0 ? 0 : CMSG_LEN(room * sizeof(int))};
    ssize_t count = recvmsg(from, &message, flags);
    taken_count = 0;
    was_cut = (message.msg_flags & MSG_CTRUNC) != 0;
    struct cmsghdr *head = count < 0 ? NULL : CMSG_FIRSTHDR(&message);
    if (head == NULL)
        return count;
    CHECK(head->cmsg_level == SOL_SOCKET && head->cmsg_type == SCM_RIGHTS);
    taken_count = (int)((head->cmsg_len - CMSG_LEN(0)) / sizeof(int));
    memcpy(taken, CMSG_DATA(head), (size_t)taken_count * sizeof(int));
    return count;
}

static void files_travel(int file)
{
    struct stat sent, received;
    int pair[2], copy = dup(file);
    char bytes[4];
    CHECK(socketpair(AF_UNIX, SOCK_STREAM, 0, pair) == 0 && copy >= 3 && lseek(copy, 3, SEEK_SET) == 3);
    CHECK(send_with(pair[0], "take it", &copy, 1) == 7 && close(copy) == 0 && is_text(receive_with(pair[1], 1, 0), text, "take it"));
    CHECK(taken_count == 1 && !was_cut && taken[0] == copy && fcntl(taken[0], F_GETFD) == 0);
    CHECK(is_text(read(taken[0], bytes, 2), bytes, "34") && lseek(file, 0, SEEK_CUR) == 5);
    CHECK(fstat(file, &sent) == 0 && fstat(taken[0], &received) == 0 && sent.st_ino == received.st_ino && close(taken[0]) == 0);
    CHECK(send_with(pair[0], "a", &file, 1) == 1 && receive_with(pair[1], 1, MSG_CMSG_CLOEXEC) == 1);
    CHECK(taken_count == 1 && fcntl(taken[0], F_GETFD) == FD_CLOEXEC && close(taken[0]) == 0);
    CHECK(send_with(pair[0], "ab", NULL, 0) == 2 && receive_with(pair[1], 4, 0) == 2 && taken_count == 0 && !was_cut);
    FAILS(send_with(pair[0], "a", &(int){999}, 1), EBADF);
    CHECK(close_both(pair));
}

static void many_travel(int file)
{
    int pair[2], fds[16];
    for (int at = 0; at < 16; ++at)
        fds[at] = file;
    CHECK(socketpair(AF_UNIX, SOCK_STREAM, 0, pair) == 0 && send_with(pair[0], "all", fds, 16) == 3 && receive_with(pair[1], 16, 0) == 3);
    CHECK(taken_count == 16 && !was_cut && taken[15] > taken[0]);
    for (int at = 0; at < 16; ++at)
        CHECK(close(taken[at]) == 0);
    CHECK(send_with(pair[0], "one", fds, 3) == 3 && receive_with(pair[1], 1, 0) == 3 && taken_count == 1 && was_cut && close(taken[0]) == 0);
    CHECK(send_with(pair[0], "none", fds, 3) == 4 && receive_with(pair[1], 0, 0) == 4 && taken_count == 0 && was_cut);
    CHECK(send_with(pair[0], "a", fds, 1) == 1 && send_with(pair[0], "b", fds, 2) == 1);
    CHECK(is_text(receive_with(pair[1], 16, 0), text, "a") && taken_count == 1 && close(taken[0]) == 0);
    CHECK(is_text(receive_with(pair[1], 16, 0), text, "b") && taken_count == 2 && close(taken[0]) == 0 && close(taken[1]) == 0);
    CHECK(send_with(pair[0], "long", fds, 1) == 4 && recv(pair[1], text, 1, MSG_PEEK) == 1 && send_with(pair[0], "er", fds, 1) == 2);
    CHECK(is_text(receive_with(pair[1], 1, MSG_WAITALL), text, "long") && taken_count == 1 && close(taken[0]) == 0);
    CHECK(is_text(receive_with(pair[1], 1, 0), text, "er") && taken_count == 1 && close(taken[0]) == 0 && close_both(pair));
}

/* A pipe's writing end that travels keeps the pipe open, until nobody can take it any more. */
static void ends_travel(void)
{
    int pair[2], ends[2];
    char byte;
    CHECK(socketpair(AF_UNIX, SOCK_STREAM, 0, pair) == 0 && pipe2(ends, O_NONBLOCK) == 0);
    CHECK(send_with(pair[0], "w", &ends[1], 1) == 1 && close(ends[1]) == 0);
    FAILS(read(ends[0], &byte, 1), EAGAIN);
    CHECK(receive_with(pair[1], 1, 0) == 1 && write(taken[0], "x", 1) == 1 && read(ends[0], &byte, 1) == 1 && byte == 'x');
    CHECK(send_with(pair[0], "again", taken, 1) == 5 && close(taken[0]) == 0 && is_text(read(pair[1], text, 16), text, "again"));
    CHECK(read(ends[0], &byte, 1) == 0 && close(ends[0]) == 0);
    CHECK(pipe2(ends, O_NONBLOCK) == 0 && send_with(pair[1], "w", &ends[1], 1) == 1 && close(ends[1]) == 0 && read(ends[0], &byte, 1) == -1);
    CHECK(close_both(pair) && read(ends[0], &byte, 1) == 0 && close(ends[0]) == 0);
    CHECK(socketpair(AF_UNIX, SOCK_STREAM, 0, pair) == 0 && send_with(pair[0], "self", &pair[1], 1) == 4 && receive_with(pair[1], 1, 0) == 4);
    CHECK(close(pair[1]) == 0 && send(pair[0], "x", 1, 0) == 1 && recv(taken[0], &byte, 1, 0) == 1);
    CHECK(send_with(pair[0], "lost", taken, 1) == 4 && close(taken[0]) == 0 && send(pair[0], "x", 1, 0) == 1 && close(pair[0]) == 0);
}

static void refused_messages(int file)
{
    static struct iovec many[1025];
    union control control = {0};
    struct iovec parts[2] = {{"one ", 4}, {"two", 3}};
    struct msghdr message = {.msg_iov = parts, .msg_iovlen = 2};
    int pair[2];
    CHECK(socketpair(AF_UNIX, SOCK_STREAM, 0, pair) == 0 && sendmsg(pair[0], &message, 0) == 7);
    CHECK(is_text(receive_with(pair[1], 0, 0), text, "one two") && !was_cut && taken_count == 0);
    FAILS(sendmsg(file, &message, 0), ENOTSOCK);
    message.msg_control = &control;
    message.msg_controllen = sizeof control;
    control.head.cmsg_level = SOL_SOCKET;
    control.head.cmsg_type = SCM_RIGHTS;
    FAILS(sendmsg(pair[0], &message, 0), EINVAL);
    control.head.cmsg_len = sizeof control + 1;
    FAILS(sendmsg(pair[0], &message, 0), EINVAL);
    control.head.cmsg_len = CMSG_LEN(sizeof(int));
    control.head.cmsg_type = 99;
    FAILS(sendmsg(pair[0], &message, 0), EINVAL);
    message = (struct msghdr){.msg_iov = many, .msg_iovlen = 1025};
    FAILS(sendmsg(pair[0], &message, 0), EMSGSIZE);
    FAILS(recvmsg(pair[1], &message, 0), EMSGSIZE);
    CHECK(close_both(pair));
}

int main(int argc, char **argv)
{
    if (argc < 2 || chdir(argv[1]) != 0 || signal(SIGPIPE, SIG_IGN) == SIG_ERR)
        return 2;
    for (int at = 0; at < LARGE; ++at)
        large[at] = (char)(at * 13 + at / 255);
    int file = open("bytes", O_RDWR | O_CREAT | O_TRUNC, 0644);
    CHECK(file >= 3 && write(file, "0123456789", 10) == 10);
    pipes();
    flags();
    full_pipes();
    ranges();
    streams();
    pairs();
    full_sockets();
    shuts();
    mistakes(file);
    options();
    files_travel(file);
    many_travel(file);
    ends_travel();
    refused_messages(file);
    CHECK(close(file) == 0 && unlink("bytes") == 0);
    return finish();
}

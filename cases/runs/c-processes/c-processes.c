/* Children, and programs that aren't run. What a child does comes through a pipe, which ends as the child does. */
#include "check.h"

#include <fcntl.h>
#include <pthread.h>
#include <signal.h>
#include <stdlib.h>
#include <sys/stat.h>
#include <sys/wait.h>
#include <unistd.h>

static int told[2];
static char came[256];

/* Makes a child that can tell: 0 in it. */
static pid_t make_child(void)
{
    pid_t child;
    CHECK(pipe(told) == 0);
    fflush(stdout);
    child = fork();
    if (child == 0)
        close(told[0]);
    return child;
}

static void tell(const char *text)
{
    if (write(told[1], text, strlen(text)) < 0)
        _exit(9);
}

/* All that a child tells until it has ended. */
static const char *hear(void)
{
    ssize_t count;
    size_t length = 0;
    close(told[1]);
    while ((count = read(told[0], came + length, sizeof came - 1 - length)) > 0)
        length += (size_t)count;
    close(told[0]);
    came[length] = 0;
    return came;
}

static int is_heard(const char *wanted)
{
    return strcmp(hear(), wanted) == 0;
}

static int value = 1;

static void memory(void)
{
    char *block = strdup("parent");
    char text[64];
    if (make_child() == 0) {
        value = 2;
        strcpy(block, "child");
        snprintf(text, sizeof text, "%s %d", block, value);
        tell(text);
        _exit(0);
    }
    CHECK(is_heard("child 2") && value == 1 && strcmp(block, "parent") == 0);
    free(block);
}

/* The child and its parent agree about their numbers. */
static void numbers(void)
{
    char text[64], wanted[64];
    pid_t child = make_child();
    if (child == 0) {
        snprintf(text, sizeof text, "%d of %d", (int)getpid(), (int)getppid());
        tell(text);
        _exit(0);
    }
    snprintf(wanted, sizeof wanted, "%d of %d", (int)child, (int)getpid());
    CHECK(child > 0 && child != getpid() && is_heard(wanted));
    pid_t second = make_child();
    if (second == 0)
        _exit(0);
    CHECK(second > 0 && second != child && is_heard(""));
}

/* The open is shared, with its offset; the descriptors aren't. */
static void descriptors(void)
{
    char bytes[8];
    int fd = open("shared", O_RDWR | O_CREAT | O_TRUNC, 0600), other = dup(fd);
    CHECK(write(fd, "abcdef", 6) == 6 && lseek(fd, 0, SEEK_SET) == 0);
    if (make_child() == 0) {
        bytes[read(fd, bytes, 2)] = 0;
        tell(bytes);
        close(fd);
        tell(read(fd, bytes, 1) == -1 && errno == EBADF && read(other, bytes, 1) == 1 && bytes[0] == 'c' ? " closed" : " open");
        _exit(0);
    }
    CHECK(is_heard("ab closed") && read(fd, bytes, 8) == 3 && memcmp(bytes, "def", 3) == 0);
    CHECK(close(fd) == 0 && close(other) == 0 && unlink("shared") == 0);
}

static void both_ways(void)
{
    int asked[2];
    char byte = 0;
    CHECK(pipe(asked) == 0);
    if (make_child() == 0) {
        close(asked[1]);
        while (read(asked[0], &byte, 1) == 1) {
            ++byte;
            if (write(told[1], &byte, 1) != 1)
                _exit(9);
        }
        _exit(0);
    }
    CHECK(close(asked[0]) == 0 && write(asked[1], "a", 1) == 1 && read(told[0], &byte, 1) == 1 && byte == 'b');
    CHECK(write(asked[1], "x", 1) == 1 && read(told[0], &byte, 1) == 1 && byte == 'y');
    CHECK(close(asked[1]) == 0 && is_heard(""));
}

/* A pipe that two children share. */
static void siblings(void)
{
    int between[2];
    char byte = 0;
    CHECK(pipe(between) == 0);
    fflush(stdout);
    pid_t first = fork();
    if (first == 0)
        _exit(write(between[1], "s", 1) != 1);
    if (make_child() == 0) {
        close(between[1]);
        tell(read(between[0], &byte, 1) == 1 && byte == 's' ? "s" : "-");
        tell(read(between[0], &byte, 1) == 0 ? " end" : " more");
        _exit(0);
    }
    CHECK(close(between[1]) == 0 && is_heard("s end") && close(between[0]) == 0);
}

static void at_exit(void)
{
    tell(" at exit");
}

static void at_quick_end(void)
{
    tell(" at quick exit");
}

static void exits(void)
{
    if (make_child() == 0) {
        atexit(at_exit);
        FILE *file = fdopen(told[1], "w");
        fputs("buffered", file);
        fflush(file);
        exit(3);
    }
    CHECK(is_heard("buffered at exit"));
    if (make_child() == 0) {
        atexit(at_exit);
        tell("one");
        _exit(3);
    }
    CHECK(is_heard("one"));
    if (make_child() == 0) {
        atexit(at_exit);
        tell("two");
        _Exit(3);
    }
    CHECK(is_heard("two"));
    if (make_child() == 0) {
        atexit(at_exit);
        at_quick_exit(at_quick_end);
        tell("three");
        quick_exit(3);
    }
    CHECK(is_heard("three at quick exit"));
}

static void handle(int signal)
{
    tell(signal == SIGABRT ? " abort" : " handled");
}

/* Those that end a process, and those that don't. */
static void signals(void)
{
    static const int ending[] = {SIGABRT, SIGALRM, SIGBUS, SIGFPE, SIGHUP, SIGILL, SIGINT, SIGKILL, SIGPIPE, SIGQUIT, SIGSEGV, SIGSYS, SIGTERM, SIGTRAP,
                                 SIGUSR1, SIGUSR2, SIGVTALRM, SIGXCPU, SIGXFSZ};
    static const int passing[] = {SIGCHLD, SIGCONT, SIGURG, SIGWINCH};
    for (size_t i = 0; i < sizeof ending / sizeof *ending; ++i) {
        if (make_child() == 0) {
            tell("raises");
            raise(ending[i]);
            tell(" and goes on");
            _exit(0);
        }
        CHECK(is_heard("raises"));
    }
    for (size_t i = 0; i < sizeof passing / sizeof *passing; ++i)
        CHECK(raise(passing[i]) == 0);
    FAILS(raise(-1), EINVAL);
    if (make_child() == 0) {
        signal(SIGUSR1, handle);
        raise(SIGUSR1);
        signal(SIGUSR1, SIG_IGN);
        raise(SIGUSR1);
        tell(" on");
        signal(SIGUSR1, SIG_DFL);
        raise(SIGUSR1);
        tell(" and on");
        _exit(0);
    }
    CHECK(is_heard(" handled on"));
}

/* It ends whatever is said of SIGABRT. */
static void aborts(void)
{
    sigset_t set;
    if (make_child() == 0) {
        signal(SIGABRT, handle);
        abort();
    }
    CHECK(is_heard(" abort"));
    if (make_child() == 0) {
        signal(SIGABRT, SIG_IGN);
        abort();
    }
    CHECK(is_heard(""));
    if (make_child() == 0) {
        sigemptyset(&set);
        sigaddset(&set, SIGABRT);
        sigprocmask(SIG_BLOCK, &set, NULL);
        tell("blocked");
        abort();
    }
    CHECK(is_heard("blocked"));
}

/* A child inherits what is blocked and handled, and none of what waits. */
static void signals_of_a_child(void)
{
    sigset_t set, pending;
    sigemptyset(&set);
    sigaddset(&set, SIGUSR2);
    CHECK(sigprocmask(SIG_BLOCK, &set, NULL) == 0 && raise(SIGUSR2) == 0);
    signal(SIGUSR2, handle);
    if (make_child() == 0) {
        sigpending(&pending);
        tell(sigismember(&pending, SIGUSR2) ? "waits" : "none");
        raise(SIGUSR2);
        tell(" blocked");
        sigprocmask(SIG_UNBLOCK, &set, NULL);
        _exit(0);
    }
    CHECK(is_heard("none blocked handled") && sigpending(&pending) == 0 && sigismember(&pending, SIGUSR2) == 1);
    signal(SIGUSR2, SIG_IGN);
    CHECK(sigprocmask(SIG_UNBLOCK, &set, NULL) == 0 && signal(SIGUSR2, SIG_DFL) == SIG_IGN);
}

static char order[16];

static void add(const char *letter)
{
    strcat(order, letter);
}

static void prepare_one(void) { add("p"); }
static void prepare_two(void) { add("q"); }
static void parent_one(void) { add("a"); }
static void parent_two(void) { add("b"); }
static void child_one(void) { add("c"); }
static void child_two(void) { add("d"); }

static void handlers(void)
{
    CHECK(pthread_atfork(prepare_one, parent_one, child_one) == 0 && pthread_atfork(prepare_two, parent_two, child_two) == 0);
    CHECK(pthread_atfork(NULL, NULL, NULL) == 0);
    if (make_child() == 0) {
        tell(order);
        _exit(0);
    }
    CHECK(is_heard("qpcd") && strcmp(order, "qpab") == 0);
}

/* What can't be run leaves all as it is. */
static void programs(void)
{
    char *words[] = {"absent", NULL};
    int fd = open("text", O_WRONLY | O_CREAT | O_TRUNC, 0700);
    CHECK(write(fd, "no program\n", 11) == 11 && close(fd) == 0 && mkdir("directory", 0700) == 0);
    FAILS(execv("absent", words), ENOENT);
    FAILS(execl("text/further", "further", "one", "two", (char *)NULL), ENOTDIR);
    FAILS(execle("text", "text", "one", (char *)NULL, (char **)NULL), ENOEXEC);
    FAILS(execve("text", words, NULL), ENOEXEC);
    FAILS(execv("directory", words), EACCES);
    FAILS(execlp("no such program anywhere", "absent", (char *)NULL), ENOENT);
    FAILS(execvp("./absent", words), ENOENT);
    FAILS(execve("", words, NULL), ENOENT);
    CHECK((fd = open("text", O_RDONLY)) >= 3 && lseek(fd, 3, SEEK_SET) == 3);
    FAILS(execv("text", words), ENOEXEC);
    CHECK(lseek(fd, 0, SEEK_CUR) == 3 && close(fd) == 0 && unlink("text") == 0 && rmdir("directory") == 0);
}

static void waits(void)
{
    FAILS(waitpid(getpid() + 1000000, NULL, 0), ECHILD);
    FAILS(waitpid(-1, NULL, 0x4000), EINVAL);
}

int main(int argc, char **argv)
{
    CHECK(argc == 2 && chdir(argv[1]) == 0);
    FAILS(wait(NULL), ECHILD);
    memory();
    numbers();
    descriptors();
    both_ways();
    siblings();
    exits();
    signals();
    aborts();
    signals_of_a_child();
    handlers();
    programs();
    waits();
    return finish();
}

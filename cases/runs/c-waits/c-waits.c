/* Waiting for children: which has ended, and how. */
#include "check.h"

#include <signal.h>
#include <stdlib.h>
#include <sys/wait.h>
#include <unistd.h>

/* A child that ends so: by this code, or by this signal. */
static pid_t child_with(int code, int signal)
{
    fflush(stdout);
    pid_t child = fork();
    if (child != 0)
        return child;
    if (signal != 0)
        raise(signal);
    _exit(code);
}

static void codes(void)
{
    static const int given[] = {0, 1, 3, 127, 255, 256, 259, -1};
    for (size_t i = 0; i < sizeof given / sizeof *given; ++i) {
        int status = -1;
        pid_t child = child_with(given[i], 0);
        CHECK(child > 0 && waitpid(child, &status, 0) == child && WIFEXITED(status) && !WIFSIGNALED(status));
        CHECK(WEXITSTATUS(status) == (given[i] & 0xff));
        FAILS(waitpid(child, &status, 0), ECHILD);
    }
}

static void signals(void)
{
    static const int given[] = {SIGABRT, SIGALRM, SIGBUS, SIGFPE, SIGHUP, SIGILL, SIGINT, SIGKILL, SIGPIPE, SIGQUIT, SIGSEGV, SIGSYS, SIGTERM, SIGTRAP,
                                SIGUSR1, SIGUSR2, SIGVTALRM, SIGXCPU, SIGXFSZ};
    for (size_t i = 0; i < sizeof given / sizeof *given; ++i) {
        int status = -1;
        pid_t child = child_with(9, given[i]);
        CHECK(waitpid(child, &status, 0) == child && WIFSIGNALED(status) && !WIFEXITED(status) && WTERMSIG(status) == given[i]);
    }
}

static void traps(void)
{
    int status = -1;
    fflush(stdout);
    pid_t child = fork();
    if (child == 0)
        __builtin_trap();
    CHECK(waitpid(child, &status, 0) == child && WIFSIGNALED(status));
    child = fork();
    if (child == 0) {
        *(volatile int *)strtoul("8", NULL, 10) = 1;
        _exit(1);
    }
    CHECK(waitpid(child, &status, 0) == child && WIFSIGNALED(status) && WTERMSIG(status) == SIGSEGV);
    child = fork();
    if (child == 0)
        abort();
    CHECK(waitpid(child, &status, 0) == child && WIFSIGNALED(status) && WTERMSIG(status) == SIGABRT);
}

/* A child that has ended waits for its parent; one that goes on isn't there yet. */
static void looks(void)
{
    int gate[2], status = -1;
    char byte;
    CHECK(pipe(gate) == 0);
    fflush(stdout);
    pid_t child = fork();
    if (child == 0) {
        close(gate[1]);
        _exit(read(gate[0], &byte, 1) == 0 ? 5 : 6);
    }
    CHECK(waitpid(child, &status, WNOHANG) == 0 && waitpid(-1, &status, WNOHANG) == 0 && status == -1);
    CHECK(close(gate[0]) == 0 && close(gate[1]) == 0 && waitpid(child, &status, 0) == child && WEXITSTATUS(status) == 5);
    FAILS(waitpid(-1, NULL, WNOHANG), ECHILD);
}

/* Any of several, each once. */
static void several(void)
{
    int status, seen[4] = {0};
    pid_t children[4];
    for (int i = 0; i < 4; ++i)
        children[i] = child_with(10 + i, 0);
    for (int left = 4; left > 0; --left) {
        pid_t child = wait(&status);
        int which = WEXITSTATUS(status) - 10;
        CHECK(WIFEXITED(status) && which >= 0 && which < 4 && children[which] == child && !seen[which]);
        seen[which] = 1;
    }
    FAILS(wait(&status), ECHILD);
    children[0] = child_with(1, 0);
    children[1] = child_with(2, 0);
    CHECK(waitpid(children[1], NULL, 0) == children[1] && waitpid(0, &status, 0) == children[0] && WEXITSTATUS(status) == 1);
}

/* A child's children are its own. */
static void generations(void)
{
    int status;
    fflush(stdout);
    pid_t other = child_with(4, 0), child = fork();
    if (child == 0) {
        if (waitpid(other, NULL, 0) != -1 || errno != ECHILD || waitpid(-1, NULL, 0) != -1)
            _exit(1);
        child = child_with(7, 0);
        _exit(waitpid(child, &status, 0) == child ? WEXITSTATUS(status) + 1 : 2);
    }
    CHECK(waitpid(child, &status, 0) == child && WEXITSTATUS(status) == 8);
    CHECK(waitpid(-1, &status, 0) == other && WEXITSTATUS(status) == 4);
}

int main(void)
{
    FAILS(waitpid(-1, NULL, 0), ECHILD);
    codes();
    signals();
    traps();
    looks();
    several();
    generations();
    return finish();
}

/* Signals. No other process sends one but the end, so a handler is called by raise alone. */
#define _GNU_SOURCE
#include "system.h"

#include <errno.h>
#include <setjmp.h>
#include <signal.h>
#include <stdlib.h>
#include <string.h>
#include <unistd.h>

static struct sigaction actions[NSIG];
static sigset_t blocked, pending;

static const uint8_t signal_of[NSIG] = {
    [SIGHUP] = CLOUDABI_SIGHUP,   [SIGINT] = CLOUDABI_SIGINT,   [SIGQUIT] = CLOUDABI_SIGQUIT, [SIGILL] = CLOUDABI_SIGILL,
    [SIGTRAP] = CLOUDABI_SIGTRAP, [SIGABRT] = CLOUDABI_SIGABRT, [SIGFPE] = CLOUDABI_SIGFPE,   [SIGKILL] = CLOUDABI_SIGKILL,
    [SIGBUS] = CLOUDABI_SIGBUS,   [SIGSEGV] = CLOUDABI_SIGSEGV, [SIGPIPE] = CLOUDABI_SIGPIPE, [SIGALRM] = CLOUDABI_SIGALRM,
    [SIGTERM] = CLOUDABI_SIGTERM, [SIGSYS] = CLOUDABI_SIGSYS,   [SIGURG] = CLOUDABI_SIGURG,   [SIGSTOP] = CLOUDABI_SIGSTOP,
    [SIGTSTP] = CLOUDABI_SIGTSTP, [SIGCONT] = CLOUDABI_SIGCONT, [SIGCHLD] = CLOUDABI_SIGCHLD, [SIGTTIN] = CLOUDABI_SIGTTIN,
    [SIGTTOU] = CLOUDABI_SIGTTOU, [SIGXCPU] = CLOUDABI_SIGXCPU, [SIGXFSZ] = CLOUDABI_SIGXFSZ, [SIGVTALRM] = CLOUDABI_SIGVTALRM,
    [SIGUSR1] = CLOUDABI_SIGUSR1, [SIGUSR2] = CLOUDABI_SIGUSR2,
};

int signal_of_sandbox(uint8_t signal)
{
    for (int number = 1; number < NSIG; ++number) {
        if (signal_of[number] == signal)
            return number;
    }
    return SIGKILL;
}

static bool is_signal(int signal)
{
    if (signal > 0 && signal < NSIG)
        return true;
    errno = EINVAL;
    return false;
}

int sigaction(int signal, const struct sigaction *restrict action, struct sigaction *restrict before)
{
    if (!is_signal(signal))
        return -1;
    if (action != NULL && (signal == SIGKILL || signal == SIGSTOP)) {
        errno = EINVAL;
        return -1;
    }
    if (before != NULL)
        *before = actions[signal];
    if (action != NULL)
        actions[signal] = *action;
    return 0;
}

_sig_func_ptr signal(int number, _sig_func_ptr handler)
{
    struct sigaction action = {.sa_handler = handler}, before;
    return sigaction(number, &action, &before) == 0 ? before.sa_handler : SIG_ERR;
}

/* What a signal without a handler does: most end the process. */
static int end_by(int signal)
{
    if (signal == SIGWINCH)
        return 0;
    return result(cloudabi_sys_proc_raise(signal_of[signal] != 0 ? signal_of[signal] : CLOUDABI_SIGTERM));
}

int raise(int signal)
{
    if (!is_signal(signal))
        return -1;
    if (sigismember(&blocked, signal)) {
        sigaddset(&pending, signal);
        return 0;
    }
    struct sigaction action = actions[signal];
    if (action.sa_handler == SIG_IGN)
        return 0;
    if (action.sa_handler == SIG_DFL)
        return end_by(signal);
    sigset_t before = blocked;
    siginfo_t information = {.si_signo = signal, .si_code = SI_USER};
    if (action.sa_flags & SA_RESETHAND)
        actions[signal].sa_handler = SIG_DFL;
    blocked |= action.sa_mask;
    if (!(action.sa_flags & SA_NODEFER))
        sigaddset(&blocked, signal);
    if (action.sa_flags & SA_SIGINFO)
        action.sa_sigaction(signal, &information, NULL);
    else
        action.sa_handler(signal);
    blocked = before;
    return 0;
}

/* Neither a handler that returns nor a signal that waits or is ignored keeps it from the end. */
_Noreturn void abort(void)
{
    sigdelset(&blocked, SIGABRT);
    if (actions[SIGABRT].sa_handler != SIG_IGN)
        raise(SIGABRT);
    cloudabi_sys_proc_raise(CLOUDABI_SIGABRT);
    _exit(1);
}

int kill(pid_t process, int signal)
{
    if (process != getpid() && process != 0 && process != -1) {
        errno = ESRCH;
        return -1;
    }
    return signal == 0 ? 0 : raise(signal);
}

int killpg(pid_t group, int signal)
{
    return kill(group == 0 ? 0 : group == getpgrp() ? getpid() : group, signal);
}

int sigprocmask(int how, const sigset_t *set, sigset_t *before)
{
    sigset_t now = blocked;
    if (before != NULL)
        *before = blocked;
    if (set == NULL)
        return 0;
    switch (how) {
    case SIG_BLOCK: now |= *set; break;
    case SIG_UNBLOCK: now &= ~*set; break;
    case SIG_SETMASK: now = *set; break;
    default: errno = EINVAL; return -1;
    }
    blocked = now;
    for (int signal = 1; signal < NSIG; ++signal) {
        if (sigismember(&pending, signal) && !sigismember(&blocked, signal)) {
            sigdelset(&pending, signal);
            raise(signal);
        }
    }
    return 0;
}

int pthread_sigmask(int how, const sigset_t *set, sigset_t *before)
{
    return sigprocmask(how, set, before) == 0 ? 0 : errno;
}

void drop_pending_signals(void)
{
    pending = 0;
}

int sigpending(sigset_t *set)
{
    *set = pending;
    return 0;
}

/* Nobody sends a signal, so waiting for one has no end. */

int pause(void)
{
    errno = EDEADLK;
    return -1;
}

int sigsuspend(const sigset_t *set)
{
    (void)set;
    return pause();
}

/* Takes a signal that is pending already. */
int sigwait(const sigset_t *set, int *signal)
{
    for (int one = 1; one < NSIG; ++one) {
        if (sigismember(set, one) && sigismember(&pending, one)) {
            sigdelset(&pending, one);
            *signal = one;
            return 0;
        }
    }
    return EDEADLK;
}

void __keep_signals(sigjmp_buf place, int is_kept)
{
    place->is_kept = is_kept;
    place->blocked = blocked;
}

void siglongjmp(sigjmp_buf place, int value)
{
    if (place->is_kept)
        blocked = place->blocked;
    longjmp(place->registers, value);
}

int siginterrupt(int signal, int flag)
{
    (void)flag;
    return is_signal(signal) ? 0 : -1;
}

int sigaltstack(const stack_t *restrict stack, stack_t *restrict before)
{
    (void)stack;
    if (before != NULL)
        *before = (stack_t){.ss_flags = SS_DISABLE};
    return 0;
}

/* The functions of the sets, which signal.h has as macros too. */
#undef sigaddset
#undef sigdelset
#undef sigemptyset
#undef sigfillset
#undef sigismember

int sigaddset(sigset_t *set, const int signal)
{
    if (!is_signal(signal))
        return -1;
    *set |= (sigset_t)1 << signal;
    return 0;
}

int sigdelset(sigset_t *set, const int signal)
{
    if (!is_signal(signal))
        return -1;
    *set &= ~((sigset_t)1 << signal);
    return 0;
}

int sigismember(const sigset_t *set, int signal)
{
    return is_signal(signal) ? (*set >> signal & 1) != 0 : -1;
}

int sigemptyset(sigset_t *set)
{
    *set = 0;
    return 0;
}

int sigfillset(sigset_t *set)
{
    *set = ~(sigset_t)0;
    return 0;
}

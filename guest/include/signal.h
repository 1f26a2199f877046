/* picolibc's signal.h, with the sigaction and the siginfo_t of POSIX. */
#define sigaction __picolibc_sigaction
#define siginfo_t __picolibc_siginfo_t
#include_next <signal.h>
#undef sigaction
#undef siginfo_t

#ifndef _GUEST_SIGNAL_H
#define _GUEST_SIGNAL_H

#ifdef __cplusplus
extern "C" {
#endif

#if __POSIX_VISIBLE || __MISC_VISIBLE
typedef struct {
    int si_signo, si_code, si_errno;
    pid_t si_pid;
    uid_t si_uid;
    int si_status;
    void *si_addr;
    union {
        int sival_int;
        void *sival_ptr;
    } si_value;
} siginfo_t;

#define CLD_EXITED 1
#define CLD_KILLED 2
#define CLD_DUMPED 3

struct sigaction {
    union {
        void (*_handler)(int);
        void (*_sigaction)(int, siginfo_t *, void *);
    } _function;
    sigset_t sa_mask;
    int sa_flags;
};
#define sa_handler _function._handler
#define sa_sigaction _function._sigaction

#undef SA_NOCLDSTOP
#define SA_NOCLDSTOP 0x1
#define SA_RESTART 0x2
#define SA_SIGINFO 0x4
#define SA_NODEFER 0x8
#define SA_RESETHAND 0x10
#define SA_ONSTACK 0x20
#define SA_NOCLDWAIT 0x40

#define FPE_INTDIV 1
#define FPE_INTOVF 2
#define FPE_FLTDIV 3
#define FPE_FLTOVF 4
#define FPE_FLTUND 5
#define FPE_FLTRES 6
#define FPE_FLTINV 7
#define FPE_FLTSUB 8

#ifndef _NSIG
#define _NSIG NSIG
#endif

int sigaction(int signal, const struct sigaction *__restrict action, struct sigaction *__restrict before);
int siginterrupt(int signal, int flag);
int pthread_kill(unsigned long thread, int signal);
#endif

#ifdef __cplusplus
}
#endif

#endif

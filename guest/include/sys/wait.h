/* picolibc's sys/wait.h, with waitid and the functions that tell what was used, which is nothing. */
#include_next <sys/wait.h>

#ifndef _GUEST_SYS_WAIT_H
#define _GUEST_SYS_WAIT_H

#include <signal.h>

#ifdef __cplusplus
extern "C" {
#endif

#define WCONTINUED 8
#define WEXITED 4
#define WSTOPPED WUNTRACED
#define WNOWAIT 0x1000000
#define WIFCONTINUED(status) ((void)(status), 0)
#define WCOREDUMP(status) ((void)(status), 0)

#if __POSIX_VISIBLE
typedef enum { P_ALL, P_PID, P_PGID, P_PIDFD } idtype_t;

int waitid(idtype_t kind, id_t which, siginfo_t *told, int options);
#endif

#if __MISC_VISIBLE
struct rusage;
pid_t wait3(int *status, int options, struct rusage *usage);
pid_t wait4(pid_t process, int *status, int options, struct rusage *usage);
#endif

#ifdef __cplusplus
}
#endif

#endif

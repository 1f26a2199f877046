/* Processes by file descriptors, as FreeBSD has them. A process ends where its last descriptor is closed. */
#ifndef _SYS_PROCDESC_H
#define _SYS_PROCDESC_H

#include <sys/types.h>

#ifdef __cplusplus
extern "C" {
#endif

#define PD_CLOEXEC 2

/* As fork, with a file descriptor for the child; there is none in the child. */
pid_t pdfork(int *fd, int flags);

/* Waits until the process has ended, as waitpid does: 1, or with WNOHANG 0 where it hasn't. The descriptor stays. */
int pdwait(int fd, int *status, int options);

#ifdef __cplusplus
}
#endif

#endif

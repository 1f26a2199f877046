/* Programs that begin where another one ends, with the descriptors that are named to them and no others. */
#ifndef PROGRAM_H
#define PROGRAM_H

#include <argdata.h>
#include <stddef.h>

#ifdef __cplusplus
extern "C" {
#endif

/*
 * Runs the program of a file, in place of this one. The argument data names file descriptors (argdata_put_fd): each of them is one of the
 * new program's, and all others are closed. The file needs the right PROC_EXEC. Comes back only with an error of errno.h.
 */
int program_exec(int fd, const argdata_t *arguments);

/* The same with a list of file descriptors: the new program's descriptor k is that of fds[k], which is what its argument data means by k. */
int program_exec_list(int fd, const argdata_t *arguments, const int *fds, size_t count);

/* Runs it in a child, whose file descriptor it gives (sys/procdesc.h), or -1 with errno. A child in which it can't be run exits with 127. */
int program_spawn(int fd, const argdata_t *arguments);

#ifdef __cplusplus
}
#endif

#endif

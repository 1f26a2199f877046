/* The children of `fork`, by their numbers. */
#ifndef CHILDREN_H
#define CHILDREN_H

#include "cloudabi.h"

#include <stdbool.h>
#include <sys/types.h>

#define MOST_CHILDREN 254 /* that a process can make */

struct child {
    pid_t number;
    cloudabi_fd_t fd;
};

/* Those that there are, or, for a number from 1 on, the one that has it; how many. There is room for all. */
size_t copy_children(pid_t number, struct child *to);

/* Takes one away, whose end was told; false where there is none. */
bool drop_child(pid_t number);

#endif

/*
 * Children: how they are made, and their numbers. The sandbox knows a process by a descriptor, and one ends with its last descriptor.
 * `fork` keeps them here under numbers of its own, so a child ends with its parent at the latest; `pdfork` hands them out.
 */
#define _GNU_SOURCE
#include "children.h"
#include "library_lock.h"
#include "system.h"
#include "thread.h"

#include <errno.h>
#include <pthread.h>
#include <string.h>
#include <sys/procdesc.h>
#include <unistd.h>

static struct child children[MOST_CHILDREN];
static size_t child_count;

size_t copy_children(pid_t number, struct child *to)
{
    size_t count = 0;
    HOLD(&children_lock);
    for (size_t i = 0; i < child_count; ++i) {
        if (number <= 0 || children[i].number == number)
            to[count++] = children[i];
    }
    return count;
}

bool drop_child(pid_t number)
{
    HOLD(&children_lock);
    for (size_t i = 0; i < child_count; ++i) {
        if (children[i].number == number) {
            cloudabi_sys_fd_close(children[i].fd);
            memmove(children + i, children + i + 1, (--child_count - i) * sizeof *children);
            return true;
        }
    }
    return false;
}

/* This process's number and its parent's, and the last one that was given. */
static pid_t own = 1, parent, last = 1;

pid_t getpid(void)
{
    return own;
}

pid_t getppid(void)
{
    return parent;
}

/* The functions of pthread_atfork. */

struct handlers {
    void (*prepare)(void), (*parent)(void), (*child)(void);
};

static struct handlers handlers[32];
static size_t handlers_count;

int pthread_atfork(void (*prepare)(void), void (*in_parent)(void), void (*in_child)(void))
{
    if (handlers_count == sizeof handlers / sizeof *handlers)
        return ENOMEM;
    handlers[handlers_count++] = (struct handlers){prepare, in_parent, in_child};
    return 0;
}

/* The last ones first. */
static void prepare(void)
{
    for (size_t i = handlers_count; i-- > 0;) {
        if (handlers[i].prepare != NULL)
            handlers[i].prepare();
    }
}

static void go_on(bool is_child)
{
    for (size_t i = 0; i < handlers_count; ++i) {
        void (*function)(void) = is_child ? handlers[i].child : handlers[i].parent;
        if (function != NULL)
            function();
    }
}

/* Those of its parent are no children of the child, and wouldn't end while it had them. */
static void become_child(void)
{
    while (child_count > 0)
        cloudabi_sys_fd_close(children[--child_count].fd);
    drop_pending_signals();
    if (free_streams != NULL)
        free_streams();
    if (become_only_thread != NULL)
        become_only_thread();
    parent = own;
    own = last;
}

/* The child's number, and its descriptor; 0 in the child. */
static pid_t split(cloudabi_fd_t *fd)
{
    cloudabi_tid_t thread;
    prepare();
    take_all_locks();
    pid_t number = ++last;
    cloudabi_errno_t error = cloudabi_sys_proc_fork(fd, &thread);
    bool is_child = error == CLOUDABI_ESUCCESS && *fd == CLOUDABI_PROCESS_CHILD;
    if (is_child)
        become_child();
    let_go_of_all();
    go_on(is_child);
    return result(error) != 0 ? -1 : is_child ? 0 : number;
}

pid_t fork(void)
{
    cloudabi_fd_t fd;
    pid_t number = split(&fd);
    if (number > 0) {
        HOLD(&children_lock);
        children[child_count++] = (struct child){number, fd};
    }
    return number;
}

pid_t vfork(void)
{
    return fork();
}

pid_t pdfork(int *fd, int flags)
{
    cloudabi_fd_t process;
    if ((flags & ~PD_CLOEXEC) != 0) {
        errno = EINVAL;
        return -1;
    }
    pid_t number = split(&process);
    if (number > 0 && (*fd = take_descriptor(process, 0, (flags & PD_CLOEXEC) != 0)) < 0)
        return -1;
    return number;
}

/*
 * Runs another program on each of some files, in a process of its own that has less than this one: the file, to be read, and an end of a pipe.
 * This program has a directory in which it may make, write and remove files, the file of the other program, and the output of the run.
 *
 * A child begins as a copy of this process with all of its descriptors. `proc_exec` then puts the other program in its place, with those that are
 * listed and no others. What it writes comes through the pipe, which ends as the child does: nobody else has its writing end then. If the child
 * went on without the pipe, it would end as its descriptor is closed.
 *
 * The argument data is a map: `program`, `directory`, `output`, and `files`, a sequence of names.
 */
#include "argdata.h"

struct child {
    cloudabi_fd_t process, output;
};

static cloudabi_fd_t program, directory, output;

static void print(const void *text, size_t length)
{
    cloudabi_iovec_t range = {text, length};
    size_t count;
    cloudabi_sys_fd_write(output, &range, 1, &count);
}

#define PRINT(text) print(text, sizeof text - 1)

/* In the child: the other program's argument data is the name, with a colon. */
_Noreturn static void become(const char *name, size_t length, cloudabi_fd_t file, cloudabi_fd_t pipe)
{
    char text[64];
    uint8_t bytes[128];
    argdata_writer_t writer = argdata_write(bytes, sizeof bytes);
    argdata_t arguments;
    cloudabi_fd_t list[] = {pipe, file};
    size_t at = 0;
    while (at < length && at < sizeof text - 2)
        text[at] = name[at], ++at;
    text[at++] = ':';
    text[at++] = ' ';
    argdata_put_str(&writer, text, at);
    if (argdata_written(&writer, &arguments))
        cloudabi_sys_proc_exec(program, arguments.bytes, arguments.length, list, sizeof list / sizeof *list);
    cloudabi_sys_proc_exit(127);
}

/* The child has the pipe's writing end, and this process the other one. */
static cloudabi_errno_t start(const char *name, size_t length, cloudabi_fd_t file, struct child *child)
{
    cloudabi_fd_t writing;
    cloudabi_tid_t thread;
    cloudabi_errno_t error = cloudabi_sys_fd_create2(CLOUDABI_FILETYPE_FIFO, &child->output, &writing);
    if (error != CLOUDABI_ESUCCESS)
        return error;
    error = cloudabi_sys_proc_fork(&child->process, &thread);
    if (error == CLOUDABI_ESUCCESS && child->process == CLOUDABI_PROCESS_CHILD)
        become(name, length, file, writing);
    cloudabi_sys_fd_close(writing);
    if (error != CLOUDABI_ESUCCESS)
        cloudabi_sys_fd_close(child->output);
    return error;
}

/* Prints what the child writes until it has ended, and lets go of it. */
static void hear(const struct child *child)
{
    char bytes[256];
    cloudabi_iovec_t range = {bytes, sizeof bytes};
    size_t some;
    while (cloudabi_sys_fd_read(child->output, &range, 1, &some) == CLOUDABI_ESUCCESS && some > 0)
        print(bytes, some);
    cloudabi_sys_fd_close(child->process);
    cloudabi_sys_fd_close(child->output);
}

static void run_on(const char *name, size_t length)
{
    cloudabi_fdstat_t asked = {.base = CLOUDABI_RIGHT_FD_READ};
    struct child child = {0};
    cloudabi_fd_t file;
    cloudabi_errno_t error = cloudabi_sys_file_open((cloudabi_lookup_t){.fd = directory}, name, length, 0, &asked, &file);
    if (error == CLOUDABI_ESUCCESS) {
        error = start(name, length, file, &child);
        cloudabi_sys_fd_close(file);
    }
    if (error == CLOUDABI_ESUCCESS) {
        hear(&child);
    } else {
        print(name, length);
        PRINT(": can't be opened\n");
    }
}

static bool take(const argdata_t *arguments)
{
    argdata_t value;
    return argdata_map_find(arguments, "program", &value) && argdata_get_fd(&value, &program)
        && argdata_map_find(arguments, "directory", &value) && argdata_get_fd(&value, &directory)
        && argdata_map_find(arguments, "output", &value) && argdata_get_fd(&value, &output);
}

void program_main(const argdata_t *arguments)
{
    argdata_t files, item;
    argdata_rest_t rest;
    const char *name;
    size_t length;
    if (!take(arguments) || !argdata_map_find(arguments, "files", &files) || !argdata_seq_begin(&files, &rest))
        cloudabi_sys_proc_exit(1);
    while (argdata_seq_next(&rest, &item)) {
        if (argdata_get_str(&item, &name, &length))
            run_on(name, length);
    }
}

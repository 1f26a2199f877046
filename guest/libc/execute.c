/* Programs that begin where another one ends. What is named to them is theirs, and nothing else. */
#define _GNU_SOURCE
#include "system.h"

#include <errno.h>
#include <fcntl.h>
#include <program.h>
#include <stdarg.h>
#include <stdlib.h>
#include <string.h>
#include <sys/procdesc.h>
#include <unistd.h>

#define ARGUMENTS_ROOM 65536 /* of which the sandbox takes all */

/* Descriptors that go with argument data. */
struct list {
    cloudabi_fd_t fds[MOST_DESCRIPTORS];
    size_t count;
};

/* Adds one, and gives its place; a further one than there may be has no meaning. */
static cloudabi_fd_t add(struct list *list, cloudabi_fd_t fd)
{
    if (list->count == MOST_DESCRIPTORS)
        return MOST_DESCRIPTORS;
    list->fds[list->count] = fd;
    return (cloudabi_fd_t)list->count++;
}

static cloudabi_errno_t execute(cloudabi_fd_t fd, const argdata_t *arguments, const struct list *list)
{
    return cloudabi_sys_proc_exec(fd, arguments->bytes, arguments->length, list->fds, list->count);
}

int program_exec_list(int fd, const argdata_t *arguments, const int *fds, size_t count)
{
    static struct list list;
    list.count = 0;
    if (count > MOST_DESCRIPTORS)
        return EINVAL;
    for (size_t i = 0; i < count; ++i)
        add(&list, descriptor(fds[i]));
    return result(execute(descriptor(fd), arguments, &list)) == 0 ? 0 : errno;
}

/* Puts each file descriptor of a value on the list, and its place there in the value. */
static void name_places(uint8_t *bytes, size_t length, struct list *list, int depth)
{
    argdata_t value = {bytes, length}, item;
    argdata_rest_t rest;
    cloudabi_fd_t fd;
    if (argdata_get_fd(&value, &fd)) {
        cloudabi_fd_t place = add(list, descriptor((int)fd));
        for (int i = 0; i < 4; ++i)
            bytes[1 + i] = (uint8_t)(place >> 8 * (3 - i));
    } else if (depth > 0 && (argdata_seq_begin(&value, &rest) || argdata_map_begin(&value, &rest))) {
        while (argdata_seq_next(&rest, &item))
            name_places(bytes + (item.bytes - bytes), item.length, list, depth - 1);
    }
}

int program_exec(int fd, const argdata_t *arguments)
{
    static struct list list;
    uint8_t *bytes = malloc(arguments->length + 1);
    if (bytes == NULL)
        return ENOMEM;
    list.count = 0;
    memcpy(bytes, arguments->bytes, arguments->length);
    name_places(bytes, arguments->length, &list, ARGDATA_MOST_DEPTH);
    int error = result(execute(descriptor(fd), &(argdata_t){bytes, arguments->length}, &list)) == 0 ? 0 : errno;
    free(bytes);
    return error;
}

int program_spawn(int fd, const argdata_t *arguments)
{
    int process;
    pid_t number = pdfork(&process, 0);
    if (number == 0) {
        program_exec(fd, arguments);
        _exit(127);
    }
    return number < 0 ? -1 : process;
}

/* The argument data of a program with the C library: its words, and the streams and directories of this one. */

static void put_text(argdata_writer_t *writer, const char *text)
{
    argdata_put_str(writer, text, strlen(text));
}

static void put_words(argdata_writer_t *writer, char *const words[])
{
    put_text(writer, "args");
    argdata_begin_seq(writer);
    for (; *words != NULL; ++words)
        put_text(writer, *words);
    argdata_end(writer);
}

static void put_streams(argdata_writer_t *writer, struct list *list)
{
    static const char *const names[] = {"stdin", "stdout", "stderr"};
    for (int fd = 0; fd < 3; ++fd) {
        if (descriptor(fd) != NO_DESCRIPTOR && fcntl(fd, F_GETFD) == 0) {
            put_text(writer, names[fd]);
            argdata_put_fd(writer, add(list, descriptor(fd)));
        }
    }
}

static void put_directories(argdata_writer_t *writer, struct list *list)
{
    argdata_rest_t rest;
    const char *name;
    cloudabi_fd_t fd;
    if (!begin_directories(&rest))
        return;
    put_text(writer, "directories");
    argdata_begin_map(writer);
    while (next_directory(&rest, &name, &fd)) {
        put_text(writer, name);
        argdata_put_fd(writer, add(list, fd));
    }
    argdata_end(writer);
}

static cloudabi_errno_t execute_words(cloudabi_fd_t fd, char *const words[])
{
    static struct list list;
    argdata_t arguments;
    uint8_t *bytes = malloc(ARGUMENTS_ROOM);
    if (bytes == NULL)
        return CLOUDABI_ENOMEM;
    argdata_writer_t writer = argdata_write(bytes, ARGUMENTS_ROOM);
    list.count = 0;
    argdata_begin_map(&writer);
    put_words(&writer, words);
    put_streams(&writer, &list);
    put_directories(&writer, &list);
    argdata_end(&writer);
    cloudabi_errno_t error = argdata_written(&writer, &arguments) ? execute(fd, &arguments, &list) : CLOUDABI_E2BIG;
    free(bytes);
    return error;
}

int fexecve(int fd, char *const words[], char *const variables[])
{
    (void)variables;
    return result(execute_words(descriptor(fd), words));
}

int execve(const char *path, char *const words[], char *const variables[])
{
    struct place place;
    cloudabi_fdstat_t asked = {.base = CLOUDABI_RIGHT_PROC_EXEC};
    cloudabi_fd_t fd;
    (void)variables;
    cloudabi_errno_t error = find_place(path, &place);
    if (error == CLOUDABI_ESUCCESS)
        error = cloudabi_sys_file_open(lookup_of(&place, true), place.path, strlen(place.path), 0, &asked, &fd);
    if (error == CLOUDABI_ESUCCESS) {
        error = execute_words(fd, words);
        cloudabi_sys_fd_close(fd);
    }
    return result(error);
}

int execv(const char *path, char *const words[])
{
    return execve(path, words, environ);
}

/* A name without a slash is looked for in the directories of PATH. Of those where it can't be run the first error that isn't ENOENT is told. */
int execvpe(const char *name, char *const words[], char *const variables[])
{
    char path[PATH_ROOM];
    const char *directory = getenv("PATH");
    int error = ENOENT;
    if (strchr(name, '/') != NULL || *name == '\0')
        return execve(name, words, variables);
    for (directory = directory == NULL ? "/bin:/usr/bin" : directory;;) {
        size_t length = strcspn(directory, ":");
        if (length + 1 + strlen(name) < sizeof path) {
            memcpy(path, directory, length);
            strcpy(stpcpy(path + length, length == 0 ? "" : "/"), name);
            execve(path, words, variables);
            error = error == ENOENT ? errno : error;
        }
        if (directory[length] == '\0')
            break;
        directory += length + 1;
    }
    errno = error;
    return -1;
}

int execvp(const char *name, char *const words[])
{
    return execvpe(name, words, environ);
}

/* Words that are arguments of a function, up to NULL: `from` is the first. */

static size_t count_words(va_list list)
{
    size_t count = 1;
    while (va_arg(list, char *) != NULL)
        ++count;
    return count;
}

static void take_words(va_list list, const char *first, char **words, size_t count)
{
    words[0] = (char *)first;
    for (size_t i = 1; i <= count; ++i)
        words[i] = va_arg(list, char *);
}

#define WORDS(first) \
    va_list list; \
    va_start(list, first); \
    size_t count = count_words(list); \
    va_end(list); \
    char *words[count + 1]; \
    va_start(list, first); \
    take_words(list, first, words, count)

int execl(const char *path, const char *word, ...)
{
    WORDS(word);
    va_end(list);
    return execv(path, words);
}

int execlp(const char *name, const char *word, ...)
{
    WORDS(word);
    va_end(list);
    return execvp(name, words);
}

int execle(const char *path, const char *word, ...)
{
    WORDS(word);
    char **variables = va_arg(list, char **);
    va_end(list);
    return execve(path, words, variables);
}

/*
 * Runs itself from its file, with what each way to do so hands on: its words, and further descriptors. The file is /program; its name is taken
 * away before the last ones.
 */
#define _GNU_SOURCE
#include <errno.h>
#include <fcntl.h>
#include <program.h>
#include <stdio.h>
#include <stdlib.h>
#include <string.h>
#include <sys/procdesc.h>
#include <unistd.h>

static int told[2];

/* What this run was given. */
static int show(int argc, char **argv)
{
    char line[32] = "nothing";
    int open_ones = 0, file;
    printf("  words:");
    for (int i = 0; i < argc; ++i)
        printf(" [%s]", argv[i]);
    for (int fd = 0; fd < 1024; ++fd)
        open_ones += fcntl(fd, F_GETFD) >= 0;
    printf("\n  open: %d, standard input %s\n", open_ones, fcntl(0, F_GETFD) >= 0 ? "is" : "isn't");
    if ((file = open("/texts/note", O_RDONLY)) >= 0)
        line[read(file, line, sizeof line - 1)] = 0;
    printf("  /texts/note: %s\n", file >= 0 ? line : strerror(errno));
    return 0;
}

/* A child whose standard output is the pipe: true in it. */
static int in_child(const char *what)
{
    printf("%s:\n", what);
    fflush(stdout);
    if (pipe(told) != 0)
        exit(2);
    pid_t child = fork();
    if (child < 0)
        exit(3);
    if (child > 0)
        return 0;
    close(told[0]);
    dup2(told[1], 1);
    return 1;
}

static void hear(void)
{
    char bytes[256];
    ssize_t count;
    close(told[1]);
    while ((count = read(told[0], bytes, sizeof bytes)) > 0)
        fwrite(bytes, 1, (size_t)count, stdout);
    close(told[0]);
}

static void fail(const char *what)
{
    printf("  %s: %s\n", what, strerror(errno));
    fflush(stdout);
    _exit(1);
}

static void by_path(void)
{
    char *words[] = {"first", "a word", "", NULL};
    if (in_child("execv")) {
        execv("/program", words);
        fail("execv");
    }
    hear();
    if (in_child("execl, without standard input")) {
        close(0);
        execl("/program", "second", "x", (char *)NULL);
        fail("execl");
    }
    hear();
    setenv("PATH", "/absent:/texts:/", 1);
    if (in_child("execlp, and a stream that is to be closed")) {
        fcntl(0, F_SETFD, FD_CLOEXEC);
        execlp("program", "third", (char *)NULL);
        fail("execlp");
    }
    hear();
}

static void by_file(int program)
{
    char *words[] = {"fourth", NULL};
    if (in_child("fexecve")) {
        fexecve(program, words, environ);
        fail("fexecve");
    }
    hear();
}

/* Argument data that names file descriptors: the standard output alone. */
static argdata_t named(uint8_t *bytes, size_t room, int output)
{
    argdata_writer_t writer = argdata_write(bytes, room);
    argdata_t value;
    argdata_begin_map(&writer);
    argdata_put_str(&writer, "args", 4);
    argdata_begin_seq(&writer);
    argdata_put_str(&writer, "named", 5);
    argdata_put_int(&writer, -300);
    argdata_end(&writer);
    argdata_put_str(&writer, "stdout", 6);
    argdata_put_fd(&writer, (cloudabi_fd_t)output);
    argdata_end(&writer);
    if (!argdata_written(&writer, &value))
        exit(4);
    return value;
}

static void by_names(int program)
{
    uint8_t bytes[256];
    if (in_child("program_exec")) {
        argdata_t value = named(bytes, sizeof bytes, 1);
        errno = program_exec(program, &value);
        fail("program_exec");
    }
    hear();
    if (in_child("program_exec_list")) {
        argdata_t value = named(bytes, sizeof bytes, 2);
        errno = program_exec_list(program, &value, (int[]){0, 0, 1}, 3);
        fail("program_exec_list");
    }
    hear();
    printf("program_exec of what is closed: ");
    argdata_t value = named(bytes, sizeof bytes, 99);
    printf("%s\n", strerror(program_exec(program, &value)));
    printf("program_spawn:\n");
    fflush(stdout);
    if (pipe(told) != 0)
        exit(2);
    value = named(bytes, sizeof bytes, told[1]);
    int process = program_spawn(program, &value);
    if (process < 0)
        exit(3);
    hear();
    printf("  closed: %d\n", close(process));
}

/* A descriptor of a child, which ends as it is closed. */
static void by_descriptor(void)
{
    int process;
    char byte;
    printf("pdfork:\n");
    fflush(stdout);
    if (pipe(told) != 0)
        exit(2);
    pid_t child = pdfork(&process, 0);
    if (child == 0) {
        close(told[0]);
        if (write(told[1], "  tells\n", 8) == 8)
            pipe(told);
        read(told[0], &byte, 1);
        _exit(1);
    }
    printf("  child: %d, close on exec: %d\n", child > 0, fcntl(process, F_GETFD));
    char bytes[8];
    for (int i = 0; i < 8; ++i)
        read(told[0], bytes + i, 1);
    fwrite(bytes, 1, 8, stdout);
    close(process);
    hear();
    printf("  ended\n");
}

int main(int argc, char **argv)
{
    if (argc != 1 || strcmp(argv[0], "c-exec") != 0)
        return show(argc, argv);
    by_path();
    int program = open("/program", O_EXEC | O_CLOEXEC);
    if (program < 0 || unlink("/program") != 0)
        return 1;
    by_file(program);
    by_names(program);
    by_descriptor();
    return 0;
}

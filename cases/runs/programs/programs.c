/*
 * Runs other programs in its place. Each line has what is tried; then come the lines of the program that runs, or what it tells and `ended`
 * once it has, where it runs in a child. The argument data is a sequence of a descriptor to write to, of what is to be done (`tasks` below),
 * of the file of a program that shows how it was started (cases/guests/shows-start.c), descriptor 1, and of the directory from which its name
 * is taken first, descriptor 2.
 */
#include "../../guests/processes.h"

#define PROGRAM 1
#define DIRECTORY 2

static cloudabi_fd_t child, other, ends[2];
static struct thread threads[2];
static unsigned char bytes[65536];
static cloudabi_fd_t fds[1025];

static void make_pair(void)
{
    expect(cloudabi_sys_fd_create2(STREAM, &ends[0], &ends[1]));
}

static cloudabi_errno_t run(cloudabi_fd_t file, size_t length, size_t count)
{
    cloudabi_errno_t error = cloudabi_sys_proc_exec(file, bytes, length, fds, count);
    say(" ");
    say_answer(error);
    return error;
}

/* Runs the program in a child, which tells what it shows. */
static void run_in_child(const char *what, size_t length, size_t count)
{
    say(what);
    say(":");
    if (in_child(&child)) {
        fds[0] = told[1];
        run(PROGRAM, length, count);
        tell_line();
        cloudabi_sys_proc_exit(1);
    }
    end_line();
    hear();
}

static void begin_list(void)
{
    begin("");
    line_length = 0;
}

/* In the first process, with a list in which one stands twice, and with what a page, a thread and descriptors of before leave: nothing. */
static void first(void)
{
    void *page;
    begin("first");
    make_pair();
    expect(cloudabi_sys_mem_map(NULL, 4096, CLOUDABI_PROT_READ | CLOUDABI_PROT_WRITE, CLOUDABI_MAP_ANON | CLOUDABI_MAP_PRIVATE, UINT32_MAX, 0, &page));
    *(uint64_t *)page = 1;
    start_call(&threads[0], (struct call){.act = READ, .fd = ends[0], .room = 1});
    sleep_for(MILLISECOND);
    end_line();
    fds[0] = output;
    fds[1] = output;
    fds[2] = told[0];
    bytes[0] = 5, bytes[1] = 1;
    run(PROGRAM, 2, 3);
}

/* Another program, which looks at its registers and its stack, and has no descriptor. */
static void fresh(void)
{
    begin("fresh");
    end_line();
    run(PROGRAM, 1, 0);
}

/* What is refused changes nothing, and draws no random bytes. */
static void refused(void)
{
    begin("refused");
    make_pair();
    run(PROGRAM, 65537, 0);
    run(PROGRAM, 65537, 1025);
    run(PROGRAM, 65536, 1025);
    run(PROGRAM, 0, 1025);
    fds[0] = 99;
    run(PROGRAM, 0, 1);
    run(99, 0, 0);
    run(output, 0, 0);
    cloudabi_fdstat_t stat = {.base = CLOUDABI_RIGHT_FD_READ};
    cloudabi_fd_t copy;
    expect(cloudabi_sys_fd_dup(PROGRAM, &copy));
    expect(cloudabi_sys_fd_stat_put(copy, &stat, CLOUDABI_FDSTAT_RIGHTS));
    run(copy, 0, 0);
    run(ends[0], 0, 0);
    end_line();
    fds[0] = output;
    run(PROGRAM, 0, 1);
}

/* A thread that isn't the first runs it, and keeps its number. */
static void run_in_thread(struct thread *self)
{
    (void)self;
    fds[0] = output;
    run(PROGRAM, 0, 1);
}

static void in_thread(void)
{
    begin("in a thread");
    end_line();
    start_body(&threads[0], run_in_thread);
    for (;;)
        cloudabi_sys_thread_yield();
}

static void in_children(void)
{
    begin_list();
    run_in_child("no argument data", 0, 1);
    begin_list();
    run_in_child("as much as there may be", 65536, 1);
    begin_list();
    for (size_t i = 0; i < 1024; ++i)
        fds[i] = told[1];
    run_in_child("as many descriptors as there may be", 1, 1024);
    begin_list();
    make_pair();
    cloudabi_fdstat_t stat = {.base = CLOUDABI_RIGHT_FD_READ};
    expect(cloudabi_sys_fd_stat_put(ends[1], &stat, CLOUDABI_FDSTAT_RIGHTS));
    fds[1] = ends[1], fds[2] = ends[1], fds[3] = ends[0];
    run_in_child("in the order of the list", 1, 4);
}

/* ---- what ends, and what doesn't */

/* A child of the one that runs the program waits, and has the pipe too. */
static void makers(void)
{
    begin("a child that isn't listed");
    if (in_child(&child)) {
        if (in_child(&other)) {
            close_end(told[1]);
            wait_for_ever();
        }
        make_pair();
        fds[0] = told[1];
        run(PROGRAM, 0, 1);
    }
    end_line();
    hear();
    begin("a child that is listed");
    if (in_child(&child)) {
        if (in_child(&other))
            wait_for_ever();
        fds[0] = told[1], fds[1] = other;
        run(PROGRAM, 0, 2);
    }
    end_line();
    hear();
}

/* The end of a pipe that isn't listed is let go, and one that waits in a thread that ends so too. */
static void ends_of_pipes(void)
{
    cloudabi_fd_t pipe[2];
    begin("ends that aren't listed");
    expect(cloudabi_sys_fd_create2(FIFO, &pipe[0], &pipe[1]));
    if (in_child(&child)) {
        close_end(pipe[0]);
        start_call(&threads[0], (struct call){.act = WRITE, .fd = pipe[1], .room = 65536});
        start_call(&threads[1], (struct call){.act = WRITE, .fd = pipe[1], .room = 65536});
        while (!has_ended(&threads[0]) && !has_ended(&threads[1]))
            cloudabi_sys_thread_yield();
        fds[0] = told[1];
        run(PROGRAM, 0, 1);
    }
    end_line();
    close_end(pipe[1]);
    hear();
    size_t length = 0, count;
    while ((count = read_from(pipe[0], 64)) > 0)
        length += count;
    say("waited in the pipe: ");
    say_number(length);
    end_line();
}

/* The file was received, and has no other descriptor. */
static void received(void)
{
    begin("received");
    make_pair();
    if (in_child(&child)) {
        close_end(PROGRAM);
        close_end(ends[0]);
        cloudabi_fd_t file = receive_from(ends[1]);
        fds[0] = told[1];
        run(file, 0, 1);
    }
    send_to(ends[0], 1, PROGRAM, 1);
    close_end(PROGRAM);
    close_end(ends[0]);
    close_end(ends[1]);
    end_line();
    hear();
}

static const struct {
    const char *name;
    void (*run)(void);
} tasks[] = {
    {"first", first}, {"fresh", fresh}, {"refused", refused}, {"in a thread", in_thread}, {"in children", in_children}, {"makers", makers},
    {"ends of pipes", ends_of_pipes}, {"received", received},
};

void program_main(const argdata_t *arguments)
{
    const char *name = begin_program(arguments);
    given = 3;
    expect(cloudabi_sys_file_unlink(DIRECTORY, "program", 7, 0));
    for (size_t i = 0; i < sizeof tasks / sizeof tasks[0]; ++i)
        if (same_text(name, tasks[i].name))
            tasks[i].run();
}

/*
 * A guest that makes processes, as it is asked, and exits with 0. The script bench/processes runs it. processes.elf is made of this text by
 * `../../guest/cc --bare -O2 -s -o processes.elf processes.c`.
 *
 * Its argument data is a map. `pages` has how many pages of memory are written before anything else. `forks` has how often a process is made that
 * exits at once, and is waited for. `children` has how many processes work side by side and are waited for: each counts, `count` million times round
 * a loop, and makes `calls` thousand calls. With `chain` the first process has a child, which has a child, and so on, four in a row; then each of the four makes so many further children,
 * and all of these wait until the run ends.
 */
#include "argdata.h"

#define ROW 4

static cloudabi_fd_t ends[2];

static void demand(bool is_so)
{
    if (!is_so)
        cloudabi_sys_proc_exit(1);
}

static void make_pipe(void)
{
    demand(cloudabi_sys_fd_create2(CLOUDABI_FILETYPE_FIFO, &ends[0], &ends[1]) == CLOUDABI_ESUCCESS);
}

static void close_end(cloudabi_fd_t fd)
{
    demand(cloudabi_sys_fd_close(fd) == CLOUDABI_ESUCCESS);
}

/* True in the child. */
static bool divide(cloudabi_fd_t *process)
{
    cloudabi_tid_t thread;
    demand(cloudabi_sys_proc_fork(process, &thread) == CLOUDABI_ESUCCESS);
    return *process == CLOUDABI_PROCESS_CHILD;
}

/* How many bytes come: none where nobody has the pipe's other end any more. */
static size_t read_byte(void)
{
    char byte;
    cloudabi_iovec_t range = {&byte, 1};
    size_t count;
    demand(cloudabi_sys_fd_read(ends[0], &range, 1, &count) == CLOUDABI_ESUCCESS);
    return count;
}

static void write_byte(void)
{
    cloudabi_iovec_t range = {"", 1};
    size_t count;
    demand(cloudabi_sys_fd_write(ends[1], &range, 1, &count) == CLOUDABI_ESUCCESS);
}

static void fill(int64_t pages)
{
    void *memory;
    if (pages == 0)
        return;
    demand(cloudabi_sys_mem_map(NULL, (size_t)pages * 4096, CLOUDABI_PROT_READ | CLOUDABI_PROT_WRITE, CLOUDABI_MAP_ANON | CLOUDABI_MAP_PRIVATE,
                                UINT32_MAX, 0, &memory) == CLOUDABI_ESUCCESS);
    for (int64_t page = 0; page < pages; ++page)
        ((volatile uint64_t *)memory)[page * 512] = (uint64_t)page;
}

static void make_and_wait(void)
{
    cloudabi_fd_t process;
    make_pipe();
    if (divide(&process))
        cloudabi_sys_proc_exit(0);
    close_end(ends[1]);
    demand(read_byte() == 0);
    close_end(ends[0]);
    close_end(process);
}

static void count_round(int64_t millions)
{
    for (int64_t left = millions * 1000000; left > 0; --left)
        __asm__ volatile("");
}

/* The calls write no bytes to the pipe: they look at a descriptor and do nothing else. */
static void call_often(int64_t thousands)
{
    size_t count;
    for (int64_t left = thousands * 1000; left > 0; --left)
        demand(cloudabi_sys_fd_write(ends[1], NULL, 0, &count) == CLOUDABI_ESUCCESS);
}

static void compute(int64_t children, int64_t millions, int64_t thousands)
{
    cloudabi_fd_t process;
    make_pipe();
    for (int64_t made = 0; made < children; ++made) {
        if (divide(&process)) {
            count_round(millions);
            call_often(thousands);
            cloudabi_sys_proc_exit(0);
        }
    }
    close_end(ends[1]);
    demand(read_byte() == 0);
}

static void wait_for_ever(void)
{
    make_pipe();
    read_byte();
    cloudabi_sys_proc_exit(1);
}

static void chain(int64_t further)
{
    cloudabi_fd_t process;
    int place = 0;
    make_pipe();
    while (place < ROW - 1 && divide(&process))
        ++place;
    for (; further > 0; --further) {
        if (divide(&process))
            wait_for_ever();
    }
    if (place > 0) {
        write_byte();
        wait_for_ever();
    }
    for (int told = 0; told < ROW - 1; ++told)
        demand(read_byte() == 1);
}

static int64_t number_of(const argdata_t *arguments, const char *key)
{
    argdata_t value;
    int64_t number;
    return argdata_map_find(arguments, key, &value) && argdata_get_int(&value, &number) ? number : 0;
}

void program_main(const argdata_t *arguments)
{
    int64_t children = number_of(arguments, "children"), chained = number_of(arguments, "chain");
    fill(number_of(arguments, "pages"));
    for (int64_t left = number_of(arguments, "forks"); left > 0; --left)
        make_and_wait();
    if (children > 0)
        compute(children, number_of(arguments, "count"), number_of(arguments, "calls"));
    if (chained > 0)
        chain(chained);
}

/*
 * A guest with many processes and threads that work side by side, wait or have ended, and exits with 0. The script bench/workers runs it. workers.elf is
 * made of this text by `../../guest/cc --bare -O2 -s -o workers.elf workers.c`, with clang 14 in place of GCC.
 *
 * Its argument data is a map. `ended` has how many groups of 2,501 processes are made and end, each of which its parent waits for. `processes` has how many
 * work side by side, 64 at most, and `threads` how many threads each of them has, 64 at most. What each thread does, one after the other: `yields` has how
 * often it yields; `pages` how many pages of the stack the first thread writes, 200 at most; `count` how many million times it goes round a loop;
 * `mappings` how often it maps and unmaps 64 MiB; `bytes` how often it sends a byte to the process beside it and gets one back, where processes come in
 * pairs. `living` has how many processes wait with all of their threads until the run ends, behind their `pages`; with `spin` the guest loops for ever.
 */
#include "argdata.h"

#define MOST_THREADS 64
#define MOST_PROCESSES 64
#define GROUP 50 /* living processes with one parent, itself among them */
#define MAKERS 20
#define MADE 124
#define PAGE 4096
#define MOST_PAGES 200
#define MAPPED ((size_t)64 << 20)
#define LATER UINT64_C(1000000000000) /* each call takes 1000 nanoseconds, so all others wait by then */

/* A pipe's reading end and its writing end. */
typedef cloudabi_fd_t ends_t[2];

/* What each process does, from the argument data. */
static struct {
    int64_t threads, yields, pages, count, mappings, bytes;
} work;

static ends_t silent; /* nothing is ever written to it */
static ends_t to, fro; /* of a pair of processes */
static volatile bool has_ended[MOST_THREADS];
_Alignas(16) static unsigned char stacks[MOST_THREADS][512];

static void demand(bool is_so)
{
    if (!is_so)
        cloudabi_sys_proc_exit(1);
}

/* ---- calls */

static void make_pipe(ends_t ends)
{
    demand(cloudabi_sys_fd_create2(CLOUDABI_FILETYPE_FIFO, &ends[0], &ends[1]) == CLOUDABI_ESUCCESS);
}

static void close_end(cloudabi_fd_t fd)
{
    demand(cloudabi_sys_fd_close(fd) == CLOUDABI_ESUCCESS);
}

static void read_byte(const ends_t ends)
{
    char byte;
    cloudabi_iovec_t range = {&byte, 1};
    size_t count;
    demand(cloudabi_sys_fd_read(ends[0], &range, 1, &count) == CLOUDABI_ESUCCESS && count == 1);
}

static void write_byte(const ends_t ends)
{
    cloudabi_iovec_t range = {"", 1};
    size_t count;
    demand(cloudabi_sys_fd_write(ends[1], &range, 1, &count) == CLOUDABI_ESUCCESS && count == 1);
}

static void wait_for(cloudabi_subscription_t *subscription, cloudabi_event_t *event)
{
    size_t count;
    demand(cloudabi_sys_poll(subscription, event, 1, &count) == CLOUDABI_ESUCCESS && count == 1);
}

static void sleep_for(uint64_t timeout)
{
    cloudabi_subscription_t subscription = {.kind = CLOUDABI_EVENTTYPE_CLOCK};
    cloudabi_event_t event;
    subscription.clock.clock = CLOUDABI_CLOCK_MONOTONIC;
    subscription.clock.timeout = timeout;
    wait_for(&subscription, &event);
}

/* True in the child. */
static bool divide(cloudabi_fd_t *process)
{
    cloudabi_tid_t thread;
    demand(cloudabi_sys_proc_fork(process, &thread) == CLOUDABI_ESUCCESS);
    return *process == CLOUDABI_PROCESS_CHILD;
}

/* Waits for a child to exit with 0. */
static void wait_for_end(cloudabi_fd_t process)
{
    cloudabi_subscription_t subscription = {.kind = CLOUDABI_EVENTTYPE_PROC_TERMINATE};
    cloudabi_event_t event;
    subscription.proc_terminate.fd = process;
    wait_for(&subscription, &event);
    demand(event.proc_terminate.signal == 0 && event.proc_terminate.code == 0);
    close_end(process);
}

/* The other threads of this process begin here. */
static void start_threads(void (*body)(cloudabi_tid_t, void *))
{
    for (int64_t place = 1; place < work.threads; ++place) {
        cloudabi_threadattr_t attributes = {(void *)body, stacks[place], sizeof stacks[place], (void *)place};
        cloudabi_tid_t tid;
        demand(cloudabi_sys_thread_create(&attributes, &tid) == CLOUDABI_ESUCCESS);
    }
}

static void wait_for_ever(cloudabi_tid_t tid, void *place)
{
    (void)tid, (void)place;
    read_byte(silent);
}

/* It isn't inlined, so that no other function has its room. */
__attribute__((noinline)) static void write_stack(int64_t pages)
{
    volatile unsigned char room[MOST_PAGES * PAGE];
    for (int64_t page = 0; page < pages; ++page)
        room[page * PAGE] = 1;
}

/* ---- processes that have ended */

/* A child that does this and exits. */
static void run_child(void (*body)(void))
{
    cloudabi_fd_t process;
    if (divide(&process)) {
        body();
        cloudabi_sys_proc_exit(0);
    }
    wait_for_end(process);
}

static void do_nothing(void)
{
}

static void make_children(void)
{
    for (int left = MADE; left > 0; --left)
        run_child(do_nothing);
}

static void make_group(void)
{
    for (int left = MAKERS; left > 0; --left)
        run_child(make_children);
}

/* ---- processes that live */

static void live(void)
{
    start_threads(wait_for_ever);
    write_stack(work.pages);
    write_byte(to);
    wait_for_ever(0, NULL);
}

static void live_as_group(int64_t count)
{
    cloudabi_fd_t process;
    for (int64_t further = 1; further < count; ++further) {
        if (divide(&process))
            live();
    }
    live();
}

/* Each of them has told that it lives, and all wait, when this one goes on. */
static void make_living(int64_t count)
{
    cloudabi_fd_t process;
    make_pipe(to);
    for (int64_t left = count; left > 0; left -= GROUP) {
        if (divide(&process))
            live_as_group(left < GROUP ? left : GROUP);
    }
    for (int64_t left = count; left > 0; --left)
        read_byte(to);
    sleep_for(LATER);
}

/* ---- processes that work side by side */

static void count_rounds(int64_t millions)
{
    for (int64_t left = millions * 1000000; left > 0; --left)
        __asm__ volatile("");
}

static void map_often(int64_t times)
{
    void *memory;
    for (int64_t left = times; left > 0; --left) {
        demand(cloudabi_sys_mem_map(NULL, MAPPED, CLOUDABI_PROT_READ | CLOUDABI_PROT_WRITE, CLOUDABI_MAP_ANON | CLOUDABI_MAP_PRIVATE, UINT32_MAX, 0, &memory)
               == CLOUDABI_ESUCCESS);
        demand(cloudabi_sys_mem_unmap(memory, MAPPED) == CLOUDABI_ESUCCESS);
    }
}

static void send_bytes(int64_t times, bool is_first)
{
    for (int64_t left = times; left > 0; --left) {
        if (is_first)
            write_byte(to);
        read_byte(is_first ? fro : to);
        if (!is_first)
            write_byte(fro);
    }
}

/* What each thread does. The last one ends the process: each tells that it has ended, and then looks at all others. */
static void run_thread(cloudabi_tid_t tid, void *argument)
{
    int64_t place = (int64_t)argument;
    for (int64_t left = work.yields; left > 0; --left)
        cloudabi_sys_thread_yield();
    count_rounds(work.count);
    map_often(work.mappings);
    has_ended[place] = true;
    for (int64_t other = 0; other < work.threads; ++other) {
        if (!has_ended[other])
            wait_for_ever(tid, argument);
    }
    cloudabi_sys_proc_exit(0);
}

static void run_process(bool is_first)
{
    start_threads(run_thread);
    write_stack(work.pages);
    send_bytes(work.bytes, is_first);
    run_thread(0, (void *)0);
}

static void make_pair_of_pipes(void)
{
    make_pipe(to);
    make_pipe(fro);
}

static void close_pair_of_pipes(void)
{
    for (int end = 0; end < 2; ++end) {
        close_end(to[end]);
        close_end(fro[end]);
    }
}

/* Each two of them have two pipes, if they send bytes. */
static void run_processes(int64_t count)
{
    static cloudabi_fd_t processes[MOST_PROCESSES];
    for (int64_t made = 0; made < count; ++made) {
        if (work.bytes > 0 && made % 2 == 0)
            make_pair_of_pipes();
        if (divide(&processes[made]))
            run_process(made % 2 == 0);
        if (work.bytes > 0 && made % 2 == 1)
            close_pair_of_pipes();
    }
    for (int64_t place = 0; place < count; ++place)
        wait_for_end(processes[place]);
}

static int64_t number_of(const argdata_t *arguments, const char *key)
{
    argdata_t value;
    int64_t number;
    return argdata_map_find(arguments, key, &value) && argdata_get_int(&value, &number) ? number : 0;
}

void program_main(const argdata_t *arguments)
{
    int64_t living = number_of(arguments, "living"), spins = number_of(arguments, "spin");
    make_pipe(silent);
    work.threads = number_of(arguments, "threads");
    work.yields = number_of(arguments, "yields");
    work.pages = number_of(arguments, "pages");
    work.count = number_of(arguments, "count");
    work.mappings = number_of(arguments, "mappings");
    work.bytes = number_of(arguments, "bytes");
    for (int64_t left = number_of(arguments, "ended"); left > 0; --left)
        run_child(make_group);
    run_processes(number_of(arguments, "processes"));
    if (living > 0)
        make_living(living);
    while (spins > 0)
        __asm__ volatile("");
}

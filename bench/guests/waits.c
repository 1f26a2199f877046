/*
 * A guest that lets one process wait again and again, beside threads that wait and processes that have ended, and exits with 0. The script bench/waits
 * runs it. waits.elf is made of this text by `../../guest/cc --bare -O2 -s -o waits.elf waits.c`.
 *
 * Its argument data is a map. What stands beside: `ended` has how many processes have ended, a multiple of 125; `waiting` how many threads read a pipe of
 * their process, in which nothing comes; `resting` how many threads wait of which every other one reads so, and the others sleep until far later; `readers`
 * how many read bytes from one pipe for all, and answer each. They are in processes of 64 threads, the last one of fewer.
 *
 * What is done, and how often: `answers`, a thread reads a byte and answers another thread; `bytes`, one of the readers reads a byte and answers; `sleeps`,
 * all wait until the one that sleeps for 10 microseconds goes on; `polls`, a thread polls `subscriptions` pipes, of which one has a byte, reads it and
 * answers.
 */
#include "argdata.h"

#define MOST_THREADS 64
#define MOST_OF_GROUP 1280
#define MOST_PIPES 256
#define ENDED_OF_ONE 124 /* with the process that made them 125 */
#define LATER UINT64_C(1000000000000) /* each call takes 1000 nanoseconds, so all others wait by then */
#define FAR_LATER UINT64_C(1000000000000000)

/* A pipe's reading end and its writing end. */
typedef cloudabi_fd_t ends_t[2];

static ends_t begins, bytes, answers, polled[MOST_PIPES];
static int64_t rounds, subscriptions;
_Alignas(16) static unsigned char stacks[MOST_THREADS][1024];

static void demand(bool is_so)
{
    if (!is_so)
        cloudabi_sys_proc_exit(1);
}

/* ---- calls */

static void make_pipe(ends_t ends)
{
    demand(cloudabi_sys_fd_create2(CLOUDABI_FILETYPE_FIFO, &ends[0], &ends[1]) == CLOUDABI_ESUCCESS);
}

static void close_end(cloudabi_fd_t fd)
{
    demand(cloudabi_sys_fd_close(fd) == CLOUDABI_ESUCCESS);
}

static void read_byte(const ends_t ends)
{
    char byte;
    cloudabi_iovec_t range = {&byte, 1};
    size_t count;
    demand(cloudabi_sys_fd_read(ends[0], &range, 1, &count) == CLOUDABI_ESUCCESS && count == 1);
}

static void write_byte(const ends_t ends)
{
    cloudabi_iovec_t range = {"", 1};
    size_t count;
    demand(cloudabi_sys_fd_write(ends[1], &range, 1, &count) == CLOUDABI_ESUCCESS && count == 1);
}

static void wait_for(cloudabi_subscription_t *subscription, cloudabi_event_t *event)
{
    size_t count;
    demand(cloudabi_sys_poll(subscription, event, 1, &count) == CLOUDABI_ESUCCESS && count == 1);
}

static void sleep_for(uint64_t timeout, uint16_t flags)
{
    cloudabi_subscription_t subscription = {.kind = CLOUDABI_EVENTTYPE_CLOCK};
    cloudabi_event_t event;
    subscription.clock.clock = CLOUDABI_CLOCK_MONOTONIC;
    subscription.clock.timeout = timeout;
    subscription.clock.flags = flags;
    wait_for(&subscription, &event);
}

/* True in the child. */
static bool divide(cloudabi_fd_t *process)
{
    cloudabi_tid_t thread;
    demand(cloudabi_sys_proc_fork(process, &thread) == CLOUDABI_ESUCCESS);
    return *process == CLOUDABI_PROCESS_CHILD;
}

/* Waits for a child to exit with 0. */
static void wait_for_end(cloudabi_fd_t process)
{
    cloudabi_subscription_t subscription = {.kind = CLOUDABI_EVENTTYPE_PROC_TERMINATE};
    cloudabi_event_t event;
    subscription.proc_terminate.fd = process;
    wait_for(&subscription, &event);
    demand(event.proc_terminate.signal == 0 && event.proc_terminate.code == 0);
    close_end(process);
}

static void start_thread(void (*body)(cloudabi_tid_t, void *), int64_t place, int64_t argument)
{
    cloudabi_threadattr_t attributes = {(void *)body, stacks[place], sizeof stacks[place], (void *)argument};
    cloudabi_tid_t tid;
    demand(cloudabi_sys_thread_create(&attributes, &tid) == CLOUDABI_ESUCCESS);
}

/* ---- what stands beside */

static void make_ended(int64_t count)
{
    cloudabi_fd_t maker, made;
    for (int64_t left = count; left > 0; left -= ENDED_OF_ONE + 1) {
        if (divide(&maker)) {
            for (int i = 0; i < ENDED_OF_ONE; ++i) {
                if (divide(&made))
                    cloudabi_sys_proc_exit(0);
                wait_for_end(made);
            }
            cloudabi_sys_proc_exit(0);
        }
        wait_for_end(maker);
    }
}

static ends_t silent; /* the pipe of a process whose threads wait */

static void wait_for_ever(cloudabi_tid_t tid, void *number)
{
    (void)tid, (void)number;
    read_byte(silent);
}

static void rest(cloudabi_tid_t tid, void *number)
{
    if ((int64_t)number % 2 == 0)
        sleep_for(FAR_LATER + (uint64_t)number, CLOUDABI_SUBSCRIPTION_CLOCK_ABSTIME);
    wait_for_ever(tid, number);
}

static void read_and_answer(cloudabi_tid_t tid, void *number)
{
    (void)tid, (void)number;
    for (;;) {
        read_byte(bytes);
        write_byte(answers);
    }
}

static int64_t smaller(int64_t number, int64_t other)
{
    return number < other ? number : other;
}

/* This process has so many threads that do this, and never end; `first` is the number of the first one. */
static void have_threads(void (*body)(cloudabi_tid_t, void *), int64_t first, int64_t count)
{
    make_pipe(silent);
    for (int64_t place = 1; place < count; ++place)
        start_thread(body, place, first + place);
    body(0, (void *)first);
}

/* The threads of these numbers, in this process and further ones. */
static void have_group(void (*body)(cloudabi_tid_t, void *), int64_t first, int64_t behind)
{
    cloudabi_fd_t process;
    for (int64_t next = first + MOST_THREADS; next < behind; next += MOST_THREADS) {
        if (divide(&process))
            have_threads(body, next, smaller(MOST_THREADS, behind - next));
    }
    have_threads(body, first, smaller(MOST_THREADS, behind - first));
}

/* The same in groups of twenty processes, so that each has turns enough. */
static void make_threads(void (*body)(cloudabi_tid_t, void *), int64_t count)
{
    cloudabi_fd_t process;
    for (int64_t first = 0; first < count; first += MOST_OF_GROUP) {
        if (divide(&process))
            have_group(body, first, smaller(count, first + MOST_OF_GROUP));
    }
}

/* ---- what is measured */

static void answer_often(cloudabi_tid_t tid, void *argument)
{
    (void)tid, (void)argument;
    for (int64_t left = rounds; left > 0; --left) {
        read_byte(bytes);
        write_byte(answers);
    }
    wait_for_ever(0, NULL);
}

static void ask_often(void)
{
    for (int64_t left = rounds; left > 0; --left) {
        write_byte(bytes);
        read_byte(answers);
    }
}

static void sleep_often(int64_t times)
{
    for (int64_t left = times; left > 0; --left)
        sleep_for(10000, 0);
}

/* Writes into one of the pipes after the other. */
static void write_to_polled(cloudabi_tid_t tid, void *argument)
{
    (void)tid, (void)argument;
    for (int64_t round = 0; round < rounds; ++round) {
        write_byte(polled[round % subscriptions]);
        read_byte(answers);
    }
    wait_for_ever(0, NULL);
}

static void poll_often(void)
{
    static cloudabi_subscription_t asked[MOST_PIPES];
    static cloudabi_event_t events[MOST_PIPES];
    size_t count;
    for (int64_t i = 0; i < subscriptions; ++i) {
        make_pipe(polled[i]);
        asked[i] = (cloudabi_subscription_t){.userdata = (uint64_t)i, .kind = CLOUDABI_EVENTTYPE_FD_READ};
        asked[i].fd_readwrite.fd = polled[i][0];
    }
    start_thread(write_to_polled, 1, 0);
    for (int64_t left = rounds; left > 0; --left) {
        demand(cloudabi_sys_poll(asked, events, (size_t)subscriptions, &count) == CLOUDABI_ESUCCESS && count == 1);
        read_byte(polled[events[0].userdata]);
        write_byte(answers);
    }
}

static int64_t number_of(const argdata_t *arguments, const char *key)
{
    argdata_t value;
    int64_t number;
    return argdata_map_find(arguments, key, &value) && argdata_get_int(&value, &number) ? number : 0;
}

/* The process that is measured. It is the first child, so that it has turns enough, and begins when all others wait. */
static void measured(const argdata_t *arguments)
{
    make_pipe(silent);
    read_byte(begins);
    rounds = number_of(arguments, "answers");
    if (rounds > 0) {
        start_thread(answer_often, 1, 0);
        ask_often();
    }
    rounds = number_of(arguments, "bytes");
    ask_often();
    sleep_often(number_of(arguments, "sleeps"));
    rounds = number_of(arguments, "polls");
    subscriptions = number_of(arguments, "subscriptions");
    if (subscriptions > 0)
        poll_often();
    cloudabi_sys_proc_exit(0);
}

void program_main(const argdata_t *arguments)
{
    cloudabi_fd_t process;
    make_pipe(begins);
    make_pipe(bytes);
    make_pipe(answers);
    if (divide(&process))
        measured(arguments);
    make_ended(number_of(arguments, "ended"));
    make_threads(wait_for_ever, number_of(arguments, "waiting"));
    make_threads(rest, number_of(arguments, "resting"));
    make_threads(read_and_answer, number_of(arguments, "readers"));
    sleep_for(LATER, 0);
    write_byte(begins);
    wait_for_end(process);
}

/*
 * A guest that makes threads, lets threads count, or draws random bytes, as often as it is asked, and exits with 0. The script bench/threads runs it. threads.elf
 * is made of this text by `../../guest/cc --bare -O2 -s -o threads.elf threads.c`.
 *
 * A place's lock is 0 as long as no thread has its stack: the thread holds it for writing as it ends, and the call that ends it lets it go.
 *
 * Its argument data is a map. `chain` has how many threads are made, each by the one before it, which then ends; `count` how many million rounds of four
 * instructions each of so many `threads` does; `random` how often 65,536 random bytes are drawn.
 */
#include "argdata.h"

#define MOST 64
#define WRITE_LOCKED UINT32_C(0x40000000)
#define BYTES 65536

static uint32_t locks[MOST];
_Alignas(16) static unsigned char stacks[MOST][512];
static int64_t left;
static unsigned char bytes[BYTES];

static void demand(bool is_so)
{
    if (!is_so)
        cloudabi_sys_proc_exit(1);
}

static void end_thread(size_t place, cloudabi_tid_t tid)
{
    locks[place] = WRITE_LOCKED | tid;
    cloudabi_sys_thread_exit(&locks[place], CLOUDABI_SCOPE_PRIVATE);
    cloudabi_sys_proc_exit(1);
}

static void start(size_t place, void (*entry)(cloudabi_tid_t, void *))
{
    cloudabi_threadattr_t attributes = {(void *)entry, stacks[place], sizeof stacks[place], (void *)place};
    cloudabi_tid_t tid;
    while (__atomic_load_n(&locks[place], __ATOMIC_ACQUIRE) != 0)
        cloudabi_sys_thread_yield();
    locks[place] = 1;
    demand(cloudabi_sys_thread_create(&attributes, &tid) == CLOUDABI_ESUCCESS);
}

/* A thread of the chain: it makes the next one, and ends. The last one ends the process. */
static void link(cloudabi_tid_t tid, void *argument)
{
    size_t place = (size_t)argument;
    if (--left <= 0)
        cloudabi_sys_proc_exit(0);
    start((place + 1) % MOST, link);
    end_thread(place, tid);
}

static void count_rounds(int64_t rounds)
{
    for (int64_t i = 0; i < rounds; ++i)
        __asm__ volatile("xori t0, t0, 1\n\tadd t1, t1, t0" : : : "t0", "t1");
}

static void count(cloudabi_tid_t tid, void *argument)
{
    count_rounds(left);
    end_thread((size_t)argument, tid);
}

static int64_t number_of(const argdata_t *arguments, const char *key)
{
    argdata_t value;
    int64_t number;
    return argdata_map_find(arguments, key, &value) && argdata_get_int(&value, &number) ? number : 0;
}

void program_main(const argdata_t *arguments)
{
    int64_t times = number_of(arguments, "chain"), threads = number_of(arguments, "threads");
    if (times > 0) {
        left = times;
        start(1, link);
        end_thread(0, 1);
    }
    left = number_of(arguments, "count") * 1000000;
    if (left > 0) {
        for (int64_t i = 1; i < threads; ++i)
            start((size_t)i, count);
        count_rounds(left);
        end_thread(0, 1);
    }
    for (times = number_of(arguments, "random"); times > 0; --times)
        demand(cloudabi_sys_random_get(bytes, BYTES) == CLOUDABI_ESUCCESS);
}

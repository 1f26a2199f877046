/*
 * A thread calls a function again and again while another thread maps other pages in its place, ten times. The function is two sums, a frequent
 * pair, of which the first page's give 3 and the second's 20; where the page is mapped between them, it is the first of the one and the second of
 * the other. Once the page is there nothing of the other is done any more. The pages are those of a file, descriptor 1.
 */
#include "../../guests/ends.h"

#define CODE ((void *)UINT64_C(0x400000))
#define PAGE UINT64_C(4096)

/* addi a0, a0, 1; addi a0, a0, 2; ret, and the same with 4 and 16. */
static const uint32_t functions[2][3] = {{0x00150513, 0x00250513, 0x00008067}, {0x00450513, 0x01050513, 0x00008067}};
static const uint64_t sums[2] = {3, 20};

static uint64_t rounds, last;
static uint32_t is_over;

static uint64_t call_function(void)
{
    register uint64_t a0 __asm__("a0") = 0;
    __asm__ volatile("jalr %1" : "+r"(a0) : "r"(CODE) : "ra", "memory");
    return a0;
}

static void map_function(uint64_t which)
{
    void *memory;
    expect(cloudabi_sys_mem_map(CODE, PAGE, CLOUDABI_PROT_EXEC, CLOUDABI_MAP_FIXED | CLOUDABI_MAP_PRIVATE, 1, which * PAGE, &memory));
}

static void write_functions(void)
{
    for (uint64_t i = 0; i < 2; ++i) {
        cloudabi_iovec_t range = {functions[i], sizeof functions[i]};
        size_t count;
        expect(cloudabi_sys_fd_pwrite(1, &range, 1, i * PAGE, &count));
    }
}

static void empty_file(void)
{
    cloudabi_filestat_t stat = {0};
    expect(cloudabi_sys_file_stat_fput(1, &stat, CLOUDABI_FILESTAT_SIZE));
}

/* Ends once it is told to, or where the sum is none. */
static void call_again(struct thread *self)
{
    (void)self;
    while (!__atomic_load_n(&is_over, __ATOMIC_ACQUIRE)) {
        uint64_t sum = call_function();
        if (sum != 3 && sum != 20 && sum != 1 + 16 && sum != 4 + 2)
            cloudabi_sys_proc_exit(3);
        __atomic_store_n(&last, sum, __ATOMIC_RELEASE);
        __atomic_store_n(&rounds, rounds + 1, __ATOMIC_RELEASE);
    }
}

/* Waits until two more calls have come back: of these the second began with the page as it is now. */
static void wait_for_calls(void)
{
    uint64_t begin = __atomic_load_n(&rounds, __ATOMIC_ACQUIRE);
    while (__atomic_load_n(&rounds, __ATOMIC_ACQUIRE) < begin + 2)
        cloudabi_sys_thread_yield();
}

void program_main(const argdata_t *arguments)
{
    static struct thread caller;
    (void)arguments;
    write_functions();
    map_function(0);
    start_body(&caller, call_again);
    for (uint64_t i = 1; i <= 10; ++i) {
        map_function(i % 2);
        if (call_function() != sums[i % 2])
            cloudabi_sys_proc_exit(4);
        wait_for_calls();
        if (__atomic_load_n(&last, __ATOMIC_ACQUIRE) != sums[i % 2])
            cloudabi_sys_proc_exit(5);
    }
    __atomic_store_n(&is_over, 1, __ATOMIC_RELEASE);
    empty_file();
    say("done");
    end_line();
    cloudabi_sys_proc_exit(0);
}

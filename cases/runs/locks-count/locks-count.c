/*
 * Three threads add 1 to a number so many times each, with a lock that they take and let go by calls, or by atomic operations as far as none
 * waits. The argument data is a sequence of a descriptor, to which the number is written in the end, how many times, and whether by calls.
 */
#include "argdata.h"

#define THREADS 3
#define WRITTEN UINT32_C(0x40000000)

static struct {
    uint32_t end; /* the lock of its end, which the first thread waits for */
    _Alignas(16) unsigned char stack[2048];
} threads[THREADS];

static uint32_t lock;
static uint64_t number;
static int64_t times;
static bool by_calls;

static void expect(bool is_so)
{
    if (!is_so)
        cloudabi_sys_proc_exit(1);
}

static void wait_for(uint32_t *word, uint8_t kind)
{
    cloudabi_subscription_t subscription = {.kind = kind};
    cloudabi_event_t event;
    size_t count;
    subscription.lock.lock = word;
    subscription.lock.scope = CLOUDABI_SCOPE_PRIVATE;
    expect(cloudabi_sys_poll(&subscription, &event, 1, &count) == CLOUDABI_ESUCCESS && count == 1 && event.error == CLOUDABI_ESUCCESS);
}

/* Puts a word into the lock where another one stands there; it may fail without a reason. */
static bool exchange(uint32_t from, uint32_t to)
{
    uint64_t failed = 1;
    if (!by_calls)
        __asm__ volatile(".option push\n"
                         ".option arch, +a\n"
                         "lr.w %0, (%1)\n"
                         "bne %0, %2, 1f\n"
                         "sc.w %0, %3, (%1)\n"
                         "j 2f\n"
                         "1: li %0, 1\n"
                         "2:\n"
                         ".option pop"
                         : "=&r"(failed) : "r"(&lock), "r"((int64_t)(int32_t)from), "r"(to) : "memory");
    return failed == 0;
}

static void run(cloudabi_tid_t tid, void *end)
{
    for (int64_t i = 0; i < times; ++i) {
        if (!exchange(0, WRITTEN | tid))
            wait_for(&lock, CLOUDABI_EVENTTYPE_LOCK_WRLOCK);
        expect((lock & (WRITTEN | 0xff)) == (WRITTEN | tid));
        ++number;
        if (!exchange(WRITTEN | tid, 0))
            expect(cloudabi_sys_lock_unlock(&lock, CLOUDABI_SCOPE_PRIVATE) == CLOUDABI_ESUCCESS);
    }
    wait_for(end, CLOUDABI_EVENTTYPE_LOCK_WRLOCK);
    cloudabi_sys_thread_exit(end, CLOUDABI_SCOPE_PRIVATE);
    cloudabi_sys_proc_exit(2);
}

static void print(cloudabi_fd_t output)
{
    char text[24];
    size_t at = sizeof text, count;
    text[--at] = '\n';
    do
        text[--at] = (char)('0' + number % 10);
    while ((number /= 10) != 0);
    cloudabi_iovec_t range = {text + at, sizeof text - at};
    expect(cloudabi_sys_fd_write(output, &range, 1, &count) == CLOUDABI_ESUCCESS);
}

/* The first thread reads the lock of each end until that thread, which wants to write it, waits; then it waits behind that one. */
void program_main(const argdata_t *arguments)
{
    argdata_t item;
    argdata_rest_t rest;
    cloudabi_fd_t output;
    expect(argdata_seq_begin(arguments, &rest) && argdata_seq_next(&rest, &item) && argdata_get_fd(&item, &output));
    expect(argdata_seq_next(&rest, &item) && argdata_get_int(&item, &times));
    expect(argdata_seq_next(&rest, &item) && argdata_get_bool(&item, &by_calls));
    for (int i = 0; i < THREADS; ++i) {
        cloudabi_threadattr_t attributes = {(void *)run, threads[i].stack, sizeof threads[i].stack, &threads[i].end};
        cloudabi_tid_t tid;
        threads[i].end = 1;
        expect(cloudabi_sys_thread_create(&attributes, &tid) == CLOUDABI_ESUCCESS);
    }
    for (int i = 0; i < THREADS; ++i) {
        while ((__atomic_load_n(&threads[i].end, __ATOMIC_ACQUIRE) & UINT32_C(0x80000000)) == 0)
            cloudabi_sys_thread_yield();
        expect(cloudabi_sys_lock_unlock(&threads[i].end, CLOUDABI_SCOPE_PRIVATE) == CLOUDABI_ESUCCESS);
        wait_for(&threads[i].end, CLOUDABI_EVENTTYPE_LOCK_RDLOCK);
    }
    print(output);
}

/*
 * Counts in four threads how many steps the numbers from 1 to 40,000 take to 1, where an even number is halved and an odd one is
 * tripled and gets one more (Collatz). Prints the steps of all.
 *
 * Each thread has a stack of its own, and a word that is 1 until the thread ends. That word is a lock too: the thread takes it for
 * itself at the end, and the call that ends the thread lets it go, which makes it 0. The first thread looks at the words again and again,
 * and sleeps between: time goes on only by calls and where all threads wait, so that a thread that sleeps takes no turns from those that count. With
 * thread_yield in that place each look would take a turn. The argument data is a descriptor to write to.
 */
#include "argdata.h"

#define THREADS 4
#define NUMBERS 10000
#define WRITE_LOCKED UINT32_C(0x40000000)

struct part {
    uint32_t word;
    uint64_t first;
    uint64_t steps;
    _Alignas(16) unsigned char stack[4096];
};

static struct part parts[THREADS];

static void count_steps(cloudabi_tid_t self, void *argument)
{
    struct part *part = argument;
    for (uint64_t i = 0; i < NUMBERS; ++i) {
        for (uint64_t n = part->first + i; n != 1; n = n % 2 == 0 ? n / 2 : 3 * n + 1)
            ++part->steps;
    }
    __atomic_store_n(&part->word, WRITE_LOCKED | self, __ATOMIC_RELEASE);
    cloudabi_sys_thread_exit(&part->word, CLOUDABI_SCOPE_PRIVATE);
    cloudabi_sys_proc_exit(2);
}

static void start(struct part *part, uint64_t first)
{
    cloudabi_threadattr_t attributes = {(void *)count_steps, part->stack, sizeof part->stack, part};
    cloudabi_tid_t thread;
    part->word = 1;
    part->first = first;
    if (cloudabi_sys_thread_create(&attributes, &thread) != CLOUDABI_ESUCCESS)
        cloudabi_sys_proc_exit(1);
}

static void sleep_for(uint64_t nanoseconds)
{
    cloudabi_subscription_t subscription = {.kind = CLOUDABI_EVENTTYPE_CLOCK};
    cloudabi_event_t event;
    size_t events;
    subscription.clock.clock = CLOUDABI_CLOCK_MONOTONIC;
    subscription.clock.timeout = nanoseconds;
    if (cloudabi_sys_poll(&subscription, &event, 1, &events) != CLOUDABI_ESUCCESS)
        cloudabi_sys_proc_exit(3);
}

static void print(cloudabi_fd_t output, uint64_t number)
{
    char text[24];
    size_t at = sizeof text, count;
    text[--at] = '\n';
    do
        text[--at] = (char)('0' + number % 10);
    while ((number /= 10) != 0);
    cloudabi_iovec_t range = {text + at, sizeof text - at};
    cloudabi_sys_fd_write(output, &range, 1, &count);
}

void program_main(const argdata_t *arguments)
{
    cloudabi_fd_t output;
    uint64_t steps = 0;
    if (!argdata_get_fd(arguments, &output))
        cloudabi_sys_proc_exit(255);
    for (size_t i = 0; i < THREADS; ++i)
        start(&parts[i], 1 + i * NUMBERS);
    for (size_t i = 0; i < THREADS; ++i) {
        while (__atomic_load_n(&parts[i].word, __ATOMIC_ACQUIRE) != 0)
            sleep_for(1000000);
        steps += parts[i].steps;
    }
    print(output, steps);
}

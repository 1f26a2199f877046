/*
 * Makes threads, ends them, and lets them wait and trap. The argument data is a sequence of a descriptor to write to and of what is to be
 * done (`tasks` below). It exits with 255 where that is something else, and with 1 where a call fails that should succeed.
 *
 * Each thread has a word that is 1 until it ends. The word is a lock too: the thread takes it for itself at its end, and the call that ends
 * it lets it go, which makes it 0.
 */
#include "argdata.h"

#define MOST 64
#define WRITE_LOCKED UINT32_C(0x40000000)
#define MILLISECOND UINT64_C(1000000)

struct thread {
    uint32_t word;
    cloudabi_tid_t tid;
    uint64_t argument;
    void (*body)(struct thread *self);
    _Alignas(16) unsigned char stack[1024];
};

static struct thread threads[MOST];
static uint32_t may_end, first_word;
static cloudabi_fd_t output;

static void expect(cloudabi_errno_t error)
{
    if (error != CLOUDABI_ESUCCESS)
        cloudabi_sys_proc_exit(1);
}

static void write_text(const char *text, size_t length)
{
    size_t count;
    cloudabi_iovec_t range = {(void *)text, length};
    expect(cloudabi_sys_fd_write(output, &range, 1, &count));
}

static void write_number(uint64_t number)
{
    char text[24];
    size_t at = sizeof text;
    text[--at] = '\n';
    do
        text[--at] = (char)('0' + number % 10);
    while ((number /= 10) != 0);
    write_text(text + at, sizeof text - at);
}

/* Waits for a time of the clock MONOTONIC: with the flag ABSTIME for a moment, and else from now on. */
static void sleep_for(uint64_t timeout, uint16_t flags)
{
    cloudabi_subscription_t subscription = {.kind = CLOUDABI_EVENTTYPE_CLOCK};
    cloudabi_event_t event;
    size_t events;
    subscription.clock.clock = CLOUDABI_CLOCK_MONOTONIC;
    subscription.clock.flags = flags;
    subscription.clock.timeout = timeout;
    expect(cloudabi_sys_poll(&subscription, &event, 1, &events));
}

static void sleep_until(uint64_t moment)
{
    sleep_for(moment, CLOUDABI_SUBSCRIPTION_CLOCK_ABSTIME);
}

static void end_thread(uint32_t *word, cloudabi_tid_t tid)
{
    __atomic_store_n(word, WRITE_LOCKED | tid, __ATOMIC_RELEASE);
    expect(cloudabi_sys_thread_exit(word, CLOUDABI_SCOPE_PRIVATE));
    cloudabi_sys_proc_exit(1);
}

static void begin(cloudabi_tid_t tid, void *argument)
{
    struct thread *self = argument;
    self->tid = tid;
    self->body(self);
    end_thread(&self->word, tid);
}

static cloudabi_errno_t start(struct thread *thread, void (*body)(struct thread *), uint64_t argument)
{
    cloudabi_threadattr_t attributes = {(void *)begin, thread->stack, sizeof thread->stack, thread};
    cloudabi_tid_t tid;
    thread->word = 1;
    thread->body = body;
    thread->argument = argument;
    return cloudabi_sys_thread_create(&attributes, &tid);
}

static void wait_for(struct thread *thread)
{
    while (__atomic_load_n(&thread->word, __ATOMIC_ACQUIRE) != 0)
        sleep_for(MILLISECOND, 0);
}

/* ---- what threads do */

static void wait_for_leave(struct thread *self)
{
    (void)self;
    while (__atomic_load_n(&may_end, __ATOMIC_ACQUIRE) == 0)
        sleep_for(MILLISECOND, 0);
}

static void end_at_once(struct thread *self)
{
    (void)self;
}

static void trap(struct thread *self)
{
    (void)self;
    __asm__ volatile("ebreak");
}

static void exit_process(struct thread *self)
{
    cloudabi_sys_proc_exit((uint32_t)self->argument);
}

/* Gives way ten times before it ends the process as a failure. */
static void exit_late(struct thread *self)
{
    for (uint64_t i = 0; i < 10; ++i)
        expect(cloudabi_sys_thread_yield());
    cloudabi_sys_proc_exit((uint32_t)self->argument);
}

static void run_forever(struct thread *self)
{
    for (;;)
        __asm__ volatile("" : : "r"(self) : "memory");
}

static void write_letter(struct thread *self)
{
    char letter = (char)('a' + self->argument);
    sleep_until((self->argument + 1) * 10 * MILLISECOND);
    write_text(&letter, 1);
}

static void sleep_for_ever(struct thread *self)
{
    (void)self;
    sleep_until(UINT64_MAX);
}

static void write_last(struct thread *self)
{
    (void)self;
    while (__atomic_load_n(&first_word, __ATOMIC_ACQUIRE) != 0)
        continue;
    write_text("last\n", 5);
}

/* ---- what the first thread does */

/* As many threads as there may be, and one more; then, after all of these have ended, one more, whose number none had. */
static void most(void)
{
    uint64_t made = 0;
    cloudabi_errno_t error;
    while ((error = start(&threads[made], wait_for_leave, 0)) == CLOUDABI_ESUCCESS)
        ++made;
    write_number(made);
    write_number(error);
    __atomic_store_n(&may_end, 1, __ATOMIC_RELEASE);
    for (uint64_t i = 0; i < made; ++i)
        wait_for(&threads[i]);
    expect(start(&threads[made], end_at_once, 0));
    wait_for(&threads[made]);
    write_number(threads[made].tid);
}

/* Many threads, one after another. */
static void many(void)
{
    for (uint64_t i = 0; i < 1000; ++i) {
        expect(start(&threads[i % MOST], end_at_once, 0));
        wait_for(&threads[i % MOST]);
    }
    write_number(threads[999 % MOST].tid);
}

static void trap_beside(void)
{
    expect(start(&threads[0], trap, 0));
    run_forever(&threads[0]);
}

static void exit_beside(void)
{
    expect(start(&threads[0], exit_process, 9));
    run_forever(&threads[0]);
}

/* Goes on before the other thread, which gives way, ends the process. */
static void exit_before(void)
{
    expect(start(&threads[0], exit_late, 1));
    cloudabi_sys_proc_exit(0);
}

/* The others sleep, one longer than the other, and the last of them first. */
static void sleepers(void)
{
    for (uint64_t i = 5; i > 0; --i)
        expect(start(&threads[i], write_letter, i));
    sleep_until(100 * MILLISECOND);
    write_text("\n", 1);
}

/* Sleeps while another thread runs on. */
static void sleep_beside(void)
{
    expect(start(&threads[0], run_forever, 0));
    sleep_until(0);
    write_text("awake\n", 6);
}

static void wait_beside(void)
{
    expect(start(&threads[0], run_forever, 0));
    sleep_until(UINT64_MAX);
}

/* Each thread that doesn't end waits for ever. */
static void stall(void)
{
    expect(start(&threads[0], sleep_for_ever, 0));
    expect(start(&threads[1], end_at_once, 0));
    sleep_until(UINT64_MAX);
}

/* Ends before the other thread does. */
static void leave(void)
{
    first_word = 1;
    expect(start(&threads[0], write_last, 0));
    end_thread(&first_word, 1);
}

static const struct {
    const char *name;
    void (*body)(void);
} tasks[] = {
    {"most", most},
    {"many", many},
    {"trap beside", trap_beside},
    {"exit beside", exit_beside},
    {"exit before", exit_before},
    {"sleepers", sleepers},
    {"sleep beside", sleep_beside},
    {"wait beside", wait_beside},
    {"stall", stall},
    {"leave", leave},
};

static bool same_text(const char *text, size_t length, const char *other)
{
    for (size_t i = 0; i < length; ++i)
        if (text[i] != other[i])
            return false;
    return other[length] == 0;
}

void program_main(const argdata_t *arguments)
{
    argdata_t item;
    argdata_rest_t rest;
    const char *name;
    size_t length;
    if (!argdata_seq_begin(arguments, &rest) || !argdata_seq_next(&rest, &item) || !argdata_get_fd(&item, &output) ||
        !argdata_seq_next(&rest, &item) || !argdata_get_str(&item, &name, &length))
        cloudabi_sys_proc_exit(255);
    for (size_t i = 0; i < sizeof tasks / sizeof tasks[0]; ++i) {
        if (same_text(name, length, tasks[i].name)) {
            tasks[i].body();
            cloudabi_sys_proc_exit(0);
        }
    }
    cloudabi_sys_proc_exit(255);
}

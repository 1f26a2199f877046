/*
 * Threads behind each other at locks and condition variables. The argument data is a sequence of a descriptor to write to and of what is to
 * be done (`tasks` below); cases/guests/lockers.h says what stands in a line.
 */
#include "../../guests/lockers.h"

/* ---- queues */

/* Lets all threads go on in their order, each as soon as it has the lock. */
static void let_all_go_on(void)
{
    for (size_t i = 0; i < lockers_count; ++i) {
        go_on(i);
        say_state();
    }
    end_line();
}

/* The first thread has the lock, these wait behind it in their order: `r` to read and `w` to write. */
static void queue_up(uint8_t first, const char *kinds)
{
    begin_line(first == WRLOCK ? "w" : "r");
    --line_length;
    say(kinds);
    say(":");
    lock_for(first, &lock_word);
    for (; *kinds != 0; ++kinds)
        begin_lock(*kinds == 'r' ? RDLOCK : WRLOCK);
    say_state();
    unlock(&lock_word);
    pause();
    say_state();
    let_all_go_on();
}

static void queues(void)
{
    static const char *const behind[] = {"r", "w", "rr", "rw", "wr", "ww", "rrr", "rrw", "rwr", "rww", "wrr", "wrw", "wwr", "www"};
    static const char *const behind_reader[] = {"w", "rw", "wr", "ww", "wrr", "wrw", "rwr", "rwrw", "wwrr"};
    for (size_t i = 0; i < sizeof behind / sizeof behind[0]; ++i)
        queue_up(WRLOCK, behind[i]);
    for (size_t i = 0; i < sizeof behind_reader / sizeof behind_reader[0]; ++i)
        queue_up(RDLOCK, behind_reader[i]);
    queue_up(WRLOCK, "rrwrrwwr");
}

static void say_hexadecimal(uint32_t word)
{
    say(" ");
    for (int shift = 28; shift >= 0; shift -= 4)
        say_letter("0123456789abcdef"[word >> shift & 15]);
}

/* The words as they are: the first thread writes, then one that writes and two that read come. */
static void exact_words(void)
{
    begin_line("words");
    lock_for(WRLOCK, &lock_word);
    begin_lock(WRLOCK);
    begin_lock(RDLOCK);
    begin_lock(RDLOCK);
    say_hexadecimal(lock_word);
    unlock(&lock_word);
    pause();
    for (size_t i = 0; i < 3; ++i) {
        say_hexadecimal(lock_word);
        go_on(i);
    }
    say_hexadecimal(lock_word);
    end_line();
}

/* Another address is another lock, and two of one page aren't mixed up. */
static void two_locks(void)
{
    begin_line("two locks");
    lock_for(WRLOCK, &words[2]);
    lock_for(WRLOCK, &lock_word);
    begin_wait((struct wait){.kind = WRLOCK, .lock = &words[2]});
    begin_lock(WRLOCK);
    say_state();
    unlock(&words[2]);
    pause();
    say_state();
    unlock(&lock_word);
    pause();
    let_all_go_on();
}

static void all_queues(void)
{
    exact_words();
    queues();
    two_locks();
}

/* ---- deadlines */

static struct locker *begin_until(uint8_t kind, uint32_t clock, uint64_t deadline)
{
    return begin_wait((struct wait){.kind = kind, .lock = &lock_word, .condvar = &condition_word, .has_deadline = true, .clock = clock,
                                    .deadline = deadline});
}

static struct locker *begin_for(uint8_t kind, uint64_t milliseconds)
{
    return begin_until(kind, CLOUDABI_CLOCK_MONOTONIC, now() + milliseconds * MILLISECOND);
}

/* A line in which the first thread has the lock. */
static void begin_locked(const char *what, uint8_t kind)
{
    begin_line(what);
    lock_for(kind, &lock_word);
}

static void free_and_go_on(void)
{
    unlock(&lock_word);
    pause();
    say_state();
    let_all_go_on();
}

static void times_of_locks(void)
{
    begin_locked("a time that is over", WRLOCK);
    begin_until(WRLOCK, CLOUDABI_CLOCK_MONOTONIC, 0);
    begin_until(RDLOCK, CLOUDABI_CLOCK_REALTIME, 1);
    say_state();
    free_and_go_on();
    begin_locked("a time that comes", WRLOCK);
    begin_for(WRLOCK, 5);
    say_state();
    sleep_for(10 * MILLISECOND);
    say_state();
    free_and_go_on();
    begin_locked("one time for two", WRLOCK);
    uint64_t then = now() + 20 * MILLISECOND;
    begin_until(WRLOCK, CLOUDABI_CLOCK_MONOTONIC, then);
    begin_until(RDLOCK, CLOUDABI_CLOCK_MONOTONIC, then);
    say_state();
    sleep_for(30 * MILLISECOND);
    say_state();
    free_and_go_on();
    begin_locked("let go before the time", WRLOCK);
    begin_for(WRLOCK, 50);
    unlock(&lock_word);
    sleep_for(100 * MILLISECOND);
    say_state();
    let_all_go_on();
    begin_locked("times that never come", WRLOCK);
    begin_until(WRLOCK, CLOUDABI_CLOCK_MONOTONIC, UINT64_C(1) << 62);
    begin_until(RDLOCK, CLOUDABI_CLOCK_MONOTONIC, UINT64_MAX);
    begin_until(WRLOCK, CLOUDABI_CLOCK_REALTIME, UINT64_MAX);
    say_state();
    free_and_go_on();
}

/* Who leaves changes nothing for the others: nobody is given the lock. */
static void leaving(void)
{
    begin_locked("the middle one leaves", WRLOCK);
    begin_lock(WRLOCK);
    begin_for(WRLOCK, 5);
    begin_lock(RDLOCK);
    say_state();
    sleep_for(10 * MILLISECOND);
    say_state();
    free_and_go_on();
    begin_locked("the first one leaves", RDLOCK);
    begin_for(WRLOCK, 5);
    begin_lock(RDLOCK);
    say_state();
    sleep_for(10 * MILLISECOND);
    say_state();
    free_and_go_on();
    begin_locked("all leave, and one comes", RDLOCK);
    begin_for(WRLOCK, 5);
    begin_for(WRLOCK, 5);
    sleep_for(20 * MILLISECOND);
    say_state();
    begin_lock(RDLOCK);
    say_state();
    free_and_go_on();
}

/* Makes calls until the next one is made at this moment. */
static void come_to(uint64_t moment)
{
    while (now() + 1000 < moment)
        continue;
}

/* The moment of the call that lets go, or signals, is the time that is waited for: what was given counts. */
static void given_and_due(void)
{
    begin_locked("given and due", WRLOCK);
    uint64_t then = now() + 50 * MILLISECOND;
    begin_until(WRLOCK, CLOUDABI_CLOCK_MONOTONIC, then);
    begin_until(RDLOCK, CLOUDABI_CLOCK_MONOTONIC, then + 1000 * MILLISECOND);
    sleep_for(then - now() - 2 * MILLISECOND);
    come_to(then);
    unlock(&lock_word);
    pause();
    say_state();
    let_all_go_on();
    begin_line("signalled and due");
    then = now() + 50 * MILLISECOND;
    begin_until(CONDVAR, CLOUDABI_CLOCK_MONOTONIC, then);
    sleep_for(then - now() - 2 * MILLISECOND);
    come_to(then);
    signal_at(&condition_word, 1);
    pause();
    say_condition();
    say_state();
    let_all_go_on();
}

static void times_of_conditions(void)
{
    begin_line("a condition's time that is over");
    begin_until(CONDVAR, CLOUDABI_CLOCK_MONOTONIC, 0);
    say_condition();
    say_state();
    let_all_go_on();
    begin_line("a condition's time that comes");
    begin_for(CONDVAR, 5);
    say_condition();
    say_state();
    sleep_for(10 * MILLISECOND);
    say_condition();
    say_state();
    let_all_go_on();
    signal_at(&condition_word, 0);
    say_condition();
    end_line();
    begin_line("late, and the lock is taken");
    begin_for(CONDVAR, 5);
    lock_for(WRLOCK, &lock_word);
    say_state();
    sleep_for(10 * MILLISECOND);
    say_condition();
    say_state();
    sleep_for(10 * MILLISECOND);
    free_and_go_on();
    begin_line("signalled, the lock is taken, and late");
    begin_for(CONDVAR, 5);
    lock_for(WRLOCK, &lock_word);
    signal_at(&condition_word, 1);
    pause();
    say_condition();
    say_state();
    sleep_for(10 * MILLISECOND);
    say_state();
    free_and_go_on();
    begin_line("a condition's time that never comes");
    begin_until(CONDVAR, CLOUDABI_CLOCK_REALTIME, UINT64_C(1) << 63);
    say_state();
    signal_at(&condition_word, 1);
    pause();
    say_state();
    let_all_go_on();
}

static void all_times(void)
{
    times_of_locks();
    leaving();
    given_and_due();
    times_of_conditions();
}

/* With an epoch: times of the clock REALTIME less it, and those before it are over. */
static void epoch(void)
{
    cloudabi_timestamp_t real;
    expect(cloudabi_sys_clock_time_get(CLOUDABI_CLOCK_REALTIME, 0, &real));
    begin_locked("before the epoch", WRLOCK);
    begin_until(WRLOCK, CLOUDABI_CLOCK_REALTIME, real / 2);
    say_state();
    free_and_go_on();
    begin_locked("behind the epoch", WRLOCK);
    begin_until(WRLOCK, CLOUDABI_CLOCK_REALTIME, real + 10 * MILLISECOND);
    say_state();
    sleep_for(20 * MILLISECOND);
    say_state();
    free_and_go_on();
    begin_line("a condition behind the epoch");
    begin_until(CONDVAR, CLOUDABI_CLOCK_REALTIME, real + 50 * MILLISECOND);
    say_state();
    sleep_for(60 * MILLISECOND);
    say_state();
    let_all_go_on();
}

/* ---- conditions */

static void signals(void)
{
    begin_line("signals of 0, 1, and more than wait");
    for (int i = 0; i < 4; ++i)
        begin_condition();
    say_condition();
    say_state();
    signal_at(&condition_word, 0);
    pause();
    say_condition();
    say_state();
    signal_at(&condition_word, 1);
    pause();
    say_condition();
    say_state();
    go_on(0);
    say_state();
    signal_at(&condition_word, UINT32_MAX);
    say_condition();
    pause();
    say_how_many();
    go_on_in_turn(say_how_many);
    end_line();
    begin_line("as many as wait");
    begin_condition();
    begin_condition();
    signal_at(&condition_word, 2);
    pause();
    say_condition();
    say_how_many();
    go_on_in_turn(say_how_many);
    end_line();
    begin_line("two of three, in their order");
    for (int i = 0; i < 3; ++i)
        begin_condition();
    lock_for(WRLOCK, &lock_word);
    signal_at(&condition_word, 1);
    pause();
    signal_at(&condition_word, 1);
    pause();
    say_condition();
    say_state();
    unlock(&lock_word);
    pause();
    say_state();
    go_on(0);
    say_state();
    go_on(1);
    say_state();
    signal_at(&condition_word, 1);
    pause();
    say_condition();
    say_state();
    go_on(2);
    end_line();
}

static void taken_locks(void)
{
    begin_line("signalled with the lock held");
    begin_condition();
    begin_condition();
    lock_for(WRLOCK, &lock_word);
    signal_at(&condition_word, 1);
    pause();
    say_condition();
    say_state();
    unlock(&lock_word);
    pause();
    say_state();
    go_on(0);
    say_state();
    signal_at(&condition_word, 1);
    pause();
    say_condition();
    say_state();
    go_on(1);
    say_state();
    end_line();
    begin_line("signalled behind one that reads");
    begin_condition();
    lock_for(WRLOCK, &lock_word);
    begin_lock(RDLOCK);
    signal_at(&condition_word, 1);
    pause();
    begin_lock(RDLOCK);
    say_state();
    unlock(&lock_word);
    pause();
    say_state();
    go_on(1);
    say_state();
    go_on(0);
    say_state();
    go_on(2);
    say_state();
    end_line();
    begin_line("signalled while it is read");
    begin_condition();
    lock_for(RDLOCK, &lock_word);
    signal_at(&condition_word, 1);
    pause();
    say_state();
    free_and_go_on();
}

/* A thread that waits lets its lock go as any other does. */
static void releases(void)
{
    struct wait wait = {.kind = CONDVAR, .lock = &lock_word, .condvar = &condition_word};
    cloudabi_event_t events[2];
    begin_line("waiting lets one go that writes");
    lock_for(WRLOCK, &lock_word);
    begin_lock(WRLOCK);
    begin_condition();
    say_state();
    unlock(&lock_word);
    pause();
    say_state();
    go_on(0);
    say_condition();
    say_state();
    signal_at(&condition_word, 1);
    pause();
    go_on(1);
    say_state();
    end_line();
    begin_line("the first thread waits, and readers go");
    lock_for(WRLOCK, &lock_word);
    begin_lock(RDLOCK);
    begin_lock(RDLOCK);
    begin_lock(WRLOCK);
    wait.has_deadline = true;
    wait.clock = CLOUDABI_CLOCK_MONOTONIC;
    wait.deadline = now() + 5 * MILLISECOND;
    /* The others keep the lock, so that this one waits behind them without a time; each lets it go at once when it is told. */
    for (size_t i = 0; i < 3; ++i)
        write_to(lockers[i].gate[1], 1);
    say_letter(' ');
    say_letter(letter_of(wait_for(&wait, events)));
    say_condition();
    say_state();
    unlock(&lock_word);
    say_state();
    end_line();
}

/* Condition variables are known by their addresses; each thread that waits has its own lock. */
static void several_words(void)
{
    begin_line("one condition, two locks");
    begin_condition();
    begin_wait((struct wait){.kind = CONDVAR, .lock = &words[2], .condvar = &condition_word});
    lock_for(WRLOCK, &words[2]);
    signal_at(&condition_word, 2);
    pause();
    say_state();
    say(" ");
    say_word(&words[2]);
    go_on(0);
    unlock(&words[2]);
    pause();
    say_state();
    say(" ");
    say_word(&words[2]);
    go_on(1);
    say_state();
    end_line();
    begin_line("two conditions, one lock");
    begin_condition();
    begin_wait((struct wait){.kind = CONDVAR, .lock = &lock_word, .condvar = &words[3]});
    signal_at(&words[3], 5);
    pause();
    say_state();
    go_on(1);
    signal_at(&condition_word, 5);
    pause();
    say_state();
    go_on(0);
    say_state();
    end_line();
    begin_line("a condition's word that is a lock");
    begin_condition();
    begin_wait((struct wait){.kind = WRLOCK, .lock = &condition_word});
    say(" ");
    say_word(&condition_word);
    signal_at(&condition_word, 1);
    pause();
    say_condition();
    say_state();
    condition_word = MANAGED | 1;
    unlock(&condition_word);
    pause();
    say(" ");
    say_word(&condition_word);
    say_state();
    let_all_go_on();
}

static void conditions(void)
{
    signals();
    taken_locks();
    releases();
    several_words();
}

/* ---- ends of threads and processes */

static void ends_of_threads(void)
{
    begin_locked("a thread's end lets one go", WRLOCK);
    begin_lock(WRLOCK)->exits = true;
    begin_lock(WRLOCK);
    say_state();
    free_and_go_on();
    begin_locked("a thread's end lets readers go", WRLOCK);
    begin_lock(WRLOCK)->exits = true;
    begin_lock(RDLOCK);
    begin_lock(RDLOCK);
    begin_lock(WRLOCK);
    free_and_go_on();
    begin_locked("ends of those that read", RDLOCK);
    begin_lock(RDLOCK)->exits = true;
    begin_lock(RDLOCK)->exits = true;
    begin_lock(WRLOCK);
    say_state();
    free_and_go_on();
    begin_locked("a refused end", WRLOCK);
    begin_lock(RDLOCK);
    words[2] = WRITE_LOCKED | lockers[0].tid;
    say(cloudabi_sys_thread_exit(&words[2], PRIVATE) == CLOUDABI_EPERM ? " PERM" : " ?");
    say(cloudabi_sys_thread_exit(&words[3], PRIVATE) == CLOUDABI_EPERM ? " PERM" : " ?");
    say_state();
    free_and_go_on();
}

/* A child has the words and nobody who waits, and then those of its own. */
static void forks(void)
{
    cloudabi_fd_t told[2], child;
    cloudabi_tid_t thread;
    size_t count;
    begin_locked("a fork", WRLOCK);
    begin_lock(WRLOCK);
    begin_lock(RDLOCK);
    expect(cloudabi_sys_fd_create2(FIFO, &told[0], &told[1]));
    expect(cloudabi_sys_proc_fork(&child, &thread));
    if (child == CLOUDABI_PROCESS_CHILD) {
        line_length = 0;
        say(" child");
        say_state();
        unlock(&lock_word);
        pause();
        say_state();
        lock_for(RDLOCK, &lock_word);
        say_state();
        begin_lock(WRLOCK);
        say_state();
        unlock(&lock_word);
        pause();
        say_state();
        go_on(2);
        say_state();
        cloudabi_iovec_t range = {line, line_length};
        expect(cloudabi_sys_fd_write(told[1], &range, 1, &count));
        cloudabi_sys_proc_exit(0);
    }
    close_end(told[1]);
    do {
        cloudabi_iovec_t range = {line + line_length, 1};
        expect(cloudabi_sys_fd_read(told[0], &range, 1, &count));
        line_length += count;
    } while (count > 0);
    say(" parent");
    say_state();
    free_and_go_on();
    close_end(told[0]);
    close_end(child);
}

static void ends(void)
{
    ends_of_threads();
    forks();
}

static void exit_with_waiters(void)
{
    begin_locked("exit", WRLOCK);
    begin_lock(WRLOCK);
    begin_lock(RDLOCK);
    begin_wait((struct wait){.kind = CONDVAR, .lock = &words[2], .condvar = &condition_word});
    say_state();
    end_line();
    cloudabi_sys_proc_exit(7);
}

/* ---- runs that stall */

/* Nobody comes who lets go or signals, and no time: one waits for a lock, and one for a time besides that never comes, one for a signal,
   and the first thread for a signal or for such a time. */
static void stall(void)
{
    struct wait wait = {.kind = CONDVAR, .lock = &words[2], .condvar = &condition_word, .has_deadline = true,
                        .clock = CLOUDABI_CLOCK_REALTIME, .deadline = UINT64_MAX};
    begin_locked("stalls", WRLOCK);
    begin_lock(WRLOCK);
    begin_until(RDLOCK, CLOUDABI_CLOCK_MONOTONIC, UINT64_C(1) << 62);
    begin_wait((struct wait){.kind = CONDVAR, .lock = &words[2], .condvar = &words[3]});
    say_state();
    end_line();
    lock_for(WRLOCK, &words[2]);
    wait_for(&wait, lockers[0].events);
}

/* ---- another program */

/* examples/hello: it writes its text to descriptor 0, and ends. */
static const uint32_t hello[] = {
    0x464c457f, 0x00010102, 0x00000000, 0x00000000, 0x00f30002, 0x00000001, 0x00010078, 0x00000000, 0x00000040, 0x00000000, 0x00000000,
    0x00000000, 0x00000000, 0x00380040, 0x00000001, 0x00000000, 0x00000001, 0x00000005, 0x00000000, 0x00000000, 0x00010000, 0x00000000,
    0x00010000, 0x00000000, 0x000000b8, 0x00000000, 0x000000b8, 0x00000000, 0x00001000, 0x00000000, 0x00000513, 0x000105b7, 0x0a058593,
    0x00100613, 0x01000893, 0x00000073, 0x00000513, 0x02700893, 0x00000073, 0x00000000, 0x000100b0, 0x00000000, 0x00000006, 0x00000000,
    0x6c6c6568, 0x00000a6f,
};

/* Descriptor 1 is a directory, in which the program stands for a while. */
static void begin_program_with_waiters(void)
{
    static const cloudabi_fdstat_t asked = {.base = CLOUDABI_RIGHT_FD_WRITE | CLOUDABI_RIGHT_PROC_EXEC};
    cloudabi_fd_t program;
    begin_locked("another program", WRLOCK);
    begin_lock(WRLOCK);
    begin_lock(RDLOCK);
    begin_wait((struct wait){.kind = CONDVAR, .lock = &words[2], .condvar = &condition_word});
    begin_for(WRLOCK, 1000);
    say_state();
    end_line();
    expect(cloudabi_sys_file_open((cloudabi_lookup_t){1, 0}, "program", 7, CLOUDABI_O_CREAT, &asked, &program));
    cloudabi_iovec_t range = {hello, sizeof hello};
    size_t count;
    expect(cloudabi_sys_fd_write(program, &range, 1, &count));
    expect(cloudabi_sys_file_unlink(1, "program", 7, 0));
    expect(cloudabi_sys_proc_exec(program, "", 0, &output, 1));
}

static const struct {
    const char *name;
    void (*run)(void);
} tasks[] = {
    {"queues", all_queues},     {"times", all_times},           {"epoch", epoch},   {"conditions", conditions},
    {"ends", ends},             {"exit", exit_with_waiters},    {"stall", stall},   {"program", begin_program_with_waiters},
};

void program_main(const argdata_t *arguments)
{
    const char *name = begin_program(arguments);
    for (size_t i = 0; i < sizeof tasks / sizeof tasks[0]; ++i)
        if (same_text(name, tasks[i].name))
            tasks[i].run();
}

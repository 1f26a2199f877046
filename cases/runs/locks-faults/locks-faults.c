/*
 * Threads that wait for a lock or at a condition variable while memory that their wake needs can't be touched. The argument data is a sequence of a
 * descriptor to write to and of a text; cases/guests/lockers.h says what stands in a line.
 */
#include "../../guests/lockers.h"

#define PAGE UINT64_C(4096)
static uint32_t *page; /* a lock, a condition variable behind it, and a page behind those for events */

static void protect(uint64_t place, uint32_t rights)
{
    expect(cloudabi_sys_mem_protect((char *)page + place * PAGE, PAGE, rights));
}

#define READ_WRITE (CLOUDABI_PROT_READ | CLOUDABI_PROT_WRITE)

static struct wait in_page(uint8_t kind)
{
    return (struct wait){.kind = kind, .lock = page, .condvar = page + 1, .clock = CLOUDABI_CLOCK_MONOTONIC};
}

static struct wait in_page_until(uint8_t kind, uint64_t milliseconds)
{
    struct wait wait = in_page(kind);
    wait.has_deadline = true;
    wait.deadline = now() + milliseconds * MILLISECOND;
    return wait;
}

/* The word of the page's lock and what each thread does. */
static void say_page(void)
{
    lock_word = *page;
    say_state();
}

static void begin_page(const char *what, uint8_t kind)
{
    begin_line(what);
    page[0] = page[1] = 0;
    if (kind != 0)
        lock_for(kind, page);
}

static void faults_of_locks(void)
{
    static const uint32_t rights[] = {0, CLOUDABI_PROT_READ, CLOUDABI_PROT_WRITE};
    for (size_t i = 0; i < 3; ++i) {
        begin_page("the lock can't be touched", WRLOCK);
        begin_wait(in_page_until(WRLOCK, 5));
        begin_wait(in_page(WRLOCK));
        protect(0, rights[i]);
        sleep_for(10 * MILLISECOND);
        protect(0, READ_WRITE);
        say_page();
        unlock(page);
        pause();
        say_page();
        go_on(0);
        go_on(1);
        say_page();
        end_line();
    }
    begin_page("it could be touched again", WRLOCK);
    begin_wait(in_page_until(WRLOCK, 50));
    protect(0, 0);
    pause();
    protect(0, READ_WRITE);
    unlock(page);
    pause();
    say_page();
    go_on(0);
    say_page();
    end_line();
}

/* Where the event can't be told the lock is the thread's, though its call says FAULT. */
static void faults_of_events(void)
{
    struct wait wait = in_page(WRLOCK);
    begin_page("the event can't be told", WRLOCK);
    wait.events = (cloudabi_event_t *)(page + 1024);
    begin_wait(wait)->frees = true;
    protect(1, CLOUDABI_PROT_READ);
    unlock(page);
    pause();
    say_page();
    protect(1, READ_WRITE);
    begin_wait(in_page(RDLOCK));
    say_page();
    say(cloudabi_sys_lock_unlock(page, PRIVATE) == CLOUDABI_EPERM ? " PERM" : " ?");
    go_on(0);
    say_page();
    go_on(1);
    say_page();
    end_line();
    begin_page("no room for the second event", WRLOCK);
    wait = in_page_until(WRLOCK, 5);
    wait.events = (cloudabi_event_t *)(page + 2048) - 1;
    begin_wait(wait);
    protect(2, 0);
    sleep_for(10 * MILLISECOND);
    protect(2, READ_WRITE);
    say_page();
    unlock(page);
    say_page();
    go_on(0);
    end_line();
    begin_page("room for the one event", WRLOCK);
    wait.deadline = now() + 5 * MILLISECOND;
    wait.events = (cloudabi_event_t *)(page + 2048) - 2;
    begin_wait(wait);
    protect(2, 0);
    sleep_for(10 * MILLISECOND);
    protect(2, READ_WRITE);
    say_page();
    unlock(page);
    go_on(0);
    end_line();
}

static void faults_of_conditions(void)
{
    begin_page("a condition's lock can't be touched", 0);
    begin_wait(in_page_until(CONDVAR, 5));
    begin_wait(in_page(CONDVAR));
    protect(0, CLOUDABI_PROT_READ);
    sleep_for(10 * MILLISECOND);
    protect(0, READ_WRITE);
    say_page();
    signal_at(page + 1, 1);
    pause();
    say_page();
    go_on(0);
    go_on(1);
    say_page();
    end_line();
    begin_page("the condition can't be touched", 0);
    struct wait wait = in_page_until(CONDVAR, 5);
    wait.condvar = page + 1024;
    begin_wait(wait);
    protect(1, 0);
    sleep_for(10 * MILLISECOND);
    protect(1, READ_WRITE);
    say_page();
    go_on(0);
    say_page();
    end_line();
    begin_page("signalled, and the event can't be told", 0);
    wait = in_page(CONDVAR);
    wait.events = (cloudabi_event_t *)(page + 1024);
    begin_wait(wait);
    protect(1, 0);
    signal_at(page + 1, 1);
    pause();
    protect(1, READ_WRITE);
    say_page();
    go_on(0);
    say_page();
    end_line();
}

void program_main(const argdata_t *arguments)
{
    void *memory;
    begin_program(arguments);
    expect(cloudabi_sys_mem_map(NULL, 3 * PAGE, READ_WRITE, CLOUDABI_MAP_ANON | CLOUDABI_MAP_PRIVATE, 0, 0, &memory));
    page = memory;
    faults_of_locks();
    faults_of_events();
    faults_of_conditions();
}

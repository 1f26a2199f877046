/*
 * Makes processes, and lets them end. Each line has what is tried, what the children told, and `ended` once all of them have. The argument
 * data is a sequence of a descriptor to write to and of what is to be done (`tasks` below); some take further descriptors of the launch.
 */
#include "../../guests/processes.h"

static cloudabi_fd_t child, other, ends[2];
static struct thread threads[4];

static void make_pair(void)
{
    expect(cloudabi_sys_fd_create2(STREAM, &ends[0], &ends[1]));
}

/* ---- what a child has */

static volatile uint64_t value;

static void memory(void)
{
    begin("memory");
    make_pair();
    value = 1;
    if (in_child(&child)) {
        say(" child ");
        say_number(value);
        value = 2;
        write_to(ends[1], 1);
        read_from(ends[1], 1);
        say(" then ");
        say_number(value);
        tell_line();
        cloudabi_sys_proc_exit(0);
    }
    read_from(ends[0], 1);
    say(" parent ");
    say_number(value);
    value = 3;
    write_to(ends[0], 1);
    hear();
}

#define PAGES 64

static void *map_pages(size_t count)
{
    void *place;
    expect(cloudabi_sys_mem_map(NULL, count * 4096, CLOUDABI_PROT_READ | CLOUDABI_PROT_WRITE, CLOUDABI_MAP_ANON | CLOUDABI_MAP_PRIVATE, UINT32_MAX, 0, &place));
    return place;
}

/* Puts a number of its own in each of these pages. */
static void fill_pages(uint64_t *words, size_t from, size_t step, uint64_t number)
{
    for (size_t page = from; page < PAGES; page += step)
        words[page * 512 + page] = number + page;
}

static size_t same_pages(const uint64_t *words, size_t from, size_t step, uint64_t number)
{
    size_t count = 0;
    for (size_t page = from; page < PAGES; page += step)
        count += words[page * 512 + page] == number + page;
    return count;
}

/* Of many pages, of which each writes some, so that the other doesn't see it. */
static void pages(void)
{
    begin("pages");
    make_pair();
    uint64_t *words = map_pages(PAGES);
    fill_pages(words, 0, 1, 1000);
    if (in_child(&child)) {
        fill_pages(words, 0, 2, 2000);
        write_to(ends[1], 1);
        read_from(ends[1], 1);
        say(" child ");
        say_number(same_pages(words, 0, 2, 2000));
        say(" and ");
        say_number(same_pages(words, 1, 2, 1000));
        tell_line();
        cloudabi_sys_proc_exit(0);
    }
    fill_pages(words, 1, 2, 3000);
    read_from(ends[0], 1);
    say(" parent ");
    say_number(same_pages(words, 0, 2, 1000));
    say(" and ");
    say_number(same_pages(words, 1, 2, 3000));
    write_to(ends[0], 1);
    hear();
    expect(cloudabi_sys_mem_unmap(words, PAGES * 4096));
}

/* Who takes a page away, or its rights, does so for itself. */
static void mappings(void)
{
    begin("mappings");
    make_pair();
    uint64_t *words = map_pages(2);
    words[0] = 5;
    if (in_child(&child)) {
        expect(cloudabi_sys_mem_protect(words, 4096, CLOUDABI_PROT_READ));
        expect(cloudabi_sys_mem_unmap(words + 512, 4096));
        uint64_t *page = map_pages(1);
        say(page == words + 512 ? " the same place" : " another place");
        page[0] = 6;
        write_to(ends[1], 1);
        read_from(ends[1], 1);
        say(" child ");
        say_number(words[0]);
        say(" and ");
        say_number(page[0]);
        tell_line();
        words[0] = 8;
        tell(" wrote");
        cloudabi_sys_proc_exit(0);
    }
    read_from(ends[0], 1);
    words[0] = 7;
    say(" parent ");
    say_number(words[0]);
    say(" and ");
    say_number(words[512]);
    write_to(ends[0], 1);
    hear();
    expect(cloudabi_sys_mem_unmap(words, 8192));
}

/* Each register but x0, sp, a0 to a2 and a7 has a number of its own, makes the call, and is stored. */
static void fork_with(uint64_t registers[32])
{
    __asm__ volatile("addi sp, sp, -32\n"
                     "sd gp, 0(sp)\n"
                     "sd tp, 8(sp)\n"
                     "sd s0, 16(sp)\n"
                     "mv a0, %0\n"
                     ".irp i, 1, 3, 4, 5, 6, 7, 8, 9, 13, 14, 15, 16, 18, 19, 20, 21, 22, 23, 24, 25, 26, 27, 28, 29, 30, 31\n"
                     "ld x\\i, 8 * \\i(a0)\n"
                     ".endr\n"
                     "sd a0, 24(sp)\n"
                     "li a7, 40\n"
                     "ecall\n"
                     "sd a0, -8(sp)\n"
                     "ld a0, 24(sp)\n"
                     ".irp i, 1, 2, 3, 4, 5, 6, 7, 8, 9, 11, 12, 13, 14, 15, 16, 17, 18, 19, 20, 21, 22, 23, 24, 25, 26, 27, 28, 29, 30, 31\n"
                     "sd x\\i, 8 * \\i(a0)\n"
                     ".endr\n"
                     "ld t0, -8(sp)\n"
                     "sd t0, 80(a0)\n"
                     "ld gp, 0(sp)\n"
                     "ld tp, 8(sp)\n"
                     "ld s0, 16(sp)\n"
                     "addi sp, sp, 32\n"
                     : : "r"(registers)
                     : "ra", "t0", "t1", "t2", "s1", "a0", "a1", "a2", "a3", "a4", "a5", "a6", "a7", "s2", "s3", "s4", "s5", "s6", "s7", "s8", "s9",
                       "s10", "s11", "t3", "t4", "t5", "t6", "memory");
}

static void say_registers(const uint64_t registers[32])
{
    static const uint8_t set[] = {1, 3, 4, 5, 6, 7, 8, 9, 13, 14, 15, 16, 18, 19, 20, 21, 22, 23, 24, 25, 26, 27, 28, 29, 30, 31};
    for (size_t i = 0; i < sizeof set; ++i) {
        if (registers[set[i]] != UINT64_C(0x0123456789abcd00) + set[i])
            say(" another register");
    }
    say(" a0 ");
    say_hexadecimal(registers[10]);
    say(" a1 ");
    say_hexadecimal(registers[11]);
    say(" a2 ");
    say_hexadecimal(registers[12]);
    say(" a7 ");
    say_hexadecimal(registers[17]);
}

static void registers(void)
{
    uint64_t registers[32];
    begin("registers");
    for (size_t i = 0; i < 32; ++i)
        registers[i] = UINT64_C(0x0123456789abcd00) + i;
    fork_with(registers);
    if (registers[11] == CLOUDABI_PROCESS_CHILD) {
        line_length = 0;
        say(" child");
        say_registers(registers);
        tell_line();
        cloudabi_sys_proc_exit(0);
    }
    say(" parent");
    say_registers(registers);
    hear();
}

/* The types and rights of the descriptors that are there. */
static void say_table(void)
{
    cloudabi_fdstat_t stat;
    for (cloudabi_fd_t fd = 0; fd < 1024; ++fd) {
        if (cloudabi_sys_fd_stat_get(fd, &stat) == CLOUDABI_ESUCCESS) {
            say(" ");
            say_number(fd);
            say("=");
            say_number(stat.kind);
            say("/");
            say_hexadecimal(stat.base);
        }
    }
}

/* A child has all descriptors but the one of itself, with their rights; and those that are closed or lowered later stay in the other. */
static void descriptors(void)
{
    cloudabi_fdstat_t lowered = {.base = CLOUDABI_RIGHT_FD_WRITE};
    cloudabi_filestat_t stat;
    begin("descriptors");
    make_pair();
    expect(cloudabi_sys_fd_stat_put(ends[0], &lowered, CLOUDABI_FDSTAT_RIGHTS));
    if (in_child(&child)) {
        read_from(ends[1], 1);
        say(" child");
        say_table();
        tell_line();
        cloudabi_sys_proc_exit(0);
    }
    say(" parent");
    say_table();
    expect(cloudabi_sys_file_stat_fget(child, &stat));
    say(" type ");
    say_number(stat.kind);
    say(" names ");
    say_number(stat.nlink);
    say(" size ");
    say_number(stat.size);
    say(" object ");
    say_hexadecimal(stat.ino);
    write_to(ends[0], 1);
    close_end(ends[0]);
    close_end(ends[1]);
    hear();
}

/* Objects of the parent go on behind the process and its open; those of a child begin anew, and so do its random bytes. */
static void counts(void)
{
    begin("counts");
    say_new_object();
    say_random();
    if (in_child(&child)) {
        say_new_object();
        say_random();
        tell_line();
        cloudabi_sys_proc_exit(0);
    }
    say_new_object();
    say_random();
    hear();
    begin("second child");
    if (in_child(&child)) {
        say_new_object();
        tell_line();
        cloudabi_sys_proc_exit(0);
    }
    hear();
}

static void say_thread(void)
{
    cloudabi_threadattr_t attributes = {(void *)begin_thread, threads[0].stack, sizeof threads[0].stack, &threads[0]};
    cloudabi_tid_t tid;
    threads[0].word = 1;
    threads[0].body = make_own_call;
    threads[0].call = (struct call){.act = WRITE, .fd = output};
    set_range(&threads[0].call);
    expect(cloudabi_sys_thread_create(&attributes, &tid));
    say(" thread ");
    say_number(tid);
    while (!has_ended(&threads[0]))
        cloudabi_sys_thread_yield();
}

/* The thread that forks alone is in the child, which ends with it. */
static void fork_in_thread(struct thread *self)
{
    (void)self;
    cloudabi_tid_t thread;
    cloudabi_fd_t process;
    expect(cloudabi_sys_proc_fork(&process, &thread));
    if (process == CLOUDABI_PROCESS_CHILD) {
        cloudabi_sys_fd_close(told[0]);
        line_length = 0;
        say(" child's thread ");
        say_number(thread);
        say_thread();
        tell_line();
    }
}

static void numbers_of_threads(void)
{
    begin("threads");
    make_pair();
    start_call(&threads[1], (struct call){.act = READ, .fd = ends[0], .room = 1});
    start_body(&threads[2], fork_in_thread);
    while (!has_ended(&threads[2]))
        cloudabi_sys_thread_yield();
    say_thread();
    write_to(ends[1], 1);
    while (!has_ended(&threads[1]))
        cloudabi_sys_thread_yield();
    close_end(ends[0]);
    close_end(ends[1]);
    hear();
}

static void has(void)
{
    memory();
    pages();
    mappings();
    registers();
    descriptors();
    counts();
    numbers_of_threads();
}

/* ---- how many */

/* A full table is told before anything else that keeps a process from having a child. */
static void say_full(void)
{
    cloudabi_tid_t thread;
    cloudabi_fd_t fd;
    while (cloudabi_sys_fd_dup(output, &fd) == CLOUDABI_ESUCCESS)
        continue;
    say(", with a full table ");
    say_error(cloudabi_sys_proc_fork(&fd, &thread));
    close_end(told[1] + 1);
    say(", with one number free ");
    say_error(cloudabi_sys_proc_fork(&fd, &thread));
}

/* Each makes the next one, and says its number. */
static void depth(void)
{
    begin("depth");
    say_new_object();
    for (int made = 0; made < 6; ++made) {
        cloudabi_tid_t thread;
        cloudabi_errno_t error = cloudabi_sys_proc_fork(&child, &thread);
        if (error != CLOUDABI_ESUCCESS) {
            say(" ");
            say_error(error);
            say_full();
            tell("!");
            wait_for_ever();
        }
        if (child != CLOUDABI_PROCESS_CHILD)
            break;
        cloudabi_sys_fd_close(told[0]);
        line_length = 0;
        say_new_object();
        tell_line();
    }
    /* Who isn't the first waits until it is ended. */
    if (line_length == 0)
        wait_for_ever();
    hear_until('!');
    close_end(child);
    hear();
}

/* All of them wait, and end with this process. */
static void forks(void)
{
    cloudabi_tid_t thread;
    cloudabi_errno_t error;
    uint64_t made = 0;
    begin("forks");
    do {
        error = cloudabi_sys_proc_fork(&child, &thread);
        if (error == CLOUDABI_ESUCCESS && child == CLOUDABI_PROCESS_CHILD)
            read_from(told[0], 1);
        made += error == CLOUDABI_ESUCCESS;
    } while (error == CLOUDABI_ESUCCESS);
    say(" ");
    say_number(made);
    say(" ");
    say_error(error);
    end_line();
}

/* ---- how they end */

static void ends_by_close(void)
{
    begin("closed");
    if (in_child(&child))
        wait_for_ever();
    close_end(child);
    hear();
    begin("closed while it runs");
    if (in_child(&child)) {
        tell(" runs.");
        spin();
    }
    hear_until('.');
    close_end(child);
    hear();
    begin("replaced");
    if (in_child(&child))
        wait_for_ever();
    expect(cloudabi_sys_fd_replace(output, child));
    hear();
}

static void spin_in_thread(struct thread *self)
{
    (void)self;
    spin();
}

/* All of its threads end, what they do: they wait, run, and wait for room. */
static void ends_with_threads(void)
{
    begin("closed with threads");
    if (in_child(&child)) {
        make_pair();
        start_call(&threads[0], (struct call){.act = READ, .fd = ends[0], .room = 1});
        start_body(&threads[1], spin_in_thread);
        write_to(ends[0], 65536);
        start_call(&threads[2], (struct call){.act = WRITE, .fd = ends[0], .room = 1});
        tell(" runs.");
        spin();
    }
    hear_until('.');
    close_end(child);
    hear();
    begin("exits with threads");
    if (in_child(&child)) {
        make_pair();
        start_call(&threads[0], (struct call){.act = READ, .fd = ends[0], .room = 1});
        start_body(&threads[1], spin_in_thread);
        tell(" runs.");
        cloudabi_sys_proc_exit(3);
    }
    hear();
}

/* It makes children until it can't, or is ended. */
static void ends_while_it_forks(void)
{
    begin("closed while it makes others");
    if (in_child(&child)) {
        cloudabi_tid_t thread;
        tell(" runs.");
        while (cloudabi_sys_proc_fork(&other, &thread) == CLOUDABI_ESUCCESS) {
            if (other == CLOUDABI_PROCESS_CHILD)
                wait_for_ever();
        }
        wait_for_ever();
    }
    hear_until('.');
    close_end(child);
    hear();
}

static void one_of_two_closed(void)
{
    begin("one of two descriptors closed");
    make_pair();
    if (in_child(&child)) {
        read_from(ends[1], 1);
        tell(" lives.");
        wait_for_ever();
    }
    expect(cloudabi_sys_fd_dup(child, &other));
    close_end(child);
    write_to(ends[0], 1);
    hear_until('.');
    close_end(other);
    hear();
}

/* A child of a child waits; then the child ends so. */
static void with_its_maker(const char *what, void (*end)(void))
{
    begin(what);
    if (in_child(&child)) {
        if (in_child(&other))
            wait_for_ever();
        end();
    }
    hear();
}

static void end_by_exit(void)
{
    cloudabi_sys_proc_exit(5);
}

static void end_by_signal(void)
{
    cloudabi_sys_proc_raise(CLOUDABI_SIGUSR1);
}

static void end_by_trap(void)
{
    __asm__ volatile("ebreak");
}

static void end_last_thread(void)
{
    threads[0].word = WRITE_LOCKED | 1;
    cloudabi_sys_thread_exit(&threads[0].word, CLOUDABI_SCOPE_PRIVATE);
}

static void makers(void)
{
    with_its_maker("its maker exits", end_by_exit);
    with_its_maker("its maker raises a signal", end_by_signal);
    with_its_maker("its maker traps", end_by_trap);
    with_its_maker("the last thread of its maker exits", end_last_thread);
    begin("its maker is closed");
    if (in_child(&child)) {
        if (in_child(&other)) {
            tell(".");
            wait_for_ever();
        }
        wait_for_ever();
    }
    hear_until('.');
    close_end(child);
    hear();
    begin("four in a row, of which the first is closed");
    for (int made = 0; made < 4; ++made) {
        if (!in_child(&child)) {
            if (made > 0)
                wait_for_ever();
            break;
        }
        if (made == 3) {
            tell(".");
            wait_for_ever();
        }
    }
    hear_until('.');
    close_end(child);
    hear();
}

/* A process that waits in a channel lives as long as it does. */
static void on_their_way(void)
{
    begin("on its way to an end that is closed");
    make_pair();
    if (in_child(&child)) {
        close_end(ends[1]);
        close_end(ends[0]);
        tell(" waits.");
        wait_for_ever();
    }
    send_to(ends[0], 1, child, 1);
    close_end(child);
    hear_until('.');
    close_end(ends[1]);
    hear();
    begin("on its way and read over");
    make_pair();
    if (in_child(&child))
        wait_for_ever();
    send_to(ends[0], 1, child, 1);
    close_end(child);
    read_from(ends[1], 1);
    hear();
    begin("on its way to an end that is shut");
    make_pair();
    if (in_child(&child))
        wait_for_ever();
    send_to(ends[0], 1, child, 1);
    close_end(child);
    shut(ends[1], RD);
    hear();
    begin("on its way and received");
    make_pair();
    if (in_child(&child)) {
        read_from(ends[1], 1);
        tell(" lives.");
        wait_for_ever();
    }
    send_to(ends[1], 1, child, 1);
    close_end(child);
    child = receive_from(ends[0]);
    write_to(ends[0], 1);
    hear_until('.');
    close_end(child);
    hear();
}

/* A child that alone has its own descriptor goes on until it closes it, and also while the descriptor is on its way to it. */
static void its_own(void)
{
    begin("its own descriptor");
    make_pair();
    if (in_child(&child)) {
        child = receive_from(ends[1]);
        read_from(ends[1], 1);
        tell(" has it");
        close_end(child);
        tell(" and goes on without");
        cloudabi_sys_proc_exit(0);
    }
    send_to(ends[0], 1, child, 1);
    close_end(child);
    write_to(ends[0], 1);
    hear();
    begin("its own descriptor on its way to itself");
    make_pair();
    if (in_child(&child)) {
        child = receive_from(ends[1]);
        read_from(ends[1], 1);
        send_to(ends[0], 1, child, 1);
        close_end(child);
        tell(" lives");
        cloudabi_sys_proc_exit(0);
    }
    send_to(ends[0], 1, child, 1);
    close_end(child);
    write_to(ends[0], 1);
    hear();
}

static void end_tasks(void)
{
    ends_by_close();
    ends_with_threads();
    ends_while_it_forks();
    one_of_two_closed();
    makers();
    on_their_way();
    its_own();
}

/* ---- signals */

static void signals(void)
{
    for (uint32_t signal = 0; signal <= 27; ++signal) {
        begin("signal ");
        line_length -= 1;
        say_number(signal);
        say(":");
        if (in_child(&child)) {
            cloudabi_errno_t error = cloudabi_sys_proc_raise(signal);
            say(" ");
            say_answer(error);
            tell_line();
            cloudabi_sys_proc_exit(0);
        }
        hear();
    }
}

/* The end of the first process is that of all: one waits, and one runs. */
static void leave(void)
{
    begin("leaves");
    if (in_child(&child)) {
        if (in_child(&other))
            spin();
        wait_for_ever();
    }
    end_line();
    cloudabi_sys_proc_exit(7);
}

/* ---- open files */

/* The offset is the open's, and so both have it; what one opens is its own. */
static void files(void)
{
    char bytes[2];
    cloudabi_iovec_t range = {bytes, sizeof bytes};
    size_t count;
    given = 2;
    begin("offset");
    make_pair();
    expect(cloudabi_sys_fd_read(1, &range, 1, &count));
    if (in_child(&child)) {
        expect(cloudabi_sys_fd_read(1, &range, 1, &count));
        say(" child ");
        say((char[]){bytes[0], bytes[1], 0});
        tell_line();
        write_to(ends[1], 1);
        cloudabi_sys_proc_exit(0);
    }
    read_from(ends[0], 1);
    expect(cloudabi_sys_fd_read(1, &range, 1, &count));
    say(" parent ");
    say((char[]){bytes[0], bytes[1], 0});
    hear();
}

/* ---- rights that were sent */

/* The child gets the lowered rights under a new number, and has those of before under the inherited one. */
static void lowered(void)
{
    cloudabi_fdstat_t stat = {.base = CLOUDABI_RIGHT_FD_READ | CLOUDABI_RIGHT_FD_WRITE};
    given = 2;
    begin("lowered and sent");
    make_pair();
    expect(cloudabi_sys_fd_stat_put(1, &stat, CLOUDABI_FDSTAT_RIGHTS));
    if (in_child(&child)) {
        cloudabi_fd_t received = receive_from(ends[1]);
        expect(cloudabi_sys_fd_stat_get(received, &stat));
        say(" received ");
        say_hexadecimal(stat.base);
        expect(cloudabi_sys_fd_stat_get(1, &stat));
        say(" inherited ");
        say_hexadecimal(stat.base);
        tell_line();
        cloudabi_sys_proc_exit(0);
    }
    stat = (cloudabi_fdstat_t){.base = CLOUDABI_RIGHT_FD_READ};
    expect(cloudabi_sys_fd_stat_put(1, &stat, CLOUDABI_FDSTAT_RIGHTS));
    send_to(ends[0], 1, 1, 1);
    close_end(ends[0]);
    close_end(ends[1]);
    hear();
}

/* ---- names that another has more rights to */

/* Who may link a file that it may not open puts it where its child may open it: that gives the child what that directory gives. */
static void linked(void)
{
    cloudabi_fdstat_t stat = {.base = CLOUDABI_RIGHT_FD_READ | CLOUDABI_RIGHT_FD_WRITE};
    cloudabi_fd_t file;
    given = 4;
    begin("linked");
    make_pair();
    if (in_child(&child)) {
        close_end(1);
        close_end(2);
        read_from(ends[1], 1);
        expect(cloudabi_sys_file_open((cloudabi_lookup_t){.fd = 3}, "l", 1, 0, &stat, &file));
        expect(cloudabi_sys_fd_stat_get(file, &stat));
        say(" opened with ");
        say_hexadecimal(stat.base);
        write_to(file, 2);
        tell_line();
        cloudabi_sys_proc_exit(0);
    }
    close_end(3);
    expect(cloudabi_sys_file_link((cloudabi_lookup_t){.fd = 1}, "f", 1, 2, "l", 1));
    write_to(ends[0], 1);
    hear();
}

static const struct {
    const char *name;
    void (*run)(void);
} tasks[] = {
    {"has", has}, {"depth", depth}, {"forks", forks}, {"ends", end_tasks}, {"signals", signals}, {"leave", leave}, {"files", files},
    {"lowered", lowered}, {"linked", linked},
};

void program_main(const argdata_t *arguments)
{
    const char *name = begin_program(arguments);
    for (size_t i = 0; i < sizeof tasks / sizeof tasks[0]; ++i)
        if (same_text(name, tasks[i].name))
            tasks[i].run();
}

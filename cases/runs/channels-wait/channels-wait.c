/*
 * Lets a thread wait in a call on an end of a channel, then does something, and writes what came of the call: its error, or its bytes, `+` and
 * how many descriptors came. Where the thread waits still, it writes `waits`, and what came after a further deed. The argument data is a
 * sequence of a descriptor to write to and of what is to be done (`tasks` below).
 */
#include "../../guests/ends.h"

static struct thread threads[16];
static cloudabi_fd_t ends[2], others[2], third[2];

static void make(uint32_t type, cloudabi_fd_t pair[2])
{
    expect(cloudabi_sys_fd_create2(type, &pair[0], &pair[1]));
}

static void close_all(void)
{
    for (cloudabi_fd_t fd = 1; fd < 40; ++fd)
        if (fd != output)
            cloudabi_sys_fd_close(fd);
}

/* Begins a line with what is tried, and channels of these types with no thread and no descriptor of before. */
static void begin(const char *what, uint32_t type, uint32_t other_type)
{
    close_all();
    make(type, ends);
    make(other_type, others);
    say(what);
    say(":");
}

static void pause(void)
{
    sleep_for(MILLISECOND);
}

/* The call waits in a thread. */
static void let_wait(struct thread *thread, struct call call)
{
    start_call(thread, call);
    pause();
    if (has_ended(thread)) {
        say(" at once");
        say_result(&thread->call);
    }
}

static void say_outcome(struct thread *thread)
{
    pause();
    say(" ");
    if (has_ended(thread))
        say_result(&thread->call);
    else
        say("waits");
}

static void end(void)
{
    say_outcome(&threads[0]);
    end_line();
}

static cloudabi_fd_t duplicate(cloudabi_fd_t fd)
{
    cloudabi_fd_t copy;
    expect(cloudabi_sys_fd_dup(fd, &copy));
    return copy;
}

static void lower_rights(cloudabi_fd_t fd, cloudabi_rights_t rights)
{
    cloudabi_fdstat_t stat = {.base = rights};
    expect(cloudabi_sys_fd_stat_put(fd, &stat, CLOUDABI_FDSTAT_RIGHTS));
}

static cloudabi_rights_t rights_of(cloudabi_fd_t fd)
{
    cloudabi_fdstat_t stat;
    expect(cloudabi_sys_fd_stat_get(fd, &stat));
    return stat.base;
}

/* ---- reads */

static struct call reading(void)
{
    return (struct call){.act = READ, .fd = ends[0], .room = 10};
}

static void begin_read(const char *what, uint32_t type)
{
    begin(what, type, STREAM);
    let_wait(&threads[0], reading());
}

static void reads(void)
{
    begin_read("no right any more", FIFO);
    lower_rights(ends[0], 0);
    end();
    begin_read("written to", FIFO);
    write_to(ends[1], 3);
    end();
    begin_read("the other end of a pair written to", STREAM);
    write_to(ends[1], 3);
    end();
    begin_read("sent to", STREAM);
    send_to(ends[1], 4, 0, 0);
    end();
    begin_read("sent a descriptor", STREAM);
    send_to(ends[1], 5, output, 1);
    end();
    begin_read("written no bytes", FIFO);
    write_to(ends[1], 0);
    say_outcome(&threads[0]);
    write_to(ends[1], 1);
    end();
    begin_read("another channel written to", STREAM);
    write_to(others[1], 1);
    write_to(ends[0], 1);
    say_outcome(&threads[0]);
    write_to(ends[1], 1);
    end();
    begin_read("more than it has room for", FIFO);
    write_to(ends[1], 100);
    end();
}

static void ends_of_reads(void)
{
    begin_read("writing end closed", FIFO);
    close_end(ends[1]);
    end();
    begin_read("other end of a pair closed", STREAM);
    close_end(ends[1]);
    end();
    begin_read("writing end replaced", FIFO);
    expect(cloudabi_sys_fd_replace(output, ends[1]));
    end();
    begin_read("one of two writing ends closed", FIFO);
    cloudabi_fd_t copy = duplicate(ends[1]);
    close_end(ends[1]);
    say_outcome(&threads[0]);
    close_end(copy);
    end();
    begin_read("writer shut", STREAM);
    shut(ends[1], WR);
    end();
    begin_read("own end shut", STREAM);
    shut(ends[0], RD);
    end();
    begin_read("the other way shut", STREAM);
    shut(ends[0], WR);
    shut(ends[1], RD);
    say_outcome(&threads[0]);
    write_to(ends[1], 2);
    end();
}

static void ends_on_their_way(void)
{
    begin_read("writing end on its way to an end that is closed", FIFO);
    send_to(others[0], 1, ends[1], 1);
    close_end(ends[1]);
    say_outcome(&threads[0]);
    close_end(others[1]);
    end();
    begin_read("writing end on its way to an end that is shut", FIFO);
    send_to(others[0], 1, ends[1], 1);
    close_end(ends[1]);
    shut(others[1], RD);
    end();
    begin_read("writing end on its way and read over", FIFO);
    send_to(others[0], 1, ends[1], 1);
    close_end(ends[1]);
    read_from(others[1], 1);
    end();
    begin_read("writing end on its way on an end on its way", FIFO);
    make(STREAM, third);
    send_to(others[0], 1, ends[1], 1);
    send_to(third[0], 1, others[1], 1);
    close_end(ends[1]);
    close_end(others[1]);
    say_outcome(&threads[0]);
    close_end(third[1]);
    end();
    begin_read("writing end received", FIFO);
    send_to(others[0], 1, ends[1], 1);
    close_end(ends[1]);
    struct call receive = {.act = RECEIVE, .fd = others[1], .room = 1, .fds_room = 1};
    set_range(&receive);
    make_call(&receive);
    write_to(receive.fds[0], 6);
    end();
}

/* What the kernel looks up anew at the wake: the number, its rights, the flags and the memory. */
static void reads_looked_up_anew(void)
{
    begin_read("NONBLOCK set", FIFO);
    set_flags(ends[0], NONBLOCK);
    end();
    begin_read("NONBLOCK set by a duplicate", STREAM);
    set_flags(duplicate(ends[0]), NONBLOCK);
    end();
    begin_read("number closed, end open", FIFO);
    duplicate(ends[0]);
    close_end(ends[0]);
    end();
    begin_read("last number closed", FIFO);
    close_end(ends[0]);
    end();
    begin_read("number stands for another end", FIFO);
    write_to(others[1], 7);
    expect(cloudabi_sys_fd_replace(others[0], ends[0]));
    end();
    begin_read("number stands for another end without bytes", FIFO);
    expect(cloudabi_sys_fd_replace(others[0], ends[0]));
    say_outcome(&threads[0]);
    write_to(others[1], 8);
    end();
    begin_read("ranges moved", FIFO);
    threads[0].call.range.address = threads[0].call.bytes + 20;
    write_to(ends[1], 3);
    say_outcome(&threads[0]);
    say(threads[0].call.bytes[0] == 0 && threads[0].call.bytes[20] == 'a' && threads[0].call.bytes[22] == 'c' ? " there" : " elsewhere");
    end_line();
    begin_read("ranges with less room", FIFO);
    threads[0].call.range.length = 9;
    write_to(ends[1], 3);
    say_outcome(&threads[0]);
    say(" ");
    say_number(read_from(ends[0], 10));
    end_line();
    begin_read("ranges with more room", FIFO);
    threads[0].call.range.length = 20;
    write_to(ends[1], 15);
    end();
    begin_read("ranges that aren't there", FIFO);
    threads[0].call.range.address = NULL;
    write_to(ends[1], 3);
    say_outcome(&threads[0]);
    say(" ");
    say_number(read_from(ends[0], 10));
    end_line();
}

/* ---- writes */

static void begin_write(const char *what, uint32_t type)
{
    begin(what, type, STREAM);
    write_to(ends[1], 65536);
    let_wait(&threads[0], (struct call){.act = WRITE, .fd = ends[1], .room = 10});
}

static void writes(void)
{
    begin_write("a part read", FIFO);
    read_from(ends[0], 4);
    end();
    begin_write("more read than it writes", STREAM);
    read_from(ends[0], 64);
    end();
    begin_write("nothing read", STREAM);
    read_from(ends[0], 0);
    struct call peek = {.act = RECEIVE, .fd = ends[0], .room = 10, .flags = PEEK};
    set_range(&peek);
    make_call(&peek);
    write_to(ends[0], 5);
    say_outcome(&threads[0]);
    read_from(ends[0], 1);
    end();
    begin_write("reading end closed", FIFO);
    close_end(ends[0]);
    end();
    begin_write("other end of a pair closed", STREAM);
    close_end(ends[0]);
    end();
    begin_write("reader shut", STREAM);
    shut(ends[0], RD);
    end();
    begin_write("own end shut", STREAM);
    shut(ends[1], WR);
    end();
    begin_write("reading end on its way to an end that is closed", FIFO);
    send_to(others[0], 1, ends[0], 1);
    close_end(ends[0]);
    say_outcome(&threads[0]);
    close_end(others[1]);
    end();
    begin_write("NONBLOCK set", FIFO);
    set_flags(ends[1], NONBLOCK);
    end();
    begin_write("number closed, end open", FIFO);
    duplicate(ends[1]);
    close_end(ends[1]);
    end();
}

/* ---- sends with descriptors */

static void let_carry(const char *what, bool is_full)
{
    begin(what, STREAM, FIFO);
    if (is_full)
        write_to(ends[1], 65536);
    for (int i = 0; i < 4 && !is_full; ++i)
        send_to(ends[1], 2, output, 16);
    let_wait(&threads[0], (struct call){.act = SEND, .fd = ends[1], .room = 10, .fds_room = 1, .fds = {others[1]}});
}

/* Reads over what waits before the last send, and receives that. */
static struct call receive_last(size_t before)
{
    struct call receive = {.act = RECEIVE, .fd = ends[0], .room = 20, .fds_room = 1};
    while (before > 0)
        before -= read_from(ends[0], before < 64 ? before : 64);
    set_range(&receive);
    make_call(&receive);
    return receive;
}

static void sends(void)
{
    struct call received;
    let_carry("descriptors read over", false);
    read_from(ends[0], 1);
    say_outcome(&threads[0]);
    received = receive_last(7);
    say(" received ");
    say_result(&received);
    end_line();
    let_carry("no room for bytes", true);
    read_from(ends[0], 4);
    say_outcome(&threads[0]);
    received = receive_last(65532);
    say(" received ");
    say_result(&received);
    end_line();
    let_carry("rights lowered before it is sent", false);
    lower_rights(others[1], CLOUDABI_RIGHT_FD_WRITE);
    read_from(ends[0], 1);
    say_outcome(&threads[0]);
    lower_rights(others[1], 0);
    received = receive_last(7);
    say(rights_of(received.fds[0]) == CLOUDABI_RIGHT_FD_WRITE ? " with FD_WRITE" : " with other rights");
    end_line();
    let_carry("descriptor closed", false);
    close_end(others[1]);
    end();
    let_carry("reader closed", false);
    close_end(ends[0]);
    end();
}

/* ---- receives */

static void begin_receive(const char *what, uint16_t flags)
{
    begin(what, STREAM, FIFO);
    if (flags & WAITALL)
        write_to(ends[1], 3);
    let_wait(&threads[0], (struct call){.act = RECEIVE, .fd = ends[0], .room = 10, .fds_room = 2, .flags = flags});
}

static void receives(void)
{
    begin_receive("sent bytes", 0);
    send_to(ends[1], 3, 0, 0);
    end();
    begin_receive("sent descriptors", 0);
    send_to(ends[1], 3, output, 2);
    end();
    begin_receive("sent too many descriptors", 0);
    send_to(ends[1], 3, output, 3);
    end();
    begin_receive("PEEK", PEEK);
    send_to(ends[1], 3, output, 1);
    say_outcome(&threads[0]);
    say(" ");
    say_number(read_from(ends[0], 10));
    end_line();
    begin_receive("WAITALL and too few bytes", WAITALL);
    write_to(ends[1], 6);
    say_outcome(&threads[0]);
    write_to(ends[1], 1);
    end();
    begin_receive("WAITALL and more bytes", WAITALL);
    write_to(ends[1], 20);
    end();
    begin_receive("WAITALL and a send with descriptors", WAITALL);
    send_to(ends[1], 1, output, 1);
    end();
    begin_receive("WAITALL and the writer shut", WAITALL);
    shut(ends[1], WR);
    end();
    begin_receive("WAITALL and the other end closed", WAITALL);
    close_end(ends[1]);
    end();
    begin_receive("WAITALL and the own end shut", WAITALL);
    shut(ends[0], RD);
    end();
    begin_receive("WAITALL and another reader", WAITALL);
    read_from(ends[0], 2);
    write_to(ends[1], 8);
    say_outcome(&threads[0]);
    write_to(ends[1], 1);
    end();
    begin_receive("WAITALL with PEEK", WAITALL | PEEK);
    write_to(ends[1], 7);
    say_outcome(&threads[0]);
    say(" ");
    say_number(read_from(ends[0], 10));
    end_line();
}

/* ---- several threads */

static size_t how_many_ended(size_t count)
{
    size_t ended = 0;
    pause();
    for (size_t i = 0; i < count; ++i)
        ended += has_ended(&threads[i]);
    return ended;
}

static void say_ended(size_t count)
{
    say(" ");
    say_number(how_many_ended(count));
}

static void crowds(void)
{
    struct call one = {.act = READ, .room = 1};
    begin("five readers of a byte each", FIFO, STREAM);
    one.fd = ends[0];
    for (size_t i = 0; i < 5; ++i)
        start_call(&threads[i], one);
    say_ended(5);
    write_to(ends[1], 1);
    say_ended(5);
    write_to(ends[1], 3);
    say_ended(5);
    close_end(ends[1]);
    say_ended(5);
    end_line();
    begin("five writers of two bytes each", FIFO, STREAM);
    write_to(ends[1], 65536);
    for (size_t i = 0; i < 5; ++i)
        start_call(&threads[i], (struct call){.act = WRITE, .fd = ends[1], .room = 2});
    say_ended(5);
    read_from(ends[0], 2);
    say_ended(5);
    read_from(ends[0], 4);
    say_ended(5);
    close_end(ends[0]);
    say_ended(5);
    end_line();
}

/* Each thread takes a byte from a pipe and puts it into the next one, a thousand times; the last of them is before the first. */
#define RING 8
static cloudabi_fd_t ring[RING][2];

static void pass_on(struct thread *self)
{
    size_t place = (size_t)(self - threads);
    for (int i = 0; i < 1000; ++i) {
        read_from(ring[place][0], 1);
        write_to(ring[(place + 1) % RING][1], 1);
    }
}

static void wait_for_all(size_t count)
{
    for (size_t i = 0; how_many_ended(count) < count; ++i)
        if (i == 10000) {
            say(" not all ended");
            end_line();
            cloudabi_sys_proc_exit(2);
        }
}

static void rings(void)
{
    close_all();
    say("ring:");
    for (size_t i = 0; i < RING; ++i)
        make(FIFO, ring[i]);
    for (size_t i = 0; i < RING; ++i)
        start_body(&threads[i], pass_on);
    write_to(ring[0][1], 1);
    wait_for_all(RING);
    say(" ");
    say_number(read_from(ring[0][0], 10));
    end_line();
}

/* Each thread receives a descriptor, sends it to the next one and closes its own, a hundred times. It is the only one of a pipe's writing end. */
static struct call receive_one(cloudabi_fd_t fd)
{
    struct call receive = {.act = RECEIVE, .fd = fd, .room = 1, .fds_room = 1};
    set_range(&receive);
    make_call(&receive);
    expect(receive.error);
    if (receive.fds_count != 1)
        cloudabi_sys_proc_exit(1);
    return receive;
}

static void hand_on(struct thread *self)
{
    size_t place = (size_t)(self - threads);
    for (int i = 0; i < 100; ++i) {
        cloudabi_fd_t fd = receive_one(ring[place][0]).fds[0];
        send_to(ring[(place + 1) % RING][1], 1, fd, 1);
        close_end(fd);
    }
}

static void rings_of_descriptors(void)
{
    struct call read = {.act = READ, .room = 10};
    close_all();
    say("ring of descriptors:");
    make(FIFO, ends);
    set_flags(ends[0], NONBLOCK);
    for (size_t i = 0; i < RING; ++i)
        make(STREAM, ring[i]);
    for (size_t i = 0; i < RING; ++i)
        start_body(&threads[i], hand_on);
    send_to(ring[0][1], 1, ends[1], 1);
    close_end(ends[1]);
    wait_for_all(RING);
    read.fd = ends[0];
    set_range(&read);
    make_call(&read);
    say(" ");
    say_result(&read);
    cloudabi_fd_t fd = receive_one(ring[0][0]).fds[0];
    write_to(fd, 5);
    close_end(fd);
    say(" ");
    say_number(read_from(ends[0], 10));
    say(" ");
    say_number(read_from(ends[0], 10));
    end_line();
}

/* Eight threads write into one pipe, and eight read from it until it ends. */
static size_t totals[16];

static void write_much(struct thread *self)
{
    for (size_t left = 50000; left > 0;)
        left -= write_to(ends[1], left < 700 ? left : 700);
    (void)self;
}

static void read_much(struct thread *self)
{
    for (size_t count; (count = read_from(ends[0], 61)) > 0;)
        totals[self - threads] += count;
}

static void throngs(void)
{
    size_t total = 0;
    begin("eight writers and eight readers", FIFO, STREAM);
    for (size_t i = 0; i < 8; ++i)
        start_body(&threads[8 + i], read_much);
    for (size_t i = 0; i < 8; ++i)
        start_body(&threads[i], write_much);
    wait_for_all(8);
    close_end(ends[1]);
    wait_for_all(16);
    for (size_t i = 8; i < 16; ++i)
        total += totals[i];
    say(" ");
    say_number(total);
    end_line();
}

static void many(void)
{
    crowds();
    rings();
    rings_of_descriptors();
    throngs();
}

/* ---- ends of the run */

/* The other end is on its way in the channel that it reads itself, so nobody can send any more, and nobody can tell. */
static void stall(void)
{
    begin("stalls", STREAM, FIFO);
    send_to(ends[0], 1, ends[1], 1);
    close_end(ends[1]);
    end_line();
    read_from(ends[0], 1);
}

/* The process ends while threads wait. */
static void leave(void)
{
    begin("leaves", FIFO, FIFO);
    let_wait(&threads[0], reading());
    let_wait(&threads[1], (struct call){.act = READ, .fd = others[0], .room = 1});
    end();
}

static const struct {
    const char *name;
    void (*body)(void);
} tasks[] = {
    {"reads", reads},
    {"ends of reads", ends_of_reads},
    {"ends on their way", ends_on_their_way},
    {"reads looked up anew", reads_looked_up_anew},
    {"writes", writes},
    {"sends", sends},
    {"receives", receives},
    {"many", many},
    {"stall", stall},
    {"leave", leave},
};

void program_main(const argdata_t *arguments)
{
    const char *name = begin_program(arguments);
    for (size_t i = 0; i < sizeof tasks / sizeof tasks[0]; ++i) {
        if (same_text(name, tasks[i].name)) {
            tasks[i].body();
            cloudabi_sys_proc_exit(0);
        }
    }
    cloudabi_sys_proc_exit(255);
}

/*
 * Shows to descriptor 0 what it was started with: the argument data, its numbers, the canary, its descriptors, and what it gets of that which
 * is counted. At last its thread ends, and with that the process, if it has no other thread.
 */
#include "processes.h"

static struct thread thread;

static void say_arguments(const argdata_t *arguments)
{
    say("arguments: ");
    say_number(arguments->length);
    say(" ");
    say_bytes(arguments->bytes, arguments->length < 24 ? arguments->length : 24);
    end_line();
}

static void say_vector(const cloudabi_auxv_t *vector)
{
    say("vector:");
    for (; vector->number != CLOUDABI_AT_NULL; ++vector) {
        say(" ");
        say_number(vector->number);
        say("=");
        say_hexadecimal(vector->value);
    }
    end_line();
}

static void say_canary(const unsigned char *block)
{
    say("canary: ");
    say_bytes(block + 0xc0, 64);
    end_line();
}

/* Where the same kinds and rights stand behind each other, the first and the last one are shown. */
static void say_descriptors(void)
{
    cloudabi_fdstat_t stat, before = {0};
    cloudabi_fd_t last = 0;
    say("descriptors:");
    for (cloudabi_fd_t fd = 0; fd < 1024; ++fd) {
        if (cloudabi_sys_fd_stat_get(fd, &stat) != CLOUDABI_ESUCCESS)
            continue;
        if (fd > 0 && last == fd - 1 && stat.kind == before.kind && stat.base == before.base && stat.inheriting == before.inheriting) {
            last = fd;
            continue;
        }
        if (fd > 0 && last != 0) {
            say(" to ");
            say_number(last);
        }
        say(" ");
        say_number(fd);
        say("=");
        say_number(stat.kind);
        say("/");
        say_hexadecimal(stat.base);
        say("/");
        say_hexadecimal(stat.inheriting);
        before = stat;
        last = fd;
    }
    say(" to ");
    say_number(last);
    end_line();
}

/* The lowest place of a mapping, which has zeros. */
static void say_mapping(void)
{
    void *place;
    expect(cloudabi_sys_mem_map(NULL, 4096, CLOUDABI_PROT_READ, CLOUDABI_MAP_ANON | CLOUDABI_MAP_PRIVATE, UINT32_MAX, 0, &place));
    say("mapping: ");
    say_hexadecimal(CLOUDABI_ADDRESS(place));
    say(" ");
    say_number(*(const uint64_t *)place);
    end_line();
}

static void say_counted(void)
{
    cloudabi_threadattr_t attributes = {(void *)begin_thread, thread.stack, sizeof thread.stack, &thread};
    cloudabi_tid_t tid;
    say("counted:");
    say_new_object();
    say_random();
    thread.word = 1;
    thread.body = make_own_call;
    thread.call = (struct call){.act = WRITE, .fd = 0};
    set_range(&thread.call);
    expect(cloudabi_sys_thread_create(&attributes, &tid));
    say(" thread ");
    say_number(tid);
    while (!has_ended(&thread))
        cloudabi_sys_thread_yield();
    end_line();
}

/* To see an object's number a pair of ends is made, for which a full table has no numbers. */
static void make_room(void)
{
    cloudabi_fdstat_t stat;
    if (cloudabi_sys_fd_stat_get(1023, &stat) != CLOUDABI_ESUCCESS)
        return;
    expect(cloudabi_sys_fd_close(1022));
    expect(cloudabi_sys_fd_close(1023));
}

static void end_thread(cloudabi_tid_t self)
{
    thread.word = WRITE_LOCKED | self;
    cloudabi_sys_thread_exit(&thread.word, CLOUDABI_SCOPE_PRIVATE);
}

void program_main(const argdata_t *arguments)
{
    const unsigned char *block = arguments->bytes - 0x100;
    const cloudabi_auxv_t *vector = (const cloudabi_auxv_t *)block;
    say_arguments(arguments);
    say_vector(vector);
    say_canary(block);
    say_descriptors();
    say_mapping();
    make_room();
    say_counted();
    end_thread((cloudabi_tid_t)vector[10].value);
}

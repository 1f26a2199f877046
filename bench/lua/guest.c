/*
 * The tasks of tasks.lua as a guest of bench/machine, which makes no call but the one that ends it: the script stands in the guest, its
 * memory is an array, and what it prints is kept. The guest exits with what POSIX's `cksum` gives for that, or 0 where Lua failed.
 * The interpreter is the library in Lua's sources, as they are.
 */
#include "lauxlib.h"
#include "lualib.h"

#include <errno.h>
#include <stdint.h>
#include <stdio.h>
#include <sys/time.h>
#include <sys/times.h>
#include <sys/types.h>

#define HEAP_SIZE (4 << 20)

__asm__(".section .text.start, \"ax\", @progbits\n"
        ".globl _start\n"
        "_start:\n"
        "        la      tp, __tls_base\n"
        "        call    run_tasks\n"
        "        li      a7, 39\n" /* proc_exit */
        "        ecall\n"
        ".section .rodata\n"
        ".balign 8\n"
        "script: .incbin \"tasks.lua\"\n"
        "script_end:\n"
        ".text\n");

extern const char script[], script_end[];

/* What is printed. */

static unsigned char printed[4096];
static size_t printed_length;

static int put_byte(char byte, FILE *file)
{
    (void)file;
    if (printed_length == sizeof printed)
        return _FDEV_ERR;
    printed[printed_length++] = byte;
    return 0;
}

static FILE output = FDEV_SETUP_STREAM(put_byte, NULL, NULL, _FDEV_SETUP_WRITE);

FILE *const stdin = &output;
FILE *const stdout = &output;
FILE *const stderr = &output;

static uint32_t with_byte(uint32_t sum, unsigned char byte)
{
    sum ^= (uint32_t)byte << 24;
    for (int bit = 0; bit < 8; ++bit)
        sum = sum >> 31 ? sum << 1 ^ 0x04c11db7 : sum << 1;
    return sum;
}

/* The bytes, then the bytes of their number, the lowest first. */
static uint32_t checksum(const unsigned char *bytes, size_t length)
{
    uint32_t sum = 0;
    for (size_t at = 0; at < length; ++at)
        sum = with_byte(sum, bytes[at]);
    for (size_t rest = length; rest != 0; rest >>= 8)
        sum = with_byte(sum, (unsigned char)rest);
    return ~sum;
}

/* What the C library needs of a system. There are no files and there is no time. */

void *sbrk(ptrdiff_t change)
{
    static char heap[HEAP_SIZE] __attribute__((aligned(16)));
    static size_t top;
    size_t old = top;
    if (change > (ptrdiff_t)(HEAP_SIZE - top) || change < -(ptrdiff_t)top) {
        errno = ENOMEM;
        return (void *)-1;
    }
    top += change;
    return heap + old;
}

static int refused(void)
{
    errno = ENOSYS;
    return -1;
}

int open(const char *path, int flags, ...)
{
    (void)path, (void)flags;
    return refused();
}

int close(int fd)
{
    (void)fd;
    return refused();
}

ssize_t read(int fd, void *buffer, size_t size)
{
    (void)fd, (void)buffer, (void)size;
    return refused();
}

ssize_t write(int fd, const void *buffer, size_t size)
{
    (void)fd, (void)buffer, (void)size;
    return refused();
}

off_t lseek(int fd, off_t offset, int whence)
{
    (void)fd, (void)offset, (void)whence;
    return refused();
}

clock_t times(struct tms *used)
{
    (void)used;
    return (clock_t)refused();
}

int gettimeofday(struct timeval *restrict time, void *restrict zone)
{
    (void)time, (void)zone;
    return refused();
}

_Noreturn void _exit(int code)
{
    (void)code;
    __builtin_trap();
}

_Noreturn void abort(void)
{
    __builtin_trap();
}

/* The run. */

static const luaL_Reg libraries[] = {
    {LUA_GNAME, luaopen_base},          {LUA_COLIBNAME, luaopen_coroutine}, {LUA_TABLIBNAME, luaopen_table},
    {LUA_STRLIBNAME, luaopen_string},   {LUA_MATHLIBNAME, luaopen_math},
};

uint64_t run_tasks(void)
{
    lua_State *state = luaL_newstate();
    if (state == NULL)
        return 0;
    for (size_t at = 0; at < sizeof libraries / sizeof *libraries; ++at) {
        luaL_requiref(state, libraries[at].name, libraries[at].func, 1);
        lua_pop(state, 1);
    }
    if (luaL_loadbuffer(state, script, script_end - script, "tasks.lua") != LUA_OK || lua_pcall(state, 0, 0, 0) != LUA_OK)
        return 0;
    return checksum(printed, printed_length);
}

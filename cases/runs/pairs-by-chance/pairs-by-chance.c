/*
 * Five hundred pieces of code of sixty instructions by chance, the same each time: operations, loads and stores at any address beside a page's end,
 * branches and jumps forwards. Each is entered at sixty places by chance, so that some of the turns end in it. A line has a sum over all registers and the
 * memory so far, after each fifty. Where a page can't be had, the program exits with 1.
 */
#include "../../guests/ends.h"

#define CODE UINT64_C(0x400000)
#define DATA UINT64_C(0x800000)
#define PAGE UINT64_C(4096)

enum { PIECES = 500, TIMES = 60, LENGTH = 60, USED = 12, OPERATIONS = 32 };

/* The registers that are used; s0 has the address where the second page of data begins. */
static const uint32_t used[USED] = {0, 5, 6, 7, 10, 11, 12, 13, 14, 15, 28, 29};

/* An operation's format, and its word without registers and immediate. */
struct operation {
    enum { REGISTERS, IMMEDIATE, SHIFT, SHIFT_WORD, UPPER, LOAD, STORE, BRANCH, JUMP } format;
    uint32_t word;
};

static const struct operation operations[OPERATIONS] = {
    {REGISTERS, 0x00000033},  /* add */
    {REGISTERS, 0x40000033},  /* sub */
    {REGISTERS, 0x00004033},  /* xor */
    {REGISTERS, 0x00006033},  /* or */
    {REGISTERS, 0x02000033},  /* mul */
    {REGISTERS, 0x0000003b},  /* addw */
    {IMMEDIATE, 0x00000013},  /* addi, three times */
    {IMMEDIATE, 0x00000013}, {IMMEDIATE, 0x00000013},
    {IMMEDIATE, 0x00007013},  /* andi */
    {IMMEDIATE, 0x0000001b},  /* addiw */
    {SHIFT, 0x00001013},      /* slli */
    {SHIFT, 0x00005013},      /* srli */
    {SHIFT_WORD, 0x0000101b}, /* slliw */
    {SHIFT_WORD, 0x0000501b}, /* srliw */
    {UPPER, 0x00000037},      /* lui */
    {UPPER, 0x00000017},      /* auipc */
    {LOAD, 0x00000003},       /* lb */
    {LOAD, 0x00004003},       /* lbu */
    {LOAD, 0x00002003},       /* lw */
    {LOAD, 0x00003003},       /* ld, twice */
    {LOAD, 0x00003003},
    {STORE, 0x00000023},      /* sb */
    {STORE, 0x00001023},      /* sh */
    {STORE, 0x00002023},      /* sw */
    {STORE, 0x00003023},      /* sd, twice */
    {STORE, 0x00003023},
    {BRANCH, 0x00000063},     /* beq */
    {BRANCH, 0x00001063},     /* bne */
    {BRANCH, 0x00006063},     /* bltu */
    {BRANCH, 0x00007063},     /* bgeu */
    {JUMP, 0x0000006f},       /* jal */
};

/* xorshift64*, from 1 on */
static uint64_t state = 1;

static uint64_t draw(void)
{
    state ^= state >> 12;
    state ^= state << 25;
    state ^= state >> 27;
    return state * UINT64_C(0x2545f4914f6cdd1d);
}

/* Eight bits each say the operation and the registers; behind them stand an immediate of 12 bits, and one of 20, of which a distance is made too. */
static uint32_t draw_instruction(void)
{
    uint64_t drawn = draw();
    const struct operation *operation = &operations[drawn % OPERATIONS];
    uint32_t rd = used[(drawn >> 8) % USED] << 7, rs1 = used[(drawn >> 16) % USED] << 15, rs2 = used[(drawn >> 24) % USED] << 20;
    uint32_t immediate = (drawn >> 32) & 0xfff, upper = drawn >> 44, distance = 8 + 4 * (upper % 3);
    switch (operation->format) {
    case REGISTERS:
        return operation->word | rd | rs1 | rs2;
    case IMMEDIATE:
        return operation->word | rd | rs1 | immediate << 20;
    case SHIFT:
        return operation->word | rd | rs1 | upper % 64 << 20;
    case SHIFT_WORD:
        return operation->word | rd | rs1 | upper % 32 << 20;
    case UPPER:
        return operation->word | rd | upper << 12;
    case LOAD:
        return operation->word | rd | 8 << 15 | immediate << 20;
    case STORE:
        return operation->word | 8 << 15 | rs2 | (immediate >> 5) << 25 | (immediate & 31) << 7;
    case BRANCH:
        return operation->word | rs1 | rs2 | distance << 7;
    default:
        return operation->word | rd | distance << 20;
    }
}

/* Goes to an address with these numbers in the registers that are used, and s0; what they are then takes their place. */
void run_code(uint64_t *numbers, uint64_t address, uint64_t data);

__asm__(".text\n"
        "run_code:\n"
        "        addi    sp, sp, -32\n"
        "        sd      ra, 0(sp)\n"
        "        sd      s0, 8(sp)\n"
        "        sd      tp, 16(sp)\n"
        "        mv      tp, a0\n"
        "        mv      t5, a1\n"
        "        mv      s0, a2\n"
        "        .irp    n, 5,6,7,10,11,12,13,14,15,28,29\n"
        "        ld      x\\n, 8 * \\n(tp)\n"
        "        .endr\n"
        "        jalr    ra, 0(t5)\n"
        "        .irp    n, 0,5,6,7,10,11,12,13,14,15,28,29\n"
        "        sd      x\\n, 8 * \\n(tp)\n"
        "        .endr\n"
        "        ld      ra, 0(sp)\n"
        "        ld      s0, 8(sp)\n"
        "        ld      tp, 16(sp)\n"
        "        addi    sp, sp, 32\n"
        "        ret\n");

static void map(uint64_t address, uint64_t pages)
{
    void *memory;
    expect(cloudabi_sys_mem_map((void *)address, pages * PAGE, CLOUDABI_PROT_READ | CLOUDABI_PROT_WRITE,
                                CLOUDABI_MAP_ANON | CLOUDABI_MAP_FIXED | CLOUDABI_MAP_PRIVATE, 0, 0, &memory));
}

/* Behind the instructions stand three that do nothing, since the last ones may jump so far, and the way back. */
static void write_piece(void)
{
    volatile uint32_t *words = (volatile uint32_t *)CODE;
    expect(cloudabi_sys_mem_protect((void *)CODE, PAGE, CLOUDABI_PROT_READ | CLOUDABI_PROT_WRITE));
    for (size_t i = 0; i < LENGTH; ++i)
        words[i] = draw_instruction();
    for (size_t i = 0; i < 3; ++i)
        words[LENGTH + i] = 0x00000013;
    words[LENGTH + 3] = 0x00008067;
    expect(cloudabi_sys_mem_protect((void *)CODE, PAGE, CLOUDABI_PROT_READ | CLOUDABI_PROT_EXEC));
}

/* FNV-1a, of numbers in place of bytes */
static uint64_t added(uint64_t sum, uint64_t number)
{
    return (sum ^ number) * UINT64_C(0x100000001b3);
}

static void say_sum(const uint64_t *numbers)
{
    uint64_t sum = UINT64_C(0xcbf29ce484222325);
    for (size_t i = 0; i < USED; ++i)
        sum = added(sum, numbers[used[i]]);
    for (uint64_t at = DATA; at < DATA + 2 * PAGE; at += 8)
        sum = added(sum, *(volatile uint64_t *)at);
    for (int place = 60; place >= 0; place -= 4)
        say((char[]){"0123456789abcdef"[sum >> place & 15], 0});
    end_line();
}

void program_main(const argdata_t *arguments)
{
    static uint64_t numbers[32];
    (void)arguments;
    map(CODE, 1);
    map(DATA, 2);
    for (size_t i = 1; i <= PIECES; ++i) {
        write_piece();
        for (size_t time = 0; time < TIMES; ++time)
            run_code(numbers, CODE + draw() % LENGTH * 4, DATA + PAGE);
        if (i % 50 == 0)
            say_sum(numbers);
    }
    cloudabi_sys_proc_exit(0);
}

/*
 * Words that the GNU assembler gives, with all kinds of registers and immediates, and what must come of them: where the instruction ends,
 * in bytes from CODE on, two registers and their numbers before it, and one with its number afterwards.
 */
#include "rows.h"

#define WORD(bits, end, r1, n1, r2, n2, s, m) INSTRUCTIONS(1, end, .word bits); TWO_TO_ONE(r1, n1, r2, n2, s, m); NO_MEMORY
#define LOAD(bits, sp, want) INSTRUCTIONS(1, 4, .word bits); TWO_TO_ONE(2, sp, 0, 0, 5, want); SOME_BYTES_AT(0x20100)
#define STORE(bits, gp, ...) \
    INSTRUCTIONS(1, 4, .word bits); TWO_TO_ONE(3, gp, 17, 0x8877665544332211, 0, 0); TEN_BYTES(0x20100, __VA_ARGS__)

/* 0x0123456780000000 is in memory, and 0xffffffff00000001 is what an AMO or an SC puts there. */
#define LR(bits, want) \
    INSTRUCTIONS(1, 4, .word bits); TWO_TO_ONE(11, 0x20108, 0, 0, 10, want); NUMBER(0x20108, 0x0123456780000000, 0x0123456780000000)
#define SC(lr, bits, left) \
    INSTRUCTIONS(2, 8, lr zero, (a1); .word bits); TWO_TO_ONE(11, 0x20108, 12, 0xffffffff00000001, 10, 0); \
    NUMBER(0x20108, 0x0123456780000000, left)
#define AMO(bits, left, want) \
    INSTRUCTIONS(1, 4, .word bits); TWO_TO_ONE(7, 0x20108, 6, 0xffffffff00000001, 5, want); NUMBER(0x20108, 0x0123456780000000, left)

ROWS

WORD(0x800005b7, 4,         0,  0,                  0,  0,                  11, 0xffffffff80000000) /* lui a1, 0x80000 */
WORD(0x12345f97, 4,         0,  0,                  0,  0,                  31, CODE + 0x12345000)  /* auipc x31, 0x12345 */
WORD(0x800000ef, -0x100000, 0,  0,                  0,  0,                  1,  CODE + 4)           /* jal ra, .-0x100000 */
WORD(0x80058567, 0x100,     11, CODE + 0x900,       0,  0,                  10, CODE + 4)           /* jalr a0, -2048(a1) */
WORD(0x81360063, -4096,     12, 5,                  19, 5,                  0,  0)                  /* beq a2, s3, .-4096 */
WORD(0x7f361fe3, 4,         12, 5,                  19, 5,                  0,  0)                  /* bne a2, s3, .+4094 */
WORD(0x013640e3, 2048,      12, 0xffffffffffffffff, 19, 0,                  0,  0)                  /* blt a2, s3, .+2048 */
WORD(0xff365fe3, 4,         12, 0xffffffffffffffff, 19, 0,                  0,  0)                  /* bge a2, s3, .-2 */
WORD(0x01366f63, 4,         12, 0xffffffffffffffff, 19, 0,                  0,  0)                  /* bltu a2, s3, .+30 */
WORD(0xff3671e3, 4,         12, 0,                  19, 0xffffffffffffffff, 0,  0)                  /* bgeu a2, s3, .-30 */

/* From the bytes at 0x20100, into t0. */
LOAD(0x80010283, 0x20901, 0xfffffffffffffff2) /* lb x5, -2048(sp) */
LOAD(0xa5811283, 0x206a8, 0xfffffffffffff201) /* lh x5, -1448(sp) */
LOAD(0xcb012283, 0x20450, 0xfffffffff403f201) /* lw x5, -848(sp) */
LOAD(0xf0813283, 0x201f8, 0xf807f605f403f201) /* ld x5, -248(sp) */
LOAD(0x16014283, 0x1ffa1, 0xf2)               /* lbu x5, 352(sp) */
LOAD(0x3b815283, 0x1fd48, 0xf201)             /* lhu x5, 952(sp) */
LOAD(0x61016283, 0x1faf0, 0xf403f201)         /* lwu x5, 1552(sp) */

/* Among ten bytes of 0xee from 0x20100 on, a7. */
STORE(0x81118023, 0x20901, 0xee, 0x11, 0xee, 0xee, 0xee, 0xee, 0xee, 0xee, 0xee, 0xee) /* sb a7, -2048(gp) */
STORE(0x7f119fa3, 0x1f902, 0xee, 0x11, 0x22, 0xee, 0xee, 0xee, 0xee, 0xee, 0xee, 0xee) /* sh a7, 2047(gp) */
STORE(0x0111afa3, 0x200e2, 0xee, 0x11, 0x22, 0x33, 0x44, 0xee, 0xee, 0xee, 0xee, 0xee) /* sw a7, 31(gp) */
STORE(0xfd11bfa3, 0x20122, 0xee, 0x11, 0x22, 0x33, 0x44, 0x55, 0x66, 0x77, 0x88, 0xee) /* sd a7, -33(gp) */

WORD(0x80058513, 4, 11, 0x1000,             0, 0, 10, 0x800)              /* addi a0, a1, -2048 */
WORD(0x7ff5a513, 4, 11, 0xffffffffffffffff, 0, 0, 10, 1)                  /* slti a0, a1, 2047 */
WORD(0xfff5b513, 4, 11, 5,                  0, 0, 10, 1)                  /* sltiu a0, a1, -1 */
WORD(0x5555c513, 4, 11, 0x123456789abcdef0, 0, 0, 10, 0x123456789abcdba5) /* xori a0, a1, 1365 */
WORD(0xaaa5e513, 4, 11, 0x123456789abcdef0, 0, 0, 10, 0xfffffffffffffefa) /* ori a0, a1, -1366 */
WORD(0x0005f513, 4, 11, 0x123456789abcdef0, 0, 0, 10, 0)                  /* andi a0, a1, 0 */
WORD(0xffb5851b, 4, 11, 0x7fffffff80000002, 0, 0, 10, 0x7ffffffd)         /* addiw a0, a1, -5 */
WORD(0x03f49413, 4, 9,  3,                  0, 0, 8,  0x8000000000000000) /* slli s0, s1, 63 */
WORD(0x0204d413, 4, 9,  0xfedcba9876543f21, 0, 0, 8,  0xfedcba98)         /* srli s0, s1, 32 */
WORD(0x4214d413, 4, 9,  0xfedcba9876543f21, 0, 0, 8,  0xffffffffff6e5d4c) /* srai s0, s1, 33 */
WORD(0x01f4941b, 4, 9,  3,                  0, 0, 8,  0xffffffff80000000) /* slliw s0, s1, 31 */
WORD(0x0104d41b, 4, 9,  0x123456789abcdef0, 0, 0, 8,  0x9abc)             /* srliw s0, s1, 16 */
WORD(0x4014d41b, 4, 9,  0x123456789abcdef0, 0, 0, 8,  0xffffffffcd5e6f78) /* sraiw s0, s1, 1 */

/* x31 and s11, of which each is read, and a0. */
WORD(0x01bf8533, 4, 31, 0x123456789abcdef0, 27, 0xfedcba9876543f21, 10, 0x1111111111111e11) /* add a0, x31, s11 */
WORD(0x41bf8533, 4, 31, 0x123456789abcdef0, 27, 0xfedcba9876543f21, 10, 0x13579be024689fcf) /* sub a0, x31, s11 */
WORD(0x01bf9533, 4, 31, 0x123456789abcdef0, 27, 0xfedcba9876543f21, 10, 0x3579bde000000000) /* sll a0, x31, s11 */
WORD(0x01bfa533, 4, 31, 0xffffffffffffffff, 27, 0,                  10, 1)                  /* slt a0, x31, s11 */
WORD(0x01bfb533, 4, 31, 0x123456789abcdef0, 27, 0xfedcba9876543f21, 10, 1)                  /* sltu a0, x31, s11 */
WORD(0x01bfc533, 4, 31, 0x123456789abcdef0, 27, 0xfedcba9876543f21, 10, 0xece8ece0ece8e1d1) /* xor a0, x31, s11 */
WORD(0x01bfd533, 4, 31, 0xfffffffffffffff9, 27, 3,                  10, 0x1fffffffffffffff) /* srl a0, x31, s11 */
WORD(0x41bfd533, 4, 31, 0xfffffffffffffff9, 27, 3,                  10, 0xffffffffffffffff) /* sra a0, x31, s11 */
WORD(0x01bfe533, 4, 31, 0x123456789abcdef0, 27, 0xfedcba9876543f21, 10, 0xfefcfef8fefcfff1) /* or a0, x31, s11 */
WORD(0x01bff533, 4, 31, 0x123456789abcdef0, 27, 0xfedcba9876543f21, 10, 0x1214121812141e20) /* and a0, x31, s11 */
WORD(0x03bf8533, 4, 31, 0x123456789abcdef0, 27, 0xfedcba9876543f21, 10, 0x14b66dc33f5ccf0)  /* mul a0, x31, s11 */
WORD(0x03bf9533, 4, 31, 0x123456789abcdef0, 27, 0xfedcba9876543f21, 10, 0xffeb49923cc09620) /* mulh a0, x31, s11 */
WORD(0x03bfa533, 4, 31, 0x8000000000000000, 27, 0xffffffffffffffff, 10, 0x8000000000000000) /* mulhsu a0, x31, s11 */
WORD(0x03bfb533, 4, 31, 0xfffffffffffffff9, 27, 3,                  10, 2)                  /* mulhu a0, x31, s11 */
WORD(0x03bfc533, 4, 31, 0x123456789abcdef0, 27, 0xfedcba9876543f21, 10, 0xfffffffffffffff0) /* div a0, x31, s11 */
WORD(0x03bfd533, 4, 31, 0xfffffffffffffff9, 27, 3,                  10, 0x5555555555555553) /* divu a0, x31, s11 */
WORD(0x03bfe533, 4, 31, 0x123456789abcdef0, 27, 0xfedcba9876543f21, 10, 0xd100)             /* rem a0, x31, s11 */
WORD(0x03bff533, 4, 31, 0x123456789abcdef0, 27, 0xfedcba9876543f21, 10, 0x123456789abcdef0) /* remu a0, x31, s11 */
WORD(0x01bf853b, 4, 31, 0x123456789abcdef0, 27, 0xfedcba9876543f21, 10, 0x11111e11)         /* addw a0, x31, s11 */
WORD(0x41bf853b, 4, 31, 0x123456789abcdef0, 27, 0xfedcba9876543f21, 10, 0x24689fcf)         /* subw a0, x31, s11 */
WORD(0x01bf953b, 4, 31, 0x123456789abcdef0, 27, 0xfedcba9876543f21, 10, 0x3579bde0)         /* sllw a0, x31, s11 */
WORD(0x01bfd53b, 4, 31, 0x123456789abcdef0, 27, 0xfedcba9876543f21, 10, 0x4d5e6f78)         /* srlw a0, x31, s11 */
WORD(0x41bfd53b, 4, 31, 0x123456789abcdef0, 27, 0xfedcba9876543f21, 10, 0xffffffffcd5e6f78) /* sraw a0, x31, s11 */
WORD(0x03bf853b, 4, 31, 0x123456789abcdef0, 27, 0xfedcba9876543f21, 10, 0x33f5ccf0)         /* mulw a0, x31, s11 */
WORD(0x03bfc53b, 4, 31, 0xfffffffffffffff9, 27, 3,                  10, 0xfffffffffffffffe) /* divw a0, x31, s11 */
WORD(0x03bfd53b, 4, 31, 0xfffffffffffffff9, 27, 3,                  10, 0x55555553)         /* divuw a0, x31, s11 */
WORD(0x03bfe53b, 4, 31, 0x123456789abcdef0, 27, 0xfedcba9876543f21, 10, 0xffffffff9abcdef0) /* remw a0, x31, s11 */
WORD(0x03bff53b, 4, 31, 0x123456789abcdef0, 27, 0xfedcba9876543f21, 10, 0x24689fcf)         /* remuw a0, x31, s11 */

/* Any of the bits aq and rl. */
LR(0x1405a52f, 0xffffffff80000000) /* lr.w.aq a0, (a1) */
SC(lr.w, 0x1ac5a52f, 0x0123456700000001) /* sc.w.rl a0, a2, (a1) */
AMO(0x0e63a2af, 0x123456700000001,  0xffffffff80000000) /* amoswap.w.aqrl x5, x6, (x7) */
AMO(0x0663a2af, 0x123456780000001,  0xffffffff80000000) /* amoadd.w.aqrl x5, x6, (x7) */
AMO(0x2663a2af, 0x123456780000001,  0xffffffff80000000) /* amoxor.w.aqrl x5, x6, (x7) */
AMO(0x6663a2af, 0x123456700000000,  0xffffffff80000000) /* amoand.w.aqrl x5, x6, (x7) */
AMO(0x4663a2af, 0x123456780000001,  0xffffffff80000000) /* amoor.w.aqrl x5, x6, (x7) */
AMO(0x8663a2af, 0x123456780000000,  0xffffffff80000000) /* amomin.w.aqrl x5, x6, (x7) */
AMO(0xa663a2af, 0x123456700000001,  0xffffffff80000000) /* amomax.w.aqrl x5, x6, (x7) */
AMO(0xc663a2af, 0x123456700000001,  0xffffffff80000000) /* amominu.w.aqrl x5, x6, (x7) */
AMO(0xe663a2af, 0x123456780000000,  0xffffffff80000000) /* amomaxu.w.aqrl x5, x6, (x7) */
LR(0x1405b52f, 0x0123456780000000) /* lr.d.aq a0, (a1) */
SC(lr.d, 0x1ac5b52f, 0xffffffff00000001) /* sc.d.rl a0, a2, (a1) */
AMO(0x0e63b2af, 0xffffffff00000001, 0x123456780000000)  /* amoswap.d.aqrl x5, x6, (x7) */
AMO(0x0663b2af, 0x123456680000001,  0x123456780000000)  /* amoadd.d.aqrl x5, x6, (x7) */
AMO(0x2663b2af, 0xfedcba9880000001, 0x123456780000000)  /* amoxor.d.aqrl x5, x6, (x7) */
AMO(0x6663b2af, 0x123456700000000,  0x123456780000000)  /* amoand.d.aqrl x5, x6, (x7) */
AMO(0x4663b2af, 0xffffffff80000001, 0x123456780000000)  /* amoor.d.aqrl x5, x6, (x7) */
AMO(0x8663b2af, 0xffffffff00000001, 0x123456780000000)  /* amomin.d.aqrl x5, x6, (x7) */
AMO(0xa663b2af, 0x123456780000000,  0x123456780000000)  /* amomax.d.aqrl x5, x6, (x7) */
AMO(0xc663b2af, 0x123456780000000,  0x123456780000000)  /* amominu.d.aqrl x5, x6, (x7) */
AMO(0xe663b2af, 0xffffffff00000001, 0x123456780000000)  /* amomaxu.d.aqrl x5, x6, (x7) */

WORD(0x0330000f, 4, 0,  0,  0, 0, 0,  0)  /* fence rw, rw */
WORD(0x0000100f, 4, 0,  0,  0, 0, 0,  0)  /* fence.i */
WORD(0x00000073, 4, 17, 49, 0, 0, 10, 52) /* ecall of number 49, which no call has: NOSYS */

END

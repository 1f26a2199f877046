/*
 * LR and SC. A program, its length, and what is in memory, in another register and in a3 afterwards. Before, there is
 * 0x0123456789abcdef in memory, its address in a0 and in a4, and the address behind it in a5, 0xfedcba9876543210 in a1, and 9 in a2.
 */
#include "rows.h"

#define RESERVED(count, left, s, m, failed, ...) \
    INSTRUCTIONS(count, 4 * count, __VA_ARGS__); \
    REGISTERS(10, 0x20100, 11, 0xfedcba9876543210, 12, 9, 14, 0x20100, 15, 0x20108, s, m, 13, failed); \
    NUMBER(0x20100, 0x0123456789abcdef, left)

/* Twice as many instructions as a2 says are done between LR and SC. */
#define LATER(times, left, failed) \
    INSTRUCTIONS(4, 16, lr.w zero, (a0); addi a2, a2, -1; bne a2, zero, . - 4; sc.w a3, a1, (a0)); \
    REGISTERS(10, 0x20100, 11, 0xfedcba9876543210, 12, times, 0, 0, 0, 0, 12, 0, 13, failed); NUMBER(0x20100, 0x0123456789abcdef, left)

#define RESERVED_READABLE(...) INSTRUCTIONS(1, 4, __VA_ARGS__); TWO_TO_ONE(10, 0x22000, 12, 9, 12, 0); NO_MEMORY

ROWS

RESERVED(2, 0x0123456776543210, 12, 0xffffffff89abcdef, 0, lr.w a2, (a0); sc.w a3, a1, (a0))
RESERVED(2, 0xfedcba9876543210, 12, 0x0123456789abcdef, 0, lr.d a2, (a0); sc.d a3, a1, (a0))

/* Without LR. */
RESERVED(2, 0x0123456789abcdef, 12, 1,                  1, sc.d a2, a1, (a0); sc.w a3, a1, (a0))

/* At another address. */
RESERVED(3, 0x0123456789abcdef, 10, 0x20104,            1, lr.w zero, (a0); addi a0, a0, 4; sc.w a3, a1, (a0))

/* Of another width. */
RESERVED(2, 0x0123456789abcdef, 12, 9,                  1, lr.w zero, (a0); sc.d a3, a1, (a0))
RESERVED(2, 0x0123456789abcdef, 12, 9,                  1, lr.d zero, (a0); sc.w a3, a1, (a0))

/* After an SC that stored, and after one that didn't. */
RESERVED(3, 0x0123456776543210, 12, 0,                  1, lr.w zero, (a0); sc.w a2, a1, (a0); sc.w a3, zero, (a0))
RESERVED(3, 0x0123456789abcdef, 12, 1,                  1, lr.w zero, (a0); sc.d a2, a1, (a0); sc.w a3, a1, (a0))

/* After a second LR. */
RESERVED(3, 0x0123456789abcdef, 12, 9,                  1, lr.w zero, (a0); lr.w zero, (a5); sc.w a3, a1, (a0))

/* After a store, an AMO and a load. */
RESERVED(3, 0xfedcba9876543210, 12, 9,                  0, lr.d zero, (a0); sw zero, 0(a0); sc.d a3, a1, (a0))
RESERVED(3, 0x0123456776543210, 12, 0xffffffff89abcdef, 0, lr.w zero, (a0); amoadd.w a2, zero, (a0); sc.w a3, a1, (a0))
RESERVED(3, 0xfedcba9876543210, 12, 0x0123456789abcdef, 0, lr.d zero, (a0); ld a2, 0(a0); sc.d a3, a1, (a0))

/* Of one register twice. */
RESERVED(2, 0xfedcba9876543210, 11, 0, 0x0123456789abcdef, lr.d a3, (a0); sc.d a1, a1, (a0))

/* In another turn: after a call, which answers NOSYS, and after 4096 instructions, but not after 2000. */
RESERVED(3, 0x0123456789abcdef, 10, 52,                 1, lr.w zero, (a0); ecall; sc.w a3, a1, (a4))
LATER(2048, 0x0123456789abcdef, 1)
LATER(1000, 0x0123456776543210, 0)

/* Of a page that may only be read. */
RESERVED_READABLE(lr.w a2, (a0))

END

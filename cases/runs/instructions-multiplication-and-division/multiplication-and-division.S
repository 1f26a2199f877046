/*
 * Multiplications and divisions: the operation, its two operands, and what it gives. This was computed by the manual's rules in exact
 * integers of another language.
 */
#include "rows.h"

#define RR(op, a, b, want) \
    INSTRUCTIONS(1, 4, op a2, a0, a1); TWO_TO_ONE(10, a, 11, b, 12, want); NO_MEMORY

/* Of one register twice, or of x0: a0 and a1 before, and a register afterwards. */
#define ON(a, b, s, m, ...) INSTRUCTIONS(1, 4, __VA_ARGS__); TWO_TO_ONE(10, a, 11, b, s, m); NO_MEMORY

ROWS

RR(mul,    7,                  3,                  0x15)
RR(mul,    0xfffffffffffffff9, 3,                  0xffffffffffffffeb)
RR(mul,    0x8000000000000000, 0xffffffffffffffff, 0x8000000000000000)
RR(mul,    0xffffffffffffffff, 0,                  0)
RR(mul,    0x80000000,         0xffffffff,         0x7fffffff80000000)
RR(mul,    0x123456789abcdef0, 0xfedcba9876543f21, 0x14b66dc33f5ccf0)

RR(mulh,   7,                  3,                  0)
RR(mulh,   0xfffffffffffffff9, 3,                  0xffffffffffffffff)
RR(mulh,   0x8000000000000000, 0xffffffffffffffff, 0)
RR(mulh,   0xffffffffffffffff, 0,                  0)
RR(mulh,   0x80000000,         0xffffffff,         0)
RR(mulh,   0x123456789abcdef0, 0xfedcba9876543f21, 0xffeb49923cc09620)

RR(mulhsu, 7,                  3,                  0)
RR(mulhsu, 0xfffffffffffffff9, 3,                  0xffffffffffffffff)
RR(mulhsu, 0x8000000000000000, 0xffffffffffffffff, 0x8000000000000000)
RR(mulhsu, 0xffffffffffffffff, 0,                  0)
RR(mulhsu, 0x80000000,         0xffffffff,         0)
RR(mulhsu, 0x123456789abcdef0, 0xfedcba9876543f21, 0x121fa00ad77d7510)

RR(mulhu,  7,                  3,                  0)
RR(mulhu,  0xfffffffffffffff9, 3,                  2)
RR(mulhu,  0x8000000000000000, 0xffffffffffffffff, 0x7fffffffffffffff)
RR(mulhu,  0xffffffffffffffff, 0,                  0)
RR(mulhu,  0x80000000,         0xffffffff,         0)
RR(mulhu,  0x123456789abcdef0, 0xfedcba9876543f21, 0x121fa00ad77d7510)

RR(mulw,   7,                  3,                  0x15)
RR(mulw,   0xfffffffffffffff9, 3,                  0xffffffffffffffeb)
RR(mulw,   0x8000000000000000, 0xffffffffffffffff, 0)
RR(mulw,   0xffffffffffffffff, 0,                  0)
RR(mulw,   0x80000000,         0xffffffff,         0xffffffff80000000)
RR(mulw,   0x123456789abcdef0, 0xfedcba9876543f21, 0x33f5ccf0)

RR(div,    7,                  3,                  2)
RR(div,    0xfffffffffffffff9, 3,                  0xfffffffffffffffe)
RR(div,    0x8000000000000000, 0xffffffffffffffff, 0x8000000000000000)
RR(div,    0xffffffffffffffff, 0,                  0xffffffffffffffff)
RR(div,    0x80000000,         0xffffffff,         0)
RR(div,    0x123456789abcdef0, 0xfedcba9876543f21, 0xfffffffffffffff0)

RR(divu,   7,                  3,                  2)
RR(divu,   0xfffffffffffffff9, 3,                  0x5555555555555553)
RR(divu,   0x8000000000000000, 0xffffffffffffffff, 0)
RR(divu,   0xffffffffffffffff, 0,                  0xffffffffffffffff)
RR(divu,   0x80000000,         0xffffffff,         0)
RR(divu,   0x123456789abcdef0, 0xfedcba9876543f21, 0)

RR(rem,    7,                  3,                  1)
RR(rem,    0xfffffffffffffff9, 3,                  0xffffffffffffffff)
RR(rem,    0x8000000000000000, 0xffffffffffffffff, 0)
RR(rem,    0xffffffffffffffff, 0,                  0xffffffffffffffff)
RR(rem,    0x80000000,         0xffffffff,         0x80000000)
RR(rem,    0x123456789abcdef0, 0xfedcba9876543f21, 0xd100)

RR(remu,   7,                  3,                  1)
RR(remu,   0xfffffffffffffff9, 3,                  0)
RR(remu,   0x8000000000000000, 0xffffffffffffffff, 0x8000000000000000)
RR(remu,   0xffffffffffffffff, 0,                  0xffffffffffffffff)
RR(remu,   0x80000000,         0xffffffff,         0x80000000)
RR(remu,   0x123456789abcdef0, 0xfedcba9876543f21, 0x123456789abcdef0)

RR(divw,   7,                  3,                  2)
RR(divw,   0xfffffffffffffff9, 3,                  0xfffffffffffffffe)
RR(divw,   0x8000000000000000, 0xffffffffffffffff, 0)
RR(divw,   0xffffffffffffffff, 0,                  0xffffffffffffffff)
RR(divw,   0x80000000,         0xffffffff,         0xffffffff80000000)
RR(divw,   0x123456789abcdef0, 0xfedcba9876543f21, 0)

RR(divuw,  7,                  3,                  2)
RR(divuw,  0xfffffffffffffff9, 3,                  0x55555553)
RR(divuw,  0x8000000000000000, 0xffffffffffffffff, 0)
RR(divuw,  0xffffffffffffffff, 0,                  0xffffffffffffffff)
RR(divuw,  0x80000000,         0xffffffff,         0)
RR(divuw,  0x123456789abcdef0, 0xfedcba9876543f21, 1)

RR(remw,   7,                  3,                  1)
RR(remw,   0xfffffffffffffff9, 3,                  0xffffffffffffffff)
RR(remw,   0x8000000000000000, 0xffffffffffffffff, 0)
RR(remw,   0xffffffffffffffff, 0,                  0xffffffffffffffff)
RR(remw,   0x80000000,         0xffffffff,         0)
RR(remw,   0x123456789abcdef0, 0xfedcba9876543f21, 0xffffffff9abcdef0)

RR(remuw,  7,                  3,                  1)
RR(remuw,  0xfffffffffffffff9, 3,                  0)
RR(remuw,  0x8000000000000000, 0xffffffffffffffff, 0)
RR(remuw,  0xffffffffffffffff, 0,                  0xffffffffffffffff)
RR(remuw,  0x80000000,         0xffffffff,         0xffffffff80000000)
RR(remuw,  0x123456789abcdef0, 0xfedcba9876543f21, 0x24689fcf)

/* Corners: division by zero, the least number by -1, and what the signs do. */
RR(div,    5,                  0,                  0xffffffffffffffff)
RR(rem,    5,                  0,                  5)
RR(divu,   5,                  0,                  0xffffffffffffffff)
RR(remu,   5,                  0,                  5)
RR(div,    0x8000000000000000, 0xffffffffffffffff, 0x8000000000000000)
RR(rem,    0x8000000000000000, 0xffffffffffffffff, 0)
RR(divu,   0x8000000000000000, 0xffffffffffffffff, 0)
RR(remu,   0x8000000000000000, 0xffffffffffffffff, 0x8000000000000000)
RR(div,    0xfffffffffffffff9, 2,                  0xfffffffffffffffd)
RR(rem,    0xfffffffffffffff9, 2,                  0xffffffffffffffff)
RR(div,    7,                  0xfffffffffffffffe, 0xfffffffffffffffd)
RR(rem,    7,                  0xfffffffffffffffe, 1)
RR(divw,   0x180000005,        0,                  0xffffffffffffffff)
RR(remw,   0x180000005,        0,                  0xffffffff80000005)
RR(divuw,  0x80000005,         0,                  0xffffffffffffffff)
RR(remuw,  0x80000005,         0,                  0xffffffff80000005)
RR(divw,   0x80000000,         0xffffffff,         0xffffffff80000000)
RR(remw,   0x80000000,         0xffffffff,         0)
RR(divuw,  0x580000000,        0x700000001,        0xffffffff80000000)
RR(remuw,  0x580000000,        0x700000001,        0)

ON(7, 3, 10, 21,                 mul a0, a0, a1)
ON(7, 3, 12, 49,                 mul a2, a0, a0)
ON(7, 3, 10, 2,                  div a0, a0, a1)
ON(7, 3, 11, 1,                  rem a1, a0, a1)
ON(7, 3, 12, 0xffffffffffffffff, div a2, a0, zero)
ON(7, 3, 12, 0,                  div a2, zero, a1)
ON(7, 3, 0, 0,                   div zero, a0, a1)
ON(7, 3, 11, 2,                  divuw a1, a0, a1)
ON(7, 3, 10, 1,                  remuw a0, a0, a1)

END

/*
 * Operations on two registers: the operation, its two operands, and what it gives. This was computed by the manual's rules in exact
 * integers of another language.
 */
#include "rows.h"

#define RR(op, a, b, want) \
    INSTRUCTIONS(1, 4, op a2, a0, a1); TWO_TO_ONE(10, a, 11, b, 12, want); NO_MEMORY

/* Of one register twice, or of x0: a0 and a1 before, and a register afterwards. */
#define ON(a, b, s, m, ...) INSTRUCTIONS(1, 4, __VA_ARGS__); TWO_TO_ONE(10, a, 11, b, s, m); NO_MEMORY

ROWS

RR(add,    7,                  3,                  0xa)
RR(add,    0xfffffffffffffff9, 3,                  0xfffffffffffffffc)
RR(add,    0x8000000000000000, 0xffffffffffffffff, 0x7fffffffffffffff)
RR(add,    0xffffffffffffffff, 0,                  0xffffffffffffffff)
RR(add,    0x80000000,         0xffffffff,         0x17fffffff)
RR(add,    0x123456789abcdef0, 0xfedcba9876543f21, 0x1111111111111e11)

RR(sub,    7,                  3,                  4)
RR(sub,    0xfffffffffffffff9, 3,                  0xfffffffffffffff6)
RR(sub,    0x8000000000000000, 0xffffffffffffffff, 0x8000000000000001)
RR(sub,    0xffffffffffffffff, 0,                  0xffffffffffffffff)
RR(sub,    0x80000000,         0xffffffff,         0xffffffff80000001)
RR(sub,    0x123456789abcdef0, 0xfedcba9876543f21, 0x13579be024689fcf)

RR(sll,    7,                  3,                  0x38)
RR(sll,    0xfffffffffffffff9, 3,                  0xffffffffffffffc8)
RR(sll,    0x8000000000000000, 0xffffffffffffffff, 0)
RR(sll,    0xffffffffffffffff, 0,                  0xffffffffffffffff)
RR(sll,    0x80000000,         0xffffffff,         0)
RR(sll,    0x123456789abcdef0, 0xfedcba9876543f21, 0x3579bde000000000)

RR(slt,    7,                  3,                  0)
RR(slt,    0xfffffffffffffff9, 3,                  1)
RR(slt,    0x8000000000000000, 0xffffffffffffffff, 1)
RR(slt,    0xffffffffffffffff, 0,                  1)
RR(slt,    0x80000000,         0xffffffff,         1)
RR(slt,    0x123456789abcdef0, 0xfedcba9876543f21, 0)

RR(sltu,   7,                  3,                  0)
RR(sltu,   0xfffffffffffffff9, 3,                  0)
RR(sltu,   0x8000000000000000, 0xffffffffffffffff, 1)
RR(sltu,   0xffffffffffffffff, 0,                  0)
RR(sltu,   0x80000000,         0xffffffff,         1)
RR(sltu,   0x123456789abcdef0, 0xfedcba9876543f21, 1)

RR(xor,    7,                  3,                  4)
RR(xor,    0xfffffffffffffff9, 3,                  0xfffffffffffffffa)
RR(xor,    0x8000000000000000, 0xffffffffffffffff, 0x7fffffffffffffff)
RR(xor,    0xffffffffffffffff, 0,                  0xffffffffffffffff)
RR(xor,    0x80000000,         0xffffffff,         0x7fffffff)
RR(xor,    0x123456789abcdef0, 0xfedcba9876543f21, 0xece8ece0ece8e1d1)

RR(srl,    7,                  3,                  0)
RR(srl,    0xfffffffffffffff9, 3,                  0x1fffffffffffffff)
RR(srl,    0x8000000000000000, 0xffffffffffffffff, 1)
RR(srl,    0xffffffffffffffff, 0,                  0xffffffffffffffff)
RR(srl,    0x80000000,         0xffffffff,         0)
RR(srl,    0x123456789abcdef0, 0xfedcba9876543f21, 0x91a2b3c)

RR(sra,    7,                  3,                  0)
RR(sra,    0xfffffffffffffff9, 3,                  0xffffffffffffffff)
RR(sra,    0x8000000000000000, 0xffffffffffffffff, 0xffffffffffffffff)
RR(sra,    0xffffffffffffffff, 0,                  0xffffffffffffffff)
RR(sra,    0x80000000,         0xffffffff,         0)
RR(sra,    0x123456789abcdef0, 0xfedcba9876543f21, 0x91a2b3c)

RR(or,     7,                  3,                  7)
RR(or,     0xfffffffffffffff9, 3,                  0xfffffffffffffffb)
RR(or,     0x8000000000000000, 0xffffffffffffffff, 0xffffffffffffffff)
RR(or,     0xffffffffffffffff, 0,                  0xffffffffffffffff)
RR(or,     0x80000000,         0xffffffff,         0xffffffff)
RR(or,     0x123456789abcdef0, 0xfedcba9876543f21, 0xfefcfef8fefcfff1)

RR(and,    7,                  3,                  3)
RR(and,    0xfffffffffffffff9, 3,                  1)
RR(and,    0x8000000000000000, 0xffffffffffffffff, 0x8000000000000000)
RR(and,    0xffffffffffffffff, 0,                  0)
RR(and,    0x80000000,         0xffffffff,         0x80000000)
RR(and,    0x123456789abcdef0, 0xfedcba9876543f21, 0x1214121812141e20)

RR(addw,   7,                  3,                  0xa)
RR(addw,   0xfffffffffffffff9, 3,                  0xfffffffffffffffc)
RR(addw,   0x8000000000000000, 0xffffffffffffffff, 0xffffffffffffffff)
RR(addw,   0xffffffffffffffff, 0,                  0xffffffffffffffff)
RR(addw,   0x80000000,         0xffffffff,         0x7fffffff)
RR(addw,   0x123456789abcdef0, 0xfedcba9876543f21, 0x11111e11)

RR(subw,   7,                  3,                  4)
RR(subw,   0xfffffffffffffff9, 3,                  0xfffffffffffffff6)
RR(subw,   0x8000000000000000, 0xffffffffffffffff, 1)
RR(subw,   0xffffffffffffffff, 0,                  0xffffffffffffffff)
RR(subw,   0x80000000,         0xffffffff,         0xffffffff80000001)
RR(subw,   0x123456789abcdef0, 0xfedcba9876543f21, 0x24689fcf)

RR(sllw,   7,                  3,                  0x38)
RR(sllw,   0xfffffffffffffff9, 3,                  0xffffffffffffffc8)
RR(sllw,   0x8000000000000000, 0xffffffffffffffff, 0)
RR(sllw,   0xffffffffffffffff, 0,                  0xffffffffffffffff)
RR(sllw,   0x80000000,         0xffffffff,         0)
RR(sllw,   0x123456789abcdef0, 0xfedcba9876543f21, 0x3579bde0)

RR(srlw,   7,                  3,                  0)
RR(srlw,   0xfffffffffffffff9, 3,                  0x1fffffff)
RR(srlw,   0x8000000000000000, 0xffffffffffffffff, 0)
RR(srlw,   0xffffffffffffffff, 0,                  0xffffffffffffffff)
RR(srlw,   0x80000000,         0xffffffff,         1)
RR(srlw,   0x123456789abcdef0, 0xfedcba9876543f21, 0x4d5e6f78)

RR(sraw,   7,                  3,                  0)
RR(sraw,   0xfffffffffffffff9, 3,                  0xffffffffffffffff)
RR(sraw,   0x8000000000000000, 0xffffffffffffffff, 0)
RR(sraw,   0xffffffffffffffff, 0,                  0xffffffffffffffff)
RR(sraw,   0x80000000,         0xffffffff,         0xffffffffffffffff)
RR(sraw,   0x123456789abcdef0, 0xfedcba9876543f21, 0xffffffffcd5e6f78)

ON(7, 3, 10, 4,                  sub a0, a0, a1)
ON(7, 3, 11, 4,                  sub a1, a0, a1)
ON(7, 3, 12, 0,                  sub a2, a0, a0)
ON(7, 3, 10, 0,                  sub a0, a0, a0)
ON(7, 3, 12, 0xfffffffffffffffd, sub a2, zero, a1)
ON(7, 3, 12, 7,                  sub a2, a0, zero)
ON(7, 3, 0, 0,                   sub zero, a0, a1)
ON(7, 3, 10, 4,                  subw a0, a0, a1)
ON(7, 3, 11, 4,                  subw a1, a0, a1)
ON(7, 3, 0, 0,                   subw zero, a0, a1)

END

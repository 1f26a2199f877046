/*
 * Operations on a register and an immediate: the operation, its operand, the immediate, and what it gives. This was computed by the
 * manual's rules in exact integers of another language.
 */
#include "rows.h"

#define RI(op, a, immediate, want) \
    INSTRUCTIONS(1, 4, op a2, a0, immediate); TWO_TO_ONE(10, a, 0, 0, 12, want); NO_MEMORY
#define UPPER(op, immediate, want) \
    INSTRUCTIONS(1, 4, op a2, immediate); TWO_TO_ONE(0, 0, 0, 0, 12, want); NO_MEMORY

/* Changes no register. */
#define QUIET(...) INSTRUCTIONS(1, 4, __VA_ARGS__); TWO_TO_ONE(10, 7, 11, 7, 0, 0); NO_MEMORY

ROWS

RI(addi,   7,                  3,   0xa)
RI(addi,   0xfffffffffffffff9, 3,   0xfffffffffffffffc)
RI(addi,   0x8000000000000000, -1,  0x7fffffffffffffff)
RI(addi,   0xffffffffffffffff, 0,   0xffffffffffffffff)

RI(slti,   7,                  3,   0)
RI(slti,   0xfffffffffffffff9, 3,   1)
RI(slti,   0x8000000000000000, -1,  1)
RI(slti,   0xffffffffffffffff, 0,   1)

RI(sltiu,  7,                  3,   0)
RI(sltiu,  0xfffffffffffffff9, 3,   0)
RI(sltiu,  0x8000000000000000, -1,  1)
RI(sltiu,  0xffffffffffffffff, 0,   0)

RI(xori,   7,                  3,   4)
RI(xori,   0xfffffffffffffff9, 3,   0xfffffffffffffffa)
RI(xori,   0x8000000000000000, -1,  0x7fffffffffffffff)
RI(xori,   0xffffffffffffffff, 0,   0xffffffffffffffff)

RI(ori,    7,                  3,   7)
RI(ori,    0xfffffffffffffff9, 3,   0xfffffffffffffffb)
RI(ori,    0x8000000000000000, -1,  0xffffffffffffffff)
RI(ori,    0xffffffffffffffff, 0,   0xffffffffffffffff)

RI(andi,   7,                  3,   3)
RI(andi,   0xfffffffffffffff9, 3,   1)
RI(andi,   0x8000000000000000, -1,  0x8000000000000000)
RI(andi,   0xffffffffffffffff, 0,   0)

RI(addiw,  7,                  3,   0xa)
RI(addiw,  0xfffffffffffffff9, 3,   0xfffffffffffffffc)
RI(addiw,  0x8000000000000000, -1,  0xffffffffffffffff)
RI(addiw,  0xffffffffffffffff, 0,   0xffffffffffffffff)

RI(slli,   7,                  3,   0x38)
RI(slli,   0xfffffffffffffff9, 3,   0xffffffffffffffc8)
RI(slli,   0x8000000000000000, 63,  0)
RI(slli,   0xffffffffffffffff, 0,   0xffffffffffffffff)
RI(slli,   0x80000000,         63,  0)
RI(slli,   0x123456789abcdef0, 33,  0x3579bde000000000)

RI(srli,   7,                  3,   0)
RI(srli,   0xfffffffffffffff9, 3,   0x1fffffffffffffff)
RI(srli,   0x8000000000000000, 63,  1)
RI(srli,   0xffffffffffffffff, 0,   0xffffffffffffffff)
RI(srli,   0x80000000,         63,  0)
RI(srli,   0x123456789abcdef0, 33,  0x91a2b3c)

RI(srai,   7,                  3,   0)
RI(srai,   0xfffffffffffffff9, 3,   0xffffffffffffffff)
RI(srai,   0x8000000000000000, 63,  0xffffffffffffffff)
RI(srai,   0xffffffffffffffff, 0,   0xffffffffffffffff)
RI(srai,   0x80000000,         63,  0)
RI(srai,   0x123456789abcdef0, 33,  0x91a2b3c)

RI(slliw,  7,                  3,   0x38)
RI(slliw,  0xfffffffffffffff9, 3,   0xffffffffffffffc8)
RI(slliw,  0x8000000000000000, 31,  0)
RI(slliw,  0xffffffffffffffff, 0,   0xffffffffffffffff)
RI(slliw,  0x80000000,         31,  0)
RI(slliw,  0x123456789abcdef0, 1,   0x3579bde0)

RI(srliw,  7,                  3,   0)
RI(srliw,  0xfffffffffffffff9, 3,   0x1fffffff)
RI(srliw,  0x8000000000000000, 31,  0)
RI(srliw,  0xffffffffffffffff, 0,   0xffffffffffffffff)
RI(srliw,  0x80000000,         31,  1)
RI(srliw,  0x123456789abcdef0, 1,   0x4d5e6f78)

RI(sraiw,  7,                  3,   0)
RI(sraiw,  0xfffffffffffffff9, 3,   0xffffffffffffffff)
RI(sraiw,  0x8000000000000000, 31,  0)
RI(sraiw,  0xffffffffffffffff, 0,   0xffffffffffffffff)
RI(sraiw,  0x80000000,         31,  0xffffffffffffffff)
RI(sraiw,  0x123456789abcdef0, 1,   0xffffffffcd5e6f78)

/* An immediate of 20 bits. */
UPPER(lui, 0x80000, 0xffffffff80000000)
UPPER(auipc, 0xfffff, CODE - 0x1000)

/* Negative ones, and x0, which nothing changes. */
RI(addi, 0, -1, 0xffffffffffffffff)
QUIET(addi zero, a0, 1)
QUIET(slli zero, a0, 1)
QUIET(lui zero, 1)
QUIET(fence)
QUIET(fence.i)

END

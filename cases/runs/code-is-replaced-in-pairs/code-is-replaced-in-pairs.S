/* Two instructions of which one or both are replaced between two passes through them: what they do then is done, from both on. */
#include "steps.h"

#define OP(...) __VA_ARGS__

/*
 * First and second, and another second and another first. With a0 and a1: the sum of a0 and a1 after first and second, after first and other
 * second, after other first and other second, and after other second alone.
 */
#define REPLACE(first, second, other_second, other_first, m, n, both, second_new, both_new, alone) \
    CODE(0x40000, 4, first; second; add a0, a0, a1; ret); CALL(0x40000, m, n, both); \
    CODE(0x40004, 1, other_second); CALL(0x40000, m, n, second_new); CALL(0x40004, m, n, alone); \
    CODE(0x40000, 1, other_first); CALL(0x40000, m, n, both_new); CALL(0x40004, m, n, alone); \
    CODE(0x40000, 2, first; second); CALL(0x40000, m, n, both)

STEPS

MAP(0x40000, 1)
PROTECT(0x40000, 1, READ | EXEC)
MAP(0x80000, 1)
PUT(0x80000, 4, .word 5; .word 0; .word 7; .word 0)

REPLACE(OP(addi a0, a0, 1), OP(addi a0, a0, 2),  OP(addi a0, a0, 16), OP(addi a0, a0, 32), 0, 0,       3, 17, 48, 16)
REPLACE(OP(addi a0, a0, 1), OP(addi a1, a0, 2),  OP(slli a1, a0, 4),  OP(slli a0, a0, 1),  3, 0,       10, 68, 102, 51)
REPLACE(OP(addi a0, a0, 1), OP(addi a1, a1, 2),  OP(addi a1, a1, 2),  OP(addi a1, a1, 1),  3, 0,       6, 6, 6, 5)
REPLACE(OP(ld a1, 0(a0)),   OP(ld a0, 8(a0)),    OP(ld a0, 0(a0)),    OP(ld a1, 8(a0)),    0x80000, 0, 12, 10, 12, 5)
REPLACE(OP(ld a1, 0(a0)),   OP(addi a0, a1, 1),  OP(ld a0, 8(a0)),    OP(addi a1, a1, 9),  0x80000, 0, 11, 12, 16, 7)
REPLACE(OP(slli a0, a0, 2), OP(add a0, a0, a1),  OP(sub a0, a0, a1),  OP(srli a0, a0, 2),  8, 1,       34, 32, 2, 8)
REPLACE(OP(or a0, a0, a1),  OP(or a1, a0, a1),   OP(xor a1, a0, a1),  OP(and a0, a0, a1),  6, 3,       14, 11, 3, 11)
REPLACE(OP(addiw a0, a0, 1), OP(addiw a0, a0, 1), OP(addi a0, a0, 1), OP(addi a0, a0, 1),  0x7fffffff, 0, 0xffffffff80000001, 0xffffffff80000001, 0x80000001, 0x80000000)
REPLACE(OP(addi a0, a0, -1), OP(bne a0, zero, . + 8), OP(beq a0, zero, . + 8), OP(addi a0, a0, -2), 1, 7, 7, 0, 6, 8)
REPLACE(OP(addi a0, a0, 1), OP(jal zero, . + 8), OP(jal zero, . + 4), OP(addi a0, a0, 2),  1, 7,       2, 9, 10, 8)

/* A store of both is seen, and then one of one of them. */
CODE(0x40000, 3, sd a1, 0x100(a0); sd a1, 0x108(a0); ret)
CALL(0x40000, 0x80000, 0x55, 0x80000)
HAS(0x80100, 8, 0x55)
HAS(0x80108, 8, 0x55)
CODE(0x40004, 1, sw a1, 0x110(a0))
CALL(0x40000, 0x80000, 0x66, 0x80000)
HAS(0x80100, 8, 0x66)
HAS(0x80108, 8, 0x55)
HAS(0x80110, 8, 0x66)

/* The second is none, traps, or calls. */
CODE(0x40000, 3, addi a0, a0, 1; addi a0, a0, 2; ret)
CALL(0x40000, 0, 0, 3)
CODE(0x40004, 1, .word 0)
DIES(0x40000, 0, 0, ILL)
CODE(0x40004, 1, ebreak)
DIES(0x40000, 0, 0, TRAP)
CODE(0x40004, 1, ecall)
EXITS(0x40000, 0, 0, 1)
CODE(0x40004, 1, addi a0, a0, 4)
CALL(0x40000, 0, 0, 5)
CODE(0x40000, 1, .word 0)
DIES(0x40000, 0, 0, ILL)
CALL(0x40004, 0, 0, 4)
CODE(0x40000, 1, addi a0, a0, 8)
CALL(0x40000, 0, 0, 12)

/* What is before a pair becomes one with its first, and what is behind it with its second. */
CODE(0x40000, 5, addi a0, a0, 1; fence; addi a0, a0, 2; fence; ret)
CALL(0x40000, 0, 0, 3)
CODE(0x40004, 1, addi a0, a0, 16)
CALL(0x40000, 0, 0, 19)
CALL(0x40004, 0, 0, 18)
CODE(0x4000c, 1, addi a0, a0, 32)
CALL(0x40000, 0, 0, 51)
CALL(0x40008, 0, 0, 34)
CODE(0x40008, 1, slli a0, a0, 8)
CALL(0x40000, 0, 0, 0x1120)
CODE(0x40008, 1, fence)
CALL(0x40000, 0, 0, 49)

/* The right to execute is taken away, and given again, with the same code: then it is done as it was. Between, it may be written, and it isn't. */
PROTECT(0x40000, 1, READ | WRITE)
DIES(0x40000, 0, 0, SEGV)
PROTECT(0x40000, 1, EXEC)
CALL(0x40000, 0, 0, 49)
PROTECT(0x40000, 1, READ)
DIES(0x40000, 0, 0, SEGV)
PROTECT(0x40000, 1, 0)
DIES(0x40000, 0, 0, SEGV)
PROTECT(0x40000, 1, READ | EXEC)
CALL(0x40000, 0, 0, 49)

/* A store to it is SEGV, and changes nothing. */
CODE(0x40100, 2, sw zero, 0(a0); ret)
DIES(0x40100, 0x40004, 0, SEGV)
CALL(0x40000, 0, 0, 49)

/* New pages of zeros take its place, while it could be executed. */
MAP(0x40000, 1)
DIES(0x40000, 0, 0, SEGV)
PROTECT(0x40000, 1, READ | EXEC)
DIES(0x40000, 0, 0, ILL)
CODE(0x40000, 3, addi a0, a0, 1; addi a0, a0, 1; ret)
CALL(0x40000, 0, 0, 2)

END

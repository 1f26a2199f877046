/*
 * Two instructions of which the first is a page's last word and the second the next page's first one. Both are done from the first on, and
 * the second alone from itself on; where the second page may not be executed or isn't there, the first leads to SEGV. 0x40000 and 0x41000
 * are the pages, and 0x80000 has data.
 */
#include "steps.h"

/* Both, with a0 and a1, what is in a0 then, and what the second alone leaves there. */
#define OVER(first, second, m, n, both, alone) \
    CODE(0x40ffc, 1, first); CODE(0x41000, 3, second; add a0, a0, a1; ret); \
    CALL(0x40ffc, m, n, both); CALL(0x41000, m, n, alone); CALL(0x40ffc, m, n, both); \
    PROTECT(0x41000, 1, READ); DIES(0x40ffc, m, n, SEGV); PROTECT(0x41000, 1, READ | EXEC); CALL(0x40ffc, m, n, both)

#define OP(...) __VA_ARGS__

STEPS

MAP(0x40000, 2)
PROTECT(0x40000, 2, READ | EXEC)
MAP(0x80000, 1)
PUT(0x80000, 4, .word 0x80010; .word 0; .word 5; .word 0)
PUT(0x80010, 4, .word 100; .word 0; .word 200; .word 0)

/* What is left: a0 and a1, whose sum is made. */
OVER(OP(addi a0, a0, 1),  OP(addi a1, a0, 2),     10, 1000,     24,      22)
OVER(OP(ld a0, 0(a0)),    OP(ld a1, 8(a0)),       0x80000, 0,   0x80010 + 200, 0x80000 + 5)
OVER(OP(ld a1, 8(a0)),    OP(addi a0, a1, 3),     0x80000, 7,   5 + 5 + 3, 7 + 7 + 3)
OVER(OP(slli a0, a0, 3),  OP(add a1, a1, a0),     5, 100,       180,     110)
OVER(OP(slli a0, a0, 56), OP(srli a0, a0, 56),    0x105, 0,     5,       0x105 >> 56)
OVER(OP(andi a0, a0, 15), OP(slli a1, a0, 4),     0x123, 0,     3 + 0x30, 0x123 + 0x1230)
OVER(OP(addw a0, a0, a1), OP(xor a1, a0, a1),     6, 3,         9 + 10,  6 + 5)
OVER(OP(addi a0, a0, -1), OP(bne a0, zero, . + 8), 1, 50,       50,      1)
OVER(OP(addi a0, a0, 5),  OP(jal zero, . + 8),    1, 50,        6,       1)
OVER(OP(lui a0, 2),       OP(addi a0, a0, 3),     1, 50,        0x2003 + 50, 54)
OVER(OP(auipc a0, 1),     OP(addi a0, a0, 4),     1, 0,         0x42000, 5)
OVER(OP(addi a1, a1, 0),  OP(auipc a0, 1),        1, 0,         0x42000, 0x42000)

/* A jump to what the first one has added up. */
CODE(0x40ffc, 1, addi a0, a0, 8)
CODE(0x41000, 4, jalr a1, 0(a0); ret; addi a0, a1, 0; ret)
CALL(0x40ffc, 0x41000, 0, 0x41004)
CALL(0x41000, 0x41008, 0, 0x41004)

/* A store of both. */
CODE(0x40ffc, 1, sd a1, 0(a0))
CODE(0x41000, 2, sd a1, 8(a0); ret)
CALL(0x40ffc, 0x80100, 0x77, 0x80100)
HAS(0x80100, 8, 0x77)
HAS(0x80108, 8, 0x77)
CALL(0x41000, 0x80100, 0x88, 0x80100)
HAS(0x80100, 8, 0x77)
HAS(0x80108, 8, 0x88)

/* The second one is changed, and then the first one, each in its own page alone. */
CODE(0x40ffc, 1, addi a0, a0, 1)
CODE(0x41000, 2, addi a0, a0, 2; ret)
CALL(0x40ffc, 0, 0, 3)
CODE(0x41000, 1, addi a0, a0, 16)
CALL(0x40ffc, 0, 0, 17)
CODE(0x41000, 1, slli a0, a0, 4)
CALL(0x40ffc, 2, 0, 48)
CODE(0x41000, 1, ebreak)
DIES(0x40ffc, 2, 0, TRAP)
CODE(0x41000, 1, .word 0)
DIES(0x40ffc, 2, 0, ILL)
CODE(0x41000, 1, ret)
CALL(0x40ffc, 2, 0, 3)
CODE(0x41000, 2, addi a0, a0, 2; ret)
CODE(0x40ffc, 1, slli a0, a0, 8)
CALL(0x40ffc, 1, 0, 0x102)
CODE(0x40ffc, 1, .word 0)
DIES(0x40ffc, 1, 0, ILL)
CALL(0x41000, 1, 0, 3)

/* The second page goes, and comes with another instruction. */
CODE(0x40ffc, 1, addi a0, a0, 1)
CALL(0x40ffc, 0, 0, 3)
UNMAP(0x41000, 1)
DIES(0x40ffc, 0, 0, SEGV)
MAP(0x41000, 1)
CODE(0x41000, 2, addi a0, a0, 64; ret)
CALL(0x40ffc, 0, 0, 65)

/* So does the first. */
UNMAP(0x40000, 1)
DIES(0x40ffc, 0, 0, SEGV)
CALL(0x41000, 0, 0, 64)
MAP(0x40000, 1)
CODE(0x40ffc, 1, addi a0, a0, 128)
CALL(0x40ffc, 0, 0, 192)

END

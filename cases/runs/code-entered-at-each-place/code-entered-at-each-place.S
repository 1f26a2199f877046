/*
 * Five instructions of which any two neighbours are a frequent pair, entered at each of them: from a page elsewhere, and from the same page by a jump,
 * a branch and JALR, from before and from behind. They stand at 0x40400.
 */
#include "steps.h"

/* Where the first is led to from; the others from 4 bytes further each, of JALR 8. */
#define JUMPS_ON     0x40000
#define BRANCHES_ON  0x40100
#define JUMPS_BACK   0x40800
#define BRANCHES_BACK 0x40900
#define JUMPS_BY_REGISTER 0x40a00

#define ALL(place, m, n, wanted) \
    CALL(0x40400 + place, m, n, wanted); CALL(JUMPS_ON + place, m, n, wanted); CALL(BRANCHES_ON + place, m, n, wanted); \
    CALL(JUMPS_BACK + place, m, n, wanted); CALL(BRANCHES_BACK + place, m, n, wanted); CALL(JUMPS_BY_REGISTER + 2 * place, m, n, wanted)

/* Five instructions, a0 and a1, and what is in a0 where all are done, four, three, two and one. */
#define FIVE(code, m, n, five, four, three, two, one) \
    CODE(0x40400, 6, code; ret); ALL(0, m, n, five); ALL(4, m, n, four); ALL(8, m, n, three); ALL(12, m, n, two); ALL(16, m, n, one)

#define OP(...) __VA_ARGS__

STEPS

MAP(0x40000, 1)
PUT(JUMPS_ON, 5, jal zero, . + 0x400; jal zero, . + 0x400; jal zero, . + 0x400; jal zero, . + 0x400; jal zero, . + 0x400)
PUT(BRANCHES_ON, 5, beq a2, zero, . + 0x300; bgeu a0, zero, . + 0x300; beq zero, a2, . + 0x300; bge zero, a2, . + 0x300; bgeu a1, a2, . + 0x300)
PUT(JUMPS_BACK, 5, jal zero, . - 0x400; jal zero, . - 0x400; jal zero, . - 0x400; jal zero, . - 0x400; jal zero, . - 0x400)
PUT(BRANCHES_BACK, 5, beq a2, zero, . - 0x500; bgeu a0, zero, . - 0x500; beq zero, a2, . - 0x500; bge zero, a2, . - 0x500; bgeu a1, a2, . - 0x500)
PUT(JUMPS_BY_REGISTER, 6, jalr zero, -0x600(t5); .word 0; jalr zero, -0x604(t5); .word 0; jalr zero, -0x608(t5); .word 0)
PUT(JUMPS_BY_REGISTER + 24, 3, jalr zero, -0x60c(t5); .word 0; jalr zero, -0x610(t5))
PROTECT(0x40000, 1, READ | EXEC)
MAP(0x80000, 1)
PUT(0x80000, 8, .word 0x80008; .word 0; .word 0x80010; .word 0; .word 0x80018; .word 0; .word 0x80020; .word 0)
PUT(0x80020, 8, .word 0x80028; .word 0; .word 0x80030; .word 0; .word 0x80038; .word 0; .word 0x80040; .word 0)

FIVE(OP(addi a0, a0, 1; addi a0, a0, 2; addi a0, a0, 4; addi a0, a0, 8; addi a0, a0, 16), 0x100, 0, 0x11f, 0x11e, 0x11c, 0x118, 0x110)
FIVE(OP(addi a0, a0, 1; addi a1, a0, 2; addi a0, a1, 4; addi a1, a0, 8; addi a0, a1, 16), 0x100, 0x200, 0x11f, 0x11e, 0x21c, 0x118, 0x210)
FIVE(OP(ld a0, 0(a0); ld a0, 0(a0); ld a0, 0(a0); ld a0, 0(a0); ld a0, 0(a0)), 0x80000, 0, 0x80028, 0x80020, 0x80018, 0x80010, 0x80008)
FIVE(OP(ld a1, 0(a0); ld a0, 8(a1); ld a1, 0(a0); ld a0, 8(a1); ld a0, 0(a0)), 0x80000, 0x80010, \
     0x80038, 0x80040, 0x80020, 0x80028, 0x80008)
FIVE(OP(add a0, a0, a0; add a0, a0, a0; add a0, a0, a0; add a0, a0, a0; add a0, a0, a0), 3, 0, 96, 48, 24, 12, 6)
FIVE(OP(slli a0, a0, 4; add a0, a0, a1; slli a0, a0, 4; add a0, a0, a1; slli a0, a0, 4), 1, 2, 0x1220, 0x320, 0x120, 0x30, 0x10)
FIVE(OP(addiw a0, a0, 1; addiw a0, a0, 1; slliw a0, a0, 4; srliw a0, a0, 4; slliw a0, a0, 8), 0x7fffffff, 0, \
     0x100, 0, 0xffffffffffffff00, 0xffffffffffffff00, 0xffffffffffffff00)
FIVE(OP(addw a0, a0, a1; xor a0, a0, a1; addw a0, a0, a1; xor a0, a0, a1; or a0, a0, a1), 6, 3, 15, 11, 11, 7, 7)
FIVE(OP(lui a0, 1; addi a0, a0, 1; slli a0, a0, 1; srli a0, a0, 1; add a0, a0, a1), 8, 5, 0x1006, 14, 13, 9, 13)
FIVE(OP(ld a0, 0(a0); addi a0, a0, 8; ld a0, 0(a0); addi a0, a0, 1; andi a0, a0, 0x7f), 0x80000, 0, 0x19, 0x11, 0x09, 0x01, 0)

/* Stores beside loads: bytes that go on from one to the next. */
PUT(0x80100, 2, .word 1; .word 0)
FIVE(OP(lb a1, 0(a0); sb a1, 1(a0); lb a1, 1(a0); sb a1, 2(a0); lb a0, 2(a0)), 0x80100, 9, 1, 9, 9, 9, 9)

END

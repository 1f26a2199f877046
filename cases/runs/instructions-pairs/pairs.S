/* Pairs of instructions, without memory. */
#include "pairs.h"

ROWS

/* addi, addi: beside each other, the one from the other, in one register, and with x0. */
PAIR(OP(addi a2, a0, 5),     OP(addi a3, a1, 6),    (100, 20, 3, 7), (4, 12, 105, 13, 26),   (4, 13, 26, 0, 0))
PAIR(OP(addi a2, a0, 5),     OP(addi a3, a2, 6),    (100, 20, 3, 7), (4, 12, 105, 13, 111),  (4, 13, 9, 0, 0))
PAIR(OP(addi a0, a0, 5),     OP(addi a0, a0, 6),    (100, 20, 3, 7), (4, 10, 111, 0, 0),     (4, 10, 106, 0, 0))
PAIR(OP(addi a2, a0, 5),     OP(addi a2, a1, 6),    (100, 20, 3, 7), (4, 12, 26, 0, 0),      (4, 12, 26, 0, 0))
PAIR(OP(addi a2, a0, -2048), OP(addi a3, a2, 2047), (100, 20, 3, 7), (4, 12, -1948, 13, 99), (4, 13, 2050, 0, 0))
PAIR(OP(addi a0, a1, 0),     OP(addi a1, a0, 0),    (100, 20, 3, 7), (4, 10, 20, 0, 0),      (4, 11, 100, 0, 0))
PAIR(OP(addi zero, a0, 5),   OP(addi a2, zero, 6),  (100, 20, 3, 7), (4, 12, 6, 0, 0),       (4, 12, 6, 0, 0))
PAIR(OP(addi a2, a0, 5),     OP(addi zero, a2, 6),  (100, 20, 3, 7), (4, 12, 105, 0, 0),     (4, 0, 0, 0, 0))

/* Sums. */
PAIR(OP(add a2, a0, a1),  OP(add a3, a2, a0),   (100, 20, 3, 7), (4, 12, 120, 13, 220), (4, 13, 103, 0, 0))
PAIR(OP(add a0, a0, a1),  OP(add a0, a0, a0),   (100, 20, 3, 7), (4, 10, 240, 0, 0),    (4, 10, 200, 0, 0))
PAIR(OP(add zero, a0, a1), OP(add a0, zero, a1), (100, 20, 3, 7), (4, 10, 20, 0, 0),    (4, 10, 20, 0, 0))
PAIR(OP(add a2, a0, a1),  OP(addi a3, a2, -1),  (100, 20, 3, 7), (4, 12, 120, 13, 119), (4, 13, 2, 0, 0))
PAIR(OP(addi a2, a0, 1),  OP(add a3, a2, a1),   (100, 20, 3, 7), (4, 12, 101, 13, 121), (4, 13, 23, 0, 0))
PAIR(OP(addi a2, a0, 1),  OP(mul a3, a2, a1),   (100, 20, 3, 7), (4, 12, 101, 13, 2020), (4, 13, 60, 0, 0))
PAIR(OP(mul a2, a0, a1),  OP(add a3, a2, a0),   (100, 20, 3, 7), (4, 12, 2000, 13, 2100), (4, 13, 103, 0, 0))
PAIR(OP(mul a2, a0, a0),  OP(add a2, a2, a2),   (0x100000001, 20, 3, 7), (4, 12, 0x400000002, 0, 0), (4, 12, 6, 0, 0))
PAIR(OP(add a2, a0, a1),  OP(andi a3, a2, -8),  (100, 22, 15, 7), (4, 12, 122, 13, 120), (4, 13, 8, 0, 0))
PAIR(OP(andi a2, a0, 15), OP(addi a3, a2, 1),   (100, 20, 3, 7), (4, 12, 4, 13, 5),     (4, 13, 4, 0, 0))
PAIR(OP(addiw a2, a0, 1), OP(addiw a3, a2, -1), (0x7fffffff, 20, 0x100000000, 7), (4, 12, 0xffffffff80000000, 13, 0x7fffffff), (4, 13, -1, 0, 0))
PAIR(OP(addiw a0, a0, 1), OP(addiw a0, a0, 1),  (0xffffffff, 20, 3, 7), (4, 10, 1, 0, 0), (4, 10, 0, 0, 0))
PAIR(OP(addiw a2, a0, 0), OP(addi a3, a2, 1),   (0xffffffff, 20, 0xffffffff, 7), (4, 12, -1, 13, 0), (4, 13, 0x100000000, 0, 0))
PAIR(OP(addw a2, a0, a1), OP(xor a3, a2, a1),   (0x7fffffff, 1, 3, 7), (4, 12, 0xffffffff80000000, 13, 0xffffffff80000001), (4, 13, 2, 0, 0))
PAIR(OP(addw a2, a0, a1), OP(addiw a3, a2, -1), (0x7fffffff, 1, 3, 7), (4, 12, 0xffffffff80000000, 13, 0x7fffffff), (4, 13, 2, 0, 0))
PAIR(OP(or a2, a0, a1),   OP(or a3, a2, a0),    (0x50, 0x05, 0x300, 7), (4, 12, 0x55, 13, 0x55), (4, 13, 0x350, 0, 0))
PAIR(OP(or a0, a0, a1),   OP(or a0, a0, a2),    (0x50, 0x05, 0x300, 7), (4, 10, 0x355, 0, 0), (4, 10, 0x350, 0, 0))

/* Shifts. */
PAIR(OP(slli a2, a0, 3),   OP(add a3, a2, a1),   (100, 20, 3, 7), (4, 12, 800, 13, 820), (4, 13, 23, 0, 0))
PAIR(OP(slli a0, a0, 3),   OP(add a0, a0, a0),   (100, 20, 3, 7), (4, 10, 1600, 0, 0),   (4, 10, 200, 0, 0))
PAIR(OP(slli a2, a0, 48),  OP(srli a3, a2, 48),  (0x12345678, 20, -1, 7), (4, 12, 0x5678000000000000, 13, 0x5678), (4, 13, 0xffff, 0, 0))
PAIR(OP(slli a2, a0, 63),  OP(srli a3, a2, 63),  (3, 20, -1, 7), (4, 12, 0x8000000000000000, 13, 1), (4, 13, 1, 0, 0))
PAIR(OP(srli a2, a0, 4),   OP(slli a3, a2, 8),   (0x1234, 20, 3, 7), (4, 12, 0x123, 13, 0x12300), (4, 13, 0x300, 0, 0))
PAIR(OP(srli a2, a0, 4),   OP(add a3, a2, a1),   (0x1234, 20, 3, 7), (4, 12, 0x123, 13, 0x137), (4, 13, 23, 0, 0))
PAIR(OP(slli a2, a0, 4),   OP(xor a3, a2, a0),   (0x1234, 20, 3, 7), (4, 12, 0x12340, 13, 0x13174), (4, 13, 0x1237, 0, 0))
PAIR(OP(andi a2, a0, 15),  OP(slli a3, a2, 4),   (0x1234, 20, 3, 7), (4, 12, 4, 13, 0x40), (4, 13, 0x30, 0, 0))
PAIR(OP(andi a0, a0, -16), OP(slli a0, a0, 4),   (0x1234, 20, 3, 7), (4, 10, 0x12300, 0, 0), (4, 10, 0x12340, 0, 0))
PAIR(OP(addi a2, a0, 1),   OP(slli a3, a2, 2),   (100, 20, 3, 7), (4, 12, 101, 13, 404), (4, 13, 12, 0, 0))
PAIR(OP(slliw a2, a0, 8),  OP(srliw a3, a2, 24), (0x12ff5678, 20, -1, 7), (4, 12, 0xffffffffff567800, 13, 0xff), (4, 13, 0xff, 0, 0))
PAIR(OP(slliw a0, a0, 31), OP(srliw a0, a0, 31), (3, 20, -1, 7), (4, 10, 1, 0, 0), (4, 10, 0, 0, 0))
PAIR(OP(srliw a2, a0, 4),  OP(slliw a3, a2, 8),  (0xffffffff80000010, 20, 3, 7), (4, 12, 0x8000001, 13, 0x100), (4, 13, 0x300, 0, 0))

/* Upper immediates. */
PAIR(OP(lui a2, 0x12345),  OP(addi a3, a2, 0x678), (100, 20, 3, 7), (4, 12, 0x12345000, 13, 0x12345678), (4, 13, 0x67b, 0, 0))
PAIR(OP(lui a2, 0x80000),  OP(addi a2, a2, -1),    (100, 20, 3, 7), (4, 12, 0xffffffff7fffffff, 0, 0),   (4, 12, 2, 0, 0))
PAIR(OP(lui a2, 0x80000),  OP(addiw a2, a2, -1),   (100, 20, 3, 7), (4, 12, 0x7fffffff, 0, 0),           (4, 12, 2, 0, 0))
PAIR(OP(lui zero, 0x12345), OP(addi a2, zero, 1),  (100, 20, 3, 7), (4, 12, 1, 0, 0),                    (4, 12, 1, 0, 0))
PAIR(OP(auipc a2, 1),      OP(addi a3, a2, 8),     (100, 20, 3, 7), (4, 12, second + 0xffc, 13, second + 0x1004), (4, 13, 11, 0, 0))
PAIR(OP(auipc a2, 0x80000), OP(addi a2, a2, -4),   (100, 20, 3, 7), (4, 12, second - 0x80000008, 0, 0),  (4, 12, -1, 0, 0))
PAIR(OP(addi a2, a0, 1),   OP(auipc a3, 0x10),     (100, 20, 3, 7), (4, 12, 101, 13, second + 0x10000),  (4, 13, second + 0x10000, 0, 0))

/* Branches as the second, taken and not. */
PAIR(OP(addi a0, a0, -1), OP(bne a0, a1, . + 12),   (21, 20, 3, 7), (4, 10, 20, 0, 0),   (12, 0, 0, 0, 0))
PAIR(OP(addi a0, a0, -1), OP(bne a0, a1, . + 12),   (20, 20, 3, 7), (12, 10, 19, 0, 0),  (4, 0, 0, 0, 0))
PAIR(OP(addi a0, a0, 1),  OP(bne a1, zero, . + 12), (20, 0, 3, 7),  (4, 10, 21, 0, 0),   (4, 0, 0, 0, 0))
PAIR(OP(addi zero, a0, 1), OP(bne zero, a1, . + 12), (20, 0, 3, 7), (4, 0, 0, 0, 0),     (4, 0, 0, 0, 0))
PAIR(OP(addi a0, a0, -1), OP(bne a0, a1, . - 0x100), (20, 20, 3, 7), (-0x100, 10, 19, 0, 0), (4, 0, 0, 0, 0))
PAIR(OP(addi a0, a0, -1), OP(beq a0, a1, . + 12),   (21, 20, 3, 7), (12, 10, 20, 0, 0),  (4, 0, 0, 0, 0))
PAIR(OP(addi a0, a0, -1), OP(beq a0, a1, . + 12),   (20, 20, 3, 7), (4, 10, 19, 0, 0),   (12, 0, 0, 0, 0))
PAIR(OP(add a0, a0, a1),  OP(bne a0, a2, . + 12),   (100, 20, 120, 7), (4, 10, 120, 0, 0), (12, 0, 0, 0, 0))
PAIR(OP(add a0, a0, a1),  OP(bne a0, a2, . + 12),   (120, 20, 120, 7), (12, 10, 140, 0, 0), (4, 0, 0, 0, 0))
PAIR(OP(add a0, a0, a1),  OP(bgeu a0, a2, . + 12),  (100, 20, 120, 7), (12, 10, 120, 0, 0), (4, 0, 0, 0, 0))
PAIR(OP(add a0, a0, a1),  OP(bgeu a0, a2, . + 12),  (-1, 1, 120, 7), (4, 10, 0, 0, 0),   (12, 0, 0, 0, 0))
PAIR(OP(andi a0, a0, 1),  OP(beq a0, zero, . + 12), (2, 1, 120, 7), (12, 10, 0, 0, 0),   (4, 0, 0, 0, 0))
PAIR(OP(andi a2, a0, 1),  OP(beq a2, zero, . + 12), (1, 1, 0, 7),   (4, 12, 1, 0, 0),    (12, 0, 0, 0, 0))

/* Jumps as the second: by the link it is seen where it stood. */
PAIR(OP(addi a2, a0, 5), OP(jal zero, . + 12),    (100, 20, 3, 7), (12, 12, 105, 0, 0),             (12, 0, 0, 0, 0))
PAIR(OP(addi a2, a0, 5), OP(jal a3, . + 12),      (100, 20, 3, 7), (12, 12, 105, 13, second + 4),   (12, 13, second + 4, 0, 0))
PAIR(OP(addi a2, a0, 5), OP(jal a2, . - 0x200),   (100, 20, 3, 7), (-0x200, 12, second + 4, 0, 0),  (-0x200, 12, second + 4, 0, 0))
PAIR(OP(addi a2, s11, 0x100), OP(jalr a3, 4(a2)), (100, 20, CODE + 0x200, 7), (CODE + 0x104 - second, 12, CODE + 0x100, 13, second + 4), (CODE + 0x204 - second, 13, second + 4, 0, 0))
PAIR(OP(addi a2, s11, 0x101), OP(jalr a2, 4(a2)), (100, 20, CODE + 0x200, 7), (CODE + 0x104 - second, 12, second + 4, 0, 0), (CODE + 0x204 - second, 12, second + 4, 0, 0))
PAIR(OP(addi a2, a0, 1), OP(jalr zero, -4(s11)),  (100, 20, 3, 7), (CODE - 4 - second, 12, 101, 0, 0), (CODE - 4 - second, 0, 0, 0, 0))
PAIR(OP(auipc a2, 0),    OP(jalr a2, 0x40(a2)),   (100, 20, CODE + 0x200, 7), (0x3c, 12, second + 4, 0, 0), (CODE + 0x240 - second, 12, second + 4, 0, 0))

/* A call as the second, of a number that none has, and so NOSYS. */
PAIR(OP(addi a7, zero, 49), OP(ecall), (100, 20, 3, 7), (4, 10, 52, 17, 49), (4, 10, 52, 0, 0))

/* FENCE and FENCE.I between others. */
PAIR(OP(addi a2, a0, 5), OP(fence),              (100, 20, 3, 7), (4, 12, 105, 0, 0), (4, 0, 0, 0, 0))
PAIR(OP(fence.i),        OP(addi a2, a0, 5),     (100, 20, 3, 7), (4, 12, 105, 0, 0), (4, 12, 105, 0, 0))

END

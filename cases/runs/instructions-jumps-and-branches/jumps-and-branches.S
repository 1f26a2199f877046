/* Jumps and branches: where they go, in bytes from CODE on, a0 and a1 before, a register afterwards, and the instruction. */
#include "rows.h"

#define JUMP(end, first, second, s, m, ...) INSTRUCTIONS(1, end, __VA_ARGS__); TWO_TO_ONE(10, first, 11, second, s, m); NO_MEMORY

ROWS

JUMP(8,      0, 0,                          12, CODE + 4, jal a2, . + 8)
JUMP(-4,     0, 0,                          12, CODE + 4, jal a2, . - 4)
JUMP(8,      0, 0,                          0, 0,         jal zero, . + 8)
JUMP(0x1004, CODE + 0x1004, 0,              12, CODE + 4, jalr a2, 0(a0))
JUMP(0x1004, CODE + 0x1005, 0,              12, CODE + 4, jalr a2, 0(a0)) /* the lowest bit is cleared */
JUMP(0x1004, CODE + 0x1003, 0,              12, CODE + 4, jalr a2, 1(a0))
JUMP(0x1000, CODE + 0x1002, 0,              12, CODE + 4, jalr a2, -1(a0))
JUMP(0x1004, CODE + 0x1000, 0,              10, CODE + 4, jalr a0, 4(a0))
JUMP(8,      5, 5,                          0, 0,         beq a0, a1, . + 8)
JUMP(4,      5, 6,                          0, 0,         beq a0, a1, . + 8)
JUMP(4,      5, 6,                          0, 0,         beq a0, a1, . + 6) /* where no jump could go */
JUMP(-8,     5, 6,                          0, 0,         bne a0, a1, . - 8)
JUMP(8,      0xffffffffffffffff, 0,         0, 0,         blt a0, a1, . + 8)
JUMP(4,      0xffffffffffffffff, 0,         0, 0,         bge a0, a1, . + 8)
JUMP(4,      0xffffffffffffffff, 0,         0, 0,         bltu a0, a1, . + 8)
JUMP(8,      0xffffffffffffffff, 0,         0, 0,         bgeu a0, a1, . + 8)
JUMP(8,      5, 5,                          0, 0,         bge a0, a1, . + 8)

/* Each condition. */
JUMP(8,          5, 5,                   0, 0,         beq a0, a1, . + 8)
JUMP(4,          5, 6,                   0, 0,         beq a0, a1, . + 8)
JUMP(4,          6, 5,                   0, 0,         beq a0, a1, . + 8)
JUMP(4,          0xffffffffffffffff, 0,  0, 0,         beq a0, a1, . + 8)
JUMP(4,          0, 0xffffffffffffffff,  0, 0,         beq a0, a1, . + 8)
JUMP(4,          5, 5,                   0, 0,         bne a0, a1, . + 8)
JUMP(8,          5, 6,                   0, 0,         bne a0, a1, . + 8)
JUMP(8,          6, 5,                   0, 0,         bne a0, a1, . + 8)
JUMP(8,          0xffffffffffffffff, 0,  0, 0,         bne a0, a1, . + 8)
JUMP(8,          0, 0xffffffffffffffff,  0, 0,         bne a0, a1, . + 8)
JUMP(4,          5, 5,                   0, 0,         blt a0, a1, . + 8)
JUMP(8,          5, 6,                   0, 0,         blt a0, a1, . + 8)
JUMP(4,          6, 5,                   0, 0,         blt a0, a1, . + 8)
JUMP(8,          0xffffffffffffffff, 0,  0, 0,         blt a0, a1, . + 8)
JUMP(4,          0, 0xffffffffffffffff,  0, 0,         blt a0, a1, . + 8)
JUMP(8,          5, 5,                   0, 0,         bge a0, a1, . + 8)
JUMP(4,          5, 6,                   0, 0,         bge a0, a1, . + 8)
JUMP(8,          6, 5,                   0, 0,         bge a0, a1, . + 8)
JUMP(4,          0xffffffffffffffff, 0,  0, 0,         bge a0, a1, . + 8)
JUMP(8,          0, 0xffffffffffffffff,  0, 0,         bge a0, a1, . + 8)
JUMP(4,          5, 5,                   0, 0,         bltu a0, a1, . + 8)
JUMP(8,          5, 6,                   0, 0,         bltu a0, a1, . + 8)
JUMP(4,          6, 5,                   0, 0,         bltu a0, a1, . + 8)
JUMP(4,          0xffffffffffffffff, 0,  0, 0,         bltu a0, a1, . + 8)
JUMP(8,          0, 0xffffffffffffffff,  0, 0,         bltu a0, a1, . + 8)
JUMP(8,          5, 5,                   0, 0,         bgeu a0, a1, . + 8)
JUMP(4,          5, 6,                   0, 0,         bgeu a0, a1, . + 8)
JUMP(8,          6, 5,                   0, 0,         bgeu a0, a1, . + 8)
JUMP(8,          0xffffffffffffffff, 0,  0, 0,         bgeu a0, a1, . + 8)
JUMP(4,          0, 0xffffffffffffffff,  0, 0,         bgeu a0, a1, . + 8)

/* As far as they go to multiples of 4. */
JUMP(-4096,     5, 5,                       0, 0,         beq a0, a1, . - 4096)
JUMP(4092,      5, 6,                       0, 0,         bne a0, a1, . + 4092)
JUMP(0xff7fc,   0, 0,                       12, CODE + 4, jal a2, . + 0xff7fc)
JUMP(-0x100000, 0, 0,                       12, CODE + 4, jal a2, . - 0x100000)

END

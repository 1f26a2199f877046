/*
 * Sixty-four pages of code with no page, with pages of data and with pages of code between each two. Each adds 1 in a pair and jumps to the next one: first
 * by JAL, where a1 is 0, and else by JALR. Behind the last one is a page that goes back.
 */
#include "steps.h"

#define FIRST 0x100000
#define PAGE(number) (FIRST + number * 0x2000)

STEPS

.set number, 0
.rept 64
MAP(PAGE(number), 1)
PUT(PAGE(number), 7, addi a0, a0, 1; bne a1, zero, . + 8; jal zero, . + 0x1ff8; auipc t0, 2; addi t0, t0, -12; jalr zero, 0(t0); ret)
PUT(PAGE(number) + 0xff8, 2, addi a0, a0, 0x100; addi a0, a0, 0x100)
PROTECT(PAGE(number), 1, EXEC)
.set number, number + 1
.endr
MAP(PAGE(64), 1)
CODE(PAGE(64), 1, ret)

CALL(PAGE(0), 0, 0, 64)
CALL(PAGE(0), 0, 1, 64)
CALL(PAGE(63), 0, 1, 1)
CALL(PAGE(20), 0, 0, 44)
DIES(PAGE(20) + 0xff8, 0, 0, SEGV)

/* One in the middle goes back, and then isn't there. */
CODE(PAGE(32), 3, addi a0, a0, 1; ret; .word 0)
CALL(PAGE(0), 0, 0, 33)
CALL(PAGE(0), 0, 1, 33)
UNMAP(PAGE(32), 1)
DIES(PAGE(0), 0, 0, SEGV)
DIES(PAGE(31), 0, 1, SEGV)
CALL(PAGE(33), 0, 0, 31)
CALL(PAGE(33), 0, 1, 31)
MAP(PAGE(32), 1)
CODE(PAGE(32), 3, addi a0, a0, 2; addi a0, a0, 2; jal zero, . + 0x1ff8)
CALL(PAGE(0), 0, 0, 67)
CALL(PAGE(0), 0, 1, 67)

/* Pages of data between them, and then of code, from which a page's last words lead into the next page. */
.set number, 0
.rept 64
MAP(PAGE(number) + 0x1000, 1)
PUT(PAGE(number) + 0x1000, 2, addi a0, a0, 0x200; ret)
.set number, number + 1
.endr
CALL(PAGE(0), 0, 0, 67)
CALL(PAGE(0), 0, 1, 67)
DIES(PAGE(20) + 0xff8, 0, 0, SEGV)
.set number, 0
.rept 64
PROTECT(PAGE(number) + 0x1000, 1, EXEC)
.set number, number + 1
.endr
CALL(PAGE(0), 0, 0, 67)
CALL(PAGE(0), 0, 1, 67)
CALL(PAGE(20) + 0xff8, 0, 0, 0x400)
CALL(PAGE(63) + 0xff8, 0, 0, 0x400)

/* Every second of them goes again. */
.set number, 0
.rept 32
UNMAP(PAGE(number) + 0x1000, 1)
.set number, number + 2
.endr
CALL(PAGE(0), 0, 0, 67)
CALL(PAGE(0), 0, 1, 67)
DIES(PAGE(20) + 0xff8, 0, 0, SEGV)
CALL(PAGE(21) + 0xff8, 0, 0, 0x400)

/* The first page goes, and then the last one. */
UNMAP(PAGE(0), 1)
CALL(PAGE(1), 0, 0, 66)
CALL(PAGE(1), 0, 1, 66)
UNMAP(PAGE(64), 1)
DIES(PAGE(1), 0, 0, SEGV)
DIES(PAGE(63), 0, 1, SEGV)

END

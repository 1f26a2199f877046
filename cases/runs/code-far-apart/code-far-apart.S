/* Pages of code whose addresses differ by powers of 2: a jump leads to its own, or to none. */
#include "steps.h"

#define AT(address, number) MAP(address, 1); CODE(address, 3, jalr zero, 0(a0); addi a0, zero, number; ret)

STEPS

AT(0x40000, 1)
AT(0x100040000, 2)
AT(0x200040000, 3)
AT(0x400040000, 4)
AT(0x1000040000, 5)
AT(0x2000040000, 6)

CALL(0x40000, 0x40004, 0, 1)
CALL(0x40000, 0x100040004, 0, 2)
CALL(0x40000, 0x200040004, 0, 3)
CALL(0x40000, 0x400040004, 0, 4)
CALL(0x40000, 0x1000040004, 0, 5)
CALL(0x40000, 0x2000040004, 0, 6)
CALL(0x2000040000, 0x40004, 0, 1)
CALL(0x2000040000, 0x100040004, 0, 2)
CALL(0x400040000, 0x40004, 0, 1)
CALL(0x100040000, 0x40004, 0, 1)
DIES(0x40000, 0x800040004, 0, SEGV)
DIES(0x40000, 0x3f00040004, 0, SEGV)
DIES(0x40000, 0x4000040004, 0, SEGV)
DIES(0x40000, 0x4000000000040004, 0, SEGV)
DIES(0x40000, 0x8000000000040004, 0, SEGV)
DIES(0x40000, -4, 0, SEGV)
DIES(0x40000, 0x100040006, 0, BUS)
DIES(0x2000040000, 0x4, 0, SEGV)

/* The first word of the page before, and the word behind it: not even by a distance that is negative. */
DIES(0x40000, 0x3fffc, 0, SEGV)
DIES(0x100040000, 0xffffc, 0, SEGV)
DIES(0x100040000, 0x10003fffc, 0, SEGV)

/* As links. */
CODE(0x2000040000, 2, jal a0, . + 4; ret)
CALL(0x2000040000, 0, 0, 0x2000040004)
CODE(0x2000040000, 2, auipc a0, 0x7ffff; ret)
CALL(0x2000040000, 0, 0, 0x208003f000)
CODE(0x2000040000, 2, auipc a0, 0x80000; ret)
CALL(0x2000040000, 0, 0, 0x1f80040000)
CODE(0x2000040000, 3, auipc a0, 0xfffff; addi a0, a0, -1; ret)
CALL(0x2000040000, 0, 0, 0x200003efff)

END

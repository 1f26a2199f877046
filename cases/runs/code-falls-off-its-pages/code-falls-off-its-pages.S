/* What stands behind the last word of a page of code, which is the end of a run of such pages, or isn't. */
#include "steps.h"

STEPS

MAP(0x40000, 1)
CODE(0x40ff8, 2, addi a0, a0, 1; addi a0, a0, 2)

/* No page, then one that may be executed, and one that has each other right. */
DIES(0x40ff8, 0, 0, SEGV)
DIES(0x40ffc, 0, 0, SEGV)
MAP(0x41000, 1)
PUT(0x41000, 2, addi a0, a0, 4; ret)
DIES(0x40ff8, 0, 0, SEGV)
PROTECT(0x41000, 1, READ | EXEC)
CALL(0x40ff8, 0, 0, 7)
CALL(0x40ffc, 0, 0, 6)
CALL(0x41000, 0, 0, 4)
PROTECT(0x41000, 1, READ)
DIES(0x40ff8, 0, 0, SEGV)
DIES(0x40ffc, 0, 0, SEGV)
DIES(0x41000, 0, 0, SEGV)
PROTECT(0x41000, 1, EXEC)
CALL(0x40ff8, 0, 0, 7)
PROTECT(0x41000, 1, WRITE)
DIES(0x40ff8, 0, 0, SEGV)
PROTECT(0x41000, 1, 0)
DIES(0x40ff8, 0, 0, SEGV)
PROTECT(0x40000, 2, EXEC)
CALL(0x40ff8, 0, 0, 7)
CALL(0x40ffc, 0, 0, 6)
UNMAP(0x41000, 1)
DIES(0x40ff8, 0, 0, SEGV)
DIES(0x40ffc, 0, 0, SEGV)

/* A page of zeros, which are no instruction. */
MAP(0x41000, 1)
PROTECT(0x41000, 1, READ | EXEC)
DIES(0x40ff8, 0, 0, ILL)
DIES(0x40ffc, 0, 0, ILL)
CODE(0x41000, 1, ret)
CALL(0x40ff8, 0, 0, 3)

/* The first page isn't there any more. */
UNMAP(0x40000, 1)
DIES(0x40ffc, 0, 0, SEGV)
CALL(0x41000, 9, 0, 9)

/* The last word of the last page that there may be. */
MAP(0x3ffffff000, 1)
CODE(0x3ffffffff4, 3, ret; addi a0, a0, 1; addi a0, a0, 2)
CALL(0x3ffffffff4, 9, 0, 9)
DIES(0x3ffffffff8, 0, 0, SEGV)
DIES(0x3ffffffffc, 0, 0, SEGV)
CODE(0x3ffffffffc, 1, jal zero, . - 8)
CALL(0x3ffffffff8, 0, 0, 1)

END

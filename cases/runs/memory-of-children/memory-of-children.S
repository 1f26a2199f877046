/* What a parent and its child store after a fork, aligned and over a page's end, the one before the other and after it: neither sees the other's. */
#include "steps.h"

#define LD 0x40000
#define SD 0x40008

STEPS

MAP(0x40000, 1)
PUT(0x40000, 4, ld a0, 0(a0); ret; sd a1, 0(a0); ret)
PROTECT(0x40000, 1, EXEC)
MAP(0x80000, 2)
CALL(SD, 0x80008, 1, 0x80008)
CALL(SD, 0x80ffc, 0x0000000200000003, 0x80ffc)

/* The parent stores. */
FORK(4, 4)
CALL(SD, 0x80008, 4, 0x80008)
CALL(SD, 0x80ffc, 0x0000000500000006, 0x80ffc)
CALL(LD, 0x80008, 0, 4)
CALL(LD, 0x80ffc, 0, 0x0000000500000006)
CALL(LD, 0x80008, 0, 1)
CALL(LD, 0x80ffc, 0, 0x0000000200000003)
HAS(0x80ffc, 4, 3)
HAS(0x81000, 4, 2)
CALL(LD, 0x80008, 0, 4)

/* The child stores, to a page that the parent has only loaded from. */
FORK(0, 6)
CALL(LD, 0x80008, 0, 4)
CALL(SD, 0x80008, 7, 0x80008)
CALL(SD, 0x80ffd, 0, 0x80ffd)
CALL(LD, 0x80008, 0, 7)
HAS(0x80ffc, 4, 6)
HAS(0x81000, 4, 0)
CALL(LD, 0x80008, 0, 4)
CALL(LD, 0x80ffc, 0, 0x0000000500000006)

/* Both do, and the child has a child that does. */
FORK(2, 8)
CALL(SD, 0x80010, 8, 0x80010)
CALL(LD, 0x80010, 0, 8)
CALL(LD, 0x80010, 0, 0)
CALL(SD, 0x80010, 9, 0x80010)
FORK(2, 3)
CALL(SD, 0x80010, 10, 0x80010)
CALL(LD, 0x80010, 0, 10)
CALL(LD, 0x80010, 0, 9)
CALL(SD, 0x80010, 11, 0x80010)
CALL(LD, 0x80010, 0, 11)
CALL(LD, 0x80010, 0, 8)

/* The child's page goes, or may not be written any more: the parent's stays. */
FORK(0, 5)
PROTECT(0x80000, 1, READ)
DIES(SD, 0x80008, 0, SEGV)
UNMAP(0x81000, 1)
DIES(LD, 0x80ffc, 0, SEGV)
DIES(SD, 0x80ffc, 0, SEGV)
CALL(SD, 0x80ffc, 12, 0x80ffc)
CALL(LD, 0x80ffc, 0, 12)

/* The parent's does: the child's stays. */
FORK(2, 3)
PROTECT(0x80000, 1, READ)
UNMAP(0x81000, 1)
CALL(SD, 0x80ffc, 13, 0x80ffc)
CALL(LD, 0x80ffc, 0, 13)
CALL(LD, 0x80008, 0, 4)
DIES(SD, 0x80008, 0, SEGV)
DIES(LD, 0x80ffc, 0, SEGV)
CALL(LD, 0x80008, 0, 4)

END

/* Code that a child has of its parent: what the one changes, the other doesn't see, whichever of them it is, and whenever each has done the code. */
#include "steps.h"

STEPS

MAP(0x40000, 2)
PROTECT(0x40000, 2, READ | EXEC)
CODE(0x40000, 3, addi a0, a0, 1; addi a0, a0, 2; ret)
CODE(0x40ff8, 2, addi a0, a0, 4; addi a0, a0, 8)
CODE(0x41000, 1, ret)
CALL(0x40000, 0, 0, 3)
CALL(0x40ff8, 0, 0, 12)

/* The parent replaces the second of a pair, and the child has the old one. */
FORK(2, 3)
CODE(0x40004, 1, addi a0, a0, 16)
CALL(0x40000, 0, 0, 17)
CALL(0x40000, 0, 0, 3)
CALL(0x40004, 0, 0, 2)
CALL(0x40ff8, 0, 0, 12)
CALL(0x40000, 0, 0, 17)

/* The child replaces it, and the parent has the old one. */
FORK(0, 3)
CODE(0x40004, 1, addi a0, a0, 32)
CALL(0x40000, 0, 0, 33)
CALL(0x40ff8, 0, 0, 12)
CALL(0x40000, 0, 0, 17)
CALL(0x40004, 0, 0, 16)

/* Both replace it, each by another one. */
FORK(2, 2)
CODE(0x40004, 1, addi a0, a0, 64)
CALL(0x40000, 0, 0, 65)
CODE(0x40004, 1, slli a0, a0, 4)
CALL(0x40000, 0, 0, 16)
CALL(0x40000, 0, 0, 65)

/* The parent takes the second page away. */
FORK(2, 3)
UNMAP(0x41000, 1)
DIES(0x40ff8, 0, 0, SEGV)
CALL(0x40ff8, 0, 0, 12)
CODE(0x41000, 2, addi a0, a0, 1; ret)
CALL(0x40ff8, 0, 0, 13)
DIES(0x40ff8, 0, 0, SEGV)

/* The child adds another. */
FORK(0, 4)
DIES(0x40ff8, 0, 0, SEGV)
MAP(0x41000, 1)
CODE(0x41000, 2, addi a0, a0, 2; ret)
CALL(0x40ff8, 0, 0, 14)
DIES(0x40ff8, 0, 0, SEGV)

/* The child takes the right to execute away, and the parent gives it. */
MAP(0x41000, 1)
PUT(0x41000, 2, addi a0, a0, 3; ret)
FORK(2, 4)
PROTECT(0x41000, 1, EXEC)
CALL(0x40ff8, 0, 0, 15)
DIES(0x40ff8, 0, 0, SEGV)
CALL(0x40000, 0, 0, 65)
PROTECT(0x40000, 1, READ)
DIES(0x40000, 0, 0, SEGV)
CALL(0x40000, 0, 0, 65)
CALL(0x40ff8, 0, 0, 15)

/* A child of a child changes it, and neither of the others sees it. */
FORK(0, 6)
CODE(0x40000, 1, addi a0, a0, 5)
CALL(0x40000, 0, 0, 69)
FORK(0, 2)
CODE(0x40000, 1, addi a0, a0, 6)
CALL(0x40000, 0, 0, 70)
CALL(0x40000, 0, 0, 69)
CALL(0x40000, 0, 0, 65)

END

/* A run of pages of code that gets pages at its end, at its front and between two, and loses them again. Code that was done before is done in each. */
#include "steps.h"

/* Each page falls from its last two words into the next one, and goes back at its word 0x10 with its number added. */
#define PAGE(address, number) \
    MAP(address, 1); PUT(address + 0x10, 2, addi a0, a0, number; ret); PUT(address + 0xff8, 2, addi a0, a0, number; addi a0, a0, number)

STEPS

/* At its end: a jump leads nowhere, and then somewhere. */
PAGE(0x50000, 1)
PROTECT(0x50000, 1, READ | EXEC)
CODE(0x50020, 1, jal zero, . + 0xff0)
CODE(0x50030, 3, addi a0, a0, 2; bne a0, a1, . + 0xfe0 - 4; ret)
CALL(0x50010, 0, 0, 1)
DIES(0x50020, 0, 0, SEGV)
DIES(0x50030, 0, 0, SEGV)
CALL(0x50030, 0, 2, 2)
DIES(0x50ff8, 0, 0, SEGV)
PAGE(0x51000, 0x10)
PUT(0x51000, 2, addi a0, a0, 0x100; ret)
DIES(0x50020, 0, 0, SEGV)
DIES(0x50ff8, 0, 0, SEGV)
PROTECT(0x51000, 1, READ | EXEC)
CALL(0x50010, 0, 0, 1)
CALL(0x50020, 0, 0, 0x10)
CALL(0x50030, 0, 0, 0x12)
CALL(0x50030, 0, 2, 2)
CALL(0x50ff8, 0, 0, 0x102)
CALL(0x50ffc, 0, 0, 0x101)

/* At its front. */
CODE(0x50040, 1, jal zero, . - 0x1030)
CODE(0x50050, 2, beq a0, zero, . - 0x50; ret)
DIES(0x50040, 0, 0, SEGV)
CODE(0x50000, 2, addi a0, a0, 0x200; ret)
CALL(0x50050, 0, 0, 0x200)
PAGE(0x4f000, 5)
DIES(0x50040, 0, 0, SEGV)
PROTECT(0x4f000, 1, EXEC)
CALL(0x4f010, 0, 0, 5)
CALL(0x50010, 0, 0, 1)
CALL(0x50020, 0, 0, 0x10)
CALL(0x50030, 0, 0, 0x12)
CALL(0x50040, 0, 0, 5)
CALL(0x50050, 0, 0, 0x200)
CALL(0x50ff8, 0, 0, 0x102)
CALL(0x4fff8, 0, 0, 0x20a)
CALL(0x4fffc, 0, 0, 0x205)
CALL(0x51010, 0, 0, 0x10)

/* Two runs, with no page, a page that may be read, and a page of code between them. */
PAGE(0x53000, 3)
PUT(0x53000, 2, addi a0, a0, 0x300; ret)
PUT(0x53020, 1, jal zero, . - 0x3010)
PROTECT(0x53000, 1, READ | EXEC)
CODE(0x50060, 1, jal zero, . + 0x2fb0)
CALL(0x50060, 0, 0, 3)
CALL(0x53020, 0, 0, 1)
DIES(0x51ff8, 0, 0, SEGV)
PAGE(0x52000, 0x40)
PUT(0x52000, 1, jal zero, . + 0xff8)
DIES(0x51ff8, 0, 0, SEGV)
PROTECT(0x52000, 1, READ)
DIES(0x51ffc, 0, 0, SEGV)
CALL(0x50060, 0, 0, 3)
PROTECT(0x52000, 1, READ | EXEC)
CALL(0x50060, 0, 0, 3)
CALL(0x53020, 0, 0, 1)
CALL(0x51ff8, 0, 0, 0x10 + 0x10 + 0x40 + 0x40 + 0x300)
CALL(0x51ffc, 0, 0, 0x10 + 0x40 + 0x40 + 0x300)
CALL(0x52ffc, 0, 0, 0x40 + 0x300)
CALL(0x52010, 0, 0, 0x40)

/* It goes again: what is before it and behind it stays. */
UNMAP(0x52000, 1)
CALL(0x50060, 0, 0, 3)
CALL(0x53020, 0, 0, 1)
DIES(0x51ff8, 0, 0, SEGV)
DIES(0x51ffc, 0, 0, SEGV)
CALL(0x53010, 0, 0, 3)
CALL(0x4fff8, 0, 0, 0x20a)

/* It comes again, with other code. */
PAGE(0x52000, 0x80)
PUT(0x52000, 2, addi a0, a0, 0x400; ret)
PROTECT(0x52000, 1, READ | EXEC)
CALL(0x51ff8, 0, 0, 0x420)
CALL(0x51ffc, 0, 0, 0x410)
CALL(0x52ff8, 0, 0, 0x400)
CALL(0x50060, 0, 0, 3)

/* The first page goes, and then the last one. */
UNMAP(0x4f000, 1)
DIES(0x50040, 0, 0, SEGV)
CALL(0x50010, 0, 0, 1)
CALL(0x50020, 0, 0, 0x10)
CALL(0x50060, 0, 0, 3)
CALL(0x50ff8, 0, 0, 0x102)
PROTECT(0x53000, 1, READ)
DIES(0x50060, 0, 0, SEGV)
DIES(0x52ff8, 0, 0, SEGV)
CALL(0x51ff8, 0, 0, 0x420)

/* All of it goes at once, and all of it comes. */
PROTECT(0x50000, 4, READ)
DIES(0x50010, 0, 0, SEGV)
DIES(0x51010, 0, 0, SEGV)
PROTECT(0x50000, 4, EXEC)
CALL(0x50010, 0, 0, 1)
CALL(0x50060, 0, 0, 3)
CALL(0x51ff8, 0, 0, 0x420)
CALL(0x52ff8, 0, 0, 0x400)

END

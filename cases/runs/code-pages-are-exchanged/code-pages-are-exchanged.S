/* Two pages of a run are exchanged, and exchanged again: what falls from the one into the other, and jumps between them, is done anew each time. */
#include "steps.h"

/* At 0x10 a pair, at 0x20 a jump to the same place of the other page, and the last word, which falls into the next page's first pair. */
#define FIRST(address) \
    MAP(address, 1); PUT(address, 3, addi a0, a0, 1; addi a0, a0, 2; ret); PUT(address + 0x10, 3, addi a0, a0, 4; slli a0, a0, 1; ret); \
    PUT(address + 0x20, 2, addi a0, a0, 8; jal zero, . + 0x1000 - 0x14); PUT(address + 0xffc, 1, addi a0, a0, 0x10)
#define SECOND(address) \
    MAP(address, 1); PUT(address, 3, slli a0, a0, 1; addi a0, a0, 0x200; ret); PUT(address + 0x10, 3, addi a0, a0, 0x400; addi a0, a0, 1; ret); \
    PUT(address + 0x20, 2, addi a0, a0, 0x100; jal zero, . - 0x1000 - 0x14); PUT(address + 0xffc, 1, slli a0, a0, 2)

STEPS

FIRST(0x40000)
SECOND(0x41000)
PROTECT(0x40000, 2, READ | EXEC)
CALL(0x40000, 1, 0, 4)
CALL(0x40010, 1, 0, 10)
CALL(0x40020, 1, 0, 0x40a)
CALL(0x40ffc, 1, 0, 0x222)
CALL(0x41000, 1, 0, 0x202)
CALL(0x41010, 1, 0, 0x402)
CALL(0x41020, 1, 0, 0x20a)
DIES(0x41ffc, 1, 0, SEGV)

/* The second page is before the first one, whose jumps lead out of both. */
UNMAP(0x40000, 2)
DIES(0x40000, 1, 0, SEGV)
DIES(0x41000, 1, 0, SEGV)
SECOND(0x40000)
FIRST(0x41000)
PROTECT(0x40000, 2, READ | EXEC)
CALL(0x40000, 1, 0, 0x202)
CALL(0x40010, 1, 0, 0x402)
DIES(0x40020, 1, 0, SEGV)
CALL(0x40ffc, 1, 0, 7)
CALL(0x41000, 1, 0, 4)
CALL(0x41010, 1, 0, 10)
DIES(0x41020, 1, 0, SEGV)
DIES(0x41ffc, 1, 0, SEGV)

/* Each is mapped over by the other. */
FIRST(0x40000)
SECOND(0x41000)
PROTECT(0x40000, 2, READ | EXEC)
CALL(0x40000, 1, 0, 4)
CALL(0x40020, 1, 0, 0x40a)
CALL(0x40ffc, 1, 0, 0x222)
CALL(0x41020, 1, 0, 0x20a)

/* One is. */
FIRST(0x41000)
PROTECT(0x41000, 1, EXEC)
CALL(0x40020, 1, 0, 26)
CALL(0x40ffc, 1, 0, 0x14)
CALL(0x41010, 1, 0, 10)

END

/*
 * Tables of two instructions one behind the other that are frequent in programs, done from the first on, and the second alone: it is led to by a
 * branch, by JAL and by JALR. A row has both, a0 to a3 before, and twice where it ends, in bytes from the second on, and two registers afterwards:
 * when both are done, and when the second alone is. `second` is where the second stands.
 */
#ifndef PAIRS_H
#define PAIRS_H

#include "rows.h"

#define OP(...) __VA_ARGS__

/* A row of the table: how many instructions, where the second one stands, what is above, and the code. JALR leads on from s11, which is CODE. */
#define ROW(...) ROW_OF(__VA_ARGS__)
#define ROW_OF(count, place, x, y, z, w, end, s1, m1, s2, m2, ...) \
    .set second, CODE + place; INSTRUCTIONS(count, place + end, __VA_ARGS__); \
    REGISTERS(10, x, 11, y, 12, z, 13, w, 27, CODE, s1, m1, s2, m2)

/* Memory: sixteen bytes from 0x20100 on, before, when both are done, and when the second alone is. */
#define BYTES(before_0, before_8, after_0, after_8) .dword 0x20100, before_0, before_8, after_0, after_8

#define PAIR_WITH(one, two, given, both, alone, memory_both, memory_alone) \
    ROW(2, 4, OP given, OP both, one; two); memory_both; \
    ROW(3, 8, OP given, OP both, jal zero, . + 4; one; two); memory_both; \
    ROW(3, 8, OP given, OP alone, beq zero, zero, . + 8; one; two); memory_alone; \
    ROW(3, 8, OP given, OP alone, jal zero, . + 8; one; two); memory_alone; \
    ROW(3, 8, OP given, OP alone, jalr zero, 8(s11); one; two); memory_alone

#define PAIR(one, two, given, both, alone) PAIR_WITH(OP(one), OP(two), given, both, alone, NO_MEMORY, NO_MEMORY)

/* Of two loads, or of a load and something else. */
#define LOADS(one, two, given, both, alone) \
    PAIR_WITH(OP(one), OP(two), given, both, alone, BYTES(0x20108, 0x1122334455667788, 0x20108, 0x1122334455667788), \
              BYTES(0x20108, 0x1122334455667788, 0x20108, 0x1122334455667788))

/* Of stores: what is in memory when both are done, and when the second alone is. */
#define STORES(one, two, given, both, alone, both_0, both_8, alone_0, alone_8) \
    PAIR_WITH(OP(one), OP(two), given, both, alone, BYTES(0x20108, 0x1122334455667788, both_0, both_8), \
              BYTES(0x20108, 0x1122334455667788, alone_0, alone_8))

#endif

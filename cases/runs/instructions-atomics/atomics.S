/*
 * Atomic instructions: the number in memory and the one in a1, and what is in memory and in a2 afterwards. The numbers follow from the
 * manual's rules.
 */
#include "rows.h"

#define AMO(op, number, given, left, got) \
    INSTRUCTIONS(1, 4, op a2, a1, (a0)); TWO_TO_ONE(10, 0x20108, 11, given, 12, got); NUMBER(0x20108, number, left)

/* Of one register twice, or of x0: a register afterwards, and what is left. 0x20000 is in memory, and in a1 too. */
#define ON(s, m, left, ...) INSTRUCTIONS(1, 4, __VA_ARGS__); TWO_TO_ONE(10, 0x20108, 11, 0x20000, s, m); NUMBER(0x20108, 0x20000, left)

ROWS

AMO(amoswap.w,  0x123456780000000,  0xffffffff00000001, 0x123456700000001,  0xffffffff80000000)
AMO(amoswap.w,  0x8000000000000000, 0x7fffffffffffffff, 0x80000000ffffffff, 0)
AMO(amoswap.w,  0x7fffffffffffffff, 0x8000000000000000, 0x7fffffff00000000, 0xffffffffffffffff)
AMO(amoswap.w,  0,                  0xffffffffffffffff, 0xffffffff,         0)
AMO(amoswap.w,  0xabcdef017fffffff, 0x1234567880000000, 0xabcdef0180000000, 0x7fffffff)

AMO(amoadd.w,   0x123456780000000,  0xffffffff00000001, 0x123456780000001,  0xffffffff80000000)
AMO(amoadd.w,   0x8000000000000000, 0x7fffffffffffffff, 0x80000000ffffffff, 0)
AMO(amoadd.w,   0x7fffffffffffffff, 0x8000000000000000, 0x7fffffffffffffff, 0xffffffffffffffff)
AMO(amoadd.w,   0,                  0xffffffffffffffff, 0xffffffff,         0)
AMO(amoadd.w,   0xabcdef017fffffff, 0x1234567880000000, 0xabcdef01ffffffff, 0x7fffffff)

AMO(amoxor.w,   0x123456780000000,  0xffffffff00000001, 0x123456780000001,  0xffffffff80000000)
AMO(amoxor.w,   0x8000000000000000, 0x7fffffffffffffff, 0x80000000ffffffff, 0)
AMO(amoxor.w,   0x7fffffffffffffff, 0x8000000000000000, 0x7fffffffffffffff, 0xffffffffffffffff)
AMO(amoxor.w,   0,                  0xffffffffffffffff, 0xffffffff,         0)
AMO(amoxor.w,   0xabcdef017fffffff, 0x1234567880000000, 0xabcdef01ffffffff, 0x7fffffff)

AMO(amoand.w,   0x123456780000000,  0xffffffff00000001, 0x123456700000000,  0xffffffff80000000)
AMO(amoand.w,   0x8000000000000000, 0x7fffffffffffffff, 0x8000000000000000, 0)
AMO(amoand.w,   0x7fffffffffffffff, 0x8000000000000000, 0x7fffffff00000000, 0xffffffffffffffff)
AMO(amoand.w,   0,                  0xffffffffffffffff, 0,                  0)
AMO(amoand.w,   0xabcdef017fffffff, 0x1234567880000000, 0xabcdef0100000000, 0x7fffffff)

AMO(amoor.w,    0x123456780000000,  0xffffffff00000001, 0x123456780000001,  0xffffffff80000000)
AMO(amoor.w,    0x8000000000000000, 0x7fffffffffffffff, 0x80000000ffffffff, 0)
AMO(amoor.w,    0x7fffffffffffffff, 0x8000000000000000, 0x7fffffffffffffff, 0xffffffffffffffff)
AMO(amoor.w,    0,                  0xffffffffffffffff, 0xffffffff,         0)
AMO(amoor.w,    0xabcdef017fffffff, 0x1234567880000000, 0xabcdef01ffffffff, 0x7fffffff)

AMO(amomin.w,   0x123456780000000,  0xffffffff00000001, 0x123456780000000,  0xffffffff80000000)
AMO(amomin.w,   0x8000000000000000, 0x7fffffffffffffff, 0x80000000ffffffff, 0)
AMO(amomin.w,   0x7fffffffffffffff, 0x8000000000000000, 0x7fffffffffffffff, 0xffffffffffffffff)
AMO(amomin.w,   0,                  0xffffffffffffffff, 0xffffffff,         0)
AMO(amomin.w,   0xabcdef017fffffff, 0x1234567880000000, 0xabcdef0180000000, 0x7fffffff)

AMO(amomax.w,   0x123456780000000,  0xffffffff00000001, 0x123456700000001,  0xffffffff80000000)
AMO(amomax.w,   0x8000000000000000, 0x7fffffffffffffff, 0x8000000000000000, 0)
AMO(amomax.w,   0x7fffffffffffffff, 0x8000000000000000, 0x7fffffff00000000, 0xffffffffffffffff)
AMO(amomax.w,   0,                  0xffffffffffffffff, 0,                  0)
AMO(amomax.w,   0xabcdef017fffffff, 0x1234567880000000, 0xabcdef017fffffff, 0x7fffffff)

AMO(amominu.w,  0x123456780000000,  0xffffffff00000001, 0x123456700000001,  0xffffffff80000000)
AMO(amominu.w,  0x8000000000000000, 0x7fffffffffffffff, 0x8000000000000000, 0)
AMO(amominu.w,  0x7fffffffffffffff, 0x8000000000000000, 0x7fffffff00000000, 0xffffffffffffffff)
AMO(amominu.w,  0,                  0xffffffffffffffff, 0,                  0)
AMO(amominu.w,  0xabcdef017fffffff, 0x1234567880000000, 0xabcdef017fffffff, 0x7fffffff)

AMO(amomaxu.w,  0x123456780000000,  0xffffffff00000001, 0x123456780000000,  0xffffffff80000000)
AMO(amomaxu.w,  0x8000000000000000, 0x7fffffffffffffff, 0x80000000ffffffff, 0)
AMO(amomaxu.w,  0x7fffffffffffffff, 0x8000000000000000, 0x7fffffffffffffff, 0xffffffffffffffff)
AMO(amomaxu.w,  0,                  0xffffffffffffffff, 0xffffffff,         0)
AMO(amomaxu.w,  0xabcdef017fffffff, 0x1234567880000000, 0xabcdef0180000000, 0x7fffffff)

AMO(amoswap.d,  0x123456780000000,  0xffffffff00000001, 0xffffffff00000001, 0x123456780000000)
AMO(amoswap.d,  0x8000000000000000, 0x7fffffffffffffff, 0x7fffffffffffffff, 0x8000000000000000)
AMO(amoswap.d,  0x7fffffffffffffff, 0x8000000000000000, 0x8000000000000000, 0x7fffffffffffffff)
AMO(amoswap.d,  0,                  0xffffffffffffffff, 0xffffffffffffffff, 0)
AMO(amoswap.d,  0xabcdef017fffffff, 0x1234567880000000, 0x1234567880000000, 0xabcdef017fffffff)

AMO(amoadd.d,   0x123456780000000,  0xffffffff00000001, 0x123456680000001,  0x123456780000000)
AMO(amoadd.d,   0x8000000000000000, 0x7fffffffffffffff, 0xffffffffffffffff, 0x8000000000000000)
AMO(amoadd.d,   0x7fffffffffffffff, 0x8000000000000000, 0xffffffffffffffff, 0x7fffffffffffffff)
AMO(amoadd.d,   0,                  0xffffffffffffffff, 0xffffffffffffffff, 0)
AMO(amoadd.d,   0xabcdef017fffffff, 0x1234567880000000, 0xbe024579ffffffff, 0xabcdef017fffffff)

AMO(amoxor.d,   0x123456780000000,  0xffffffff00000001, 0xfedcba9880000001, 0x123456780000000)
AMO(amoxor.d,   0x8000000000000000, 0x7fffffffffffffff, 0xffffffffffffffff, 0x8000000000000000)
AMO(amoxor.d,   0x7fffffffffffffff, 0x8000000000000000, 0xffffffffffffffff, 0x7fffffffffffffff)
AMO(amoxor.d,   0,                  0xffffffffffffffff, 0xffffffffffffffff, 0)
AMO(amoxor.d,   0xabcdef017fffffff, 0x1234567880000000, 0xb9f9b979ffffffff, 0xabcdef017fffffff)

AMO(amoand.d,   0x123456780000000,  0xffffffff00000001, 0x123456700000000,  0x123456780000000)
AMO(amoand.d,   0x8000000000000000, 0x7fffffffffffffff, 0,                  0x8000000000000000)
AMO(amoand.d,   0x7fffffffffffffff, 0x8000000000000000, 0,                  0x7fffffffffffffff)
AMO(amoand.d,   0,                  0xffffffffffffffff, 0,                  0)
AMO(amoand.d,   0xabcdef017fffffff, 0x1234567880000000, 0x204460000000000,  0xabcdef017fffffff)

AMO(amoor.d,    0x123456780000000,  0xffffffff00000001, 0xffffffff80000001, 0x123456780000000)
AMO(amoor.d,    0x8000000000000000, 0x7fffffffffffffff, 0xffffffffffffffff, 0x8000000000000000)
AMO(amoor.d,    0x7fffffffffffffff, 0x8000000000000000, 0xffffffffffffffff, 0x7fffffffffffffff)
AMO(amoor.d,    0,                  0xffffffffffffffff, 0xffffffffffffffff, 0)
AMO(amoor.d,    0xabcdef017fffffff, 0x1234567880000000, 0xbbfdff79ffffffff, 0xabcdef017fffffff)

AMO(amomin.d,   0x123456780000000,  0xffffffff00000001, 0xffffffff00000001, 0x123456780000000)
AMO(amomin.d,   0x8000000000000000, 0x7fffffffffffffff, 0x8000000000000000, 0x8000000000000000)
AMO(amomin.d,   0x7fffffffffffffff, 0x8000000000000000, 0x8000000000000000, 0x7fffffffffffffff)
AMO(amomin.d,   0,                  0xffffffffffffffff, 0xffffffffffffffff, 0)
AMO(amomin.d,   0xabcdef017fffffff, 0x1234567880000000, 0xabcdef017fffffff, 0xabcdef017fffffff)

AMO(amomax.d,   0x123456780000000,  0xffffffff00000001, 0x123456780000000,  0x123456780000000)
AMO(amomax.d,   0x8000000000000000, 0x7fffffffffffffff, 0x7fffffffffffffff, 0x8000000000000000)
AMO(amomax.d,   0x7fffffffffffffff, 0x8000000000000000, 0x7fffffffffffffff, 0x7fffffffffffffff)
AMO(amomax.d,   0,                  0xffffffffffffffff, 0,                  0)
AMO(amomax.d,   0xabcdef017fffffff, 0x1234567880000000, 0x1234567880000000, 0xabcdef017fffffff)

AMO(amominu.d,  0x123456780000000,  0xffffffff00000001, 0x123456780000000,  0x123456780000000)
AMO(amominu.d,  0x8000000000000000, 0x7fffffffffffffff, 0x7fffffffffffffff, 0x8000000000000000)
AMO(amominu.d,  0x7fffffffffffffff, 0x8000000000000000, 0x7fffffffffffffff, 0x7fffffffffffffff)
AMO(amominu.d,  0,                  0xffffffffffffffff, 0,                  0)
AMO(amominu.d,  0xabcdef017fffffff, 0x1234567880000000, 0x1234567880000000, 0xabcdef017fffffff)

AMO(amomaxu.d,  0x123456780000000,  0xffffffff00000001, 0xffffffff00000001, 0x123456780000000)
AMO(amomaxu.d,  0x8000000000000000, 0x7fffffffffffffff, 0x8000000000000000, 0x8000000000000000)
AMO(amomaxu.d,  0x7fffffffffffffff, 0x8000000000000000, 0x8000000000000000, 0x7fffffffffffffff)
AMO(amomaxu.d,  0,                  0xffffffffffffffff, 0xffffffffffffffff, 0)
AMO(amomaxu.d,  0xabcdef017fffffff, 0x1234567880000000, 0xabcdef017fffffff, 0xabcdef017fffffff)

/* Where both have some of the same bits. */
AMO(amoswap.w,  0xfedcba987654f321, 0xf1e2d3c4b5a6978, 0xfedcba984b5a6978, 0x7654f321)
AMO(amoadd.w,   0xfedcba987654f321, 0xf1e2d3c4b5a6978, 0xfedcba98c1af5c99, 0x7654f321)
AMO(amoxor.w,   0xfedcba987654f321, 0xf1e2d3c4b5a6978, 0xfedcba983d0e9a59, 0x7654f321)
AMO(amoand.w,   0xfedcba987654f321, 0xf1e2d3c4b5a6978, 0xfedcba9842506120, 0x7654f321)
AMO(amoor.w,    0xfedcba987654f321, 0xf1e2d3c4b5a6978, 0xfedcba987f5efb79, 0x7654f321)
AMO(amomin.w,   0xfedcba987654f321, 0xf1e2d3c4b5a6978, 0xfedcba984b5a6978, 0x7654f321)
AMO(amomax.w,   0xfedcba987654f321, 0xf1e2d3c4b5a6978, 0xfedcba987654f321, 0x7654f321)
AMO(amominu.w,  0xfedcba987654f321, 0xf1e2d3c4b5a6978, 0xfedcba984b5a6978, 0x7654f321)
AMO(amomaxu.w,  0xfedcba987654f321, 0xf1e2d3c4b5a6978, 0xfedcba987654f321, 0x7654f321)
AMO(amoswap.d,  0xfedcba987654f321, 0xf1e2d3c4b5a6978, 0xf1e2d3c4b5a6978,  0xfedcba987654f321)
AMO(amoadd.d,   0xfedcba987654f321, 0xf1e2d3c4b5a6978, 0xdfae7d4c1af5c99,  0xfedcba987654f321)
AMO(amoxor.d,   0xfedcba987654f321, 0xf1e2d3c4b5a6978, 0xf1c297a43d0e9a59, 0xfedcba987654f321)
AMO(amoand.d,   0xfedcba987654f321, 0xf1e2d3c4b5a6978, 0xe1c281842506120,  0xfedcba987654f321)
AMO(amoor.d,    0xfedcba987654f321, 0xf1e2d3c4b5a6978, 0xffdebfbc7f5efb79, 0xfedcba987654f321)
AMO(amomin.d,   0xfedcba987654f321, 0xf1e2d3c4b5a6978, 0xfedcba987654f321, 0xfedcba987654f321)
AMO(amomax.d,   0xfedcba987654f321, 0xf1e2d3c4b5a6978, 0xf1e2d3c4b5a6978,  0xfedcba987654f321)
AMO(amominu.d,  0xfedcba987654f321, 0xf1e2d3c4b5a6978, 0xf1e2d3c4b5a6978,  0xfedcba987654f321)
AMO(amomaxu.d,  0xfedcba987654f321, 0xf1e2d3c4b5a6978, 0xfedcba987654f321, 0xfedcba987654f321)

ON(10, 0x20000, 0x40000, amoadd.d a0, a1, (a0))
ON(11, 0x20000, 0x40000, amoadd.d a1, a1, (a0))
ON(12, 0x20000, 0x40108, amoadd.d a2, a0, (a0))
ON(10, 0x20000, 0x40108, amoadd.d a0, a0, (a0))
ON(12, 0x20000, 0,       amoswap.d a2, zero, (a0))
ON(0, 0,         0x40000, amoadd.w zero, a1, (a0))

END

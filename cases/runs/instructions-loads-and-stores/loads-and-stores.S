/* Loads and stores, also where they aren't aligned, and over two pages: 0x21000 is where the second one begins. */
#include "rows.h"

/* op a2, OFFSET(a0) */
#define LOAD(op, offset, base, at, want) \
    INSTRUCTIONS(1, 4, op a2, offset(a0)); TWO_TO_ONE(10, base, 0, 0, 12, want); SOME_BYTES_AT(at)
#define LOAD_TO_ZERO(op, offset, base, at) \
    INSTRUCTIONS(1, 4, op zero, offset(a0)); TWO_TO_ONE(10, base, 0, 0, 0, 0); SOME_BYTES_AT(at)

/* op a1, OFFSET(a0) */
#define STORE(op, offset, base, at, ...) \
    INSTRUCTIONS(1, 4, op a1, offset(a0)); TWO_TO_ONE(10, base, 11, 0x8877665544332211, 0, 0); \
    TEN_BYTES(at, __VA_ARGS__)
#define STORE_AND_LOAD(store, load, at, want, all) \
    INSTRUCTIONS(3, 12, store a1, 0(a0); load a2, 0(a0); ld a3, 0(a0)); \
    REGISTERS(10, at, 11, 0x8877665544332211, 0, 0, 0, 0, 0, 0, 12, want, 13, all); NUMBER(at, 0, all)

/* The address is loaded into, or stored. */
#define LOAD_OVER(op, at, want) INSTRUCTIONS(1, 4, op a0, 0(a0)); TWO_TO_ONE(10, at, 0, 0, 10, want); SOME_BYTES_AT(at)
#define STORE_ITSELF(op, at, all) INSTRUCTIONS(1, 4, op a0, 0(a0)); TWO_TO_ONE(10, at, 0, 0, 0, 0); NUMBER(at, 0, all)
#define STORE_ZERO(op, at, all) \
    INSTRUCTIONS(1, 4, op zero, 0(a0)); TWO_TO_ONE(10, at, 0, 0, 0, 0); NUMBER(at, 0x8877665544332211, all)

ROWS

/* Loads from the same twelve bytes, which begin at the third address. */
LOAD(lb,  0,     0x20100, 0x20100, 1)
LOAD(lb,  0,     0x20101, 0x20100, 0xfffffffffffffff2)
LOAD(lbu, 0,     0x20101, 0x20100, 0xf2)
LOAD(lh,  0,     0x20100, 0x20100, 0xfffffffffffff201)
LOAD(lh,  0,     0x20101, 0x20100, 0x3f2) /* misaligned */
LOAD(lhu, 0,     0x20100, 0x20100, 0xf201)
LOAD(lhu, 0,     0x20fff, 0x20ffa, 0x7f6) /* over two pages */
LOAD(lw,  0,     0x20100, 0x20100, 0xfffffffff403f201)
LOAD(lw,  0,     0x20101, 0x20100, 0x5f403f2) /* misaligned */
LOAD(lw,  0,     0x20ffe, 0x20ffa, 0xfffffffff807f605) /* over two pages */
LOAD(lwu, 0,     0x20100, 0x20100, 0xf403f201)
LOAD(lwu, 0,     0x20ffe, 0x20ffa, 0xf807f605) /* over two pages */
LOAD(lwu, 0,     0x22000, 0x0,     0) /* of a page that may only be read */
LOAD(ld,  0,     0x20100, 0x20100, 0xf807f605f403f201)
LOAD(ld,  0,     0x20104, 0x20100, 0xc0b0a09f807f605) /* misaligned */
LOAD(ld,  0,     0x20ffd, 0x20ffa, 0xb0a09f807f605f4) /* over two pages */
LOAD(ld,  -2048, 0x20900, 0x20100, 0xf807f605f403f201)
LOAD(lb,  2047,  0x1f902, 0x20100, 0xfffffffffffffff2)
LOAD_TO_ZERO(lw, 0, 0x20100, 0x20100)

/* Stores of 0x8877665544332211 among bytes of 0xee: ten of them, from the third address on. */
STORE(sb, 0,  0x20101, 0x20100, 0xee, 0x11, 0xee, 0xee, 0xee, 0xee, 0xee, 0xee, 0xee, 0xee)
STORE(sh, 0,  0x20100, 0x200ff, 0xee, 0x11, 0x22, 0xee, 0xee, 0xee, 0xee, 0xee, 0xee, 0xee)
STORE(sh, 0,  0x20101, 0x20100, 0xee, 0x11, 0x22, 0xee, 0xee, 0xee, 0xee, 0xee, 0xee, 0xee) /* misaligned */
STORE(sh, 0,  0x20fff, 0x20ffe, 0xee, 0x11, 0x22, 0xee, 0xee, 0xee, 0xee, 0xee, 0xee, 0xee) /* over two pages */
STORE(sw, 0,  0x20100, 0x200ff, 0xee, 0x11, 0x22, 0x33, 0x44, 0xee, 0xee, 0xee, 0xee, 0xee)
STORE(sw, 0,  0x20ffd, 0x20ffc, 0xee, 0x11, 0x22, 0x33, 0x44, 0xee, 0xee, 0xee, 0xee, 0xee) /* over two pages */
STORE(sd, 0,  0x20100, 0x200ff, 0xee, 0x11, 0x22, 0x33, 0x44, 0x55, 0x66, 0x77, 0x88, 0xee)
STORE(sd, 0,  0x20ffb, 0x20ffa, 0xee, 0x11, 0x22, 0x33, 0x44, 0x55, 0x66, 0x77, 0x88, 0xee) /* over two pages */
STORE(sd, -8, 0x2010b, 0x20102, 0xee, 0x11, 0x22, 0x33, 0x44, 0x55, 0x66, 0x77, 0x88, 0xee) /* misaligned */

/* What is stored is loaded: inside a page, over two, and from a page's last byte on. The last number is what all eight bytes are. */
STORE_AND_LOAD(sb, lbu, 0x20100, 0x11,               0x11)
STORE_AND_LOAD(sh, lhu, 0x20100, 0x2211,             0x2211)
STORE_AND_LOAD(sw, lwu, 0x20100, 0x44332211,         0x44332211)
STORE_AND_LOAD(sd, ld,  0x20100, 0x8877665544332211, 0x8877665544332211)
STORE_AND_LOAD(sb, lbu, 0x20ffc, 0x11,               0x11)
STORE_AND_LOAD(sh, lhu, 0x20ffc, 0x2211,             0x2211)
STORE_AND_LOAD(sw, lwu, 0x20ffc, 0x44332211,         0x44332211)
STORE_AND_LOAD(sd, ld,  0x20ffc, 0x8877665544332211, 0x8877665544332211)
STORE_AND_LOAD(sb, lbu, 0x20fff, 0x11,               0x11)
STORE_AND_LOAD(sh, lhu, 0x20fff, 0x2211,             0x2211)
STORE_AND_LOAD(sw, lwu, 0x20fff, 0x44332211,         0x44332211)
STORE_AND_LOAD(sd, ld,  0x20fff, 0x8877665544332211, 0x8877665544332211)

LOAD_OVER(ld, 0x20100, 0xf807f605f403f201)
LOAD_OVER(lb, 0x20100, 1)
STORE_ITSELF(sd, 0x20100, 0x20100)
STORE_ITSELF(sh, 0x20100, 0x100)
STORE_ZERO(sw, 0x20100, 0x8877665500000000)

END

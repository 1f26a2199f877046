/*
 * Tables of instructions. A table is a guest whose rows stand one on a line, each with what must come of it. rows.c does them one after
 * another. The assembler alone reads this text, behind the preprocessor of C.
 *
 * A row is one to four instructions at CODE, where a turn begins with them. Words that lead back stand all around, so that it is seen
 * where a row ends. Registers are given by their numbers. One that a row doesn't name has a number of its own, and must keep it. Two
 * can't be named: tp (4) and t5 (30), by which the way back is found. A table has at most 400 rows, so that it ends below the memory of the rows.
 *
 * The memory beside a row:
 *   0x20000 to 0x21fff            may be read and written
 *   0x22000 to 0x22fff            may be read, and is of zeros
 *   CODE - 4096 to CODE + 8191    words that lead back, which may be executed
 *   CODE - 0x100000 and CODE + 0xff000, a page each: the same
 */
#define CODE 0x200000

/* jalr t5, 0(t5) */
#define BACK 0x000f0f67

#define ROWS .section .rodata.rows, "a"; .balign 8; .globl rows, rows_end; rows:
#define END  rows_end:

/*
 * The parts of a row. Its instructions: how many, and where it ends, in bytes from CODE on. Its registers: five that are given, with
 * their numbers, and two with what they have afterwards; register 0 stands for none. Its memory: sixteen bytes at an address, before
 * and afterwards.
 */
#define INSTRUCTIONS(count, end, ...) .word __LINE__, end; __VA_ARGS__; .fill 4 - count, 4, BACK
#define REGISTERS(r1, n1, r2, n2, r3, n3, r4, n4, r5, n5, s1, m1, s2, m2) \
    .byte r1, r2, r3, r4, r5, s1, s2, 0; .dword n1, n2, n3, n4, n5, m1, m2
#define TWO_TO_ONE(r1, n1, r2, n2, s1, m1) REGISTERS(r1, n1, r2, n2, 0, 0, 0, 0, 0, 0, s1, m1, 0, 0)
#define NO_MEMORY .dword 0, 0, 0, 0, 0
#define NUMBER(at, before, after) .dword at, before, 0, after, 0

/* Some bytes, which stay. */
#define SOME_BYTES .byte 1, 0xf2, 3, 0xf4, 5, 0xf6, 7, 0xf8, 9, 10, 11, 12, 0, 0, 0, 0
#define SOME_BYTES_AT(at) .dword at; SOME_BYTES; SOME_BYTES

/* Ten bytes of 0xee, and what they are afterwards. */
#define TEN_BYTES(at, ...) .dword at; .fill 10, 1, 0xee; .fill 6, 1, 0; .byte __VA_ARGS__; .fill 6, 1, 0

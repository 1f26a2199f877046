/*
 * Tables of steps with pages of code: pages are mapped, written, given other rights, taken away, and code in them is called. A table is a
 * guest whose steps stand one on a line; steps.c does them one after another. The assembler alone reads this text, behind the
 * preprocessor of C. Addresses are the table's own, from 0x40000 on; its guest takes none there.
 */
#define ILL  8
#define BUS  3
#define SEGV 13
#define TRAP 17

#define READ  4
#define WRITE 2
#define EXEC  1

#define STEPS .section .rodata.steps, "a"; .balign 8; .globl steps, steps_end; steps:
#define END   steps_end:

#define STEP(kind, address, count, prot, a0, a1, wanted_0, wanted_1) \
    .word __LINE__, kind; .dword address, count, prot, a0, a1, wanted_0, wanted_1
#define NO_WORDS .fill 8, 4, 0
#define WORDS(count, ...) __VA_ARGS__; .fill 8 - count, 4, 0

/* So many pages of zeros, which may be read and written, in place of those that are there. */
#define MAP(address, pages) STEP(0, address, pages, 0, 0, 0, 0, 0); NO_WORDS
#define PROTECT(address, pages, prot) STEP(1, address, pages, prot, 0, 0, 0, 0); NO_WORDS
#define UNMAP(address, pages) STEP(2, address, pages, 0, 0, 0, 0, 0); NO_WORDS

/* Up to eight instructions or words, into pages that may be written. */
#define PUT(address, count, ...) STEP(3, address, count, 0, 0, 0, 0, 0); WORDS(count, __VA_ARGS__)

/* The same into a page that may be read and executed. It may be written meanwhile, and not executed. */
#define CODE(address, count, ...) STEP(4, address, count, 0, 0, 0, 0, 0); WORDS(count, __VA_ARGS__)

/* Calls what is at an address, with a0 and a1. It may use t0 to t6 and a0 to a7, and goes back to ra: then a0 has this number. */
#define CALL(address, a0, a1, wanted) STEP(5, address, 0, 0, a0, a1, wanted, 0); NO_WORDS

/* The same in a child, which is ended by this signal, or which exits with this code, the low half of a0: where it comes back, or by an ECALL. */
#define DIES(address, a0, a1, signal) STEP(6, address, 0, 0, a0, a1, signal, 0); NO_WORDS
#define EXITS(address, a0, a1, code) STEP(6, address, 0, 0, a0, a1, 0, code); NO_WORDS

/* The number of a width of 1, 2, 4 or 8 bytes at an address. */
#define HAS(address, width, wanted) STEP(7, address, width, 0, 0, 0, wanted, 0); NO_WORDS

/* A child is made. The next `own` steps are its parent's, and the `child` steps behind them are the child's, which begins when these are done. */
#define FORK(own, child) STEP(8, 0, own, child, 0, 0, 0, 0); NO_WORDS

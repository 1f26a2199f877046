# Loops of 32 loads or stores, or atomic instructions, and a jump. The argument data, a number of one byte, says which, in the order below. Those at odd
# addresses are of the same bytes as the aligned ones, and one more; those over a page's end are all of one address. It doesn't end by itself.

        .globl  _start
_start:
        lbu     t0, 0x101(a0)
        li      t1, 132                 # the bytes of a loop
        mul     t0, t0, t1
        lui     t1, %hi(loops)
        addi    t1, t1, %lo(loops)
        add     t0, t0, t1
        li      t1, -8192
        add     s0, sp, t1              # two pages of the stack, and
        li      t1, -4096
        add     s1, sp, t1              # where the second begins
        jr      t0

# At s0, each 8 bytes behind the last, from this offset on.
        .macro  beside operation, offset
1:      .set    place, \offset
        .rept   32
        \operation t1, place(s0)
        .set    place, place + 8
        .endr
        j       1b
        .endm

        .macro  over_the_end operation, offset
1:      .rept   32
        \operation t1, \offset(s1)
        .endr
        j       1b
        .endm

        .macro  atomic operation
1:      .rept   32
        \operation t1, zero, (s0)
        .endr
        j       1b
        .endm

        .macro  reserve width
1:      .rept   16
        lr.\width t1, (s0)
        sc.\width t2, t1, (s0)
        .endr
        j       1b
        .endm

loops:
        beside  lbu, 0
        beside  lhu, 0
        beside  lhu, 1
        over_the_end lhu, -1
        beside  lw, 0
        beside  lw, 1
        over_the_end lw, -1
        beside  ld, 0
        beside  ld, 1
        over_the_end ld, -1
        beside  sb, 0
        beside  sh, 0
        beside  sh, 1
        over_the_end sh, -1
        beside  sw, 0
        beside  sw, 1
        over_the_end sw, -1
        beside  sd, 0
        beside  sd, 1
        over_the_end sd, -1
        atomic  amoadd.w
        atomic  amoadd.d
        reserve w
        reserve d

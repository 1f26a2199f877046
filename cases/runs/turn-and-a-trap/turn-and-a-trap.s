# Does so many instructions as the argument data says, a number of one byte, and 4089 more, and then loads from where no page is: SEGV. With 6 these are
# 4095, and it traps in the first turn, as the 4096th instruction; with 7 they are 4096, and it traps in the second.

        lbu     s0, 0x101(a0)
        lui     s1, %hi(last)
        addi    s1, s1, %lo(last)
        slli    s0, s0, 2
        sub     s1, s1, s0
        li      t0, 2040
again:
        addi    t0, t0, -1
        bnez    t0, again
        jr      s1
        .rept   8
        nop
        .endr
last:
        addi    a0, a0, 8
        addi    a0, zero, 8
        ld      a0, 0(a0)

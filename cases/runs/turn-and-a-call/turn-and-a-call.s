# Does so many instructions as the argument data says, a number of one byte, and 4089 more, of which the last two are a frequent pair, and then exits
# with 7. With 6 these are 4095: the call is the 4096th, so that one turn suffices. With 7 the second of the pair is the 4096th, and with 8 the first: then
# the call is in the second turn.

        lbu     s0, 0x101(a0)
        lui     s1, %hi(last)
        addi    s1, s1, %lo(last)
        slli    s0, s0, 2
        sub     s1, s1, s0
        li      t0, 2040
again:
        addi    t0, t0, -1
        bnez    t0, again
        jr      s1
        .rept   8
        nop
        .endr
last:
        addi    a0, zero, 7
        addi    a7, zero, 39            # proc_exit
        ecall

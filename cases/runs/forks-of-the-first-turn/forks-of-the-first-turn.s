# Forks in its first turn, then gives way as often as the argument data says, a number of one byte, and exits with 7. It exits with the error where
# it can't fork. The child goes round in one place.
        lbu     s0, 0x101(a0)
        li      a7, 40
        ecall
        bnez    a0, exit
        addiw   t0, a1, 1
        beqz    t0, child
yield:
        li      a7, 48
        ecall
        addi    s0, s0, -1
        bnez    s0, yield
        li      a0, 7
exit:
        li      a7, 39
        ecall
child:
        j       child

# Makes a pipe in its first turn, forks in its second one, and exits with how many bytes the child wrote until it ended, or with 100 more than the
# error where it can't fork. The child writes a byte in each turn.
        li      a0, 48
        li      a7, 5
        ecall
        li      a7, 40
        ecall
        addi    s0, a0, 100
        bnez    a0, exit
        addiw   t0, a1, 1
        addi    sp, sp, -32
        addi    t1, sp, 16
        sd      t1, 0(sp)
        li      t1, 1
        sd      t1, 8(sp)
        beqz    t0, child
        li      a0, 1
        li      a7, 3
        ecall
        li      s0, 0
read:
        li      a0, 0
        mv      a1, sp
        li      a2, 1
        li      a7, 10
        ecall
        add     s0, s0, a1
        bnez    a1, read
exit:
        mv      a0, s0
        li      a7, 39
        ecall
child:
        li      a0, 1
        mv      a1, sp
        li      a2, 1
        li      a7, 16
        ecall
        j       child

# Makes a pipe, forks a child that runs for ever and holds the writing end too, closes its own writing end and then its descriptor of the child,
# which ends the child. The read then gives no byte, and the exit code is how many came.
        li      a0, 48
        li      a7, 5
        ecall
        li      a7, 40
        ecall
        addiw   t0, a1, 1
        bnez    t0, parent
child:
        j       child
parent:
        mv      s1, a1
        li      a0, 1
        li      a7, 3
        ecall
        mv      a0, s1
        li      a7, 3
        ecall
        addi    sp, sp, -32
        addi    t1, sp, 16
        sd      t1, 0(sp)
        li      t1, 1
        sd      t1, 8(sp)
        li      a0, 0
        mv      a1, sp
        li      a2, 1
        li      a7, 10
        ecall
        mv      a0, a1
        li      a7, 39
        ecall

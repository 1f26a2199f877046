# Exits with 0 where each register is as at a program's start and the last page of the stack has zeros; else with 1 for a register, and 2 for the stack.

        or      ra, ra, gp
        or      ra, ra, tp
        .irp    i, 5, 6, 7, 8, 9, 11, 12, 13, 14, 15, 16, 17, 18, 19, 20, 21, 22, 23, 24, 25, 26, 27, 28, 29, 30, 31
        or      ra, ra, x\i
        .endr
        li      t0, 0x3efff00000
        xor     t0, t0, sp
        or      ra, ra, t0
        li      t0, 0x3f00000000
        xor     t0, t0, a0
        or      ra, ra, t0
        snez    a0, ra
        bnez    a0, exit
        li      t0, 512
        mv      t1, sp
next:
        addi    t1, t1, -8
        ld      t2, 0(t1)
        or      ra, ra, t2
        addi    t0, t0, -1
        bnez    t0, next
        snez    a0, ra
        slli    a0, a0, 1
exit:
        li      a7, 39
        ecall

# Operations on registers, and a branch that is mostly taken. It doesn't end by itself.

        .globl  _start
_start:
        li      a0, 0                   # every other register of the loop is 0 at the start
loop:
        add     a0, a0, a1
        xor     a2, a2, a0
        slli    a3, a2, 7
        srli    a4, a2, 9
        or      a5, a3, a4
        mul     a1, a1, a5
        slt     a6, a1, a0
        addw    a7, a0, a6
        sraiw   t0, a7, 3
        sub     t1, a5, t0
        addi    a1, t1, 1
        bne     t2, t1, loop
        j       loop

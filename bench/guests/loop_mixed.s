# Loads, stores, calls, branches that are taken and not, products, quotients and an atomic addition. It doesn't end by itself.

        .globl  _start
_start:
        lui     s0, %hi(data)
        li      s1, 0
        li      s2, 7
loop:
        andi    t0, s1, 0x7f8
        add     t0, t0, s0
        ld      t1, 0(t0)
        beq     t1, s1, skip
        addi    t1, t1, 1
        sd      t1, 0(t0)
skip:
        jal     ra, function
        sh      a0, 6(t0)
        lbu     t2, 6(t0)
        div     t3, a0, s2
        amoadd.w t4, t3, (s0)
        addi    s1, s1, 8
        bgeu    t2, t4, loop
        j       loop
function:
        mul     a0, t1, s2
        srli    t5, s1, 3
        andi    t5, t5, 1
        beqz    t5, back
        xor     a0, a0, t1
back:
        ret

        .bss
        .balign 4096
data:
        .skip   65536

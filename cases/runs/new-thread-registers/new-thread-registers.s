# Makes a thread, and exits with 0 where it begins at its entry, with sp at the end of its stack, its number in a0, the argument in a1, and 0 in each other
# register; and with 1 where anything is something else.

        addi    sp, sp, -32
        la      t0, begin
        sd      t0, 0(sp)               # the entry
        li      t0, 0x123450
        sd      t0, 8(sp)               # the stack, of which nothing is mapped
        li      t0, 0x1230
        sd      t0, 16(sp)              # its length
        li      t0, -5
        sd      t0, 24(sp)              # the argument
        mv      a0, sp
        li      a1, -1
        li      a7, 46                  # thread_create
        ecall
        bnez    a0, wrong
        li      t0, 2
        bne     a1, t0, wrong
again:
        li      a7, 48                  # thread_yield
        ecall
        j       again

begin:
        bnez    ra, wrong
        bnez    gp, wrong
        bnez    tp, wrong
        bnez    t0, wrong
        bnez    t1, wrong
        bnez    t2, wrong
        bnez    s0, wrong
        bnez    s1, wrong
        bnez    a2, wrong
        bnez    a3, wrong
        bnez    a4, wrong
        bnez    a5, wrong
        bnez    a6, wrong
        bnez    a7, wrong
        bnez    s2, wrong
        bnez    s3, wrong
        bnez    s4, wrong
        bnez    s5, wrong
        bnez    s6, wrong
        bnez    s7, wrong
        bnez    s8, wrong
        bnez    s9, wrong
        bnez    s10, wrong
        bnez    s11, wrong
        bnez    t3, wrong
        bnez    t4, wrong
        bnez    t5, wrong
        bnez    t6, wrong
        li      t0, 0x124680
        bne     sp, t0, wrong
        li      t0, 2
        bne     a0, t0, wrong
        li      t0, -5
        bne     a1, t0, wrong
        li      a0, 0
        li      a7, 39                  # proc_exit
        ecall
wrong:
        li      a0, 1
        li      a7, 39
        ecall

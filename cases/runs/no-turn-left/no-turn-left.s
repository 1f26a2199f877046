# Does 100,000 calls that aren't built, a turn for each, and would then exit with 0: XCPU.

        li      s0, 100000
        li      a7, 48                  # thread_yield
again:
        ecall
        addi    s0, s0, -1
        bnez    s0, again
        li      a0, 0
        li      a7, 39                  # proc_exit
        ecall

# Does 99,999 calls that aren't built, a turn for each, and exits with 0 in turn 100,000, which is the last one.

        li      s0, 99999
        li      a7, 48                  # thread_yield
again:
        ecall
        addi    s0, s0, -1
        bnez    s0, again
        li      a0, 0
        li      a7, 39                  # proc_exit
        ecall

# Repeats thread_yield, a turn for each, until no turn is left: XCPU.

        li      a7, 48
again:
        ecall
        j       again

# Exits with the length of its argument data. The start block is where a0 points: the second entry of its vector has the
# length.

        ld      a0, 24(a0)
        li      a7, 39                  # proc_exit
        ecall

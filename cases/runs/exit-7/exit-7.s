# Exits with 7.

        li      a0, 7
        li      a7, 39                  # proc_exit
        ecall

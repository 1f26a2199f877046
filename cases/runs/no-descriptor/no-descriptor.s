# Writes to descriptor 0, which need not be there, and exits with the error.

        li      a0, 0
        li      a2, 0
        li      a7, 16                  # fd_write
        ecall
        li      a7, 39                  # proc_exit
        ecall

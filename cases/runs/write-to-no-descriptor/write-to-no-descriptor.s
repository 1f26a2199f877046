# Writes to descriptor 1, which is not there, and exits with the error.

        li      a0, 1
        li      a2, 0
        li      a7, 16                  # fd_write
        ecall
        li      a7, 39                  # proc_exit
        ecall

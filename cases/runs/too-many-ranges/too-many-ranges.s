# Writes with 1025 iovecs, and exits with the error.

        li      a0, 0
        li      a1, 0
        li      a2, 1025
        li      a7, 16                  # fd_write
        ecall
        li      a7, 39                  # proc_exit
        ecall

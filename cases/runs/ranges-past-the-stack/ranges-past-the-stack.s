# Writes with an array of iovecs whose second lies past the stack's end, and exits with the error.

        sd      zero, -8(sp)
        li      a0, 0
        addi    a1, sp, -16
        li      a2, 2
        li      a7, 16                  # fd_write
        ecall
        li      a7, 39                  # proc_exit
        ecall

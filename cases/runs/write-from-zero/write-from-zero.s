# Writes one byte from address 0, and exits with the error.

        sd      zero, -16(sp)
        li      s2, 1
        sd      s2, -8(sp)
        li      a0, 0
        addi    a1, sp, -16
        li      a2, 1
        li      a7, 16                  # fd_write
        ecall
        li      a7, 39                  # proc_exit
        ecall

# Writes the first 261 bytes of the start block, and exits with 0 where the word below sp could be written and read back.

        sd      a0, -16(sp)
        li      s2, 261
        sd      s2, -8(sp)
        li      a0, 0
        addi    a1, sp, -16
        li      a2, 1
        li      a7, 16                  # fd_write
        ecall
        ld      a0, -8(sp)
        addi    a0, a0, -261
        li      a7, 39                  # proc_exit
        ecall

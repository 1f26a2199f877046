# Draws 65,536 random bytes, as many as one call gives, and writes them to descriptor 0. Exits with the error of what fails, or with 0.

        li      s1, 0x10000
        sub     s0, sp, s1
        sub     s0, s0, s1
        mv      a0, s0
        mv      a1, s1
        li      a7, 42                  # random_get
        ecall
        bnez    a0, end
        sd      s0, -16(sp)
        sd      s1, -8(sp)
        addi    a1, sp, -16
        li      a2, 1
        li      a7, 16                  # fd_write
        ecall
end:
        li      a7, 39                  # proc_exit
        ecall

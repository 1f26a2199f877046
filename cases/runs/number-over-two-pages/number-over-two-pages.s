# Puts a number over two pages of the stack, reads it back, and exits with 0 where it is the same.

        lui     s2, 1
        sub     s2, sp, s2
        li      s3, -3
        sd      s3, -4(s2)
        ld      s4, -4(s2)
        sub     a0, s4, s3
        li      a7, 39                  # proc_exit
        ecall

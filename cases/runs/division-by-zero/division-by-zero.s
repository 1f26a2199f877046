# Divides 5 by 0, and exits with 1 where the quotient is -1 and the remainder is 5.

        li      a1, 5
        div     a3, a1, zero
        rem     a4, a1, zero
        addi    a3, a3, 1
        xor     a4, a4, a1
        or      a0, a3, a4
        seqz    a0, a0
        li      a7, 39                  # proc_exit
        ecall

# Maps one byte twice, writes to both pages, and exits with 0 where the addresses were 0x2000000000 and 0x2000001000.

        li      a1, 1                   # the length
        li      a2, 6                   # to be read and written
        li      a3, 5                   # ANON and PRIVATE
        li      a7, 33                  # mem_map
        ecall
        mv      s2, a1
        sd      a7, 0(s2)
        li      a1, 1
        ecall
        sd      a7, 0(a1)
        sub     a1, a1, s2              # how far they are from each other
        lui     s3, 1
        sub     a1, a1, s3
        li      s4, 1
        slli    s4, s4, 37
        sub     s2, s2, s4
        or      a0, a0, a1
        or      a0, a0, s2
        li      a7, 39                  # proc_exit
        ecall

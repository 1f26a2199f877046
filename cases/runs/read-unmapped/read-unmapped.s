# Maps two pages, unmaps one byte at the first, reads the second and then the first: SEGV.

        lui     a1, 2                   # two pages
        li      a2, 6                   # to be read and written
        li      a3, 5                   # ANON and PRIVATE
        li      a7, 33                  # mem_map
        ecall
        mv      s2, a1                  # the first
        lui     s3, 1
        add     s3, s3, s2              # the second
        mv      a0, s2
        li      a1, 1
        li      a7, 36                  # mem_unmap
        ecall
        ld      s4, 0(s3)
        ld      s4, 0(s2)

# Maps two pages, writes to both, maps the first again at its place, and exits with 0 where the first is of zeros then and the
# second is as it was.

        lui     a1, 2                   # two pages
        li      a2, 6                   # to be read and written
        li      a3, 5                   # ANON and PRIVATE
        li      a7, 33                  # mem_map
        ecall
        mv      s2, a1                  # the first
        lui     s3, 1
        add     s3, s3, s2              # the second
        sd      a7, 0(s2)
        sd      a7, 0(s3)
        mv      a0, s2
        li      a1, 1
        li      a3, 7                   # FIXED too
        ecall
        sub     s4, a1, s2
        ld      s5, 0(s2)
        ld      s6, 0(s3)
        sub     s6, s6, a7
        or      a0, a0, s4
        or      a0, a0, s5
        or      a0, a0, s6
        li      a7, 39                  # proc_exit
        ecall

# Maps a page, lets it be read alone, reads it and writes to it: SEGV.

        li      a1, 1
        li      a2, 6                   # to be read and written
        li      a3, 5                   # ANON and PRIVATE
        li      a7, 33                  # mem_map
        ecall
        mv      s2, a1
        mv      a0, s2
        li      a1, 1
        li      a2, 4                   # to be read
        li      a7, 34                  # mem_protect
        ecall
        ld      s3, 0(s2)
        sd      a7, 0(s2)

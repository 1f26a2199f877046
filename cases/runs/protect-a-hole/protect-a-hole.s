# Maps a page, asks for reads alone of it and of the next page, which is not there, writes to it, and exits with the error.

        li      a1, 1
        li      a2, 6                   # to be read and written
        li      a3, 5                   # ANON and PRIVATE
        li      a7, 33                  # mem_map
        ecall
        mv      s2, a1
        mv      a0, s2
        lui     a1, 2                   # two pages
        li      a2, 4                   # to be read
        li      a7, 34                  # mem_protect
        ecall
        sd      a7, 0(s2)
        li      a7, 39                  # proc_exit
        ecall

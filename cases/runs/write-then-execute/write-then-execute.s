# Maps a page, writes code to it that exits with 7, lets it be executed in place of written, and jumps there.

        li      a1, 1
        li      a2, 6                   # to be read and written
        li      a3, 5                   # ANON and PRIVATE
        li      a7, 33                  # mem_map
        ecall
        mv      s2, a1
        lui     s3, %hi(code)
        lw      s4, %lo(code)(s3)
        sw      s4, 0(s2)
        lw      s4, %lo(code + 4)(s3)
        sw      s4, 4(s2)
        lw      s4, %lo(code + 8)(s3)
        sw      s4, 8(s2)
        mv      a0, s2
        li      a1, 12
        li      a2, 5                   # to be read and executed
        li      a7, 34                  # mem_protect
        ecall
        jr      s2

code:
        li      a0, 7
        li      a7, 39                  # proc_exit
        ecall

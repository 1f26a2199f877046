# Maps a page, writes a function to it, lets it be executed, calls it, takes the right to execute it away and calls it again:
# SEGV.

        li      a1, 1
        li      a2, 6                   # to be read and written
        li      a3, 5                   # ANON and PRIVATE
        li      a7, 33                  # mem_map
        ecall
        mv      s2, a1
        lui     s3, %hi(return)
        lw      s4, %lo(return)(s3)
        sw      s4, 0(s2)
        mv      a0, s2
        li      a1, 8
        li      a2, 5                   # to be read and executed
        li      a7, 34                  # mem_protect
        ecall
        jalr    s2
        mv      a0, s2
        li      a1, 8
        li      a2, 4                   # to be read
        li      a7, 34                  # mem_protect
        ecall
        jalr    s2
        li      a0, 0
        li      a7, 39                  # proc_exit
        ecall

return:
        ret

# Maps a page, writes a function to it that adds 3, lets it be executed in place of written, and calls it with 0. Unmaps the
# page, and does the same with a function that adds 4, at the same address and with what the first one gave. Exits with what
# the second gave, which is 7.

        li      a1, 1
        li      a2, 6                   # to be read and written
        li      a3, 5                   # ANON and PRIVATE
        li      a7, 33                  # mem_map
        ecall
        mv      s2, a1
        lui     s3, %hi(add_3)
        lw      s4, %lo(add_3)(s3)
        sw      s4, 0(s2)
        lw      s4, %lo(return)(s3)
        sw      s4, 4(s2)
        mv      a0, s2
        li      a1, 8
        li      a2, 5                   # to be read and executed
        li      a7, 34                  # mem_protect
        ecall
        li      a0, 0
        jalr    s2
        mv      s5, a0

        mv      a0, s2
        li      a1, 8
        li      a7, 36                  # mem_unmap
        ecall

        mv      a0, s2
        li      a1, 8
        li      a2, 6
        li      a3, 7                   # ANON, FIXED and PRIVATE
        li      a7, 33                  # mem_map
        ecall
        lw      s4, %lo(add_4)(s3)
        sw      s4, 0(s2)
        lw      s4, %lo(return)(s3)
        sw      s4, 4(s2)
        mv      a0, s2
        li      a1, 8
        li      a2, 5
        li      a7, 34                  # mem_protect
        ecall
        mv      a0, s5
        jalr    s2
        li      a7, 39                  # proc_exit
        ecall

add_3:
        addi    a0, a0, 3
add_4:
        addi    a0, a0, 4
return:
        ret

# Maps two pages, with a function that adds 3 in the first and one that doubles in the second, and calls them one after the
# other from 0 on, which gives 6. Unmaps both, maps them again with the two functions in each other's place, and calls them in
# the order of their addresses once more. Exits with what they gave, which is 15.

        lui     s8, 0x200               # the two pages
        lui     s9, 0x201
        lui     s3, %hi(add_3)
        lw      s10, %lo(add_3)(s3)
        lw      s11, %lo(double)(s3)
        lw      s7, %lo(return)(s3)
        mv      s2, s8
        mv      s6, s10
        jal     put
        mv      s2, s9
        mv      s6, s11
        jal     put
        li      a0, 0
        jalr    s8
        jalr    s9
        mv      s5, a0

        mv      a0, s8
        lui     a1, 2
        li      a7, 36                  # mem_unmap
        ecall

        mv      s2, s8
        mv      s6, s11
        jal     put
        mv      s2, s9
        mv      s6, s10
        jal     put
        mv      a0, s5
        jalr    s8
        jalr    s9
        li      a7, 39                  # proc_exit
        ecall

# Maps the page s2, and puts there a function of the instruction s6.
put:
        mv      a0, s2
        li      a1, 8
        li      a2, 6                   # to be read and written
        li      a3, 7                   # ANON, FIXED and PRIVATE
        li      a7, 33                  # mem_map
        ecall
        sw      s6, 0(s2)
        sw      s7, 4(s2)
        mv      a0, s2
        li      a1, 8
        li      a2, 5                   # to be read and executed
        li      a7, 34                  # mem_protect
        ecall
        ret

add_3:
        addi    a0, a0, 3
double:
        slli    a0, a0, 1
return:
        ret

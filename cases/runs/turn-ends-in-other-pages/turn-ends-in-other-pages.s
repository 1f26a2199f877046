# Jumps to other pages of code and back behind 4090 to 4096 instructions of a turn, and behind each a call, which is in the second turn where 4096
# instructions or more were done before it: three of a function that adds 1, four of one that goes over the end of a page, and six of both.

        .include "turns.inc"

# Two pages of code, s6 and s7: the first begins with a function that adds 1, and another one that adds 2 goes over its end.
        lui     s6, 0x200
        lui     s7, 0x201
        mv      a0, s6
        lui     a1, 2
        li      a2, 6                   # to be read and written
        li      a3, 7                   # ANON, FIXED and PRIVATE
        li      a7, 33                  # mem_map
        ecall
        lui     t0, %hi(add_1)
        lw      t1, %lo(add_1)(t0)
        lw      t2, %lo(return)(t0)
        sw      t1, 0(s6)
        sw      t2, 4(s6)
        sw      t1, -4(s7)
        sw      t1, 0(s7)
        sw      t2, 4(s7)
        mv      a0, s6
        lui     a1, 2
        li      a2, 5                   # to be read and executed
        li      a7, 34                  # mem_protect
        ecall

        at_the_end "jalr ra, 0(s6)", 11, 3
        at_the_end "jalr ra, -4(s7)", 12, 3
        at_the_end "jalr ra, 0(s7); jalr ra, 0(s6)", 12, 3
        finish

add_1:
        addi    s2, s2, 1
return:
        ret

# Loops of some instructions that are done until 65,535 instructions are, and again until 65,536 are: sixteen turns, and seventeen. By each jump the
# count goes on as it is.

        .include "turns.inc"

# A loop of so many instructions, of which `addi t0, t0, -1` and `bnez t0, 1b` are the last; then what isn't counted; and how much s2 has more for each
# round.
        .macro  counted total, code, count, then, each
        prepare \total / \count
1:      \code
        addi    t0, t0, -1
        bnez    t0, 1b
        .rept   \total % \count
        nop
        .endr
        ecall
        \then
        li      t1, 10 + \each * (\total / \count)
        bne     s2, t1, differs
        .endm

        .macro  loop code, count, then="", each=1
        counted 65535, "\code", \count, "\then", \each
        counted 65536, "\code", \count, "\then", \each
        .endm

# Two pages of code, s6 and s7: both begin with a function that adds 1, and another one goes over the end of the first.
        lui     s6, 0x200
        lui     s7, 0x201
        mv      a0, s6
        lui     a1, 2
        li      a2, 6                   # to be read and written
        li      a3, 7                   # ANON, FIXED and PRIVATE
        li      a7, 33                  # mem_map
        ecall
        lui     t0, %hi(add_1)
        lw      t1, %lo(add_1)(t0)
        lw      t2, %lo(return)(t0)
        sw      t1, 0(s6)
        sw      t2, 4(s6)
        sw      t1, -4(s7)
        sw      t1, 0(s7)
        sw      t2, 4(s7)
        mv      a0, s6
        lui     a1, 2
        li      a2, 5                   # to be read and executed
        li      a7, 34                  # mem_protect
        ecall

        loop    "addi s2, s2, 1", 3
        loop    "addi s2, s2, 1; addi s2, s2, 2; addi s2, s2, 3; addi s2, s2, 4; addi s2, s2, 5", 7, "", 15
        loop    "addi s2, s2, 1; jal zero, . + 8; .word 0; addi s2, s2, 1; jal zero, . + 8; .word 0", 6, "", 2
        loop    "jal zero, . + 8; addi s2, s2, 100; addi s2, s2, 1", 4
        loop    "beq zero, zero, . + 12; addi s2, s2, 1; jal zero, . + 8; jal zero, . - 8", 6
        loop    "jal ra, add_1", 5
        loop    "jalr ra, 0(s6)", 5
        loop    "addi ra, s7, -8; jalr ra, 4(ra); addi s2, s2, 1", 8, "", 3
        loop    "ld s3, 0(s4); addi s3, s3, 1; sd s3, 0(s4)", 5, "ld s2, 0(s4); addi s2, s2, 5"
        loop    "ld s3, 9(s4); addi s3, s3, 1; sd s3, 9(s4)", 5, "ld s2, 9(s4); addi s2, s2, 10"
        loop    "li s3, 1; amoadd.d zero, s3, (s4)", 4, "ld s2, 0(s4); addi s2, s2, 5"
        loop    "lw s3, 0(s4); bne s3, zero, . + 8; .word 0; addi s2, s2, 1", 5
        loop    "slli s3, s2, 4; add s3, s3, s2; sub s3, s3, s2; srli s3, s3, 4; addi s2, s3, 1", 7
        finish

add_1:
        addi    s2, s2, 1
return:
        ret

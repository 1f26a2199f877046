# Pairs of instructions behind 4090 to 4096 others of a turn, and behind each a call. So the turn ends behind both, between them, before them, or by the
# call. The call is in the second turn where both and those before are 4096 or more.

        .include "turns.inc"

        at_the_end "addi s2, s2, 1; addi s2, s2, 2", 13, 3
        at_the_end "addi s2, s3, 1; addi s3, s2, 2", 4, 6
        at_the_end "ld s2, 0(s4); ld s3, 8(s4)", 5, 7
        at_the_end "sd s2, 0(s4); sd s3, 8(s4)", 10, 3, "ld s2, 0(s4); ld s3, 8(s4)"
        at_the_end "slli s2, s2, 4; add s2, s2, s3", 163, 3
        at_the_end "addw s2, s2, s3; xor s3, s2, s3", 13, 14
        at_the_end "lb s2, 0(s4); sb s2, 8(s4)", 5, 5, "ld s3, 8(s4)"
        at_the_end "ld s2, 1(s4); sd s2, 3(s4)", 0x0700000000000000, 0x0007000000000000, "ld s3, 4(s4)"
        at_the_end "amoadd.d s2, s3, (s4); addi s3, s2, 1", 5, 6
        at_the_end "addi s2, s2, -7; bne s2, s3, . + 8", 3, 3
        at_the_end "addi s2, s2, -1; bne s2, s3, . + 8; .word 0", 9, 3
        at_the_end "lw s2, 0(s4); bne s2, s3, . + 8; .word 0", 5, 3
        at_the_end "addi s2, s2, 1; jal zero, . + 8; .word 0", 11, 3
        at_the_end "auipc s5, 0; jalr zero, 12(s5); .word 0", 10, 3
        finish

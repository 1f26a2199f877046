# LR and SC behind 4090 to 4096 instructions of a turn, with none, one or two between them. SC stores where both are in one turn: where it is the
# 4096th at most, or where LR is the 4097th. Then s3 is 0 and memory has s2, which is 10; else s3 is 1 and memory has 5.

        .include "turns.inc"

        .macro  reserved between, count
        .irp    before, 0, 1, 2, 3, 4, 5, 6
        prepare 2045
1:      addi    t0, t0, -1
        bnez    t0, 1b
        .rept   \before
        nop
        .endr
        lr.d    s3, (s4)
        \between
        sc.d    s3, s2, (s4)
        ecall
        ld      s2, 0(s4)
        .if     (4090 + \before + 2 + \count <= 4096) || (4090 + \before + 1 > 4096)
        expect  10, 0
        .else
        expect  5, 1
        .endif
        .endr
        .endm

        reserved "", 0
        reserved "addi s5, s3, 1", 1
        reserved "addi s5, s3, 1; addi s5, s5, 1", 2
        reserved "ld s5, 0(s4); sd s5, 8(s4)", 2
        finish

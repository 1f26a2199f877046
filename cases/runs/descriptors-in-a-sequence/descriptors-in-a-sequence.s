# Walks over the fields of a map or a sequence, each of fewer than 128 bytes, and writes a line with one letter to each
# descriptor in them. Exits with 0. The start block is where a0 points: the first entry of its vector has the address of the
# argument data, and the second its length.

        ld      s0, 8(a0)
        ld      s1, 24(a0)
        add     s1, s0, s1              # where the argument data ends
        addi    s0, s0, 1               # behind the tag
        la      t0, line
        addi    sp, sp, -16
        sd      t0, 0(sp)               # a vector of one entry: the line
        li      t0, 2
        sd      t0, 8(sp)
next:
        bgeu    s0, s1, done
        lbu     s2, 0(s0)
        addi    s2, s2, -128            # the field's length
        addi    s0, s0, 1
        beqz    s2, next
        lbu     t0, 0(s0)
        li      t1, 3                   # the tag of a descriptor
        bne     t0, t1, other
        lbu     a0, 4(s0)               # the last byte of its number
        mv      a1, sp
        li      a2, 1
        li      a7, 16                  # fd_write
        ecall
other:
        add     s0, s0, s2
        j       next
done:
        li      a0, 0
        li      a7, 39                  # proc_exit
        ecall

line:
        .ascii  "x\n"

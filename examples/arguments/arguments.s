# Writes texts where its argument data says. The data is a map: each text in it is written, with a line feed, to the next
# descriptor in it. All fields are shorter than 128 bytes. `examples/build arguments` makes arguments.elf of this text.
#
# A call's number is in a7 and its arguments are in a0 to a6. At the start a0 has the address of the start block, whose
# first two entries have the address and the length of the argument data.

        .text
        .globl  _start
_start:
        ld      s0, 8(a0)               # the argument data
        ld      s1, 24(a0)
        add     s1, s0, s1              # its end
        addi    s0, s0, 1               # behind the byte that says that it is a map
        la      s3, vector
next:
        bgeu    s0, s1, done
        lbu     t0, 0(s0)               # the key's length, in a byte with its top bit set
        addi    t0, t0, -127
        add     s0, s0, t0              # behind the key
        lbu     s2, 0(s0)               # the value's length, in such a byte
        addi    s2, s2, -128
        addi    s0, s0, 1
        beqz    s2, next                # null
        lbu     t0, 0(s0)               # the value's kind
        li      t1, 8
        beq     t0, t1, text
        li      t1, 3
        beq     t0, t1, descriptor
skip:
        add     s0, s0, s2
        j       next

# A text: its bytes stand between its kind and a zero byte.
text:
        addi    t0, s0, 1
        sd      t0, 0(s3)
        addi    t0, s2, -2
        sd      t0, 8(s3)
        j       skip

# A descriptor: its number has four bytes, the highest first.
descriptor:
        lbu     a0, 4(s0)
        mv      a1, s3
        li      a2, 2                   # the vector has two entries
        li      a7, 16                  # fd_write
        ecall
        j       skip

done:
        li      a0, 0                   # the exit code
        li      a7, 39                  # proc_exit
        ecall

        .section .rodata
feed:
        .ascii  "\n"

# The text, and the line feed behind it.
        .data
        .balign 8
vector:
        .dword  0
        .dword  0
        .dword  feed
        .dword  1

        .section .note.GNU-stack, "", @progbits

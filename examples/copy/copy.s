# Copies what descriptor 0 gives to descriptor 1, in pieces of 4096 bytes at most, until nothing comes. Exits with the last
# call's error. `examples/build copy` makes copy.elf of this text.
# A call's number is in a7 and its arguments are in a0 to a6. Its error comes in a0, and 0 is none; what it gives, in a1.
        .text
        .globl  _start
_start:
        la      s0, vector
        li      s1, 4096
piece:
        sd      s1, 8(s0)               # room for a whole piece
        li      a0, 0
        mv      a1, s0
        li      a2, 1                   # the vector has one entry
        li      a7, 10                  # fd_read
        ecall
        bnez    a0, exit
        beqz    a1, exit                # nothing came: the end
        sd      a1, 8(s0)               # as many bytes as came
        li      a0, 1
        mv      a1, s0
        li      a7, 16                  # fd_write
        ecall
        beqz    a0, piece
exit:
        li      a7, 39                  # proc_exit
        ecall
# One entry: the address of the piece, and its length.
        .data
        .balign 8
vector:
        .dword  bytes
        .dword  0
        .bss
bytes:
        .zero   4096
        .section .note.GNU-stack, "", @progbits

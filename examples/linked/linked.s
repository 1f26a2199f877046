# A linked program: writes five bytes to descriptor 0 and exits with 0. `examples/build linked` makes linked.elf of this text,
# with a segment of code and one of data.
#
# A call's number is in a7 and its arguments are in a0 to a6.

        .text
        .globl  _start
_start:
        li      a0, 0                   # the descriptor
        la      a1, vector
        li      a2, 1                   # the vector has one entry
        li      a7, 16                  # fd_write
        ecall
        li      a0, 0                   # the exit code
        li      a7, 39                  # proc_exit
        ecall

        .section .rodata
text:
        .ascii  "real\n"

# One entry: the address of its bytes, and how many there are.
        .data
        .balign 8
vector:
        .dword  text
        .dword  5

        .section .note.GNU-stack, "", @progbits

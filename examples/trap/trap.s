# Writes a text to descriptor 0, tries to write to descriptor 1, which can only be read, and then reads at address 0,
# where nothing is: the kernel ends it by the signal SEGV. `examples/build trap` makes trap.elf of this text.
#
# A call's number is in a7 and its arguments are in a0 to a6.

        .text
        .globl  _start
_start:
        li      a0, 0                   # the descriptor
        la      a1, vector
        li      a2, 1                   # the vector has one entry
        li      a7, 16                  # fd_write
        ecall
        li      a0, 1
        la      a1, vector
        li      a2, 1
        li      a7, 16                  # fd_write, which is denied
        ecall
        ld      a0, 0(zero)

        .section .rodata
text:
        .ascii  "before\n"

# One entry: the address of its bytes, and how many there are.
        .data
        .balign 8
vector:
        .dword  text
        .dword  7

        .section .note.GNU-stack, "", @progbits

# Maps what descriptor 0 is of, to be read and executed, and jumps there. That is the file `c` of the tree, with the three
# instructions `li a0, 7`, `li a7, 39` and `ecall`: it exits with 7.
#
# A call's number is in a7 and its arguments are in a0 to a6. What it gives is in a1.

        .text
        .globl  _start
_start:
        li      a1, 1                   # one byte, and so one page, wherever there is room
        li      a2, 5                   # to read and execute
        li      a3, 4                   # of this process alone
        li      a4, 0                   # the descriptor
        li      a5, 0                   # from the file's beginning on
        li      a7, 33                  # mem_map
        ecall
        jr      a1

        .section .note.GNU-stack, "", @progbits

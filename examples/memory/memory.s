# Maps a page, makes a text in it, forbids to write there, writes the text to descriptor 0, takes the page away, and exits
# with the last call's error. `examples/build memory` makes memory.elf of this text.
#
# A call's number is in a7 and its arguments are in a0 to a6. Its error comes in a0, and 0 is none; what it gives, in a1.

        .text
        .globl  _start
_start:
        li      a0, 0                   # anywhere
        li      a1, 1                   # one byte, and so one page
        li      a2, 6                   # to read and write
        li      a3, 5                   # of no file, and of this process alone
        li      a4, 0
        li      a5, 0
        li      a7, 33                  # mem_map
        ecall
        bnez    a0, exit
        mv      s0, a1                  # the page

        li      t0, 'z'                 # the letters from the last to the first
        li      t1, 'a'
        mv      t2, s0
letter:
        sb      t0, 0(t2)
        addi    t2, t2, 1
        addi    t0, t0, -1
        bgeu    t0, t1, letter
        li      t0, '\n'
        sb      t0, 0(t2)

        mv      a0, s0
        li      a1, 1
        li      a2, 4                   # to read
        li      a7, 34                  # mem_protect
        ecall
        bnez    a0, exit

        addi    sp, sp, -16
        sd      s0, 0(sp)               # a vector of one entry: the text
        li      t0, 27
        sd      t0, 8(sp)
        li      a0, 0
        mv      a1, sp
        li      a2, 1
        li      a7, 16                  # fd_write
        ecall
        bnez    a0, exit

        mv      a0, s0
        li      a1, 1
        li      a7, 36                  # mem_unmap
        ecall
exit:
        li      a7, 39                  # proc_exit
        ecall

        .section .note.GNU-stack, "", @progbits

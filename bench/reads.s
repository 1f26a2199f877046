# Reads descriptor 0 in pieces of 4096 bytes until nothing comes, and exits with the last call's error. bench/program runs
# it. reads.elf is made of this text by GNU binutils for RISC-V:
#
#   riscv64-linux-gnu-as -march=rv64ima -mno-relax -o reads.o reads.s
#   riscv64-linux-gnu-ld -static --no-relax -z noseparate-code -s -o reads.elf reads.o

        .text
        .globl  _start
_start:
        addi    sp, sp, -16
        li      t0, 4096
        sub     t1, sp, t0
        sd      t1, 0(sp)               # a vector of one entry: the bytes below it
        sd      t0, 8(sp)
again:
        li      a0, 0
        mv      a1, sp
        li      a2, 1
        li      a7, 10                  # fd_read
        ecall
        bnez    a0, exit
        bnez    a1, again
exit:
        li      a7, 39                  # proc_exit
        ecall

        .section .note.GNU-stack, "", @progbits

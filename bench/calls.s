# Calls fd_write of no bytes on descriptor 0 90,000 times, and exits with 0. bench/program runs it. calls.elf is made of
# this text by GNU binutils for RISC-V:
#
#   riscv64-linux-gnu-as -march=rv64ima -mno-relax -o calls.o calls.s
#   riscv64-linux-gnu-ld -static --no-relax -z noseparate-code -s -o calls.elf calls.o

        .text
        .globl  _start
_start:
        li      s0, 90000
        li      a2, 0                   # a vector without entries
        li      a7, 16                  # fd_write
again:
        li      a0, 0
        ecall
        addi    s0, s0, -1
        bnez    s0, again
        li      a0, 0
        li      a7, 39                  # proc_exit
        ecall

        .section .note.GNU-stack, "", @progbits

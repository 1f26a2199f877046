# Duplicates descriptor 0 and closes the duplicate 45,000 times, and exits with 0. bench/program runs it. dups.elf is made
# of this text by GNU binutils for RISC-V:
#
#   riscv64-linux-gnu-as -march=rv64ima -mno-relax -o dups.o dups.s
#   riscv64-linux-gnu-ld -static --no-relax -z noseparate-code -s -o dups.elf dups.o

        .text
        .globl  _start
_start:
        li      s0, 45000
again:
        li      a0, 0
        li      a7, 7                   # fd_dup
        ecall
        bnez    a0, exit
        mv      a0, a1
        li      a7, 3                   # fd_close
        ecall
        bnez    a0, exit
        addi    s0, s0, -1
        bnez    s0, again
exit:
        li      a7, 39                  # proc_exit
        ecall

        .section .note.GNU-stack, "", @progbits

# Reads 4096 bytes at the beginning of the file that descriptor 0 is of, by fd_pread, 200,000 times, and exits with the last call's
# error. bench/runs runs it. preads.elf is made of this text by GNU binutils for RISC-V:
#
#   riscv64-linux-gnu-as -march=rv64ima -mno-relax -o preads.o preads.s
#   riscv64-linux-gnu-ld -static --no-relax -z noseparate-code -s -o preads.elf preads.o

        .text
        .globl  _start
_start:
        addi    sp, sp, -16
        li      t0, 4096
        sub     t1, sp, t0
        sd      t1, 0(sp)               # a vector of one entry: the bytes below it
        sd      t0, 8(sp)
        li      s0, 200000
again:
        li      a0, 0
        mv      a1, sp
        li      a2, 1
        li      a3, 0
        li      a7, 8                   # fd_pread
        ecall
        bnez    a0, exit
        addi    s0, s0, -1
        bnez    s0, again
exit:
        li      a7, 39                  # proc_exit
        ecall

        .section .note.GNU-stack, "", @progbits

# Copies the file of descriptor 0 to a new file in the directory of descriptor 1, in pieces of PIECE bytes, takes the new file's
# name away, and exits with the last call's error. bench/program runs it. copies-65536.elf and copies-512.elf are made of this
# text by GNU binutils for RISC-V, with PIECE as the name says:
#
#   riscv64-linux-gnu-as -march=rv64ima -mno-relax --defsym PIECE=512 -o copies.o copies.s
#   riscv64-linux-gnu-ld -static --no-relax -z noseparate-code -s -o copies-512.elf copies.o

        .text
        .globl  _start
_start:
        li      s0, PIECE
        addi    sp, sp, -16
        sub     s1, sp, s0
        sd      s1, 0(sp)               # a vector of one entry: the bytes below it
        li      a0, 1
        la      a1, name
        li      a2, 4
        li      a3, 1                   # CREAT
        la      a4, asked
        li      a7, 21                  # file_open
        ecall
        bnez    a0, exit
        mv      s2, a1
again:
        sd      s0, 8(sp)
        li      a0, 0
        mv      a1, sp
        li      a2, 1
        li      a7, 10                  # fd_read
        ecall
        bnez    a0, exit
        beqz    a1, done
        sd      a1, 8(sp)
        mv      a0, s2
        mv      a1, sp
        li      a7, 16                  # fd_write
        ecall
        beqz    a0, again
        j       exit
done:
        li      a0, 1
        la      a1, name
        li      a2, 4
        li      a3, 0
        li      a7, 30                  # file_unlink
        ecall
exit:
        li      a7, 39                  # proc_exit
        ecall

        .balign 8
asked:                                  # no flags, FD_WRITE, and no rights to hand on
        .dword  0, 0x40, 0
name:
        .ascii  "copy"

        .section .note.GNU-stack, "", @progbits

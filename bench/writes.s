# Calls fd_write of no bytes on descriptor 0 for ever. bench/runs runs it for so many turns, each of which ends at a call.
# writes.elf is made of this text by GNU binutils for RISC-V:
#
#   riscv64-linux-gnu-as -march=rv64ima -mno-relax -o writes.o writes.s
#   riscv64-linux-gnu-ld -static --no-relax -z noseparate-code -s -o writes.elf writes.o

        .text
        .globl  _start
_start:
        li      a2, 0                   # a vector without entries
        li      a7, 16                  # fd_write
again:
        li      a0, 0
        ecall
        j       again

        .section .note.GNU-stack, "", @progbits

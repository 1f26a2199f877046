# A first program: writes six bytes to descriptor 0 and exits with 0.
#
# hello.elf was written as bytes: the ELF header and one program header (120 bytes), and behind them, placed at 0x10078,
# the 62 bytes of this text: nine instructions, then the vector and the text that fd_write is given. The same bytes come
# from GNU binutils for RISC-V (2.40), which put two more at the end to fill a word:
#
#   riscv64-linux-gnu-as -march=rv64i -mno-relax -o hello.o hello.s
#   riscv64-linux-gnu-objcopy -O binary -j .text hello.o hello.bin
#   tail -c +121 hello.elf | cmp -n 62 - hello.bin
#
# A call's number is in a7 and its arguments are in a0 to a6.

        .text
start:
        addi    a0, zero, 0             # the descriptor
        lui     a1, 0x10                # the address of the vector, 0x100a0
        addi    a1, a1, 0xa0
        addi    a2, zero, 1             # the vector has one entry
        addi    a7, zero, 16            # fd_write
        ecall
        addi    a0, zero, 0             # the exit code
        addi    a7, zero, 39            # proc_exit
        ecall
        .word   0                       # up to 0x100a0

# One entry: the address of its bytes, and how many there are.
vector:
        .dword  0x100b0
        .dword  6

# At 0x100b0.
text:
        .ascii  "hello\n"

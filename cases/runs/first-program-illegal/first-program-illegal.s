# The first program, whose first word is no instruction: ILL.

        .word   0xffffffff
        lui     a1, %hi(vector)
        addi    a1, a1, %lo(vector)
        li      a2, 1                   # the vector has one entry
        li      a7, 16                  # fd_write
        ecall
        li      a0, 0                   # the exit code
        li      a7, 39                  # proc_exit
        ecall
        .word   0

# One entry: the address of its bytes, and how many there are.
vector:
        .dword  text
        .dword  6

text:
        .ascii  "hello\n"

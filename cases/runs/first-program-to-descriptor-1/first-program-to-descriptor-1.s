# The first program, which writes to descriptor 1, where there is none, and exits with the error.

        li      a0, 1                   # the descriptor
        lui     a1, %hi(vector)
        addi    a1, a1, %lo(vector)
        li      a2, 1                   # the vector has one entry
        li      a7, 16                  # fd_write
        ecall
        nop                             # the exit code is the error
        li      a7, 39                  # proc_exit
        ecall
        .word   0

# One entry: the address of its bytes, and how many there are.
vector:
        .dword  text
        .dword  6

text:
        .ascii  "hello\n"

# Maps a page and takes it away again, without end.

        .globl  _start
_start:
        li      a1, 4096                # the length
        li      a2, 6                   # READ and WRITE
        li      a3, 5                   # ANON and PRIVATE
        li      a4, 0
        li      a5, 0
        li      a7, 33                  # mem_map
        ecall
        mv      a0, a1                  # the mapping's address
        li      a1, 4096
        li      a7, 36                  # mem_unmap
        ecall
        j       _start

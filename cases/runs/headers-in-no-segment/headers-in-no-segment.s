# Exits with the address of the program headers that the start block has, which is entry 7 of its vector. The one segment has
# them but for their first byte: 0.

        .include "file.inc"
        elf_header 2, 0x10070, 2
        program_header 1, 5, 65, 0x10000, 200, 4096
        program_header 4, 6, 0, 0x20000, 0, 4096
        .byte   0                       # up to an address that is a multiple of 4
        ld      a0, 120(a0)
        li      a7, 39                  # proc_exit
        ecall
        .org    4096

# Exits with the address of the program headers that the start block has, which is entry 7 of its vector. The file bytes of the
# first segment are the program headers and no more: 0x10000.

        .include "file.inc"
        elf_header 2, 0x20074, 2
        program_header 1, 5, 64, 0x10000, 112, 4096
        program_header 1, 5, 61, 0x20000, 200, 4096
        .byte   0                       # up to an address that is a multiple of 4
        ld      a0, 120(a0)
        li      a7, 39                  # proc_exit
        ecall
        .org    4096

# A file whose one segment is its code alone, at 0x10000. It exits with 5.

        .include "file.inc"
        elf_header 2, 0x10000, 1
        program_header 1, 5, 120, 0x10000, end - start, end - start, 0x10000, 4

start:
        li      a0, 5
        li      a7, 39                  # proc_exit
        ecall
end:

# A file of a segment of code, which is the whole file, one of data, and a header of another type, with zeros up to 4096 bytes.

        .include "file.inc"
        elf_header 2, 0x10000, 3
        program_header 1, 5, 0, 0x10000, 4096, 4096
        program_header 1, 6, 0, 0x20000, 0, 4096
        program_header 4, 6, 0, 0x20000, 0, 4096
        .org    4096

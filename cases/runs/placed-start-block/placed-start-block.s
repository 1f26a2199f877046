# Writes the first 261 bytes of the start block, and exits with 0 where the word below sp could be written and read back. The file
# is of the type ET_DYN, and so it is placed 0x10000000 above the addresses that it names.

        .include "file.inc"
        elf_header 3, 0x10078, 1
        program_header 1, 5, 0, 0x10000, end - file, end - file, 0x10000, 0x1000

        sd      a0, -16(sp)
        li      s2, 261
        sd      s2, -8(sp)
        li      a0, 0
        addi    a1, sp, -16
        li      a2, 1
        li      a7, 16                  # fd_write
        ecall
        ld      a0, -8(sp)
        addi    a0, a0, -261
        li      a7, 39                  # proc_exit
        ecall
end:

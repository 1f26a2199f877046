# A program that may be placed anywhere, in a file of the type ET_DYN. It looks whether the start block has BASE, PHDR and PHNUM,
# adds BASE to a table of two addresses, jumps by the first and writes `placed` from the second. Exits with 0, or with the number
# of the first check that fails.

        .include "file.inc"
        elf_header 3, 0x10078, 1
        program_header 1, 5, 0, 0x10000, end - file, end - file, 0x10000, 0x1000

start:
        auipc   s0, 0
        j       entry

# The addresses that the file names.
table:
        .dword  0x10000 + behind - file
        .dword  0x10000 + text - file
text:
        .ascii  "placed\n\0"

behind:
        li      t0, 7
        sd      t0, 16(sp)
        li      a0, 0
        addi    a1, sp, 8
        li      a2, 1
        li      a7, 16                  # fd_write
        ecall
        li      s11, 7                  # 7: the write has no error
        bnez    a0, exit
        li      s11, 8                  # 8: and takes all bytes
        addi    a1, a1, -7
        bnez    a1, exit
        li      s11, 0
exit:
        mv      a0, s11
        li      a7, 39                  # proc_exit
        ecall

# The entries of the start block, each a number and its value.
entry:
        ld      t0, 0(a0)
        ld      t1, 8(a0)
        addi    a0, a0, 16
        addi    t2, t0, -7              # BASE
        bnez    t2, phdr
        mv      s1, t1
phdr:
        addi    t2, t0, -3              # PHDR
        bnez    t2, phnum
        mv      s2, t1
phnum:
        addi    t2, t0, -4              # PHNUM
        bnez    t2, last
        mv      s3, t1
last:
        bnez    t0, entry

        li      s11, 1                  # 1: BASE isn't 0
        beqz    s1, exit
        li      s11, 2                  # 2: the pc is the linked address and BASE
        lui     t0, 0x10
        addi    t0, t0, 0x78
        sub     t0, s0, t0
        bne     t0, s1, exit
        li      s11, 3                  # 3: the program headers are 56 bytes before the code
        addi    t0, s0, -56
        bne     t0, s2, exit
        li      s11, 4                  # 4: PHNUM is the header's number
        lhu     t0, -8(s2)
        bne     t0, s3, exit

        la      s4, table
        addi    sp, sp, -32
        ld      s5, 0(s4)
        add     s5, s5, s1
        ld      s6, 8(s4)
        add     s6, s6, s1
        sd      s6, 8(sp)
        li      s11, 5                  # 5 and 6: the addresses with BASE are those that the pc gives
        la      t0, behind
        bne     t0, s5, exit
        li      s11, 6
        la      t0, text
        bne     t0, s6, exit
        jr      s5
end:

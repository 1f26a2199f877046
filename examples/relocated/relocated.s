# A position-independent program: it may be placed anywhere, and puts its own addresses right before it uses them. It looks
# whether the start block, its program headers, its pc and its relocated addresses agree, writes a text by a relocated
# address, and exits with 0, or with the number of the first check that fails. `examples/build relocated` makes
# relocated.elf of this text, with relocations of the type R_RISCV_RELATIVE.
#
# A call's number is in a7 and its arguments are in a0 to a6. At the start a0 has the address of the start block: pairs of a
# number and a value, ended by the number 0.

        .text
        .globl  _start
_start:
        li      s1, 0                   # BASE, which is number 7: how far the program is from its linked addresses
        li      s2, 0                   # PHDR, 3: the address of its program headers
        li      s3, 0                   # PHNUM, 4: how many there are
entry:
        ld      t0, 0(a0)
        ld      t1, 8(a0)
        addi    a0, a0, 16
        beqz    t0, read
        li      t2, 7
        bne     t0, t2, 1f
        mv      s1, t1
1:      li      t2, 3
        bne     t0, t2, 1f
        mv      s2, t1
1:      li      t2, 4
        bne     t0, t2, entry
        mv      s3, t1
        j       entry

read:
        li      s0, 1                   # 1: the program is not at its linked addresses
        beqz    s1, exit

        li      s0, 2                   # 2: the pc is the linked address and BASE
here:   auipc   t0, 0
        lla     t1, linked
        ld      t1, 0(t1)
        sub     t0, t0, t1
        bne     t0, s1, exit

        li      s0, 3                   # 3: the program headers are where the file's first bytes are, and 64 behind
        lla     t0, __executable_start
        addi    t0, t0, 64
        bne     t0, s2, exit

        li      s0, 4                   # 4: PHNUM is e_phnum
        lhu     t0, -8(s2)
        bne     t0, s3, exit

        li      s0, 5                   # 5: there is a PT_DYNAMIC, which is 2, and it is where p_vaddr and BASE say
header:
        beqz    s3, exit
        lwu     t0, 0(s2)
        ld      s4, 16(s2)
        addi    s2, s2, 56
        addi    s3, s3, -1
        li      t1, 2
        bne     t0, t1, header
        add     s4, s4, s1
        lla     t0, _DYNAMIC
        bne     t0, s4, exit

        li      s5, 0                   # DT_RELA, which is 7: the linked address of the relocations
        li      s6, 0                   # DT_RELASZ, 8: how many bytes they take
dynamic:
        ld      t0, 0(s4)
        ld      t1, 8(s4)
        addi    s4, s4, 16
        beqz    t0, relocate
        li      t2, 7
        bne     t0, t2, 1f
        mv      s5, t1
1:      li      t2, 8
        bne     t0, t2, dynamic
        mv      s6, t1
        j       dynamic

relocate:
        li      s0, 6                   # 6: there are four relocations, each of the type R_RISCV_RELATIVE, which is 3
        li      t0, 96
        bne     s6, t0, exit
        add     s5, s5, s1
        add     s6, s6, s5
        li      t3, 3
1:      ld      t0, 0(s5)               # the place, its type, and the linked address that belongs there
        ld      t1, 8(s5)
        ld      t2, 16(s5)
        bne     t1, t3, exit
        add     t0, t0, s1
        add     t2, t2, s1
        sd      t2, 0(t0)
        addi    s5, s5, 24
        bltu    s5, s6, 1b

        li      s0, 7                   # 7: a relocated address is the one that the pc gives
        lla     s7, table
        ld      t0, 0(s7)
        lla     t1, here
        bne     t0, t1, exit

        li      s0, 8                   # 8: a relocated address of data leads to the data
        ld      t0, 8(s7)
        ld      t0, 0(t0)
        lla     t1, linked
        ld      t1, 0(t1)
        bne     t0, t1, exit

        li      s0, 9                   # 9: a jump by a relocated address leads to the code, over the next instruction
        ld      t0, 16(s7)
        jr      t0
        j       exit

behind:
        li      a0, 0                   # the descriptor
        lla     a1, vector
        li      a2, 1                   # the vector has one entry
        li      a7, 16                  # fd_write
        ecall
        li      s0, 10                  # 10: the text was written
        bnez    a0, exit
        li      s0, 11                  # 11: and all of it
        li      t0, 10
        bne     a1, t0, exit
        li      s0, 0
exit:
        mv      a0, s0                  # the exit code
        li      a7, 39                  # proc_exit
        ecall

        .section .rodata
text:
        .ascii  "relocated\n"

# The linked address of `here`, as a number: how far it is from the file's first byte, which is linked at 0.
        .balign 8
linked:
        .dword  here - __executable_start

# Addresses, which are right once BASE is added.
        .data
        .balign 8
table:
        .dword  here
        .dword  linked
        .dword  behind

# One entry: the address of its bytes, and how many there are.
vector:
        .dword  text
        .dword  10

        .section .note.GNU-stack, "", @progbits

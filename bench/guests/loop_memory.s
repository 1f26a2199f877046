# Goes over 64 KiB of data, with every second 8 bytes read and written as a double word, the others as a word. It doesn't end by
# itself.

        .globl  _start
_start:
        lui     s0, %hi(data)
        lui     s1, %hi(data_end)
loop:
        ld      t0, 0(s0)
        addi    t0, t0, 3
        sd      t0, 0(s0)
        lw      t1, 8(s0)
        addi    t1, t1, 5
        sw      t1, 8(s0)
        addi    s0, s0, 16
        bne     s0, s1, loop
        j       _start

        .bss
        .balign 4096
data:
        .skip   65536
data_end:

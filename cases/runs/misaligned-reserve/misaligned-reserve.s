# A load-reserved of a word at 0x10002: BUS.

        lui     a0, 0x10
        addi    a0, a0, 2
        lr.w    a1, (a0)

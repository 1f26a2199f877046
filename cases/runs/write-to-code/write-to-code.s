# A store to the page of the code, which can't be written: SEGV.

        lui     a0, 0x10
        sd      a0, 0(a0)

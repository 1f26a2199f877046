# A load from memory that isn't mapped: SEGV.

        ld      a0, 0(zero)

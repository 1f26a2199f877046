# A breakpoint: TRAP.

        ebreak

# Jumps to itself until no turn is left: XCPU.

        j       .

# A jump to the next half word: BUS.

        j       . + 2

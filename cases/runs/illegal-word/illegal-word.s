# A word that is no instruction: ILL.

        .word   0xffffffff

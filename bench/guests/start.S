# Calls the guest's run(), and exits with the low 32 bits of its result.
    .globl _start
_start:
    call run
    li a7, 39 # proc_exit
    ecall

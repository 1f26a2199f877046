/*
 * The start of a program. It begins at `_start` with the vector's address in a0, a stack, and zero in every other register. The
 * thread pointer is set to the thread-local variables of the first thread, which guest.ld places. A thread that `thread_create`
 * makes has none, and mustn't use any, `errno` among them; one that `pthread_create` makes has its own.
 */
#include "argdata.h"

__asm__(".section .text.start, \"ax\", @progbits\n"
        ".globl _start\n"
        "_start:\n"
        "        la      tp, __tls_base\n"
        "        tail    start_program\n"
        ".text\n");

_Noreturn void start_program(const cloudabi_auxv_t *vector)
{
    argdata_t arguments = {0};
    for (; vector->number != CLOUDABI_AT_NULL; ++vector) {
        if (vector->number == CLOUDABI_AT_ARGDATA)
            arguments.bytes = (const uint8_t *)(uintptr_t)vector->value;
        if (vector->number == CLOUDABI_AT_ARGDATALEN)
            arguments.length = vector->value;
    }
    program_main(&arguments);
    cloudabi_sys_proc_exit(0);
}

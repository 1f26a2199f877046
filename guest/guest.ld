/*
 * Where a program's parts stand: code that may be executed, constants that may be read, and data that may be read and written,
 * each on pages of its own, from 0x10000 on. There is no global pointer, so that a thread needs none. The first thread's
 * thread-local variables stand in the data.
 */
ENTRY(_start)

PHDRS
{
    text PT_LOAD FLAGS(5);
    rodata PT_LOAD FLAGS(4);
    data PT_LOAD FLAGS(6);
    tls PT_TLS FLAGS(4);
}

SECTIONS
{
    . = 0x10000;
    .text : {
        KEEP(*(.text.start))
        *(.text .text.*)
    } :text

    . = ALIGN(4096);
    .rodata : {
        *(.rodata .rodata.* .srodata .srodata.*)
        . = ALIGN(8);
        *(.data.rel.ro .data.rel.ro.* .got .got.*)
        . = ALIGN(8);
        __preinit_array_start = .;
        KEEP(*(.preinit_array))
        __preinit_array_end = .;
        __init_array_start = .;
        KEEP(*(SORT_BY_INIT_PRIORITY(.init_array.*)))
        KEEP(*(.init_array))
        __init_array_end = .;
        __fini_array_start = .;
        KEEP(*(SORT_BY_INIT_PRIORITY(.fini_array.*)))
        KEEP(*(.fini_array))
        __fini_array_end = .;
    } :rodata

    . = ALIGN(4096);
    .data : ALIGN(16) {
        *(.data .data.* .sdata .sdata.*)
    } :data
    .tdata : ALIGN(16) {
        *(.tdata .tdata.*)
    } :data :tls
    .tbss : ALIGN(16) {
        *(.tbss .tbss.* .tcommon)
    } :data :tls
    . = ADDR(.tbss) + SIZEOF(.tbss); /* the linker gives .tbss no room of its own */
    __tls_base = SIZEOF(.tdata) != 0 ? ADDR(.tdata) : ADDR(.tbss);
    __tls_data_size = ABSOLUTE(SIZEOF(.tdata));
    __tls_size = ABSOLUTE(ADDR(.tbss) + SIZEOF(.tbss) - __tls_base);
    .bss : ALIGN(16) {
        *(.sbss .sbss.* .bss .bss.* COMMON)
    } :data

    /DISCARD/ : {
        *(.eh_frame .eh_frame.* .note .note.*)
    }
}

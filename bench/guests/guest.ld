/* Code and constants in a segment that can be read and executed, data in one that can be read and written. */
ENTRY(_start)
PHDRS
{
    code PT_LOAD FLAGS(5);
    data PT_LOAD FLAGS(6);
}
SECTIONS
{
    . = 0x10000;
    .text : { *(.text .text.*) *(.rodata .rodata.* .srodata .srodata.*) } :code
    . = ALIGN(0x1000);
    .data : { QUAD(0) *(.data .data.* .sdata .sdata.*) } :data
    .bss : { *(.bss .bss.* .sbss .sbss.*) } :data
    /DISCARD/ : { *(.riscv.attributes) *(.comment) *(.eh_frame) *(.note*) }
}

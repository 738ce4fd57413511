/* Code first, entries of tasks and interrupts before all else, then what it reads and writes. */
ENTRY(code_begins)
PHDRS
{
    code PT_LOAD FLAGS(5);
    memory PT_LOAD FLAGS(6);
}
SECTIONS
{
    . = 0x1000;
    code_begins = .;
    .text : { *(.text.entry) *(.text .text.*) } :code
    . = 0x8000;
    .rodata : { *(.rodata .rodata.* .srodata .srodata.*) } :memory
    .data : { *(.data .data.* .sdata .sdata.*) } :memory
    .bss : { *(.bss .bss.* .sbss .sbss.* COMMON) } :memory
    /DISCARD/ : { *(.comment) *(.note*) *(.eh_frame*) *(.riscv.attributes) }
}

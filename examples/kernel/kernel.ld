/* The kernel lies where QEMU begins; the test bench loads its script behind it. */
ENTRY(_start)
script = 0x80ff0000;
SECTIONS
{
    . = 0x80000000;
    .text : { *(.text.start) *(.text .text.*) }
    .rodata : { *(.rodata .rodata.* .srodata .srodata.*) }
    .data : { *(.data .data.* .sdata .sdata.*) }
    .bss : { *(.bss .bss.* .sbss .sbss.* COMMON) . = ALIGN(16); . += 2048; kernel_stack_end = .; }
    /DISCARD/ : { *(.comment) *(.note*) *(.eh_frame*) *(.riscv.attributes) }
}

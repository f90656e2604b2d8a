/* One piece from `base` on, code first: address 0 for us, an ordinary one for Linux. */
ENTRY(_start)
SECTIONS
{
    . = base;
    .text : { *(.start) *(.text .text.*) *(.rodata .rodata.* .srodata .srodata.*) }
    .data : { *(.data .data.* .sdata .sdata.*) }
    .bss : { *(.bss .bss.* .sbss .sbss.* COMMON) }
    /DISCARD/ : { *(.comment) *(.note*) *(.eh_frame*) *(.riscv.attributes) }
}

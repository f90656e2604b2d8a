/* A recipe's memory: code from address 0, data, .bss, and the stack down from the end. */
ENTRY(start)
memory_end = 4096;              /* the number for --memory; at most 65536 */
stack_least = 256;

PHDRS { code PT_LOAD; data PT_LOAD; }

SECTIONS {
    .text 0 : { *(.start) *(.text*) *(.rodata*) *(.srodata*) } :code
    .data : ALIGN(4) { *(.data*) *(.sdata*) } :data
    .bss : { *(.bss*) *(.sbss*) *(COMMON) } :data
    ASSERT(. + stack_least <= memory_end, "no room for the stack")
}

/* The machine `virt` of the RISC-V emulator: 128 MB of zeroed memory. */
ENTRY(start)
SECTIONS {
    . = 0x80000000;
    .text : { KEEP(*(.start)) *(.text*) *(.rodata*) *(.srodata*) }
    .data : { *(.data*) *(.sdata*) }
    .bss : { *(.bss*) *(.sbss*) *(COMMON) }
    stack_top = 0x87fffff0;
}

SECTIONS {
    .text : { KEEP(*(.vectors)) *(.text*) *(.rodata*) } >CODE
    .ARM.exidx : { *(.ARM.exidx*) } >CODE
    .data : { *(.data*) } >TABLES
    .bss (NOLOAD) : { bss_start = .; *(.bss*) *(COMMON) bss_end = .; } >TABLES
}

/* The BBC micro:bit: a Cortex-M0 with 256 KB of flash and 16 KB of memory, tables from below and the stack from above. */
MEMORY {
    CODE (rx) : ORIGIN = 0, LENGTH = 256K
    TABLES (rwx) : ORIGIN = 0x20000000, LENGTH = 16K
}
stack_top = 0x20004000;
INCLUDE ports/board/cortex-m.ld

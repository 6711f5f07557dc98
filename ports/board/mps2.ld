/* The boards MPS2 with a Cortex-M: 4 MB of code, 4 MB of memory for the stack, 16 MB for tables. */
MEMORY {
    CODE (rx) : ORIGIN = 0, LENGTH = 4M
    TABLES (rwx) : ORIGIN = 0x21000000, LENGTH = 16M
}
stack_top = 0x20400000;
INCLUDE ports/board/cortex-m.ld

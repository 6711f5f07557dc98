/* The start of a program on the machine `virt` of the RISC-V emulator: a serial port, and a device that ends the run. */
#include "../board.h"
#include <stdint.h>

extern int main(void);

void put(char c) {
    *(volatile uint8_t *)0x10000000 = (uint8_t)c;
}

__attribute__((used)) static void begin(void) {
    uint32_t status = (uint32_t)main();
    *(volatile uint32_t *)0x100000 = status == 0 ? 0x5555 : status << 16 | 0x3333;
    for (;;) {}
}

__attribute__((section(".start"), naked, used)) void start(void) {
    __asm__ volatile("la sp, stack_top\n j begin");
}

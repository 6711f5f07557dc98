/* The start of a program on a Cortex-M in an emulator. What it prints and its status go out by semihosting, on any board. */
#include "../board.h"
#include <stdint.h>

extern int main(void);
extern char bss_start[], bss_end[], stack_top[];

static void host(uint32_t operation, const volatile void *given) {
    register uint32_t r0 __asm__("r0") = operation;
    register const volatile void *r1 __asm__("r1") = given;
    __asm__ volatile("bkpt 0xab" : "+r"(r0) : "r"(r1) : "memory");
}

void put(char c) {
    host(0x03, &c);
}

/* The status goes out with "the program has ended" before it. */
static void reset(void) {
    for (char *p = bss_start; p < bss_end; p++) *p = 0;
    uint32_t ended[2] = {0x20026, (uint32_t)main()};
    host(0x20, ended);
    for (;;) {}
}

static void fault(void) {
    static const uint32_t ended[2] = {0x20026, 99};
    host(0x20, ended);
    for (;;) {}
}

__attribute__((section(".vectors"), used)) static void (*const vectors[16])(void) = {
    (void (*)(void))stack_top, reset, fault, fault, fault, fault, fault,
};

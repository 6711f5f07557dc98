/* How much stack a call takes: the stack below is painted, the call made, and the paint that is left counted. */
#include "stack.h"
#include <stdint.h>

#define AREA 65536

static __attribute__((noinline)) void paint(void) {
    volatile uint8_t area[AREA];
    for (unsigned i = 0; i < AREA; i++) area[i] = 0xa5;
}

static __attribute__((noinline)) unsigned painted(void) {
    volatile uint8_t area[AREA];
    unsigned i = 0;
    while (i < AREA && area[i] == 0xa5) i++;
    return AREA - i;
}

unsigned stack_of(void (*call)(void)) {
    paint();
    call();
    return painted();
}

/* The output of a program that has a C library. */
#include "../board.h"
#include <stdio.h>

void put(char c) {
    putchar(c);
}

/* What a program here asks of its board: a place for each character that it prints, and C's functions on memory (board/memory.c). */
#ifndef BOARD_H
#define BOARD_H

#include <stddef.h>

void put(char c);

void *memcpy(void *to, const void *from, size_t bytes);
void *memset(void *to, int byte, size_t bytes);
void *memmove(void *to, const void *from, size_t bytes);
int memcmp(const void *left, const void *right, size_t bytes);

#endif

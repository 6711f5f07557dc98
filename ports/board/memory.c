/* The two functions that the engine takes from its host, and the two more that a C compiler may call; for programs without a C library. */
#include "../board.h"

void *memcpy(void *to, const void *from, size_t bytes) {
    unsigned char *t = to;
    const unsigned char *f = from;
    while (bytes--) *t++ = *f++;
    return to;
}

void *memset(void *to, int byte, size_t bytes) {
    unsigned char *t = to;
    while (bytes--) *t++ = (unsigned char)byte;
    return to;
}

void *memmove(void *to, const void *from, size_t bytes) {
    unsigned char *t = to;
    const unsigned char *f = from;
    if (t < f) return memcpy(to, from, bytes);
    while (bytes--) t[bytes] = f[bytes];
    return to;
}

int memcmp(const void *left, const void *right, size_t bytes) {
    const unsigned char *l = left, *r = right;
    for (; bytes--; l++, r++)
        if (*l != *r) return *l < *r ? -1 : 1;
    return 0;
}

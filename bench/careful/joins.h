/* Parts that grow together, by parent pointers that each search shortens. */
#ifndef JOINS_H
#define JOINS_H
#include <stdint.h>

static inline unsigned part_of(uint16_t *up, unsigned v) {
    while (up[v] != v) v = up[v] = up[up[v]];
    return v;
}
#endif

/* Rows of the links table in C: by words, set bits by trailing zeros. */
#ifndef ROWS_H
#define ROWS_H
#include <stddef.h>
#include <stdint.h>
#include <string.h>

#define RADIOS 512
#define NEIGHBOURS 40
#define ROW 64

static inline int marked(const uint8_t *links, unsigned a, unsigned b) { return links[ROW * a + b / 8] >> b % 8 & 1; }

static inline void put_bit(uint8_t *links, int on, unsigned a, unsigned b) {
    if (on)
        links[ROW * a + b / 8] |= 1 << b % 8;
    else
        links[ROW * a + b / 8] &= ~(1 << b % 8);
}

static inline uint64_t row_word(const uint8_t *links, unsigned a, unsigned i) {
    uint64_t w;
    memcpy(&w, links + ROW * a + 8 * i, 8);
    return w;
}

/* The radios of row a, ascending, as many as there is room for; the count of all of them. */
static inline unsigned row_list(const uint8_t *links, unsigned a, uint16_t *list, unsigned room) {
    unsigned k = 0;
    for (unsigned i = 0; i < ROW / 8; i++)
        for (uint64_t w = row_word(links, a, i); w; w &= w - 1) {
            if (k < room) list[k] = 64 * i + __builtin_ctzll(w);
            k++;
        }
    return k;
}

static inline unsigned row_count(const uint8_t *links, unsigned a) {
    unsigned k = 0;
    for (unsigned i = 0; i < ROW / 8; i++) k += __builtin_popcountll(row_word(links, a, i));
    return k;
}
#endif

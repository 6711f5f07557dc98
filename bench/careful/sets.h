/* Sets of radios as eight words, as the rows of the links table are. */
#ifndef SETS_H
#define SETS_H
#include "../program.h"

#define WORDS 8

static inline int is_in(const uint64_t *set, unsigned v) { return set[v / 64] >> v % 64 & 1; }
static inline void put_in(uint64_t *set, unsigned v) { set[v / 64] |= 1ull << v % 64; }
static inline void take_out(uint64_t *set, unsigned v) { set[v / 64] &= ~(1ull << v % 64); }

/* The radios of the set, ascending; how many. */
static inline unsigned list_set(const uint64_t *set, uint16_t *list) {
    unsigned k = 0;
    for (unsigned i = 0; i < WORDS; i++)
        for (uint64_t w = set[i]; w; w &= w - 1) list[k++] = 64 * i + __builtin_ctzll(w);
    return k;
}

/* Set bits of a word. Written out, since without a processor's own count gcc calls a function for it. */
static inline unsigned bits(uint64_t w) {
    w -= w >> 1 & 0x5555555555555555;
    w = (w & 0x3333333333333333) + (w >> 2 & 0x3333333333333333);
    return ((w + (w >> 4)) & 0x0f0f0f0f0f0f0f0f) * 0x0101010101010101 >> 56;
}

static inline unsigned degree(const uint8_t *links, unsigned v) {
    unsigned k = 0;
    for (unsigned i = 0; i < WORDS; i++) k += bits(row_word(links, v, i));
    return k;
}

/* Radios with the number k or more. */
static inline void at_least(const struct lent *t, unsigned k, uint64_t *set) {
    memset(set, 0, ROW);
    for (unsigned v = 0; v < t->n; v++) set[v / 64] |= (uint64_t)(t->numbers[v] >= k) << v % 64;
}

/* The part of a row above its own radio: from word a / 64 on. */
static inline uint64_t row_above(const uint8_t *links, unsigned a, unsigned i) {
    uint64_t w = row_word(links, a, i);
    return i == a / 64 ? w & ~0ull << a % 64 : w;
}
#endif

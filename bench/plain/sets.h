/* Sets of radios, or of places, as eight words, a bit for each. */
#ifndef SETS_H
#define SETS_H
#include "../rows.h"

#define WORDS (ROW / 8)

static inline int is_in(const uint64_t *set, unsigned v) { return set[v / 64] >> v % 64 & 1; }
static inline void put_in(uint64_t *set, unsigned v) { set[v / 64] |= 1ull << v % 64; }
static inline void take_out(uint64_t *set, unsigned v) { set[v / 64] &= ~(1ull << v % 64); }

/* The lowest of a set, RADIOS where there is none. */
static inline unsigned first_bit(const uint64_t *set) {
    for (unsigned k = 0; k < WORDS; k++)
        if (set[k]) return 64 * k + __builtin_ctzll(set[k]);
    return RADIOS;
}

/* Puts the radios that row a marks into the set. */
static inline void join_row(const uint8_t *links, unsigned a, uint64_t *set) {
    for (unsigned k = 0; k < WORDS; k++) set[k] |= row_word(links, a, k);
}

/* How many radios both sets have. */
static inline unsigned count_common(const uint64_t *one, const uint64_t *other) {
    unsigned n = 0;
    for (unsigned k = 0; k < WORDS; k++) n += __builtin_popcountll(one[k] & other[k]);
    return n;
}
#endif

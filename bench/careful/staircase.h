/*
 * The staircase tree of a careful programmer: level by level from the top, only rows that have a link of the level, and a link is
 * kept where its ends are of different parts.
 */
#ifndef STAIRCASE_H
#define STAIRCASE_H
#include "check.h"
#include "joins.h"

/* Radios with the level's number, radios not below it, and radios with a link of the level. */
struct level {
    uint64_t own[WORDS], not_below[WORDS], rows[WORDS];
};

/* Takes in the radios of the level that ends before place `to`; the place where it starts. */
static unsigned next_level(const struct lent *t, struct level *l, unsigned to) {
    const unsigned k = t->numbers[t->order[to - 1]];
    memset(l->own, 0, sizeof l->own), memset(l->rows, 0, sizeof l->rows);
    for (; to && t->numbers[t->order[to - 1]] == k; to--) {
        unsigned v = t->order[to - 1];
        put_in(l->own, v);
        for (unsigned i = 0; i < WORDS; i++) l->rows[i] |= row_word(t->links, v, i);
    }
    for (unsigned i = 0; i < WORDS; i++) l->not_below[i] |= l->own[i], l->rows[i] = (l->rows[i] & l->not_below[i]) | l->own[i];
    return to;
}

/* A radio above the level has a link of it to radios of the level alone. */
static inline unsigned keep_row(const struct lent *t, const struct level *l, unsigned a, uint16_t *up, uint16_t *table, unsigned count) {
    const uint64_t *others = is_in(l->own, a) ? l->not_below : l->own;
    for (unsigned i = a / 64; i < WORDS; i++)
        for (uint64_t w = row_above(t->links, a, i) & others[i]; w; w &= w - 1) {
            unsigned b = 64 * i + __builtin_ctzll(w), x = part_of(up, a), y = part_of(up, b);
            if (x == y) continue;
            up[x] = y;
            table[2 * count] = a, table[2 * count + 1] = b, count++;
        }
    return count;
}

static struct c_value c_staircase(const struct lent *t, uint16_t *table, size_t room) {
    struct found f;
    struct level l = {{0}, {0}, {0}};
    uint16_t up[RADIOS];
    unsigned number = refusal(t, room >= 2 * (size_t)t->n, &f), count = 0;
    if (number) return (struct c_value){number, 0};
    for (unsigned v = 0; v < t->n; v++) up[v] = v;
    for (unsigned i = t->n; i && t->numbers[t->order[i - 1]];) {
        i = next_level(t, &l, i);
        for (unsigned j = 0; j < WORDS; j++)
            for (uint64_t w = l.rows[j]; w; w &= w - 1) count = keep_row(t, &l, 64 * j + __builtin_ctzll(w), up, table, count);
    }
    return (struct c_value){0, count};
}
#endif

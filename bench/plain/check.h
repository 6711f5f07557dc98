/* Questions 1 to 3 in C: the engine's soundness check, the same tests in the same order. */
#ifndef CHECK_H
#define CHECK_H
#include "../program.h"

/* The radios of row a above a: the bits up to its own are shifted out of its word. */
static inline unsigned c_above(const uint8_t *links, unsigned a, uint16_t *list) {
    unsigned k = 0;
    for (uint64_t w = row_word(links, a, a / 64) >> a % 64 >> 1; w; w &= w - 1) list[k++] = a + 1 + __builtin_ctzll(w);
    for (unsigned i = a / 64 + 1; i < ROW / 8; i++)
        for (uint64_t w = row_word(links, a, i); w; w &= w - 1) list[k++] = 64 * i + __builtin_ctzll(w);
    return k;
}

/* Whether each radio stands once in the order; then its place. */
static int c_place(uint32_t n, const uint16_t *order, uint16_t *places) {
    for (unsigned v = 0; v < n; v++) places[v] = NOWHERE;
    for (unsigned i = 0; i < n; i++) {
        if (order[i] >= n || places[order[i]] != NOWHERE) return 0;
        places[order[i]] = i;
    }
    return 1;
}

/* Of the neighbours of a row: how many, how many come later, how many are not below, and the place of the first later one. */
struct c_ends {
    unsigned count, later, high, first;
};

/* The highest words whose bits all are radios of a site of n, one for each word of a row. */
static inline void c_highest_words(uint32_t n, uint64_t *highest) {
    for (unsigned i = 0; i < ROW / 8; i++)
        highest[i] = n <= 64 * i ? 0 : n - 64 * i >= 64 ? UINT64_MAX : ((uint64_t)1 << (n - 64 * i)) - 1;
}

/* Counts the ends of row a, word by word; 0 where there are too many, or one is no radio, is a itself or does not have a. */
static inline int c_count_ends(const struct lent *t, const uint16_t *places, const uint64_t *highest, unsigned a, struct c_ends *ends) {
    struct c_ends c = {0, 0, 0, NOWHERE};
    if (marked(t->links, a, a)) return 0;
    unsigned own_place = places[a], own = t->numbers[a];
    for (unsigned i = 0; i < ROW / 8; i++) {
        uint64_t w = row_word(t->links, a, i);
        if (!w) continue;
        if (w > highest[i]) return 0;
        for (; w; w &= w - 1) {
            unsigned b = 64 * i + __builtin_ctzll(w);
            if (!marked(t->links, b, a)) return 0;
            unsigned place = places[b];
            if (place > own_place && place < c.first) c.first = place;
            c.count++, c.later += own_place < place;
            c.high += own <= t->numbers[b];
        }
        if (c.count > NEIGHBOURS) return 0;
    }
    *ends = c;
    return 1;
}

/* Whether the tables are sound; then places, and for each radio how many neighbours are not below it. */
static int c_examine(const struct lent *t, uint16_t *places, uint8_t *highs) {
    if (!c_place(t->n, t->order, places)) return 0;
    for (unsigned i = 0, last = 0; i < t->n; i++) {
        if (t->numbers[t->order[i]] < last) return 0;
        last = t->numbers[t->order[i]];
    }
    uint64_t highest[ROW / 8];
    c_highest_words(t->n, highest);
    for (unsigned a = 0; a < t->n; a++) {
        struct c_ends ends;
        if (!c_count_ends(t, places, highest, a, &ends)) return 0;
        if (ends.later > t->numbers[a] || ends.high < t->numbers[a]) return 0;
        highs[a] = ends.high;
    }
    return 1;
}

/* Questions 1 and 2, where `others` is the answer that 2 gets for further tables. */
static unsigned c_sizes(const struct lent *t, int others) {
    if (t->n < 1 || t->n > RADIOS) return 1;
    return t->links_len != ROW * t->n || t->numbers_len != t->n || t->order_len != t->n || !others ? 2 : 0;
}

static int c_sound(const struct lent *t) {
    uint16_t places[RADIOS];
    uint8_t highs[RADIOS];
    return c_examine(t, places, highs);
}

static unsigned c_refusal(const struct lent *t, int others) {
    unsigned number = c_sizes(t, others);
    return number ? number : c_sound(t) ? 0 : 3;
}

static struct c_value c_check(const struct lent *t) {
    unsigned number = c_sizes(t, 1);
    return (struct c_value){number, number ? 0 : c_sound(t)};
}
#endif

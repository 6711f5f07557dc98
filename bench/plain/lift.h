/* One link that lifts a radio, in C, as the engine does it: only pairs whose first end in the order has exactly K later neighbours and stands no
 * later than the radio are tried; for each lower end the radio's level is peeled with all untried higher ends left alone, and from there, for
 * each pair tried, with its two ends; a peel that takes the radio or leaves an end short rules pairs out. A counter below 128 is of a radio that is
 * left, 128 more of one that is taken, 255 of none of the level. */
#ifndef LIFT_H
#define LIFT_H
#include "check.h"

#define GONE 128
#define NO_COUNTER 255

static inline int c_is_due(unsigned v, unsigned level, unsigned a, const uint8_t *held, const uint8_t *counters) {
    return counters[v] <= level && v != a && (counters[v] < level || !marked(held, 0, v));
}

/* The lowest radio of a set, RADIOS where there is none. */
static inline unsigned c_first_marked(const uint8_t *set) {
    for (unsigned i = 0; i < ROW / 8; i++) {
        uint64_t w = row_word(set, 0, i);
        if (w) return 64 * i + __builtin_ctzll(w);
    }
    return RADIOS;
}

/* Whether no pair of a whose other end stays lifts r: r is taken, or a falls short. */
static inline int c_is_gone(unsigned r, unsigned a, unsigned level, const uint8_t *counters) {
    return counters[r] >= GONE || counters[a] < level;
}

/* The lowest radio due, a late one only where no other is due. */
static inline unsigned c_next_due(const uint8_t *due, const uint8_t *late) {
    for (unsigned i = 0; i < ROW / 8; i++) {
        uint64_t w = row_word(due, 0, i) & ~row_word(late, 0, i);
        if (w) return 64 * i + __builtin_ctzll(w);
    }
    return c_first_marked(due);
}

/* Peels with a and the held radios left alone and the late ones taken last, until r or stop is taken or a falls short; whether none is due. */
static int c_peel_around(const struct lent *t, unsigned r, unsigned stop, unsigned level, unsigned a, const uint8_t *held, const uint8_t *late,
                         uint8_t *counters) {
    uint8_t due[ROW] = {0};
    uint64_t stay[ROW / 8];
    memset(stay, 255, sizeof stay);
    for (unsigned v = 0; v < RADIOS; v++)
        if (c_is_due(v, level, a, held, counters)) put_bit(due, 1, 0, v);
    for (unsigned v = c_next_due(due, late); v < RADIOS; v = c_next_due(due, late)) {
        put_bit(due, 0, 0, v);
        stay[v / 64] &= ~(1ull << v % 64);
        counters[v] += GONE;
        for (unsigned i = 0; i < ROW / 8; i++) {
            for (uint64_t rest = row_word(t->links, v, i) & stay[i]; rest; rest &= rest - 1) {
                unsigned w = 64 * i + __builtin_ctzll(rest);
                if (counters[w] >= GONE) continue;
                counters[w]--;
                if (c_is_due(w, level, a, held, counters)) put_bit(due, 1, 0, w);
            }
        }
        if (c_is_gone(r, a, level, counters) || counters[stop] >= GONE) return 0;
    }
    return 1;
}

/* Takes the radios out of the untried that are ruled out. */
static void c_rule_out(const struct lent *t, unsigned level, int gone, const uint8_t *counters, uint8_t *untried) {
    for (unsigned c = 0; c < t->n; c++) {
        int out = t->numbers[c] > level || counters[c] < GONE ? gone : counters[c] < GONE + level;
        if (out) put_bit(untried, 0, 0, c);
    }
}

/* The lowest untried radio after a peel with all of them left alone; RADIOS where no pair of a lifts r. */
static unsigned c_settle(const struct lent *t, unsigned r, unsigned a, uint8_t *base, uint8_t *untried) {
    unsigned level = t->numbers[r];
    if (!c_peel_around(t, r, r, level, a, untried, untried, base)) return RADIOS;
    c_rule_out(t, level, 0, base, untried);
    return c_first_marked(untried);
}

/* Whether the link a-b would lift r. If not, b is no more untried, nor are others that the peel rules out. */
static int c_lifts(const struct lent *t, unsigned r, unsigned a, unsigned b, const uint8_t *base, uint8_t *untried) {
    uint8_t counters[RADIOS], held[ROW] = {0};
    unsigned level = t->numbers[r];
    memcpy(counters, base, RADIOS);
    put_bit(held, 1, 0, b);
    if (c_peel_around(t, r, t->numbers[b] == level ? b : r, level, a, held, untried, counters)) return 1;
    c_rule_out(t, level, c_is_gone(r, a, level, counters), counters, untried);
    put_bit(untried, 0, 0, b);
    return 0;
}

/* How many neighbours of v stand later in the order than it. */
static unsigned c_later(const struct lent *t, const uint16_t *places, unsigned v) {
    uint16_t near[NEIGHBOURS];
    unsigned k = row_list(t->links, v, near, NEIGHBOURS), later = 0;
    for (unsigned i = 0; i < k; i++) later += places[v] < places[near[i]];
    return later;
}

/* The higher ends with which a makes a pair that may lift r. */
static void c_candidates(const struct lent *t, const uint16_t *places, unsigned a, const uint8_t *open, const uint8_t *tight, uint8_t *untried) {
    memset(untried, 0, ROW);
    if (!marked(open, 0, a)) return;
    for (unsigned c = a + 1; c < t->n; c++) {
        if (!marked(open, 0, c) || !marked(tight, 0, places[c] < places[a] ? c : a) || marked(t->links, a, c)) continue;
        put_bit(untried, 1, 0, c);
    }
}

static struct c_pair c_lift(const struct lent *t, uint32_t r) {
    uint16_t places[RADIOS];
    uint8_t highs[RADIOS], base[RADIOS], untried[ROW], open[ROW] = {0}, tight[ROW] = {0};
    unsigned number = c_sizes(t, 1);
    if (!number) number = !c_examine(t, places, highs) ? 3 : r >= t->n ? 4 : 0;
    if (number) return (struct c_pair){number, 0, 0};
    unsigned level = t->numbers[r];
    for (unsigned v = 0; v < t->n; v++) {
        if (t->numbers[v] >= level && row_count(t->links, v) < NEIGHBOURS) put_bit(open, 1, 0, v);
        if (t->numbers[v] == level && places[v] <= places[r] && c_later(t, places, v) == level) put_bit(tight, 1, 0, v);
    }
    for (unsigned a = 0; a < t->n; a++) {
        c_candidates(t, places, a, open, tight, untried);
        if (c_first_marked(untried) == RADIOS) continue;
        for (unsigned v = 0; v < RADIOS; v++) base[v] = v < t->n && t->numbers[v] == level ? highs[v] : NO_COUNTER;
        for (unsigned b = c_settle(t, r, a, base, untried); b < RADIOS; b = c_settle(t, r, a, base, untried))
            if (c_lifts(t, r, a, b, base, untried)) return (struct c_pair){0, a, b};
    }
    return (struct c_pair){20, 0, 0};
}
#endif

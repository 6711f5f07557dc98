/*
 * All numbers anew in plain C: a link is struck or added, and the core numbers of the site are worked out from its links alone, by
 * taking off the radio with the fewest neighbours left (Batagelj and Zaversnik). It neither checks tables nor keeps an order, so it
 * is no link call; it shows what a program without tables would take for a change.
 */
#include "program.h"

/* The radios by neighbours left: `by` holds them, the ones with k from starts[k] on. */
struct peel {
    uint16_t by[RADIOS], places[RADIOS], starts[RADIOS + 1];
    uint8_t left[RADIOS];
};

static unsigned bits(uint64_t w) {
    w -= w >> 1 & 0x5555555555555555;
    w = (w & 0x3333333333333333) + (w >> 2 & 0x3333333333333333);
    return ((w + (w >> 4)) & 0x0f0f0f0f0f0f0f0f) * 0x0101010101010101 >> 56;
}

static void sort_by_degree(const struct lent *t, struct peel *p) {
    unsigned counts[NEIGHBOURS + 1] = {0}, next[NEIGHBOURS + 1], from = 0;
    for (unsigned v = 0; v < t->n; v++) {
        unsigned k = 0;
        for (unsigned i = 0; i < ROW / 8; i++) k += bits(row_word(t->links, v, i));
        p->left[v] = k, counts[k]++;
    }
    for (unsigned k = 0; k <= NEIGHBOURS; k++) next[k] = p->starts[k] = from, from += counts[k];
    for (unsigned v = 0; v < t->n; v++) {
        unsigned at = next[p->left[v]]++;
        p->by[at] = v, p->places[v] = at;
    }
}

/* One neighbour less for v: it changes place with the first of the ones with as many, which then start behind it. */
static inline void lower(struct peel *p, unsigned v) {
    unsigned k = p->left[v]--, at = p->places[v], start = p->starts[k]++, first = p->by[start];
    p->by[at] = first, p->places[first] = at;
    p->by[start] = v, p->places[v] = start;
}

static void numbers_anew(const struct lent *t) {
    struct peel p;
    uint64_t in[ROW / 8] = {0};
    sort_by_degree(t, &p);
    for (unsigned v = 0; v < t->n; v++) in[v / 64] |= 1ull << v % 64;
    for (unsigned i = 0; i < t->n; i++) {
        unsigned v = p.by[i], k = p.left[v];
        t->numbers[v] = k;
        in[v / 64] &= ~(1ull << v % 64);
        for (unsigned j = 0; j < ROW / 8; j++)
            for (uint64_t w = row_word(t->links, v, j) & in[j]; w; w &= w - 1) {
                unsigned b = 64 * j + __builtin_ctzll(w);
                if (p.left[b] > k) lower(&p, b);
            }
    }
}

static struct c_reply link_anew(int up, const struct lent *t, uint32_t a, uint32_t b, uint16_t *answer, size_t room) {
    (void)answer, (void)room;
    put_bit(t->links, up, a, b), put_bit(t->links, up, b, a);
    numbers_anew(t);
    return (struct c_reply){0, 0, 0};
}

static void changes_anew(const struct lent *t, const struct ends *list, unsigned count, uint16_t *answer) {
    for (unsigned i = 0; i < count; i++) {
        link_anew(0, t, list[i].a, list[i].b, answer, t->n);
        link_anew(1, t, list[i].a, list[i].b, answer, t->n);
    }
}

/* It answers no call, and makes changes alone. */
static int has_none(enum timed call) {
    (void)call;
    return 0;
}

#define TEXT(x) #x
#define NAME(x) TEXT(x)
extern const struct program PROGRAM;
const struct program PROGRAM = {.name = NAME(PROGRAM), .has = has_none, .changes = changes_anew, .link = link_anew};

/* Sites to measure on, with sound tables made by plain peeling. */
#ifndef SITES_H
#define SITES_H
#include "kinds.h"
#include "program.h"
#include <stdlib.h>

struct site {
    uint32_t n;
    uint8_t links[ROW * RADIOS];
    uint8_t numbers[RADIOS];
    uint16_t order[RADIOS];
};

static void mark(struct site *s, unsigned a, unsigned b) {
    put_bit(s->links, 1, a, b), put_bit(s->links, 1, b, a);
}

/* numbers and order: always the first radio with the fewest neighbours left */
static void peel(struct site *s) {
    unsigned left[RADIOS], gone[RADIOS] = {0}, k = 0;
    for (unsigned v = 0; v < s->n; v++) left[v] = row_count(s->links, v);
    for (unsigned i = 0; i < s->n; i++) {
        unsigned best = RADIOS;
        for (unsigned v = 0; v < s->n; v++)
            if (!gone[v] && (best == RADIOS || left[v] < left[best])) best = v;
        if (left[best] > k) k = left[best];
        s->numbers[best] = k, s->order[i] = best, gone[best] = 1;
        for (unsigned w = 0; w < s->n; w++)
            if (!gone[w] && marked(s->links, best, w)) left[w]--;
    }
}

static void random_links(struct site *s, unsigned links, unsigned most) {
    for (unsigned tries = 0, made = 0; made < links && tries < 60 * links; tries++) {
        unsigned a = rand() % s->n, b = rand() % s->n;
        if (a == b || marked(s->links, a, b) || row_count(s->links, a) >= most || row_count(s->links, b) >= most) continue;
        mark(s, a, b), made++;
    }
}

/* Of `size` radios from `first` on, each is linked to the next `reach`, round about. */
static void circulant(struct site *s, unsigned first, unsigned size, unsigned reach) {
    for (unsigned a = 0; a < size; a++)
        for (unsigned d = 1; d <= reach; d++)
            if (a != (a + d) % size) mark(s, first + a, first + (a + d) % size);
}

/* Radios on a square, linked within the reach that gives `near` neighbours on average: as masts and towers are. */
static void geometric(struct site *s, unsigned near) {
    static double x[RADIOS], y[RADIOS];
    double reach = near / (3.14159265 * s->n);
    for (unsigned v = 0; v < s->n; v++) x[v] = rand() / (double)RAND_MAX, y[v] = rand() / (double)RAND_MAX;
    for (unsigned a = 0; a < s->n; a++)
        for (unsigned b = a + 1; b < s->n; b++) {
            double across = x[a] - x[b], up = y[a] - y[b];
            if (across * across + up * up >= reach) continue;
            if (row_count(s->links, a) < NEIGHBOURS && row_count(s->links, b) < NEIGHBOURS) mark(s, a, b);
        }
}

/*
 * Many levels: a circulant, and beside it radios with 1, 2, 3 .. links into it. As many of these as leave each radio of the
 * circulant at most two of their links, so that all have at most 40 neighbours. Each core holds the circulant.
 */
static void levels(struct site *s) {
    unsigned beside = 1;
    while (beside < NEIGHBOURS - 3 && (beside + 1) * (beside + 2) / 2 <= 2 * (s->n - beside - 1)) beside++;
    unsigned inside = s->n - beside, reach = inside > NEIGHBOURS ? NEIGHBOURS / 2 - 1 : (inside - 1) / 2;
    circulant(s, 0, inside, reach);
    for (unsigned k = 1, at = 0; k <= beside; k++)
        for (unsigned i = 0; i < k; i++, at++) mark(s, inside + k - 1, at % inside);
}

/* Random sites of the same size and kind differ by their index. */
static void make_site(struct site *s, uint32_t n, enum kind kind, unsigned index) {
    memset(s, 0, sizeof *s);
    s->n = n;
    srand(137 + n + 1000 * index);
    unsigned reach = n > 2 * (NEIGHBOURS / 2) ? NEIGHBOURS / 2 : (n - 1) / 2;
    if (kind == SPARSE || kind == SPARSE_TURN) random_links(s, 2 * n, NEIGHBOURS);
    if (kind == DENSE) random_links(s, n * reach, NEIGHBOURS);
    if (kind == RING) circulant(s, 0, n, 1);
    if (kind == CIRCULANT) circulant(s, 0, n, reach);
    if (kind == PARTS)
        for (unsigned first = 0; first < n; first += 8) circulant(s, first, 8, 1 + first / 8 % 3);
    if (kind == GEOMETRIC_8 || kind == GEOMETRIC_TURN) geometric(s, 8);
    if (kind == GEOMETRIC_20) geometric(s, 20);
    if (kind == LEVELS) levels(s);
    peel(s);
}

#define CHANGES 32 /* links that are taken down and up again where changes are timed */

/* Some links of the site, spread evenly over all of them; how many these are. */
static unsigned some_links(const struct site *s, struct ends *list, unsigned room) {
    unsigned all = 0, seen = 0, count = 0;
    for (unsigned a = 0; a < s->n; a++) all += row_count(s->links, a);
    all /= 2;
    for (unsigned a = 0; a < s->n; a++)
        for (unsigned b = a + 1; b < s->n; b++)
            if (marked(s->links, a, b) && seen++ * room / all == count && count < room) list[count++] = (struct ends){a, b};
    return count;
}

/* Two radios that are not linked and have room for it; where none are found, one radio twice, which is refused. */
static inline struct ends some_pair(const struct site *s) {
    for (unsigned tries = 0; tries < 1000; tries++) {
        unsigned a = rand() % s->n, b = rand() % s->n;
        if (a == b || marked(s->links, a, b) || row_count(s->links, a) >= NEIGHBOURS || row_count(s->links, b) >= NEIGHBOURS) continue;
        return (struct ends){a, b};
    }
    return (struct ends){0, 0};
}
#endif

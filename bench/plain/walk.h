/* The walk of a link going up in C: from the beginning end forward through its level. */
#ifndef WALK_H
#define WALK_H
#include "check.h"
#include "sets.h"

/* What a link call makes of the lower end's stretch, or of the walked part of it; nothing of the tables is written. */
struct c_plan {
    unsigned start, size, taken;
    uint16_t stretch[RADIOS];
};

#define PART 128 /* numbers that are counted in bytes at a time */

/* The stretch of a level: how many numbers are below it, and how many are equal to it. */
static void c_stretch(uint32_t n, const uint8_t *numbers, unsigned level, unsigned *start, unsigned *size) {
    *start = *size = 0;
    for (unsigned v = 0; v < n;) {
        unsigned end = n - v < PART ? n : v + PART;
        uint8_t below = 0, equal = 0;
        for (; v < end; v++) below += numbers[v] < level, equal += numbers[v] == level;
        *start += below, *size += equal;
    }
}

/* The radios that a row marks lose one, where they are of the level; the place of one that comes to `most` fits. */
static inline void c_release_row(const uint8_t *row, unsigned level, unsigned most, const uint8_t *numbers, const uint16_t *places, uint8_t *counters,
                                 uint64_t *fits) {
    for (unsigned i = 0; i < ROW / 8; i++)
        for (uint64_t w = row_word(row, 0, i); w; w &= w - 1) {
            unsigned x = 64 * i + __builtin_ctzll(w);
            if (numbers[x] == level && --counters[x] == most) put_in(fits, places[x]);
        }
}

/* Takes v at place p: the neighbours that it has after the call are released. */
static void c_take(int up, uint32_t a, uint32_t b, unsigned p, unsigned v, const uint8_t *links, unsigned level, unsigned most, const uint8_t *numbers,
                   const uint16_t *places, uint8_t *counters, uint64_t *fits) {
    take_out(fits, p);
    if (v == a || v == b) {
        uint8_t row[ROW];
        memcpy(row, links + ROW * v, ROW);
        put_bit(row, up, 0, v == a ? b : a);
        c_release_row(row, level, most, numbers, places, counters, fits);
    } else {
        c_release_row(links + ROW * v, level, most, numbers, places, counters, fits);
    }
}

/* The neighbours of v with the link. */
static unsigned c_near(const struct lent *t, uint32_t a, uint32_t b, unsigned v, uint16_t *near) {
    unsigned m = row_list(t->links, v, near, NEIGHBOURS + 1);
    if (v == a) near[m++] = b;
    if (v == b) near[m++] = a;
    return m;
}

/* How many of the listed radios are above, stand later than place p in the level, or are candidates. */
static unsigned c_left(const uint16_t *near, unsigned m, unsigned level, unsigned p, const uint8_t *numbers, const uint16_t *places, const uint8_t *held) {
    unsigned left = 0;
    for (unsigned i = 0; i < m; i++) {
        unsigned x = near[i];
        left += numbers[x] != level ? level < numbers[x] : p < places[x] || held[x];
    }
    return left;
}

/* A walk: the level, the radios held as candidates and their counters, the places that are due, and those of the candidates. */
struct c_walk {
    const struct lent *t;
    const uint16_t *places;
    uint32_t a, b;
    unsigned level;
    uint8_t held[RADIOS], counters[RADIOS];
    uint64_t due[WORDS], stay[WORDS];
};

/* The candidates among the neighbours of a taken radio lose one; who falls short is due. */
static void c_release(struct c_walk *w, const uint16_t *near, unsigned m) {
    for (unsigned i = 0; i < m; i++) {
        unsigned x = near[i];
        if (w->held[x] && --w->counters[x] == w->level) put_in(w->due, w->places[x]);
    }
}

/* Looks at v at place p: 1 where it is held, 0 where it is taken. */
static int c_look(struct c_walk *w, unsigned v, unsigned p) {
    uint16_t near[NEIGHBOURS + 1];
    take_out(w->due, p);
    unsigned m = c_near(w->t, w->a, w->b, v, near), left = c_left(near, m, w->level, p, w->t->numbers, w->places, w->held);
    if (left <= w->level) {
        c_release(w, near, m);
        return 0;
    }
    w->held[v] = 1, w->counters[v] = left;
    put_in(w->stay, p);
    for (unsigned i = 0; i < m; i++) {
        unsigned x = near[i];
        if (w->t->numbers[x] == w->level && p < w->places[x]) put_in(w->due, w->places[x]);
    }
    return 1;
}

/* Lists the entries of the order that stand at the places of the set, from place `taken` of the list on. */
static void c_list_entries(const uint64_t *set, const uint16_t *order, unsigned taken, uint16_t *list) {
    for (unsigned k = 0; k < WORDS; k++)
        for (uint64_t w = set[k]; w; w &= w - 1) list[taken++] = order[64 * k + __builtin_ctzll(w)];
}

/* The walk through `size` radios of the order from place `first` on. */
static void c_thin(const struct lent *t, uint32_t a, uint32_t b, unsigned level, const uint16_t *places, unsigned first, unsigned size,
                   struct c_plan *plan) {
    struct c_walk w = {.t = t, .places = places, .a = a, .b = b, .level = level};
    const uint16_t *tail = t->order + first;
    uint16_t *list = plan->stretch;
    unsigned front = 1, taken = 0;
    if (!c_look(&w, tail[0], first)) list[taken++] = tail[0];
    while (taken < front) {
        unsigned p = first_bit(w.due);
        if (p < first + front) {
            unsigned v = tail[p - first];
            w.held[v] = 0, list[taken++] = v;
            take_out(w.stay, p);
            c_take(1, a, b, p, v, t->links, 1, level, w.held, places, w.counters, w.due);
        } else if (size <= front) {
            break;
        } else if (p == first + front) {
            if (!c_look(&w, tail[front], p)) list[taken++] = tail[front];
            front++;
        } else {
            unsigned until = p - first < size ? p - first : size;
            memcpy(list + taken, tail + front, 2 * (until - front));
            taken += until - front, front = until;
        }
    }
    plan->start = first, plan->size = front, plan->taken = taken;
    c_list_entries(w.stay, t->order, taken, list);
}
#endif

/* The walk by words in C, for levels whose radios have many neighbours: what is left is the order from the beginning end on without the taken, and
 * what a radio has of it is counted in eight words; neighbours of candidates are a set of radios, and only candidates that fell short are due. */
#ifndef WIDE_H
#define WIDE_H
#include "walk.h"

struct c_words {
    const struct lent *t;
    const uint16_t *places;
    uint32_t a, b;
    unsigned level;
    uint64_t left[WORDS], held[WORDS], touched[WORDS], due[WORDS], stay[WORDS];
    uint8_t counters[RADIOS];
};

/* Puts the neighbours of v with the link into the set. */
static inline void c_join_after(const struct c_words *w, unsigned v, uint64_t *set) {
    join_row(w->t->links, v, set);
    if (v == w->a) put_in(set, w->b);
    if (v == w->b) put_in(set, w->a);
}

/* The candidates among the neighbours of a taken radio lose one; who falls short is due. */
static inline void c_lower(struct c_words *w, const uint64_t *near) {
    for (unsigned k = 0; k < WORDS; k++)
        for (uint64_t rest = near[k] & w->held[k]; rest; rest &= rest - 1) {
            unsigned x = 64 * k + __builtin_ctzll(rest);
            if (--w->counters[x] == w->level) put_in(w->due, w->places[x]);
        }
}

/* Looks at v at place p: 1 where it is held, 0 where it is taken. */
static int c_look_wide(struct c_words *w, unsigned v, unsigned p) {
    uint64_t near[WORDS] = {0};
    c_join_after(w, v, near);
    unsigned count = count_common(near, w->left);
    if (count <= w->level) {
        take_out(w->left, v);
        c_lower(w, near);
        return 0;
    }
    put_in(w->held, v), put_in(w->stay, p);
    w->counters[v] = count;
    c_join_after(w, v, w->touched);
    return 1;
}

/* Takes the candidate v at place p back. */
static void c_back_wide(struct c_words *w, unsigned v, unsigned p) {
    uint64_t near[WORDS] = {0};
    c_join_after(w, v, near);
    take_out(w->due, p), take_out(w->stay, p), take_out(w->held, v), take_out(w->left, v);
    c_lower(w, near);
}

/* The walk through `size` radios of the order from place `first` on. */
static void c_wide(const struct lent *t, uint32_t a, uint32_t b, unsigned level, const uint16_t *places, unsigned first, unsigned size,
                   struct c_plan *plan) {
    struct c_words w = {.t = t, .places = places, .a = a, .b = b, .level = level};
    const uint16_t *tail = t->order + first;
    uint16_t *list = plan->stretch;
    unsigned front = 1, taken = 0;
    for (unsigned i = first; i < t->n; i++) put_in(w.left, t->order[i]);
    if (!c_look_wide(&w, tail[0], first)) list[taken++] = tail[0];
    while (taken < front) {
        unsigned p = first_bit(w.due);
        if (p < RADIOS) {
            list[taken++] = tail[p - first];
            c_back_wide(&w, tail[p - first], p);
            continue;
        }
        if (size <= front) break;
        unsigned v = tail[front];
        if (!is_in(w.touched, v))
            take_out(w.left, v), list[taken++] = v;
        else if (!c_look_wide(&w, v, first + front))
            list[taken++] = v;
        front++;
    }
    plan->start = first, plan->size = front, plan->taken = taken;
    c_list_entries(w.stay, t->order, taken, list);
}
#endif

/* The plan of a link going up in C: nothing, the whole level as it stands, or a walk from the beginning end on; a small level is to be peeled. */
#ifndef RISE_H
#define RISE_H
#include "wide.h"

#define SMALL 16 /* radios of a level that is peeled in any case */
#define WIDE 6   /* from this level on the walk goes by words */

/* The plan of a level that rises whole, as it stands: no radio of it fits with the link. Else 0. */
static int c_whole(const struct lent *t, uint32_t a, uint32_t b, unsigned level, const uint8_t *counters, struct c_plan *plan) {
    unsigned start, size;
    c_stretch(t->n, t->numbers, level, &start, &size);
    for (unsigned p = start; p < start + size; p++) {
        unsigned v = t->order[p];
        unsigned count = counters[v] + (v == a || v == b);
        if (count <= level) return 0;
    }
    memcpy(plan->stretch, t->order + start, 2 * size);
    plan->start = start, plan->size = size, plan->taken = 0;
    return 1;
}

/* Whether e, which stands at place `first`, has at most `level` later neighbours with the link: then nothing moves or rises. */
static int c_settled(const struct lent *t, uint32_t a, uint32_t b, unsigned e, unsigned level, const uint16_t *places, unsigned first) {
    uint16_t near[NEIGHBOURS + 1];
    uint8_t held[RADIOS] = {0};
    unsigned m = c_near(t, a, b, e, near);
    return c_left(near, m, level, first, t->numbers, places, held) <= level;
}

/* The plan of a link going up, but where the level is small: then 0, and the level is to be peeled. */
static int c_rise(const struct lent *t, uint32_t a, uint32_t b, const uint16_t *places, const uint8_t *counters, struct c_plan *plan) {
    const uint8_t *numbers = t->numbers;
    unsigned e = numbers[a] < numbers[b] || (numbers[a] == numbers[b] && places[a] < places[b]) ? a : b;
    unsigned first = places[e], level = numbers[e], start, size;
    if (level && (first == 0 || numbers[t->order[first - 1]] < level) && c_whole(t, a, b, level, counters, plan)) return 1;
    if (c_settled(t, a, b, e, level, places, first)) {
        plan->start = first, plan->size = plan->taken = 0;
        return 1;
    }
    c_stretch(t->n, numbers, level, &start, &size);
    if (size <= SMALL) return 0;
    if (level < WIDE)
        c_thin(t, a, b, level, places, first, start + size - first, plan);
    else
        c_wide(t, a, b, level, places, first, start + size - first, plan);
    return 1;
}
#endif

/* Link up and link down in C, single, in two steps and in a batch: one walk through the lower end's level, or one peel of it. */
#ifndef LINK_H
#define LINK_H
#include "rise.h"

/* Questions 4 to 7. */
static unsigned c_ends(int up, uint32_t n, uint32_t a, uint32_t b, const uint8_t *links) {
    if (a >= n || b >= n) return 4;
    if (a == b) return 5;
    if (marked(links, a, b) == up) return 6;
    return up && (row_count(links, a) >= NEIGHBOURS || row_count(links, b) >= NEIGHBOURS) ? 7 : 0;
}

/* Takes one off the counter of v, where v is of the level; its place fits if the counter is then `most`. */
static void c_lose(unsigned v, unsigned level, unsigned most, const uint8_t *numbers, const uint16_t *places, uint8_t *counters, uint64_t *fits) {
    if (numbers[v] == level && --counters[v] == most) put_in(fits, places[v]);
}

/* Takes v at place p: of the neighbours that it has after the call the ones that are left are released. */
static void c_take_left(int up, uint32_t a, uint32_t b, unsigned p, unsigned v, const uint8_t *links, unsigned level, unsigned most,
                        const uint8_t *numbers, const uint16_t *places, const uint64_t *left, uint8_t *counters, uint64_t *fits) {
    uint8_t row[ROW];
    take_out(fits, p);
    const uint8_t *own = links + ROW * v;
    if (v == a || v == b) {
        own = memcpy(row, own, ROW);
        put_bit(row, up, 0, v == a ? b : a);
    }
    for (unsigned k = 0; k < WORDS; k++)
        for (uint64_t w = row_word(own, 0, k) & left[k]; w; w &= w - 1) c_lose(64 * k + __builtin_ctzll(w), level, most, numbers, places, counters, fits);
}

/* From places and not-lower counts of every radio; the counts are used up. Going down only an end can fit before the first turn, and where
 * nobody is taken nothing moves. */
static void c_peel(int up, const struct lent *t, uint32_t a, uint32_t b, const uint16_t *places, uint8_t *counters, struct c_plan *plan) {
    uint16_t *stretch = plan->stretch;
    uint64_t fits[WORDS] = {0}, left[WORDS];
    const uint32_t n = t->n;
    const uint8_t *links = t->links, *numbers = t->numbers;
    const uint16_t *order = t->order;
    unsigned level = numbers[a] < numbers[b] ? numbers[a] : numbers[b], most = up ? level : level - 1;
    unsigned start = 0, size = 0, taken = 0;
    if (up) {
        c_stretch(n, numbers, level, &start, &size);
        counters[a] += numbers[a] == level, counters[b] += numbers[b] == level;
        for (unsigned p = start; p < start + size; p++)
            if (counters[order[p]] <= most) put_in(fits, p);
    } else {
        c_lose(a, level, most, numbers, places, counters, fits);
        c_lose(b, level, most, numbers, places, counters, fits);
    }
    memset(left, 255, sizeof left);
    for (unsigned p; (p = first_bit(fits)) < RADIOS;) {
        unsigned v = order[p];
        stretch[taken++] = v;
        c_take_left(up, a, b, p, v, links, level, most, numbers, places, left, counters, fits);
        take_out(left, v);
    }
    if (!up && taken) c_stretch(n, numbers, level, &start, &size);
    for (unsigned p = start, j = taken; p < start + size; p++)
        if (counters[order[p]] > most) stretch[j++] = order[p];
    plan->start = start, plan->size = size, plan->taken = taken;
}

/* From the same; the counts are used up. */
static void c_plan_link(int up, const struct lent *t, uint32_t a, uint32_t b, const uint16_t *places, uint8_t *counters, struct c_plan *plan) {
    if (!up || !c_rise(t, a, b, places, counters, plan)) c_peel(up, t, a, b, places, counters, plan);
}

static unsigned c_plan(int up, const struct lent *t, uint32_t a, uint32_t b, int room, struct c_plan *plan) {
    uint16_t places[RADIOS];
    uint8_t counters[RADIOS];
    unsigned number = c_sizes(t, room);
    if (!number && !c_examine(t, places, counters)) number = 3;
    if (!number) number = c_ends(up, t->n, a, b, t->links);
    if (!number) c_plan_link(up, t, a, b, places, counters, plan);
    return number;
}

/* The changed radios of a plan, ascending. */
static struct c_reply c_report(int up, const struct c_plan *plan, uint16_t *answer, size_t room) {
    uint64_t set[WORDS] = {0};
    unsigned from = up ? plan->taken : 0, to = up ? plan->size : plan->taken;
    for (unsigned i = from; i < to; i++) put_in(set, plan->stretch[i]);
    unsigned count = row_list((const uint8_t *)set, 0, answer, room);
    return (struct c_reply){0, count ? (up ? 1 : -1) : 0, count};
}

static void c_apply(int up, const struct lent *t, uint32_t a, uint32_t b, const struct c_plan *plan) {
    unsigned from = up ? plan->taken : 0, to = up ? plan->size : plan->taken;
    put_bit(t->links, up, a, b), put_bit(t->links, up, b, a);
    memcpy(t->order + plan->start, plan->stretch, 2 * plan->size);
    for (unsigned i = from; i < to; i++) t->numbers[plan->stretch[i]] += up ? 1 : -1;
}

static struct c_reply c_link(int up, const struct lent *t, uint32_t a, uint32_t b, uint16_t *answer, size_t room) {
    struct c_plan plan;
    unsigned number = c_plan(up, t, a, b, room >= t->n, &plan);
    if (number) return (struct c_reply){number, 0, 0};
    c_apply(up, t, a, b, &plan);
    return c_report(up, &plan, answer, room);
}

static struct c_reply c_ask(int up, const struct lent *t, uint32_t a, uint32_t b, uint16_t *answer, size_t room) {
    struct c_plan plan;
    unsigned number = c_plan(up, t, a, b, room >= t->n, &plan);
    if (number) return (struct c_reply){number, 0, 0};
    return c_report(up, &plan, answer, room);
}

static struct c_reply c_commit(int up, const struct lent *t, uint32_t a, uint32_t b, int step, const uint16_t *list, size_t count) {
    struct c_plan plan;
    uint16_t changed[RADIOS];
    unsigned number = c_plan(up, t, a, b, 1, &plan);
    if (number) return (struct c_reply){number, 0, 0};
    struct c_reply r = c_report(up, &plan, changed, RADIOS);
    if (r.step != step || r.count != count || memcmp(list, changed, 2 * count)) return (struct c_reply){16, 0, 0};
    c_apply(up, t, a, b, &plan);
    return r;
}

/* How many neighbours of v have a number that is not below its own. */
static unsigned c_high(const struct lent *t, unsigned v) {
    uint16_t near[NEIGHBOURS];
    unsigned m = row_list(t->links, v, near, NEIGHBOURS), high = 0;
    for (unsigned i = 0; i < m; i++) high += t->numbers[v] <= t->numbers[near[i]];
    return high;
}

/* Both ends, the changed radios, which are listed, and their neighbours counted anew: a set, row joined to row. */
static void c_renew(const struct lent *t, uint32_t a, uint32_t b, const uint16_t *list, unsigned count, uint8_t *highs) {
    uint64_t set[WORDS] = {0};
    for (unsigned i = 0; i < count; i++) put_in(set, list[i]), join_row(t->links, list[i], set);
    put_in(set, a), put_in(set, b);
    for (unsigned k = 0; k < WORDS; k++)
        for (uint64_t w = set[k]; w; w &= w - 1) {
            unsigned v = 64 * k + __builtin_ctzll(w);
            highs[v] = c_high(t, v);
        }
}

/* A link of a list that is allowed: places and not-lower counts are kept up to date. */
static void c_step(int up, const struct lent *t, uint32_t a, uint32_t b, uint16_t *places, uint8_t *highs) {
    struct c_plan plan;
    uint16_t changed[RADIOS];
    uint8_t counters[RADIOS];
    memcpy(counters, highs, t->n);
    c_plan_link(up, t, a, b, places, counters, &plan);
    c_apply(up, t, a, b, &plan);
    struct c_reply r = c_report(up, &plan, changed, RADIOS);
    for (unsigned i = 0; i < plan.size; i++) places[t->order[plan.start + i]] = plan.start + i;
    c_renew(t, a, b, changed, r.count, highs);
}

static struct c_value c_link_batch(const struct lent *t, const uint16_t *list, size_t count) {
    uint16_t places[RADIOS];
    uint8_t highs[RADIOS];
    unsigned number = c_sizes(t, count % 2 == 0), done = 0;
    if (!number && !c_examine(t, places, highs)) number = 3;
    for (; !number && 2 * done < count; done++) {
        uint32_t a = list[2 * done], b = list[2 * done + 1];
        number = c_ends(1, t->n, a, b, t->links);
        if (number) break;
        c_step(1, t, a, b, places, highs);
    }
    return (struct c_value){number, done};
}
#endif

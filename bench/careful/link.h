/*
 * Link up and link down of a careful programmer, single, in two steps and in a batch: where the order stands the call is done; otherwise the
 * lower end's level is peeled once, and only links to radios of the level that are left are looked at.
 */
#ifndef LINK_H
#define LINK_H
#include "check.h"

/* Questions 4 to 7. */
static unsigned ends_refused(int up, const struct lent *t, uint32_t a, uint32_t b) {
    if (a >= t->n || b >= t->n) return 4;
    if (a == b) return 5;
    if (marked(t->links, a, b) == up) return 6;
    return up && (degree(t->links, a) >= NEIGHBOURS || degree(t->links, b) >= NEIGHBOURS) ? 7 : 0;
}

/* What a call does to the tables: the stretch of the order from place `from` on, if any, and the changed radios. */
struct plan {
    unsigned from, size;
    uint16_t stretch[RADIOS];
    uint64_t changed[WORDS];
};

/* What is left of the level; places of the radios that fit, which are taken first; the count that fits. */
struct peeling {
    uint64_t left[WORDS], fits[WORDS];
    unsigned most;
};

/* Whether the order stands: with the link up the first end still has no more later neighbours than its number; with it down both
 * ends have still as many neighbours that are not below them. */
static int order_stands(int up, const struct lent *t, const struct found *f, uint32_t a, uint32_t b, unsigned level) {
    if (!up) return !(t->numbers[a] == level && f->highs[a] == level) && !(t->numbers[b] == level && f->highs[b] == level);
    return f->laters[f->places[a] < f->places[b] ? a : b] < level;
}

/* Row v of the site with the link changed. */
static inline uint64_t changed_word(const struct lent *t, uint32_t a, uint32_t b, unsigned v, unsigned i) {
    unsigned other = v == a ? b : v == b ? a : RADIOS;
    return row_word(t->links, v, i) ^ (other / 64 == i ? 1ull << other % 64 : 0);
}

/* The neighbours of v that are left lose one; the lowest word of places that may fit now. */
static inline unsigned take_off(const struct lent *t, struct found *f, struct peeling *p, uint32_t a, uint32_t b, unsigned v, unsigned low) {
    for (unsigned i = 0; i < WORDS; i++)
        for (uint64_t w = changed_word(t, a, b, v, i) & p->left[i]; w; w &= w - 1) {
            unsigned x = 64 * i + __builtin_ctzll(w), at = f->places[x];
            if (--f->highs[x] != p->most) continue;
            put_in(p->fits, at);
            if (at / 64 < low) low = at / 64;
        }
    return low;
}

static void start_peeling(const struct lent *t, const struct found *f, struct peeling *p, struct plan *plan, unsigned level) {
    unsigned i = plan->from = f->starts[level];
    memset(p->left, 0, sizeof p->left), memset(p->fits, 0, sizeof p->fits);
    for (; i < t->n && t->numbers[t->order[i]] == level; i++) {
        unsigned v = t->order[i];
        put_in(p->left, v);
        p->fits[i / 64] |= (uint64_t)(f->highs[v] <= p->most) << i % 64;
    }
    plan->size = i - plan->from;
}

static void peel_level(int up, const struct lent *t, struct found *f, uint32_t a, uint32_t b, unsigned level, struct plan *plan) {
    struct peeling p = {.most = up ? level : level - 1};
    unsigned taken = 0;
    f->highs[a] += t->numbers[a] == level ? (up ? 1 : -1) : 0;
    f->highs[b] += t->numbers[b] == level ? (up ? 1 : -1) : 0;
    start_peeling(t, f, &p, plan, level);
    memcpy(plan->changed, p.left, sizeof p.left);
    for (unsigned i = plan->from / 64; i < WORDS;) {
        if (!p.fits[i]) {
            i++;
            continue;
        }
        unsigned v = t->order[64 * i + __builtin_ctzll(p.fits[i])];
        p.fits[i] &= p.fits[i] - 1;
        take_out(p.left, v);
        plan->stretch[taken++] = v;
        i = take_off(t, f, &p, a, b, v, i);
    }
    for (unsigned i = plan->from; taken < plan->size; i++)
        if (is_in(p.left, t->order[i])) plan->stretch[taken++] = t->order[i];
    for (unsigned i = 0; i < WORDS; i++) plan->changed[i] = up ? p.left[i] : plan->changed[i] & ~p.left[i];
}

/* Questions 1 to 7, then the plan; no table is written. */
static unsigned make_plan(int up, const struct lent *t, uint32_t a, uint32_t b, int room, struct plan *plan) {
    struct found f;
    unsigned number = refusal(t, room, &f);
    if (!number) number = ends_refused(up, t, a, b);
    if (number) return number;
    unsigned level = t->numbers[a] < t->numbers[b] ? t->numbers[a] : t->numbers[b];
    plan->from = plan->size = 0;
    memset(plan->changed, 0, sizeof plan->changed);
    if (!order_stands(up, t, &f, a, b, level)) peel_level(up, t, &f, a, b, level, plan);
    return 0;
}

static struct c_reply apply(int up, const struct lent *t, uint32_t a, uint32_t b, const struct plan *plan, const uint16_t *list, unsigned count) {
    t->links[ROW * a + b / 8] ^= 1 << b % 8, t->links[ROW * b + a / 8] ^= 1 << a % 8;
    memcpy(t->order + plan->from, plan->stretch, 2 * plan->size);
    for (unsigned i = 0; i < count; i++) t->numbers[list[i]] += up ? 1 : -1;
    return (struct c_reply){0, count ? (up ? 1 : -1) : 0, count};
}

static struct c_reply c_link(int up, const struct lent *t, uint32_t a, uint32_t b, uint16_t *answer, size_t room) {
    struct plan plan;
    unsigned number = make_plan(up, t, a, b, room >= t->n, &plan);
    if (number) return (struct c_reply){number, 0, 0};
    return apply(up, t, a, b, &plan, answer, list_set(plan.changed, answer));
}

static struct c_reply c_ask(int up, const struct lent *t, uint32_t a, uint32_t b, uint16_t *answer, size_t room) {
    struct plan plan;
    unsigned number = make_plan(up, t, a, b, room >= t->n, &plan);
    if (number) return (struct c_reply){number, 0, 0};
    unsigned count = list_set(plan.changed, answer);
    return (struct c_reply){0, count ? (up ? 1 : -1) : 0, count};
}

static struct c_reply c_commit(int up, const struct lent *t, uint32_t a, uint32_t b, int step, const uint16_t *list, size_t count) {
    struct plan plan;
    uint16_t changed[RADIOS];
    unsigned number = make_plan(up, t, a, b, 1, &plan);
    if (number) return (struct c_reply){number, 0, 0};
    unsigned all = list_set(plan.changed, changed);
    int right = step == (all ? (up ? 1 : -1) : 0) && count == all && !memcmp(list, changed, 2 * all);
    return right ? apply(up, t, a, b, &plan, changed, all) : (struct c_reply){16, 0, 0};
}

/* How many neighbours of v stand later in the order. */
static unsigned later_than(const struct lent *t, const struct found *f, unsigned v) {
    unsigned k = 0;
    for (unsigned i = 0; i < WORDS; i++)
        for (uint64_t w = row_word(t->links, v, i); w; w &= w - 1) k += f->places[64 * i + __builtin_ctzll(w)] > f->places[v];
    return k;
}

/* The neighbours of each radio of the level that are not below it. */
static void count_highs(const struct lent *t, struct found *f, unsigned level) {
    uint64_t set[WORDS];
    at_least(t, level, set);
    for (unsigned i = f->starts[level]; i < t->n && t->numbers[t->order[i]] == level; i++) {
        unsigned v = t->order[i], k = 0;
        for (unsigned j = 0; j < WORDS; j++) k += bits(row_word(t->links, v, j) & set[j]);
        f->highs[v] = k;
    }
}

/* How many neighbours of v are not below it. */
static unsigned high_of(const struct lent *t, unsigned v) {
    unsigned k = 0;
    for (unsigned i = 0; i < WORDS; i++)
        for (uint64_t w = row_word(t->links, v, i); w; w &= w - 1) k += t->numbers[64 * i + __builtin_ctzll(w)] >= t->numbers[v];
    return k;
}

/* Whether the order stands, by the rows of the ends alone. */
static int stands_by_rows(int up, const struct lent *t, const struct found *f, uint32_t a, uint32_t b, unsigned level) {
    if (up) return later_than(t, f, f->places[a] < f->places[b] ? a : b) < level;
    return !(t->numbers[a] == level && high_of(t, a) == level) && !(t->numbers[b] == level && high_of(t, b) == level);
}

/* A link of a list that is allowed. Where the order stands it costs its own rows alone; else its level is counted and peeled. */
static void step_of_batch(int up, const struct lent *t, uint32_t a, uint32_t b, struct found *f) {
    struct plan plan;
    uint16_t changed[RADIOS];
    unsigned level = t->numbers[a] < t->numbers[b] ? t->numbers[a] : t->numbers[b], sum;
    plan.from = plan.size = 0;
    memset(plan.changed, 0, sizeof plan.changed);
    int stands = stands_by_rows(up, t, f, a, b, level);
    if (!stands) count_highs(t, f, level), peel_level(up, t, f, a, b, level, &plan);
    apply(up, t, a, b, &plan, changed, list_set(plan.changed, changed));
    if (!stands) ordered(t, f, &sum);
}

/* The tables are checked once. */
static struct c_value c_link_batch(const struct lent *t, const uint16_t *list, size_t count) {
    struct found f;
    unsigned number = refusal(t, count % 2 == 0, &f), done = 0;
    for (; !number && 2 * done < count; done++) {
        uint32_t a = list[2 * done], b = list[2 * done + 1];
        number = ends_refused(1, t, a, b);
        if (number) break;
        step_of_batch(1, t, a, b, &f);
    }
    return (struct c_value){number, done};
}
#endif

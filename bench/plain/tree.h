/* The shell tree in C: level by level, whose radios stand together in the order, each core not yet named is flooded and named by its lowest radio. */
#ifndef TREE_H
#define TREE_H
#include "core.h"

static unsigned c_greatest(const struct lent *t) {
    unsigned top = 0;
    for (unsigned v = 0; v < t->n; v++)
        if (t->numbers[v] > top) top = t->numbers[v];
    return top;
}

/* The lowest radio that both sets have. */
static inline unsigned c_first_common(const uint64_t *one, const uint64_t *other) {
    for (unsigned k = 0; k < WORDS; k++)
        if (one[k] & other[k]) return 64 * k + __builtin_ctzll(one[k] & other[k]);
    return RADIOS;
}

/* Puts the radios of a level, which stand in the order from place `from` on, into the set; the place behind them. */
static unsigned c_put_shell(const struct lent *t, unsigned level, unsigned from, uint64_t *set) {
    unsigned i = from;
    for (; i < t->n && t->numbers[t->order[i]] == level; i++) put_in(set, t->order[i]);
    return i;
}

static unsigned c_take_level(const struct lent *t, unsigned level, const uint64_t *shell, uint64_t *set, uint16_t *queue, struct c_node *nodes,
                             uint16_t *answer, unsigned count) {
    for (unsigned v; (v = c_first_common(shell, set)) < t->n;) {
        nodes[count++] = (struct c_node){v, level, answer[v]};
        unsigned m = c_flood(t->links, v, set, queue);
        for (unsigned i = 0; i < m; i++) answer[queue[i]] = v;
    }
    return count;
}

static struct c_value c_tree(const struct lent *t, struct c_node *nodes, size_t places, uint16_t *answer, size_t room) {
    uint64_t none[WORDS] = {0}, all[WORDS], set[WORDS];
    uint16_t queue[RADIOS];
    unsigned number = c_refusal(t, places > t->n && room >= t->n), count = 1;
    if (number) return (struct c_value){number, 0};
    for (unsigned v = 0; v < t->n; v++) answer[v] = ROOT;
    nodes[0] = (struct c_node){ROOT, 0, ROOT};
    unsigned top = c_greatest(t);
    c_at_least(t, 1, all);
    unsigned from = c_put_shell(t, 0, 0, none);
    for (unsigned k = 1; k <= top; k++) {
        uint64_t shell[WORDS] = {0};
        memcpy(set, all, sizeof set);
        from = c_put_shell(t, k, from, shell);
        count = c_take_level(t, k, shell, set, queue, nodes, answer, count);
        for (unsigned i = 0; i < WORDS; i++) all[i] ^= shell[i] & all[i];
    }
    return (struct c_value){0, count};
}
#endif

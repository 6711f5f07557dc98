/*
 * The shell tree of a careful programmer, in one pass over the links: radios come in by falling number and join the parts of their
 * neighbours. A part's nodes without parent hang in a chain; a node made of the part becomes their parent.
 */
#ifndef TREE_H
#define TREE_H
#include "check.h"
#include "joins.h"

#define LEVELS_MOST (NEIGHBOURS + 1)

struct growing {
    uint16_t up[RADIOS], head[RADIOS], tail[RADIOS], next[RADIOS];
    struct c_node made[RADIOS];
    unsigned count;
    uint64_t added[WORDS];
};

/* The part r goes into the part q, with its chain. */
static inline void join(struct growing *g, unsigned r, unsigned q) {
    g->up[r] = q;
    if (g->head[r] == NOWHERE) return;
    if (g->head[q] == NOWHERE)
        g->head[q] = g->head[r];
    else
        g->next[g->tail[q]] = g->head[r];
    g->tail[q] = g->tail[r];
}

static inline void come_in(const struct lent *t, struct growing *g, unsigned v) {
    unsigned r = v;
    g->up[v] = v, g->head[v] = NOWHERE;
    for (unsigned i = 0; i < WORDS; i++)
        for (uint64_t w = row_word(t->links, v, i) & g->added[i]; w; w &= w - 1) {
            unsigned q = part_of(g->up, 64 * i + __builtin_ctzll(w));
            if (q != r) join(g, r, q), r = q;
        }
    put_in(g->added, v);
}

/* Names a radio of level k by its part's node of the level, which is made where there is none yet: nodes from `first` on are. */
static inline void name(struct growing *g, unsigned v, unsigned k, unsigned first, uint16_t *answer) {
    unsigned r = part_of(g->up, v), head = g->head[r];
    if (head != NOWHERE && head >= first) {
        answer[v] = g->made[head].name;
        return;
    }
    if (head != NOWHERE)
        for (unsigned c = head;; c = g->next[c]) {
            g->made[c].parent = v;
            if (c == g->tail[r]) break;
        }
    g->made[g->count] = (struct c_node){v, k, ROOT};
    g->head[r] = g->tail[r] = g->count++;
    answer[v] = v;
}

/* The radios of the level that ends before place `to`; the place where it starts. */
static unsigned grow_level(const struct lent *t, struct growing *g, unsigned to, uint16_t *answer) {
    const unsigned k = t->numbers[t->order[to - 1]], first = g->count;
    uint64_t own[WORDS] = {0};
    unsigned i = to;
    for (; i && t->numbers[t->order[i - 1]] == k; i--) come_in(t, g, t->order[i - 1]), put_in(own, t->order[i - 1]);
    for (unsigned j = 0; j < WORDS; j++)
        for (uint64_t w = own[j]; w; w &= w - 1) name(g, 64 * j + __builtin_ctzll(w), k, first, answer);
    return i;
}

static struct c_value c_tree(const struct lent *t, struct c_node *nodes, size_t places, uint16_t *answer, size_t room) {
    struct found f;
    struct growing g;
    uint16_t starts[LEVELS_MOST + 1];
    unsigned number = refusal(t, places > t->n && room >= t->n, &f), levels = 0, count = 1, i = t->n;
    if (number) return (struct c_value){number, 0};
    g.count = 0, memset(g.added, 0, sizeof g.added);
    while (i && t->numbers[t->order[i - 1]]) starts[levels++] = g.count, i = grow_level(t, &g, i, answer);
    while (i) answer[t->order[--i]] = ROOT;
    starts[levels] = g.count;
    nodes[0] = (struct c_node){ROOT, 0, ROOT};
    while (levels--)
        for (unsigned j = starts[levels]; j < starts[levels + 1]; j++) nodes[count++] = g.made[j];
    return (struct c_value){0, count};
}
#endif

/* The connected core and the backbone of a careful programmer: floods by words. */
#ifndef CORE_H
#define CORE_H
#include "check.h"

/* Moves v and what it reaches over radios of the set `rest` from there to the set `in`. */
static void flood(const uint8_t *links, uint64_t *rest, uint64_t *in, unsigned v) {
    uint64_t front[WORDS] = {0}, any = 1;
    take_out(rest, v), put_in(in, v), put_in(front, v);
    while (any) {
        for (unsigned i = 0; i < WORDS; i++)
            while (front[i]) {
                unsigned a = 64 * i + __builtin_ctzll(front[i]);
                front[i] &= front[i] - 1;
                for (unsigned j = 0; j < WORDS; j++) {
                    uint64_t w = row_word(links, a, j) & rest[j];
                    rest[j] ^= w, in[j] |= w, front[j] |= w;
                }
            }
        any = 0;
        for (unsigned i = 0; i < WORDS; i++) any |= front[i];
    }
}

static struct c_value c_core(const struct lent *t, uint32_t v, uint32_t k, uint16_t *answer, size_t room) {
    struct found f;
    uint64_t rest[WORDS], in[WORDS] = {0};
    unsigned number = refusal(t, room >= t->n, &f);
    if (!number) number = v >= t->n ? 4 : t->numbers[v] < k ? 8 : 0;
    if (number) return (struct c_value){number, 0};
    at_least(t, k, rest);
    flood(t->links, rest, in, v);
    return (struct c_value){0, list_set(in, answer)};
}

/* From the end of the order, a radio of a part not yet seen has the greatest number of its part. */
static struct c_value c_backbone(const struct lent *t, uint16_t *answer, size_t room) {
    struct found f;
    uint64_t rest[WORDS], same[WORDS], set[WORDS] = {0};
    unsigned number = refusal(t, room >= t->n, &f), level = 0;
    if (number) return (struct c_value){number, 0};
    at_least(t, 1, rest);
    for (unsigned i = t->n; i && t->numbers[t->order[i - 1]]; i--) {
        unsigned v = t->order[i - 1];
        if (!is_in(rest, v)) continue;
        if (t->numbers[v] != level) {
            level = t->numbers[v];
            memset(same, 0, sizeof same);
            for (unsigned j = i; j && t->numbers[t->order[j - 1]] == level; j--) put_in(same, t->order[j - 1]);
        }
        uint64_t in[WORDS] = {0};
        flood(t->links, rest, in, v);
        for (unsigned j = 0; j < WORDS; j++) set[j] |= in[j] & same[j];
    }
    return (struct c_value){0, list_set(set, answer)};
}
#endif

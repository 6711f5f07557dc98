/* The connected core and the backbone in C: a flood by layers, by words; part by part, the radios with the greatest number. */
#ifndef CORE_H
#define CORE_H
#include "check.h"
#include "sets.h"

/* The radios at the level or above, a word at a time. */
static inline void c_at_least(const struct lent *t, unsigned level, uint64_t *set) {
    for (unsigned k = 0; k < WORDS; k++) {
        unsigned first = 64 * k, many = first >= t->n ? 0 : t->n - first < 64 ? t->n - first : 64;
        uint64_t word = 0;
        for (unsigned i = 0; i < many; i++) word |= (uint64_t)(level <= t->numbers[first + i]) << i;
        set[k] = word;
    }
}

/* The places of the word's set bits, counted from `first`; how many. */
static inline unsigned c_list_word(uint64_t word, unsigned first, uint16_t *list) {
    unsigned n = 0;
    for (; word; word &= word - 1) list[n++] = first + __builtin_ctzll(word);
    return n;
}

/* Joins the rows of the radios of the list from place `from` on and before place `to` into the set. */
static inline void c_join_rows(const uint8_t *links, const uint16_t *list, unsigned from, unsigned to, uint64_t *set) {
    for (unsigned i = from; i < to; i++) join_row(links, list[i], set);
}

/* Takes the radios of the other set out of the set, and lists them; how many. */
static inline unsigned c_take_common(const uint64_t *other, uint64_t *set, uint16_t *list) {
    unsigned n = 0;
    for (unsigned k = 0; k < WORDS; k++) {
        uint64_t word = other[k] & set[k];
        if (!word) continue;
        set[k] ^= word;
        n += c_list_word(word, 64 * k, list + n);
    }
    return n;
}

/* Takes v and what it reaches over radios of the set out of it, layer by layer; they stand in front of the queue. */
static unsigned c_flood(const uint8_t *links, unsigned v, uint64_t *set, uint16_t *queue) {
    unsigned count = 1;
    take_out(set, v);
    queue[0] = v;
    for (unsigned i = 0; i < count;) {
        uint64_t reach[WORDS] = {0};
        c_join_rows(links, queue, i, count, reach);
        i = count;
        count += c_take_common(reach, set, queue + count);
    }
    return count;
}

static struct c_value c_core(const struct lent *t, uint32_t v, uint32_t k, uint16_t *answer, size_t room) {
    uint64_t set[WORDS], rest[WORDS];
    uint16_t queue[RADIOS];
    unsigned number = c_refusal(t, room >= t->n), count = 0;
    if (!number) number = v >= t->n ? 4 : t->numbers[v] < k ? 8 : 0;
    if (number) return (struct c_value){number, 0};
    c_at_least(t, k, set);
    memcpy(rest, set, sizeof rest);
    c_flood(t->links, v, rest, queue);
    for (unsigned i = 0; i < WORDS; i++) count += c_list_word(set[i] ^ rest[i], 64 * i, answer + count);
    return (struct c_value){0, count};
}

/* Each part is flooded once; its radios with the greatest number come into the set, unless that is 0. */
static void c_put_backbone(const struct lent *t, uint8_t *set) {
    uint64_t rest[WORDS];
    uint16_t queue[RADIOS];
    c_at_least(t, 0, rest);
    for (unsigned v = 0; v < t->n; v++) {
        if (!is_in(rest, v)) continue;
        unsigned count = c_flood(t->links, v, rest, queue), top = 0;
        for (unsigned i = 0; i < count; i++)
            if (t->numbers[queue[i]] > top) top = t->numbers[queue[i]];
        if (!top) continue;
        for (unsigned i = 0; i < count; i++)
            if (t->numbers[queue[i]] == top) put_bit(set, 1, 0, queue[i]);
    }
}

static struct c_value c_backbone(const struct lent *t, uint16_t *answer, size_t room) {
    uint8_t set[ROW] = {0};
    unsigned number = c_refusal(t, room >= t->n);
    if (number) return (struct c_value){number, 0};
    c_put_backbone(t, set);
    return (struct c_value){0, row_list(set, 0, answer, room)};
}
#endif

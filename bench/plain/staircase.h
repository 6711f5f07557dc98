/* The staircase tree in C: level by level the rows that have a link of the level, and of these only its links, by words; a link is kept
 * where its ends are of different parts, which parents tell. Levels that no radio has are skipped. */
#ifndef STAIRCASE_H
#define STAIRCASE_H
#include "core.h"

/* The greatest number below the level, 0 where there is none. */
static unsigned c_level_below(const struct lent *t, unsigned level) {
    unsigned top = 0;
    for (unsigned v = 0; v < t->n; v++)
        if (t->numbers[v] < level && t->numbers[v] > top) top = t->numbers[v];
    return top;
}

/* The lowest radio of v's part; on the way radios get their parent's parent as parent. */
static inline unsigned c_root(uint16_t *parents, unsigned v) {
    while (parents[v] != v) v = parents[v] = parents[parents[v]];
    return v;
}

/* Takes the links of a to the radios that the word marks; the count of kept links after. */
static inline unsigned c_take_bits(unsigned a, unsigned first, uint64_t word, uint16_t *parents, uint16_t *table, unsigned count) {
    for (; word; word &= word - 1) {
        unsigned b = first + __builtin_ctzll(word);
        if (parents[a] == parents[b]) continue;
        unsigned x = c_root(parents, a), y = c_root(parents, b);
        if (x == y) continue;
        table[2 * count] = a, table[2 * count + 1] = b, count++;
        parents[x < y ? y : x] = x < y ? x : y;
    }
    return count;
}

/* Takes the links of a to the radios of the set above it. */
static unsigned c_take_row(const struct lent *t, const uint64_t *set, unsigned a, uint16_t *parents, uint16_t *table, unsigned count) {
    unsigned k = a / 64, words = t->n / 64 + 1 < WORDS ? t->n / 64 + 1 : WORDS;
    count = c_take_bits(a, a + 1, (row_word(t->links, a, k) & set[k]) >> a % 64 >> 1, parents, table, count);
    for (k++; k < words; k++) count = c_take_bits(a, 64 * k, row_word(t->links, a, k) & set[k], parents, table, count);
    return count;
}

/* The rows that may have a link of the level: its radios, and of `reach` their neighbours. At the first level reach is the level. */
static unsigned c_list_rows(const uint8_t *links, const uint64_t *own, const uint64_t *reach, int first, uint16_t *list) {
    uint64_t rows[WORDS] = {0};
    const uint64_t *whole = first ? reach : own;
    unsigned many = 0;
    for (unsigned k = 0; k < WORDS; k++) many += c_list_word(whole[k], 64 * k, list + many);
    if (first) return many;
    for (unsigned i = 0; i < many; i++) rows[list[i] / 64] |= 1ull << list[i] % 64;
    c_join_rows(links, list, 0, many, rows);
    return c_take_common(reach, rows, list);
}

static unsigned c_take_weight(const struct lent *t, const uint64_t *own, const uint64_t *reach, uint16_t *parents, uint16_t *table, unsigned count) {
    uint16_t list[RADIOS];
    unsigned many = c_list_rows(t->links, own, reach, !count, list);
    for (unsigned i = 0; i < many; i++)
        count = is_in(own, list[i]) ? c_take_row(t, reach, list[i], parents, table, count) : c_take_row(t, own, list[i], parents, table, count);
    return count;
}

static struct c_value c_staircase(const struct lent *t, uint16_t *table, size_t room) {
    uint64_t own[WORDS], reach[WORDS], higher[WORDS] = {0};
    uint16_t parents[RADIOS];
    unsigned number = c_refusal(t, room >= 2 * (size_t)t->n), count = 0;
    if (number) return (struct c_value){number, 0};
    for (unsigned v = 0; v < t->n; v++) parents[v] = v;
    for (unsigned level = c_level_below(t, 256); level; level = c_level_below(t, level)) {
        c_at_least(t, level, reach);
        for (unsigned k = 0; k < WORDS; k++) own[k] = reach[k] ^ (higher[k] & reach[k]);
        count = c_take_weight(t, own, reach, parents, table, count);
        memcpy(higher, reach, sizeof higher);
    }
    return (struct c_value){0, count};
}
#endif

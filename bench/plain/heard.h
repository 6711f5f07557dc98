/* Links that both ends hear, in C: rows are read word by word, and each link that changes is one step of a batch. */
#ifndef HEARD_H
#define HEARD_H
#include "link.h"

/* Question 14: word by word; of the first word the bits below n are shifted out. */
static int c_proper(uint32_t n, const uint8_t *heard) {
    for (unsigned a = 0; a < n; a++) {
        if (marked(heard, a, a)) return 0;
        for (unsigned b = n; b < RADIOS; b += 64 - b % 64)
            if (row_word(heard, a, b / 64) >> b % 64) return 0;
    }
    return 1;
}

/* Question 7: so few radios cannot have more; who hears no more radios than that need not be counted. */
static int c_few(uint32_t n, const uint8_t *heard) {
    if (n <= NEIGHBOURS) return 1;
    for (unsigned a = 0; a < n; a++) {
        if (row_count(heard, a) <= NEIGHBOURS) continue;
        unsigned count = 0;
        for (unsigned i = 0; i < ROW / 8; i++)
            for (uint64_t w = row_word(heard, a, i); w; w &= w - 1) count += marked(heard, 64 * i + __builtin_ctzll(w), a);
        if (count > NEIGHBOURS) return 0;
    }
    return 1;
}

static unsigned c_mark_alone(uint32_t n, const uint8_t *heard, uint8_t *further) {
    unsigned count = 0;
    memset(further, 0, ROW * n);
    for (unsigned a = 0; a < n; a++)
        for (unsigned i = 0; i < ROW / 8; i++)
            for (uint64_t w = row_word(heard, a, i); w; w &= w - 1) {
                unsigned b = 64 * i + __builtin_ctzll(w);
                if (!marked(heard, b, a)) put_bit(further, 1, a, b), count++;
            }
    return count;
}

/* The radios above a whose link with a goes up, or down: what is heard and not one-sided is agreed. */
static unsigned c_wanted(int up, const uint8_t *heard, const uint8_t *further, const uint8_t *links, unsigned a, uint16_t *list) {
    unsigned k = 0;
    for (unsigned i = a / 64; i < ROW / 8; i++) {
        uint64_t agreed = row_word(heard, a, i) & ~row_word(further, a, i), linked = row_word(links, a, i);
        for (uint64_t w = up ? agreed & ~linked : linked & ~agreed; w; w &= w - 1) {
            list[k] = 64 * i + __builtin_ctzll(w);
            k += list[k] > a;
        }
    }
    return k;
}

/* The links that go up, or down, row by row; the ones of a row are listed before the first goes. */
static void c_switch(int up, const struct lent *t, const uint8_t *heard, const uint8_t *further, uint16_t *places, uint8_t *highs) {
    uint16_t list[NEIGHBOURS + 1];
    for (unsigned a = 0; a < t->n; a++) {
        unsigned k = c_wanted(up, heard, further, t->links, a, list);
        for (unsigned i = 0; i < k; i++) c_step(up, t, a, list[i], places, highs);
    }
}

static struct c_value c_hear(const struct lent *t, const uint8_t *heard, size_t heard_len, uint8_t *further, size_t further_len) {
    uint16_t places[RADIOS];
    uint8_t highs[RADIOS];
    unsigned number = c_sizes(t, heard_len == ROW * t->n && further_len == ROW * t->n);
    if (!number && !c_examine(t, places, highs)) number = 3;
    if (!number && !c_proper(t->n, heard)) number = 14;
    if (!number && !c_few(t->n, heard)) number = 7;
    if (number) return (struct c_value){number, 0};
    unsigned count = c_mark_alone(t->n, heard, further);
    c_switch(0, t, heard, further, places, highs);
    c_switch(1, t, heard, further, places, highs);
    return (struct c_value){0, count};
}
#endif

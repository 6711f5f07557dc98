/*
 * Links that both ends hear, of a careful programmer: the heard table is turned about the diagonal once, so that rows are compared by words;
 * each link that changes is one step of a batch.
 */
#ifndef HEARD_H
#define HEARD_H
#include "link.h"

/* Who hears each radio: bit a of row b where a hears b. 0 where a row marks its own radio or one at n or above. */
static int heard_by(uint32_t n, const uint8_t *heard, uint64_t (*by)[WORDS]) {
    memset(by, 0, n * sizeof *by);
    for (unsigned a = 0; a < n; a++)
        for (unsigned i = 0; i < WORDS; i++)
            for (uint64_t w = row_word(heard, a, i); w; w &= w - 1) {
                unsigned b = 64 * i + __builtin_ctzll(w);
                if (b >= n || b == a) return 0;
                by[b][a / 64] |= 1ull << a % 64;
            }
    return 1;
}

static unsigned agreed_most(uint32_t n, const uint8_t *heard, uint64_t (*by)[WORDS]) {
    unsigned most = 0;
    for (unsigned a = 0; a < n; a++) {
        unsigned k = 0;
        for (unsigned i = 0; i < WORDS; i++) k += bits(row_word(heard, a, i) & by[a][i]);
        if (k > most) most = k;
    }
    return most;
}

static unsigned mark_alone(uint32_t n, const uint8_t *heard, uint64_t (*by)[WORDS], uint8_t *further) {
    unsigned count = 0;
    for (unsigned a = 0; a < n; a++)
        for (unsigned i = 0; i < WORDS; i++) {
            uint64_t w = row_word(heard, a, i) & ~by[a][i];
            memcpy(further + ROW * a + 8 * i, &w, 8);
            count += bits(w);
        }
    return count;
}

/* Above the diagonal no row changes before its turn. */
static void switch_heard(int up, const struct lent *t, const uint8_t *heard, uint64_t (*by)[WORDS], struct found *f) {
    for (unsigned a = 0; a < t->n; a++)
        for (unsigned i = a / 64; i < WORDS; i++) {
            uint64_t agreed = row_word(heard, a, i) & by[a][i], links = row_word(t->links, a, i);
            uint64_t w = up ? agreed & ~links : links & ~agreed;
            if (i == a / 64) w &= ~1ull << a % 64;
            for (; w; w &= w - 1) step_of_batch(up, t, a, 64 * i + __builtin_ctzll(w), f);
        }
}

static struct c_value c_hear(const struct lent *t, const uint8_t *heard, size_t heard_len, uint8_t *further, size_t further_len) {
    struct found f;
    static uint64_t by[RADIOS][WORDS];
    unsigned number = refusal(t, heard_len == ROW * t->n && further_len == ROW * t->n, &f);
    if (!number && !heard_by(t->n, heard, by)) number = 14;
    if (!number && agreed_most(t->n, heard, by) > NEIGHBOURS) number = 7;
    if (number) return (struct c_value){number, 0};
    unsigned count = mark_alone(t->n, heard, by, further);
    switch_heard(0, t, heard, by, &f);
    switch_heard(1, t, heard, by, &f);
    return (struct c_value){0, count};
}
#endif

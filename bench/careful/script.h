/* The script that rebuilds a site, of a careful programmer: counted by bits, and written by pieces that are made once. */
#ifndef SCRIPT_H
#define SCRIPT_H
#include "check.h"

/* How many digits a radio has. */
static inline unsigned digits(unsigned v) { return 1 + (v >= 10) + (v >= 100); }

/* Digits, at most three; the place after them. */
static inline uint8_t *put_digits(uint8_t *p, unsigned v) {
    if (v >= 100) *p++ = '0' + v / 100;
    if (v >= 10) *p++ = '0' + v / 10 % 10;
    *p++ = '0' + v % 10;
    return p;
}

/* How many radios of row a above a are from `from` on. */
static inline unsigned above_from(const struct lent *t, unsigned a, unsigned from) {
    unsigned k = 0;
    for (unsigned i = (a > from ? a : from) / 64; i < WORDS; i++) {
        uint64_t w = row_above(t->links, a, i);
        k += __builtin_popcountll(i == from / 64 ? w >> from % 64 << from % 64 : w);
    }
    return k;
}

static size_t script_length(const struct lent *t) {
    size_t length = 8 + digits(t->n);
    for (unsigned a = 0; a < t->n; a++)
        length += above_from(t, a, 0) * (6 + digits(a)) + above_from(t, a, 10) + above_from(t, a, 100);
    return length;
}

static struct c_value c_script_length(const struct lent *t) {
    struct found f;
    unsigned number = refusal(t, 1, &f);
    return (struct c_value){number, number ? 0 : script_length(t)};
}

/* The lines of row a: what stands before the higher radio is the same in all. */
static uint8_t *put_rows(const struct lent *t, unsigned a, uint8_t *p) {
    uint8_t front[8] = {'u', 'p', ' '}, *end = put_digits(front + 3, a);
    *end++ = ' ';
    for (unsigned i = a / 64; i < WORDS; i++)
        for (uint64_t w = row_above(t->links, a, i); w; w &= w - 1) {
            memcpy(p, front, end - front);
            p = put_digits(p + (end - front), 64 * i + __builtin_ctzll(w));
            *p++ = '\n';
        }
    return p;
}

static struct c_value c_script_write(const struct lent *t, uint8_t *text, size_t room) {
    struct c_value length = c_script_length(t);
    if (length.number) return length;
    if (room < length.value) return (struct c_value){13, 0};
    memcpy(text, "radios ", 7);
    uint8_t *p = put_digits(text + 7, t->n);
    *p++ = '\n';
    for (unsigned a = 0; a < t->n; a++) p = put_rows(t, a, p);
    return length;
}
#endif

/* The script that rebuilds a site, in C: its length counted by digits, then put byte by byte. */
#ifndef SCRIPT_H
#define SCRIPT_H
#include "check.h"

/* Puts x, of at most three digits; the place after it. */
static inline uint8_t *c_put_number(uint8_t *p, unsigned x) {
    if (x < 10) {
        p[0] = '0' + x;
        return p + 1;
    }
    if (x < 100) {
        p[0] = '0' + x / 10;
        p[1] = '0' + x % 10;
        return p + 2;
    }
    p[0] = '0' + x / 100;
    p[1] = '0' + x / 10 % 10;
    p[2] = '0' + x % 10;
    return p + 3;
}

static inline uint8_t *c_put_up(uint8_t *p, unsigned a, unsigned b) {
    p[0] = 'u';
    p[1] = 'p';
    p[2] = ' ';
    p = c_put_number(p + 3, a);
    *p++ = ' ';
    p = c_put_number(p, b);
    *p++ = '\n';
    return p;
}

static void c_put_script(const struct lent *t, uint8_t *p) {
    uint16_t list[NEIGHBOURS];
    for (const char *word = "radios "; *word; word++) *p++ = *word;
    p = c_put_number(p, t->n);
    *p++ = '\n';
    for (unsigned a = 0; a < t->n; a++) {
        unsigned count = c_above(t->links, a, list);
        for (unsigned i = 0; i < count; i++) p = c_put_up(p, a, list[i]);
    }
}

static unsigned c_digits(unsigned x) { return x < 10 ? 1 : x < 100 ? 2 : 3; }

static struct c_value c_script_length(const struct lent *t) {
    uint16_t list[NEIGHBOURS];
    unsigned number = c_refusal(t, 1), length = 8 + c_digits(t->n);
    if (number) return (struct c_value){number, 0};
    for (unsigned a = 0; a < t->n; a++) {
        unsigned count = c_above(t->links, a, list), own = 5 + c_digits(a);
        for (unsigned i = 0; i < count; i++) length += own + c_digits(list[i]);
    }
    return (struct c_value){0, length};
}

static struct c_value c_script_write(const struct lent *t, uint8_t *text, size_t room) {
    struct c_value length = c_script_length(t);
    if (length.number) return length;
    if (room < length.value) return (struct c_value){13, 0};
    c_put_script(t, text);
    return length;
}
#endif

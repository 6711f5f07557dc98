/* Clearing, the questions about one or two radios, and the site sheet, of a careful programmer: the check and a lookup. */
#ifndef RADIOS_H
#define RADIOS_H
#include "check.h"

static unsigned c_clear(const struct lent *t) {
    unsigned number = sizes(t, 1);
    if (number) return number;
    memset(t->links, 0, t->links_len);
    memset(t->numbers, 0, t->numbers_len);
    for (unsigned v = 0; v < t->n; v++) t->order[v] = v;
    return 0;
}

static unsigned radios(const struct lent *t, uint32_t a, uint32_t b, struct found *f) {
    unsigned number = refusal(t, 1, f);
    return number ? number : a >= t->n || b >= t->n ? 4 : 0;
}

static struct c_value c_number(const struct lent *t, uint32_t v) {
    struct found f;
    unsigned number = radios(t, v, v, &f);
    return (struct c_value){number, number ? 0 : t->numbers[v]};
}

static struct c_value c_neighbours(const struct lent *t, uint32_t v) {
    struct found f;
    unsigned number = radios(t, v, v, &f);
    return (struct c_value){number, number ? 0 : degree(t->links, v)};
}

static struct c_value c_linked(const struct lent *t, uint32_t a, uint32_t b) {
    struct found f;
    unsigned number = radios(t, a, b, &f);
    return (struct c_value){number, number ? 0 : marked(t->links, a, b)};
}

static struct c_value c_first(const struct lent *t, uint32_t a, uint32_t b) {
    struct found f;
    unsigned number = radios(t, a, b, &f);
    return (struct c_value){number, number ? 0 : f.places[a] < f.places[b] ? a : b};
}

static struct c_later c_later_of(const struct lent *t, uint32_t v) {
    struct found f;
    unsigned number = radios(t, v, v, &f), least = NOWHERE;
    if (number) return (struct c_later){number, 0, 0};
    for (unsigned i = 0; i < WORDS; i++)
        for (uint64_t w = row_word(t->links, v, i); w; w &= w - 1) {
            unsigned place = f.places[64 * i + __builtin_ctzll(w)];
            if (place > f.places[v] && place < least) least = place;
        }
    return (struct c_later){0, f.laters[v], least == NOWHERE ? 65535 : t->order[least]};
}

/* A cell is eight bytes: the radio in three columns, a colon, its number in two, and two blanks. */
static inline void put_cell(uint8_t *p, unsigned v, unsigned number) {
    uint8_t cell[8] = {' ', ' ', '0' + v % 10, ':', ' ', '0' + number % 10, ' ', ' '};
    if (v >= 10) cell[1] = '0' + v / 10 % 10;
    if (v >= 100) cell[0] = '0' + v / 100;
    if (number >= 10) cell[4] = '0' + number / 10;
    memcpy(p, cell, 8);
}

static struct c_value c_sheet(const struct lent *t, uint8_t *page, size_t room) {
    struct found f;
    unsigned number = refusal(t, 1, &f), size = PAGE_LINE * ((t->n + 7) / 8);
    if (number) return (struct c_value){number, 0};
    if (room < size) return (struct c_value){12, 0};
    if (t->n % 8) memset(page + size - PAGE_LINE, ' ', PAGE_LINE);
    for (unsigned v = 0; v < t->n; v++) put_cell(page + 8 * v + v / 8, v, t->numbers[v]);
    for (unsigned end = PAGE_LINE; end <= size; end += PAGE_LINE) page[end - 1] = '\n';
    return (struct c_value){0, size};
}
#endif

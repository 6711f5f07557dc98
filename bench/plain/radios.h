/* Clearing, the questions about one or two radios, and the site sheet, in C: the check and a lookup. */
#ifndef RADIOS_H
#define RADIOS_H
#include "check.h"

static unsigned c_clear(const struct lent *t) {
    unsigned number = c_sizes(t, 1);
    if (number) return number;
    memset(t->links, 0, t->links_len);
    memset(t->numbers, 0, t->numbers_len);
    for (unsigned v = 0; v < t->n; v++) t->order[v] = v;
    return 0;
}

static unsigned c_radios(const struct lent *t, uint32_t a, uint32_t b) {
    unsigned number = c_refusal(t, 1);
    return number ? number : a >= t->n || b >= t->n ? 4 : 0;
}

static struct c_value c_number(const struct lent *t, uint32_t v) {
    unsigned number = c_radios(t, v, v);
    return (struct c_value){number, number ? 0 : t->numbers[v]};
}

static struct c_value c_neighbours(const struct lent *t, uint32_t v) {
    unsigned number = c_radios(t, v, v);
    return (struct c_value){number, number ? 0 : row_count(t->links, v)};
}

static struct c_value c_linked(const struct lent *t, uint32_t a, uint32_t b) {
    unsigned number = c_radios(t, a, b);
    return (struct c_value){number, number ? 0 : marked(t->links, a, b)};
}

static struct c_value c_first(const struct lent *t, uint32_t a, uint32_t b) {
    unsigned number = c_radios(t, a, b), i = 0;
    if (number) return (struct c_value){number, 0};
    while (t->order[i] != a && t->order[i] != b) i++;
    return (struct c_value){0, t->order[i]};
}

static struct c_later c_later_of(const struct lent *t, uint32_t v) {
    uint16_t places[RADIOS];
    uint64_t highest[ROW / 8];
    struct c_ends ends = {0, 0, 0, NOWHERE};
    unsigned number = c_radios(t, v, v);
    if (number) return (struct c_later){number, 0, 0};
    c_place(t->n, t->order, places);
    c_highest_words(t->n, highest);
    c_count_ends(t, places, highest, v, &ends);
    return (struct c_later){0, ends.later, ends.first == NOWHERE ? NOWHERE : t->order[ends.first]};
}

/* A column of x: its digit that counts p, or a space where it has none. */
static inline uint8_t c_column(unsigned p, unsigned x) { return x < p ? ' ' : '0' + x / p % 10; }

/* The cell of radio v, column by column. */
static inline void c_put_cell(uint8_t *cell, unsigned v, unsigned x) {
    cell[0] = c_column(100, v);
    cell[1] = c_column(10, v);
    cell[2] = '0' + v % 10;
    cell[3] = ':';
    cell[4] = c_column(10, x);
    cell[5] = '0' + x % 10;
    cell[6] = ' ';
    cell[7] = ' ';
}

/* Line i: the cells of its radios, spaces, a line feed. */
static inline void c_put_line(uint8_t *line, const struct lent *t, unsigned i) {
    unsigned first = 8 * i, k = t->n - first < 8 ? t->n - first : 8;
    for (unsigned j = 0; j < k; j++) c_put_cell(line + 8 * j, first + j, t->numbers[first + j]);
    for (unsigned j = 8 * k; j < PAGE_LINE - 1; j++) line[j] = ' ';
    line[PAGE_LINE - 1] = '\n';
}

static struct c_value c_sheet(const struct lent *t, uint8_t *page, size_t room) {
    unsigned number = c_refusal(t, 1), lines = (t->n + 7) / 8;
    if (number) return (struct c_value){number, 0};
    if (room < PAGE_LINE * lines) return (struct c_value){12, 0};
    for (unsigned i = 0; i < lines; i++) c_put_line(page + PAGE_LINE * i, t, i);
    return (struct c_value){0, PAGE_LINE * lines};
}
#endif

/*
 * Inputs of the calls at their worst, made from words (bench/worst.txt): a site with sound tables, the links that a batch brings it to or that a
 * hearing hears, and two numbers for the radios, the level or the mark that the call names.
 */
#ifndef INPUTS_H
#define INPUTS_H
#include "sites.h"
#include <stdio.h>

struct input {
    struct site site;
    uint8_t then[ROW * RADIOS]; /* the links after a batch, or heard ones */
    unsigned a, b;
};

static void strike(uint8_t *links, unsigned a, unsigned b) { put_bit(links, 0, a, b), put_bit(links, 0, b, a); }

/* Takes v off the neighbours that are left, of the ones not yet gone. */
static void let_go(const struct site *s, unsigned v, const uint8_t *gone, unsigned *left) {
    for (unsigned k = 0; k < ROW / 8; k++)
        for (uint64_t w = row_word(s->links, v, k); w; w &= w - 1) {
            unsigned b = 64 * k + __builtin_ctzll(w);
            left[b] -= !gone[b];
        }
}

/* Numbers and order by peeling: always the first of the wishes that can go at the level reached. */
static void order_by(struct site *s, const uint16_t *wishes) {
    unsigned left[RADIOS], level = 0;
    uint8_t gone[RADIOS] = {0};
    for (unsigned v = 0; v < s->n; v++) left[v] = row_count(s->links, v);
    for (unsigned i = 0, at = 0; i < s->n;) {
        for (at = 0; at < s->n && (gone[wishes[at]] || left[wishes[at]] > level);) at++;
        if (at == s->n) {
            level++;
            continue;
        }
        unsigned v = wishes[at];
        s->numbers[v] = level, s->order[i++] = v, gone[v] = 1;
        let_go(s, v, gone, left);
    }
}

/* ---- families */

static void wish_ascending(uint16_t *wishes, unsigned n) {
    for (unsigned i = 0; i < n; i++) wishes[i] = i;
}

/* After the first ones, in turn from the front and from the back. */
static void wish_both_ways(uint16_t *wishes, unsigned first, unsigned size) {
    for (unsigned i = 0; i < size; i++) wishes[first + i] = first + (i & 1 ? size - 1 - i / 2 : i / 2);
}

static void clique(struct site *s, unsigned size) {
    for (unsigned a = 0; a < size; a++)
        for (unsigned b = 0; b < a; b++) mark(s, a, b);
}

/* Each radio from `first` on linked with the next `reach`, with no way round. */
static void path(struct site *s, unsigned first, unsigned reach) {
    for (unsigned a = first; a < s->n; a++)
        for (unsigned b = a + 1; b <= a + reach && b < s->n; b++) mark(s, a, b);
}

/* A clique, and a circulant of the others that lacks every `step`-th link of its rim from the first radio on, or two opposite ones where the step is
 * 0. The links then are those of the whole circulant. */
static void rim(struct input *in, unsigned head, unsigned reach, unsigned step) {
    struct site *s = &in->site;
    uint16_t wishes[RADIOS];
    unsigned size = s->n - head;
    clique(s, head);
    circulant(s, head, size, reach);
    memcpy(in->then, s->links, sizeof in->then);
    for (unsigned i = 0; i + 1 < size; i += step ? step : size / 2) strike(s->links, head + i, head + i + 1);
    wish_ascending(wishes, s->n);
    if (!step) wish_both_ways(wishes, head, size);
    order_by(s, wishes);
}

/* The links of the site under other names: radio v hears as 5 v + 1 does. */
static void rename_links(struct input *in) {
    const struct site *s = &in->site;
    memset(in->then, 0, sizeof in->then);
    for (unsigned a = 0; a < s->n; a++)
        for (unsigned b = 0; b < s->n; b++)
            if (marked(s->links, (5 * a + 1) % s->n, (5 * b + 1) % s->n)) put_bit(in->then, 1, a, b);
}

/* A site of a kind of the benchmark; 0 where there is no such kind. */
static int of_kind(struct input *in, const char *name, unsigned index) {
    for (unsigned k = 0; k < ALONE; k++)
        if (!strcmp(name, kinds[k])) {
            make_site(&in->site, RADIOS, k, index);
            return 1;
        }
    return 0;
}

/* The site without links, and its links then. */
static void clear_site(struct input *in) {
    uint16_t wishes[RADIOS];
    memcpy(in->then, in->site.links, sizeof in->then);
    memset(in->site.links, 0, sizeof in->site.links);
    wish_ascending(wishes, RADIOS);
    order_by(&in->site, wishes);
}

/* The site that a family and three numbers name; the links then are its own under other names. With none- before the family the site has no links,
 * and those of the family then. 0 where there is no such family. */
static int make_input(struct input *in, const char *family, unsigned x, unsigned y, unsigned z) {
    uint16_t wishes[RADIOS];
    if (!strncmp(family, "none-", 5)) {
        int made = make_input(in, family + 5, x, y, z);
        clear_site(in);
        return made;
    }
    memset(in, 0, sizeof *in);
    in->site.n = RADIOS;
    wish_ascending(wishes, RADIOS);
    if (of_kind(in, family, x)) {
        rename_links(in);
    } else if (!strcmp(family, "random")) {
        srand(y);
        random_links(&in->site, x, NEIGHBOURS), order_by(&in->site, wishes), rename_links(in);
    } else if (!strcmp(family, "path")) {
        clique(&in->site, y), path(&in->site, y, x), order_by(&in->site, wishes), rename_links(in);
    } else if (!strcmp(family, "rim")) {
        rim(in, x, y, z);
    } else {
        return 0;
    }
    return 1;
}

/* ---- the list of a batch */

/* The links then that are down, two entries each, by lower radio and then higher; how many entries. */
static unsigned list_missing(const struct input *in, uint16_t *list) {
    unsigned count = 0;
    for (unsigned a = 0; a < in->site.n; a++)
        for (unsigned b = a + 1; b < in->site.n; b++)
            if (marked(in->then, a, b) && !marked(in->site.links, a, b)) list[count++] = a, list[count++] = b;
    return count;
}
#endif

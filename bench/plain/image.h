/* The site image in C: writer, block reader, and reader. The reader tests the image in place and writes the tables at the end. */
#ifndef IMAGE_H
#define IMAGE_H
#include "check.h"

static void put_word(uint8_t *p, unsigned x) { p[0] = x, p[1] = x >> 8; }

static unsigned word_at(const uint8_t *p) { return p[0] | p[1] << 8; }

/* The check by columns: byte i stands in column i % 24 of run i / 24, of which there are 21; then the bytes after them. */
static inline void add_byte(uint8_t x, unsigned p, uint16_t *sums, uint16_t *twice) { sums[p] += x, twice[p] += sums[p]; }

static uint32_t c_sum(const uint8_t *block) {
    uint16_t sums[24] = {0}, twice[24] = {0};
    uint32_t sum = 0;
    for (unsigned r = 0; r < 21; r++)
        for (unsigned p = 0; p < 8; p++)
            for (unsigned q = p; q < 24; q += 8) add_byte(block[24 * r + q], q, sums, twice);
    for (unsigned p = 0; p < 24; p++) sum += (p + 505) * sums[p] - 24 * (uint32_t)twice[p];
    for (unsigned i = 504; i < BODY; i++) sum += block[i] * (i + 1);
    return sum;
}

/* ---- writer */

static void open_block(uint8_t *block, unsigned kind, unsigned index) {
    memset(block, 0, BLOCK);
    block[0] = kind;
    put_word(block + 2, index);
}

static void close_block(uint8_t *block) {
    uint32_t sum = c_sum(block);
    put_word(block + BODY, sum), put_word(block + BODY + 2, sum >> 16);
}

static unsigned c_blocks(unsigned n, unsigned links) { return 1 + (n + ENTRIES - 1) / ENTRIES + (links + LINKS - 1) / LINKS; }

/* Whether there is room for the image: the links are counted only where there is none for as many as a site may have. */
static int c_has_room(const struct lent *t, size_t room) {
    uint16_t list[NEIGHBOURS];
    unsigned count = 0;
    if (BLOCK * c_blocks(t->n, NEIGHBOURS / 2 * t->n) <= room) return 1;
    for (unsigned a = 0; a < t->n; a++) count += c_above(t->links, a, list);
    return BLOCK * c_blocks(t->n, count) <= room;
}

/* How far the links are written: up to place `at` of a block. Left are the set bits of `rest`, from radio `first` on, of a row; its words after word
 * k; the rows after it. */
struct c_cursor {
    size_t at;
    unsigned row, k, first;
    uint64_t rest;
};

/* What is left of a row, until the block is full. */
static inline struct c_cursor put_row(uint8_t *block, const struct lent *t, struct c_cursor c) {
    for (;; c.first = 64 * c.k, c.rest = row_word(t->links, c.row, c.k)) {
        for (; c.rest; c.rest &= c.rest - 1, c.at += 4) {
            if (c.at == BODY) return c;
            put_word(block + c.at, c.row), put_word(block + c.at + 2, c.first + __builtin_ctzll(c.rest));
        }
        if (++c.k == ROW / 8) return c;
    }
}

/* The rows from row a on, until the block is full. */
static inline struct c_cursor put_rows(uint8_t *block, const struct lent *t, size_t at, unsigned a) {
    for (; a < t->n; a++) {
        struct c_cursor c = {at, a, a / 64, a + 1, row_word(t->links, a, a / 64) >> a % 64 >> 1};
        c = put_row(block, t, c);
        if (c.rest) return c;
        at = c.at;
    }
    return (struct c_cursor){at, t->n, ROW / 8, 0, 0};
}

/* A block of links; where it ends, and the next link is. */
static struct c_cursor fill_links(uint8_t *block, unsigned index, const struct lent *t, struct c_cursor c) {
    block[0] = 2, block[1] = 0;
    put_word(block + 2, index);
    c.at = HEAD;
    c = put_row(block, t, c);
    if (!c.rest) c = put_rows(block, t, c.at, c.row + 1);
    memset(block + c.at, 0, BLOCK - c.at);
    close_block(block);
    return c;
}

/* The blocks of links first: where they end tells how many links there are. A full block takes no link, so the first one is found. */
static struct c_value c_image_write(const struct lent *t, uint8_t *buffer, size_t room) {
    unsigned number = c_refusal(t, 1), first = 1 + (t->n + ENTRIES - 1) / ENTRIES, blocks = first, count = 0;
    if (number) return (struct c_value){number, 0};
    if (!c_has_room(t, room)) return (struct c_value){9, 0};
    for (struct c_cursor c = put_rows(buffer, t, BODY, 0); c.row < t->n; blocks++)
        c = fill_links(buffer + BLOCK * blocks, blocks, t, c), count += (c.at - HEAD) / 4;
    for (unsigned i = 0; i < first; i++) {
        uint8_t *block = buffer + BLOCK * i;
        open_block(block, i > 0, i);
        if (i == 0) put_word(block + HEAD, t->n), put_word(block + HEAD + 2, count);
        for (unsigned j = 0, from = ENTRIES * (i - 1); i && j < ENTRIES && from + j < t->n; j++) put_word(block + HEAD + 2 * j, t->order[from + j]);
        close_block(block);
    }
    return (struct c_value){0, BLOCK * blocks};
}

/* ---- questions 9 and 10, and the block reader */

static unsigned c_image_checks(const uint8_t *image, size_t length) {
    if (length == 0 || length % BLOCK) return 9;
    for (size_t at = 0; at < length; at += BLOCK)
        if (c_sum(image + at) != (word_at(image + at + BODY) | (uint32_t)word_at(image + at + BODY + 2) << 16)) return 10;
    return 0;
}

static struct c_block c_image_block(const uint8_t *image, size_t length, size_t next) {
    unsigned number = c_image_checks(image, length);
    if (number) return (struct c_block){number, 0, 0, 0, next};
    if (next >= length / BLOCK) return (struct c_block){0, 1, 0, 0, next};
    return (struct c_block){0, 0, BLOCK * next + HEAD, BODY - HEAD, next + 1};
}

/* ---- question 11 */

/* Whether the image says n, has the length for its links, and each block its kind, zero byte, index and zeros behind what is used. */
static int c_formed(const uint8_t *image, size_t length, uint32_t n) {
    unsigned m = word_at(image + 6), orders = (n + ENTRIES - 1) / ENTRIES, blocks = 1 + orders + (m + LINKS - 1) / LINKS;
    if (word_at(image + 4) != n || length != (size_t)BLOCK * blocks) return 0;
    for (unsigned i = 0; i < blocks; i++) {
        const uint8_t *block = image + BLOCK * i;
        unsigned kind = i == 0 ? 0 : i <= orders ? 1 : 2, used = 4;
        if (kind == 1) used = n - ENTRIES * (i - 1) < ENTRIES ? 2 * (n - ENTRIES * (i - 1)) : 2 * ENTRIES;
        if (kind == 2) used = m - LINKS * (i - 1 - orders) < LINKS ? 4 * (m - LINKS * (i - 1 - orders)) : 4 * LINKS;
        if (block[0] != kind || block[1] || word_at(block + 2) != i) return 0;
        int zeros = 1;
        for (unsigned j = HEAD + used; j < BODY; j++) zeros &= block[j] == 0;
        if (!zeros) return 0;
    }
    return 1;
}

/* The links of block q of the blocks of links: the first, and how many there are. */
struct c_part {
    const uint8_t *first;
    unsigned count;
};

static struct c_part part_of(const uint8_t *image, uint32_t n, unsigned m, unsigned q) {
    unsigned left = m - LINKS * q;
    return (struct c_part){image + BLOCK * (1 + (n + ENTRIES - 1) / ENTRIES + q) + HEAD, left < LINKS ? left : LINKS};
}

static unsigned link_blocks(unsigned m) { return (m + LINKS - 1) / LINKS; }

static uint32_t long_at(const uint8_t *p) { return word_at(p) | (uint32_t)word_at(p + 2) << 16; }

/* Whether the links have their lower radio first, radios below n, and stand ascending, by a key with the lower radio first. */
static int c_listed(const uint8_t *image, uint32_t n, unsigned m) {
    uint32_t last = 0;
    int good = 1;
    for (unsigned q = 0; q < link_blocks(m); q++) {
        struct c_part part = part_of(image, n, m, q);
        for (unsigned i = 0; i < part.count; i++) {
            uint32_t x = long_at(part.first + 4 * i), key = x << 16 | x >> 16;
            good &= ((x & 65535) < x >> 16) & (x >> 16 < n) & (last < key);
            last = key;
        }
    }
    return good;
}

static inline void c_count_at(const uint8_t *p, const uint16_t *places, uint16_t *counts, uint16_t *later) {
    unsigned a = word_at(p), b = word_at(p + 2);
    counts[a]++, counts[b]++;
    later[a] += places[a] < places[b];
    later[b] += places[b] < places[a];
}

/* For each radio, how many links it has, and how many of them lead to a later radio; the two halves of a block side by side. */
static inline void c_count_links(const uint8_t *image, uint32_t n, unsigned m, const uint16_t *places, uint16_t *counts, uint16_t *later) {
    memset(counts, 0, 2 * n), memset(later, 0, 2 * n);
    for (unsigned q = 0; q < link_blocks(m); q++) {
        struct c_part part = part_of(image, n, m, q);
        unsigned half = part.count / 2;
        for (unsigned i = 0; i < half; i++) {
            c_count_at(part.first + 4 * i, places, counts, later);
            c_count_at(part.first + 4 * (half + i), places, counts, later);
        }
        if (part.count > half + half) c_count_at(part.first + 4 * (half + half), places, counts, later);
    }
}

static inline void c_tally_at(const uint8_t *p, const uint16_t *ranks, unsigned slack, uint16_t *counts) {
    unsigned a = word_at(p), b = word_at(p + 2);
    counts[a] += ranks[a] < ranks[b] + slack;
    counts[b] += ranks[b] < ranks[a] + slack;
}

/* For each radio, how many links lead to a radio with a rank of which, with the slack added, its own is below; likewise by halves. */
static inline void c_tally(const uint8_t *image, uint32_t n, unsigned m, const uint16_t *ranks, unsigned slack, uint16_t *counts) {
    memset(counts, 0, 2 * n);
    for (unsigned q = 0; q < link_blocks(m); q++) {
        struct c_part part = part_of(image, n, m, q);
        unsigned half = part.count / 2;
        for (unsigned i = 0; i < half; i++) {
            c_tally_at(part.first + 4 * i, ranks, slack, counts);
            c_tally_at(part.first + 4 * (half + i), ranks, slack, counts);
        }
        if (part.count > half + half) c_tally_at(part.first + 4 * (half + half), ranks, slack, counts);
    }
}

static void c_read_order(const uint8_t *image, uint32_t n, uint16_t *order) {
    for (unsigned from = 0; from < n; from += ENTRIES) {
        const uint8_t *first = image + BLOCK * (1 + from / ENTRIES) + HEAD;
        unsigned count = n - from < ENTRIES ? n - from : ENTRIES;
        for (unsigned i = 0; i < count; i++) order[from + i] = word_at(first + 2 * i);
    }
}

static int c_each_at_most(const uint16_t *entries, const uint16_t *most, uint32_t n) {
    int all = 1;
    for (unsigned v = 0; v < n; v++) all &= entries[v] <= most[v];
    return all;
}

static int c_are_few(const uint16_t *counts, uint32_t n) {
    int few = 1;
    for (unsigned v = 0; v < n; v++) few &= counts[v] <= NEIGHBOURS;
    return few;
}

/* Question 11 for whole blocks: the order and the numbers worked out on yes. */
static int c_is_image(const uint8_t *image, size_t length, uint32_t n, uint16_t *order, uint16_t *numbers) {
    uint16_t counts[RADIOS], later[RADIOS];
    unsigned m = word_at(image + 6), top = 0;
    if (n < 1 || !c_formed(image, length, n) || !c_listed(image, n, m)) return 0;
    c_read_order(image, n, order);
    if (!c_place(n, order, numbers)) return 0; /* the places, until the numbers take their place */
    c_count_links(image, n, m, numbers, counts, later);
    if (!c_are_few(counts, n)) return 0;
    for (unsigned i = 0; i < n; i++) {
        if (later[order[i]] > top) top = later[order[i]];
        numbers[order[i]] = top;
    }
    c_tally(image, n, m, numbers, 1, counts);
    return c_each_at_most(numbers, counts, n);
}

static unsigned c_image_read(const struct lent *t, const uint8_t *image, size_t length) {
    uint16_t order[RADIOS], numbers[RADIOS];
    unsigned number = c_sizes(t, 1);
    if (!number) number = c_image_checks(image, length);
    if (number) return number;
    unsigned says = word_at(image + 4);
    if (says < 1 || says > RADIOS || !c_is_image(image, length, says, order, numbers)) return 11;
    if (says != t->n) return 15;
    memset(t->links, 0, t->links_len);
    for (unsigned q = 0, m = word_at(image + 6); q < link_blocks(m); q++) {
        struct c_part part = part_of(image, t->n, m, q);
        for (unsigned i = 0; i < part.count; i++) {
            unsigned a = word_at(part.first + 4 * i), b = word_at(part.first + 4 * i + 2);
            put_bit(t->links, 1, a, b), put_bit(t->links, 1, b, a);
        }
    }
    for (unsigned v = 0; v < t->n; v++) t->numbers[v] = numbers[v], t->order[v] = order[v];
    return 0;
}
#endif

/* The site image of a careful programmer: each pass goes over the image once, by blocks. Little-endian machines. */
#ifndef IMAGE_H
#define IMAGE_H
#include "check.h"

static inline unsigned word16(const uint8_t *p) {
    uint16_t x;
    memcpy(&x, p, 2);
    return x;
}

static inline uint32_t word32(const uint8_t *p) {
    uint32_t x;
    memcpy(&x, p, 4);
    return x;
}

static inline void put16(uint8_t *p, uint16_t x) { memcpy(p, &x, 2); }
static inline void put32(uint8_t *p, uint32_t x) { memcpy(p, &x, 4); }

/* Weights of a block's bytes as 16-bit numbers: products of these are what compilers sum many at a time. */
static const int16_t weights[BLOCK] = {
#define EIGHT(x) x + 1, x + 2, x + 3, x + 4, x + 5, x + 6, x + 7, x + 8
#define SIXTY_FOUR(x) EIGHT(x), EIGHT(x + 8), EIGHT(x + 16), EIGHT(x + 24), EIGHT(x + 32), EIGHT(x + 40), EIGHT(x + 48), EIGHT(x + 56)
    SIXTY_FOUR(0), SIXTY_FOUR(64), SIXTY_FOUR(128), SIXTY_FOUR(192), SIXTY_FOUR(256), SIXTY_FOUR(320), SIXTY_FOUR(384), SIXTY_FOUR(448)};

static inline uint32_t block_sum(const uint8_t *block) {
    int32_t sum = 0;
    for (unsigned i = 0; i < BODY; i++) sum += (int16_t)block[i] * weights[i];
    return sum;
}

static unsigned order_blocks(unsigned n) { return (n + ENTRIES - 1) / ENTRIES; }
static unsigned link_blocks(unsigned m) { return (m + LINKS - 1) / LINKS; }
static unsigned at_most(unsigned x, unsigned most) { return x < most ? x : most; }

/* ---- writer */

static void put_order(const struct lent *t, uint8_t *block, unsigned index) {
    unsigned from = ENTRIES * (index - 1), count = at_most(t->n - from, ENTRIES);
    put32(block, 1 | index << 16);
    memcpy(block + HEAD, t->order + from, 2 * count);
    memset(block + HEAD + 2 * count, 0, BODY - HEAD - 2 * count);
}

/* The links, from the block with this index on. */
static void put_links(const struct lent *t, uint8_t *buffer, unsigned index) {
    uint8_t *p = 0, *end = 0;
    for (unsigned a = 0; a < t->n; a++)
        for (unsigned i = a / 64; i < WORDS; i++)
            for (uint64_t w = row_above(t->links, a, i); w; w &= w - 1) {
                if (p == end) {
                    p = buffer + BLOCK * index + HEAD, end = p + 4 * LINKS;
                    put32(p - HEAD, 2 | index++ << 16);
                }
                put32(p, a | (64 * i + __builtin_ctzll(w)) << 16);
                p += 4;
            }
    if (p) memset(p, 0, end - p);
}

static struct c_value c_image_write(const struct lent *t, uint8_t *buffer, size_t room) {
    struct found f;
    unsigned number = refusal(t, 1, &f), links = 0;
    if (number) return (struct c_value){number, 0};
    for (unsigned v = 0; v < t->n; v++) links += f.laters[v]; /* of each link, one end comes later */
    unsigned orders = order_blocks(t->n), blocks = 1 + orders + link_blocks(links);
    if (room < BLOCK * blocks) return (struct c_value){9, 0};
    memset(buffer, 0, BLOCK);
    put16(buffer + HEAD, t->n), put16(buffer + HEAD + 2, links);
    for (unsigned i = 1; i <= orders; i++) put_order(t, buffer + BLOCK * i, i);
    put_links(t, buffer, 1 + orders);
    for (unsigned i = 0; i < blocks; i++) put32(buffer + BLOCK * i + BODY, block_sum(buffer + BLOCK * i));
    return (struct c_value){0, BLOCK * blocks};
}

/* ---- questions 9 and 10, and the block reader */

static unsigned image_checks(const uint8_t *image, size_t length) {
    if (length == 0 || length % BLOCK) return 9;
    for (const uint8_t *block = image; block < image + length; block += BLOCK)
        if (block_sum(block) != word32(block + BODY)) return 10;
    return 0;
}

static struct c_block c_image_block(const uint8_t *image, size_t length, size_t next) {
    unsigned number = image_checks(image, length);
    if (number) return (struct c_block){number, 0, 0, 0, next};
    if (next >= length / BLOCK) return (struct c_block){0, 1, 0, 0, next};
    return (struct c_block){0, 0, BLOCK * next + HEAD, BODY - HEAD, next + 1};
}

/* ---- question 11 */

/* Order and numbers worked out from an image, places and counts on the way. */
struct reading {
    const uint8_t *links; /* its first block of links */
    unsigned n, m;
    uint16_t order[RADIOS], places[RADIOS];
    uint8_t numbers[RADIOS], counts[RADIOS];
};

/* Bytes in use of a block's content. */
static unsigned used(const struct reading *r, unsigned i) {
    unsigned orders = order_blocks(r->n);
    if (i == 0) return 4;
    return i <= orders ? at_most(2 * (r->n - ENTRIES * (i - 1)), 2 * ENTRIES) : at_most(4 * (r->m - LINKS * (i - 1 - orders)), 4 * LINKS);
}

/* Whether the image has the length for its links, and each block its head, and zeros behind what is used. */
static int formed(const struct reading *r, const uint8_t *image, size_t length) {
    unsigned orders = order_blocks(r->n), blocks = 1 + orders + link_blocks(r->m), bad = 0;
    if (length != (size_t)BLOCK * blocks) return 0;
    for (unsigned i = 0; i < blocks; i++) {
        const uint8_t *block = image + BLOCK * i;
        bad |= word32(block) ^ ((i == 0 ? 0u : i <= orders ? 1u : 2u) | i << 16);
        for (unsigned j = HEAD + used(r, i); j < BODY; j++) bad |= block[j];
    }
    return !bad;
}

/* The links of the image: `p` stands at each, block by block. */
#define EACH_LINK(r, p)                                                                                             \
    for (const uint8_t *block_ = (r)->links, *last_ = block_ + BLOCK * link_blocks((r)->m); block_ < last_; block_ += BLOCK) \
        for (const uint8_t *p = block_ + HEAD, *end_ = p + 4 * at_most((r)->m - LINKS * ((block_ - (r)->links) / BLOCK), LINKS); p < end_; p += 4)

/* Whether the links have their lower radio first, radios below n, stand ascending, and no radio has too many. */
static int listed(struct reading *r) {
    uint32_t last = 0;
    unsigned bad = 0;
    uint16_t counts[RADIOS];
    memset(counts, 0, 2 * r->n);
    EACH_LINK(r, p) {
        unsigned a = word16(p), b = word16(p + 2);
        if (b <= a || b >= r->n || last >= (a << 16 | b)) return 0;
        last = a << 16 | b, counts[a]++, counts[b]++;
    }
    for (unsigned v = 0; v < r->n; v++) bad |= counts[v] > NEIGHBOURS;
    return !bad;
}

/* Whether each radio stands once in the order. */
static int placed(struct reading *r, const uint8_t *image) {
    uint64_t seen[WORDS] = {0};
    unsigned bad = 0;
    for (unsigned i = 0; i < r->n; i += ENTRIES) memcpy(r->order + i, image + BLOCK * (1 + i / ENTRIES) + HEAD, 2 * at_most(r->n - i, ENTRIES));
    for (unsigned i = 0; i < r->n; i++) {
        unsigned v = r->order[i];
        if (v >= r->n) return 0;
        bad |= is_in(seen, v);
        put_in(seen, v), r->places[v] = i;
    }
    return !bad;
}

/* Whether the order is of core numbers: a radio's is the most later neighbours so far, and it has as many neighbours not below it. */
static int numbered(struct reading *r) {
    unsigned top = 0, bad = 0;
    memset(r->counts, 0, r->n);
    EACH_LINK(r, p) {
        unsigned a = word16(p), b = word16(p + 2);
        r->counts[r->places[a] < r->places[b] ? a : b]++;
    }
    for (unsigned i = 0; i < r->n; i++) {
        unsigned v = r->order[i];
        if (r->counts[v] > top) top = r->counts[v];
        r->numbers[v] = top;
    }
    memset(r->counts, 0, r->n);
    EACH_LINK(r, p) {
        unsigned a = word16(p), b = word16(p + 2), x = r->numbers[a], y = r->numbers[b];
        r->counts[a] += x <= y, r->counts[b] += y <= x;
    }
    for (unsigned v = 0; v < r->n; v++) bad |= r->counts[v] < r->numbers[v];
    return !bad;
}

static unsigned c_image_read(const struct lent *t, const uint8_t *image, size_t length) {
    struct reading r;
    unsigned number = sizes(t, 1);
    if (!number) number = image_checks(image, length);
    if (number) return number;
    r.n = word16(image + HEAD), r.m = word16(image + HEAD + 2);
    if (r.n < 1 || r.n > RADIOS || !formed(&r, image, length)) return 11;
    r.links = image + BLOCK * (1 + order_blocks(r.n));
    if (!listed(&r) || !placed(&r, image) || !numbered(&r)) return 11;
    if (r.n != t->n) return 15;
    memset(t->links, 0, t->links_len);
    EACH_LINK(&r, p) {
        unsigned a = word16(p), b = word16(p + 2);
        t->links[ROW * a + b / 8] |= 1 << b % 8, t->links[ROW * b + a / 8] |= 1 << a % 8;
    }
    memcpy(t->numbers, r.numbers, t->n), memcpy(t->order, r.order, 2 * t->n);
    return 0;
}
#endif

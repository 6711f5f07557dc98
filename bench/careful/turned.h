/*
 * Many links: rows are symmetric if each block of 64 times 64 bits, turned, is the block across the diagonal. Then a column is its
 * row, and going over the order backwards all columns are counted at once: `planes` holds a binary number for each radio, bit p of
 * all of them in plane p.
 */
#ifndef TURNED_H
#define TURNED_H

#define PLANES 6

/* One of six equal stages: rows k and k + 32 give 2k and 2k + 1. */
static inline void turn_stage(const uint64_t *from, uint64_t *to, uint64_t mask, unsigned shift) {
    for (unsigned k = 0; k < 32; k++) {
        uint64_t a = from[k], b = from[k + 32];
        to[2 * k] = (a & mask) | (b & mask) << shift;
        to[2 * k + 1] = (a >> shift & mask) | (b & ~mask);
    }
}

static inline void turn(uint64_t *x) {
    uint64_t y[64];
    turn_stage(x, y, 0x00000000ffffffff, 32), turn_stage(y, x, 0x0000ffff0000ffff, 16);
    turn_stage(x, y, 0x00ff00ff00ff00ff, 8), turn_stage(y, x, 0x0f0f0f0f0f0f0f0f, 4);
    turn_stage(x, y, 0x3333333333333333, 2), turn_stage(y, x, 0x5555555555555555, 1);
}

static inline unsigned rows_of(const struct lent *t, unsigned block) { return t->n - 64 * block < 64 ? t->n - 64 * block : 64; }

/* Whether the block at rows i, words j is the turned block at rows j, words i. */
static int mirrored_block(const struct lent *t, unsigned i, unsigned j) {
    uint64_t x[64] = {0}, any = 0, differ = 0;
    const unsigned rows = rows_of(t, i), across = rows_of(t, j);
    for (unsigned r = 0; r < rows; r++) any |= x[r] = row_word(t->links, 64 * i + r, j);
    if (any) turn(x);
    for (unsigned r = 0; r < across; r++) differ |= x[r] ^ row_word(t->links, 64 * j + r, i);
    return !differ;
}

static int symmetric(const struct lent *t) {
    const unsigned blocks = (t->n + 63) / 64;
    for (unsigned i = 0; i < blocks; i++)
        for (unsigned j = i; j < blocks; j++)
            if (!mirrored_block(t, i, j)) return 0;
    return 1;
}

static inline unsigned counted(uint64_t (*planes)[WORDS], unsigned v) {
    unsigned k = 0;
    for (unsigned p = 0; p < PLANES; p++) k |= is_in(planes[p], v) << p;
    return k;
}

/* Adds the carry into plane `from` and the ones above; comes back with what no plane holds. */
static inline uint64_t add_carry(uint64_t (*planes)[WORDS], unsigned from, uint64_t *carry) {
    uint64_t over = 0;
    for (unsigned p = from; p < PLANES; p++)
        for (unsigned i = 0; i < WORDS; i++) {
            uint64_t both = planes[p][i] & carry[i];
            planes[p][i] ^= carry[i], carry[i] = both;
        }
    for (unsigned i = 0; i < WORDS; i++) over |= carry[i];
    return over;
}

static inline uint64_t add_row(const struct lent *t, uint64_t (*planes)[WORDS], unsigned v) {
    uint64_t carry[WORDS];
    for (unsigned i = 0; i < WORDS; i++) carry[i] = row_word(t->links, v, i);
    return add_carry(planes, 0, carry);
}

/* Two rows cost little more than one: their sum goes into the lowest plane at once. */
static inline uint64_t add_rows(const struct lent *t, uint64_t (*planes)[WORDS], unsigned u, unsigned v) {
    uint64_t carry[WORDS];
    for (unsigned i = 0; i < WORDS; i++) {
        uint64_t x = row_word(t->links, u, i), y = row_word(t->links, v, i), z = planes[0][i], half = x ^ y;
        planes[0][i] = half ^ z, carry[i] = (x & y) | (half & z);
    }
    return add_carry(planes, 1, carry);
}

/* The radios from place `from` up to `to` have the number k, the ones behind are counted: the later and the not lower neighbours. */
static inline uint64_t count_level(const struct lent *t, struct found *f, uint64_t (*planes)[WORDS], unsigned from, unsigned to) {
    const unsigned k = t->numbers[t->order[from]];
    uint64_t bad = 0;
    unsigned i = to;
    for (; i > from + 1; i -= 2) {
        unsigned v = t->order[i - 1], u = t->order[i - 2];
        unsigned x = counted(planes, v), y = counted(planes, u) + marked(t->links, v, u);
        bad |= (x > k) | (y > k), f->laters[v] = x, f->laters[u] = y;
        bad |= add_rows(t, planes, v, u);
    }
    if (i > from) {
        unsigned v = t->order[from], x = counted(planes, v);
        bad |= x > k, f->laters[v] = x;
        bad |= add_row(t, planes, v);
    }
    for (i = from; i < to; i++) {
        unsigned v = t->order[i], x = counted(planes, v);
        bad |= x < k, f->highs[v] = x;
    }
    return bad;
}

/* Radios whose number in the planes is above 40, which is 101000 in binary. */
static inline uint64_t above_40(uint64_t (*planes)[WORDS]) {
    uint64_t above = 0;
    for (unsigned i = 0; i < WORDS; i++)
        above |= planes[5][i] & (planes[4][i] | (planes[3][i] & (planes[2][i] | planes[1][i] | planes[0][i])));
    return above;
}

static int turned_sound(const struct lent *t, struct found *f) {
    uint64_t planes[PLANES][WORDS] = {{0}}, bad = 0;
    if (!symmetric(t)) return 0;
    for (unsigned a = 0; a < t->n; a++) bad |= marked(t->links, a, a);
    for (unsigned to = t->n, from; to; to = from) {
        for (from = to - 1; from && t->numbers[t->order[from - 1]] == t->numbers[t->order[to - 1]];) from--;
        bad |= count_level(t, f, planes, from, to);
    }
    return !(bad | above_40(planes));
}
#endif

/* Few links: each set bit of a row is looked at once. Rows are known to have no bit at n or above. */
#ifndef WALKED_H
#define WALKED_H

/* A neighbour is not below a radio exactly if it stands where the radio's number starts in the order, or behind. */
static inline int walked_row(const struct lent *t, struct found *f, unsigned a, unsigned words) {
    const unsigned place = f->places[a], number = t->numbers[a], start = f->starts[number];
    const uint8_t *column = t->links + a / 8;
    unsigned later = 0, high = 0, all = 0, mirrored = ~0u;
    for (unsigned i = 0; i < words; i++)
        for (uint64_t w = row_word(t->links, a, i); w; w &= w - 1) {
            unsigned b = 64 * i + __builtin_ctzll(w), at = f->places[b];
            mirrored &= column[ROW * b] >> a % 8;
            all++, later += place < at, high += start <= at;
        }
    f->highs[a] = high, f->laters[a] = later;
    return (mirrored & 1) && !marked(t->links, a, a) && all <= NEIGHBOURS && later <= number && high >= number;
}

static int walked_sound(const struct lent *t, struct found *f) {
    const unsigned words = (t->n + 63) / 64;
    for (unsigned a = 0; a < t->n; a++)
        if (!walked_row(t, f, a, words)) return 0;
    return 1;
}
#endif

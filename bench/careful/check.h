/*
 * The soundness check of a careful programmer. The order is gone over once; then few links are walked, one by one, and many are
 * taken as blocks of bits. What it finds on the way, the calls use.
 */
#ifndef CHECK_H
#define CHECK_H
#include "sets.h"

/*
 * Of each radio: its place in the order, how many neighbours are not below it, how many come later. Of each number that a radio
 * has: the place where it starts in the order.
 */
struct found {
    uint16_t places[RADIOS], starts[256];
    uint8_t highs[RADIOS], laters[RADIOS];
};

#include "turned.h"
#include "walked.h"

/* Whether each radio stands once in the order and numbers never fall along it; then places, starts, and the sum of the numbers. */
static inline int ordered(const struct lent *t, struct found *f, unsigned *sum) {
    uint64_t seen[WORDS] = {0};
    unsigned last = 0, bad = 0, all = 0;
    f->starts[0] = 0;
    for (unsigned i = 0; i < t->n; i++) {
        unsigned v = t->order[i];
        if (v >= t->n) return 0;
        unsigned number = t->numbers[v];
        bad |= is_in(seen, v) | (number < last);
        put_in(seen, v);
        if (number != last) f->starts[number] = i;
        f->places[v] = i, last = number, all += number;
    }
    *sum = all;
    return !bad;
}

/* Whether no row has a bit at n or above. */
static inline int rest_clear(const struct lent *t) {
    const unsigned last = t->n / 64;
    uint64_t bad = 0;
    if (t->n == RADIOS) return 1;
    for (unsigned a = 0; a < t->n; a++) {
        bad |= row_word(t->links, a, last) >> t->n % 64;
        for (unsigned i = last + 1; i < WORDS; i++) bad |= row_word(t->links, a, i);
    }
    return !bad;
}

/*
 * Whether turning blocks is likely faster than walking links. Sound tables have from half the sum of the numbers to that sum of
 * links. Few radios do not fill a block, and prediction soon learns their rows. The figures are measured.
 */
static inline int many_links(unsigned n, unsigned sum) { return n >= 32 && sum > (n < 200 ? 9 : 4) * n; }

static int examine(const struct lent *t, struct found *f) {
    unsigned sum;
    if (!ordered(t, f, &sum) || !rest_clear(t)) return 0;
    return many_links(t->n, sum) ? turned_sound(t, f) : walked_sound(t, f);
}

/* Questions 1 and 2, where `others` is the answer that 2 gets for further tables. */
static unsigned sizes(const struct lent *t, int others) {
    if (t->n < 1 || t->n > RADIOS) return 1;
    return t->links_len != ROW * t->n || t->numbers_len != t->n || t->order_len != t->n || !others ? 2 : 0;
}

/* Questions 1 to 3. */
static unsigned refusal(const struct lent *t, int others, struct found *f) {
    unsigned number = sizes(t, others);
    return number ? number : examine(t, f) ? 0 : 3;
}

static struct c_value c_check(const struct lent *t) {
    struct found f;
    unsigned number = sizes(t, 1);
    return (struct c_value){number, number ? 0 : examine(t, &f)};
}
#endif

/*
 * Named marks of a careful programmer: the places are gone over once, the marks counted and the name found on the way; what the check of
 * the tables found is not used again. Zeros are compared with the byte before, by the C library.
 */
#ifndef MARKS_H
#define MARKS_H
#include "image.h"

/* What is found on the way: the marks, and where the name stands or is to stand. */
struct spot {
    unsigned used, rank;
    int there;
};

static int all_zeros(const uint8_t *p, const uint8_t *end) { return p >= end || (!*p && !memcmp(p, p + 1, end - p - 1)); }

static int is_sign(uint8_t c) { return (c >= 'A' && c <= 'Z') || (c >= '0' && c <= '9'); }

static int is_name(const uint8_t *name) {
    unsigned i = 0;
    while (i < MARK_NAME && is_sign(name[i])) i++;
    return i && !memcmp(name + i, "        ", MARK_NAME - i);
}

static size_t size_in(const uint8_t *place, uint32_t n) {
    return (size_t)BLOCK * (1 + order_blocks(n) + link_blocks(word16(place + MARK_NAME + HEAD + 2)));
}

static int is_mark(const uint8_t *place, uint32_t n) {
    struct reading r;
    const uint8_t *image = place + MARK_NAME;
    size_t size = size_in(place, n);
    if (MARK_NAME + size > MARK_PLACE || word16(image + HEAD) != n || !is_name(place) || image_checks(image, size)) return 0;
    r.n = n, r.m = word16(image + HEAD + 2);
    if (!formed(&r, image, size)) return 0;
    r.links = image + BLOCK * (1 + order_blocks(n));
    return listed(&r) && placed(&r, image) && numbered(&r) && all_zeros(image + size, place + MARK_PLACE);
}

static unsigned marks_refusal(const struct lent *t, const uint8_t *name, size_t length, const uint8_t *store, size_t room, struct spot *s) {
    struct found f;
    unsigned number = refusal(t, room == MARK_STORE, &f);
    if (number) return number;
    if (length != MARK_NAME || !is_name(name)) return 17;
    const uint8_t *place = store, *end = store + MARK_STORE;
    s->rank = s->there = 0;
    for (; place < end && *place; place += MARK_PLACE) {
        int order = memcmp(place, name, MARK_NAME);
        if (!is_mark(place, t->n) || (place > store && memcmp(place - MARK_PLACE, place, MARK_NAME) >= 0)) return 17;
        s->rank += order < 0, s->there |= !order;
    }
    s->used = (place - store) / MARK_PLACE;
    return all_zeros(place, end) ? 0 : 17;
}

static unsigned c_mark_set(const struct lent *t, const uint8_t *name, size_t length, uint8_t *store, size_t room) {
    struct spot s;
    unsigned number = marks_refusal(t, name, length, store, room, &s);
    if (number) return number;
    if (!s.there && s.used == MARKS) return 19;
    uint8_t *place = store + MARK_PLACE * s.rank, *image = place + MARK_NAME;
    size_t before = s.there ? size_in(place, t->n) : MARK_PLACE - MARK_NAME;
    if (!s.there) memmove(place + MARK_PLACE, place, MARK_PLACE * (s.used - s.rank));
    memcpy(place, name, MARK_NAME);
    size_t now = c_image_write(t, image, MARK_PLACE - MARK_NAME).value;
    if (now < before) memset(image + now, 0, before - now);
    return 0;
}

static unsigned c_mark_remove(const struct lent *t, const uint8_t *name, size_t length, uint8_t *store, size_t room) {
    struct spot s;
    unsigned number = marks_refusal(t, name, length, store, room, &s);
    if (number) return number;
    if (!s.there) return 18;
    uint8_t *place = store + MARK_PLACE * s.rank;
    memmove(place, place + MARK_PLACE, MARK_PLACE * (s.used - s.rank - 1));
    memset(store + MARK_PLACE * (s.used - 1), 0, MARK_PLACE);
    return 0;
}

static unsigned c_mark_return(const struct lent *t, const uint8_t *name, size_t length, const uint8_t *store, size_t room) {
    struct spot s;
    unsigned number = marks_refusal(t, name, length, store, room, &s);
    if (number) return number;
    if (!s.there) return 18;
    const uint8_t *place = store + MARK_PLACE * s.rank;
    return c_image_read(t, place + MARK_NAME, size_in(place, t->n));
}
#endif

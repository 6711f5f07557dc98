/* Named marks in C: question 17 place by place, then one place moved, written or read. */
#ifndef MARKS_H
#define MARKS_H
#include "image.h"

static int c_zeros(const uint8_t *p, const uint8_t *end) {
    unsigned joined = 0;
    if (p < end && *p) return 0;
    for (; p < end; p++) joined |= *p;
    return !joined;
}

static int c_sign(uint8_t c) { return (c >= 'A' && c <= 'Z') || (c >= '0' && c <= '9'); }

static int c_is_name(const uint8_t *name, size_t length) {
    unsigned i = 0;
    if (length != MARK_NAME || !c_sign(name[0])) return 0;
    while (i < MARK_NAME && c_sign(name[i])) i++;
    while (i < MARK_NAME && name[i] == ' ') i++;
    return i == MARK_NAME;
}

/* How many bytes the image of a place says it has. */
static size_t c_size_in(const uint8_t *place, uint32_t n) {
    return (size_t)BLOCK * (1 + (n + ENTRIES - 1) / ENTRIES + (word_at(place + MARK_NAME + 6) + LINKS - 1) / LINKS);
}

static int c_is_mark(const uint8_t *place, uint32_t n) {
    uint16_t order[RADIOS], numbers[RADIOS];
    const uint8_t *image = place + MARK_NAME;
    size_t size = c_size_in(place, n);
    return c_is_name(place, MARK_NAME) && MARK_NAME + size <= MARK_PLACE && !c_image_checks(image, size)
           && c_is_image(image, size, n, order, numbers) && c_zeros(image + size, place + MARK_PLACE);
}

static unsigned c_used(const uint8_t *store) {
    unsigned k = 0;
    while (k < MARKS && !c_zeros(store + MARK_PLACE * k, store + MARK_PLACE * (k + 1))) k++;
    return k;
}

/* Questions 1, 2, 3 and 17. */
static unsigned c_marks_refusal(const struct lent *t, const uint8_t *name, size_t length, const uint8_t *store, size_t room) {
    unsigned number = c_refusal(t, room == MARK_STORE);
    if (number) return number;
    unsigned k = c_used(store);
    for (unsigned i = 0; i < k; i++) {
        const uint8_t *place = store + MARK_PLACE * i;
        if (!c_is_mark(place, t->n) || (i && memcmp(place - MARK_PLACE, place, MARK_NAME) >= 0)) return 17;
    }
    return c_zeros(store + MARK_PLACE * k, store + MARK_STORE) && c_is_name(name, length) ? 0 : 17;
}

/* Where the name stands or is to stand; whether it is there. */
static unsigned c_rank(const uint8_t *store, unsigned k, const uint8_t *name, int *there) {
    unsigned i = 0;
    while (i < k && memcmp(store + MARK_PLACE * i, name, MARK_NAME) < 0) i++;
    *there = i < k && !memcmp(store + MARK_PLACE * i, name, MARK_NAME);
    return i;
}

static unsigned c_mark_set(const struct lent *t, const uint8_t *name, size_t length, uint8_t *store, size_t room) {
    int there;
    unsigned number = c_marks_refusal(t, name, length, store, room);
    if (number) return number;
    unsigned k = c_used(store), i = c_rank(store, k, name, &there);
    if (!there && k == MARKS) return 19;
    uint8_t *place = store + MARK_PLACE * i;
    if (!there) memmove(place + MARK_PLACE, place, MARK_PLACE * (k - i));
    memset(place, 0, MARK_PLACE);
    memcpy(place, name, MARK_NAME);
    c_image_write(t, place + MARK_NAME, MARK_PLACE - MARK_NAME);
    return 0;
}

static unsigned c_mark_remove(const struct lent *t, const uint8_t *name, size_t length, uint8_t *store, size_t room) {
    int there;
    unsigned number = c_marks_refusal(t, name, length, store, room);
    if (number) return number;
    unsigned k = c_used(store), i = c_rank(store, k, name, &there);
    if (!there) return 18;
    uint8_t *place = store + MARK_PLACE * i;
    memmove(place, place + MARK_PLACE, MARK_PLACE * (k - i - 1));
    memset(store + MARK_PLACE * (k - 1), 0, MARK_PLACE);
    return 0;
}

static unsigned c_mark_return(const struct lent *t, const uint8_t *name, size_t length, const uint8_t *store, size_t room) {
    int there;
    unsigned number = c_marks_refusal(t, name, length, store, room);
    if (number) return number;
    unsigned k = c_used(store), i = c_rank(store, k, name, &there);
    if (!there) return 18;
    const uint8_t *place = store + MARK_PLACE * i;
    return c_image_read(t, place + MARK_NAME, c_size_in(place, t->n));
}
#endif

/*
 * The loops of a program, and the program itself under the name PROGRAM. Stands last in the file that has the calls, so that a
 * compiler may put a call into its loop.
 */
#ifndef LOOPS_H
#define LOOPS_H
#include "program.h"

static volatile unsigned sink; /* what a call answers is used */

#define LOOP(name, value)                                                                         \
    static void run_##name(const struct work *w) {                                                \
        for (const struct entry *e = w->entries; e < w->entries + w->count; e++) sink += (value); \
    }
#define S &e->site
#define N e->site.n
#define A e->ends.a
#define B e->ends.b
#define FIRST_MARK (const uint8_t *)"M0      "
#define LAST_MARK (const uint8_t *)"M7      "

/* The calls below are statements of their own: C leaves open in which order the terms of a sum are worked out. */
static inline unsigned down_and_up(const struct lent *t, struct ends e, uint16_t *answer) {
    unsigned changed = c_link(0, t, e.a, e.b, answer, t->n).count;
    changed += c_link(1, t, e.a, e.b, answer, t->n).count;
    return changed;
}

/* A link that is down taken up, and the tables put back: two bits, numbers and order. */
static inline unsigned new_link(const struct lent *t, struct ends e, uint16_t *answer) {
    uint8_t numbers[RADIOS];
    uint16_t order[RADIOS];
    memcpy(numbers, t->numbers, t->n), memcpy(order, t->order, 2 * t->n);
    unsigned changed = c_link(1, t, e.a, e.b, answer, t->n).count;
    memcpy(t->numbers, numbers, t->n), memcpy(t->order, order, 2 * t->n);
    put_bit(t->links, 0, e.a, e.b), put_bit(t->links, 0, e.b, e.a);
    return changed;
}

/* A link call in two steps. Asking changes nothing, so it is timed beside the single calls. */
static inline unsigned ask_and_link(const struct lent *t, struct ends e, uint16_t *answer) {
    unsigned changed = 0;
    for (int up = 0; up < 2; up++) {
        changed += c_ask(up, t, e.a, e.b, answer, t->n).count;
        changed += c_link(up, t, e.a, e.b, answer, t->n).count;
    }
    return changed;
}

static inline unsigned ask_and_commit(const struct lent *t, struct ends e, uint16_t *answer) {
    unsigned changed = 0;
    for (int up = 0; up < 2; up++) {
        struct c_reply r = c_ask(up, t, e.a, e.b, answer, t->n);
        changed += c_commit(up, t, e.a, e.b, r.step, answer, r.count).count;
    }
    return changed;
}

/* Up to 100 links of the site, taken up in one batch on cleared tables. */
static inline unsigned clear_and_batch(const struct entry *e) {
    c_clear(&e->other);
    return c_link_batch(&e->other, &e->batch->a, 2 * e->batch_count).value;
}

/* Up to 100 links of the site are not heard, and then heard again. */
static inline unsigned hear_twice(const struct entry *e, uint8_t *further) {
    size_t bytes = ROW * e->site.n;
    unsigned alone = c_hear(&e->site, e->heard[0], bytes, further, bytes).value;
    return alone + c_hear(&e->site, e->heard[1], bytes, further, bytes).value;
}

/* The image into the same tables, for one radio less. */
static inline unsigned read_smaller(const struct entry *e) {
    struct lent t = {N - 1, e->other.links, ROW * (N - 1), e->other.numbers, N - 1, e->other.order, N - 1};
    return c_image_read(&t, e->image, e->image_length);
}

/* The first of eight marks out and in again: every other place moves twice. */
static inline unsigned remove_and_set(const struct lent *t, uint8_t *store) {
    unsigned number = c_mark_remove(t, FIRST_MARK, MARK_NAME, store, MARK_STORE);
    return number + c_mark_set(t, FIRST_MARK, MARK_NAME, store, MARK_STORE);
}

LOOP(clear, c_clear(&e->other))
LOOP(check, c_check(S).value)
LOOP(number, c_number(S, B).value)
LOOP(neighbours, c_neighbours(S, B).value)
LOOP(linked, c_linked(S, A, B).value)
LOOP(first, c_first(S, A, B).value)
LOOP(later_of, c_later_of(S, B).first)
LOOP(link, down_and_up(S, e->ends, w->answer))
LOOP(asked, ask_and_link(S, e->ends, w->answer))
LOOP(committed, ask_and_commit(S, e->ends, w->answer))
LOOP(batch, clear_and_batch(e))
LOOP(hear, hear_twice(e, w->buffer))
LOOP(core, c_core(S, A, 1, w->answer, N).value)
LOOP(backbone, c_backbone(S, w->answer, N).value)
LOOP(tree, c_tree(S, w->nodes, N + 1, w->answer, N).value)
LOOP(sheet, c_sheet(S, w->buffer, w->room).value)
LOOP(script_length, c_script_length(S).value)
LOOP(script_write, c_script_write(S, w->buffer, w->room).value)
LOOP(staircase, c_staircase(S, w->answer, 2 * N).value)
LOOP(image_write, c_image_write(S, w->buffer, w->room).value)
LOOP(image_read, c_image_read(&e->other, e->image, e->image_length))
LOOP(image_other, read_smaller(e))
LOOP(image_block, c_image_block(e->image, e->image_length, 0).next)
LOOP(new, new_link(S, e->apart, w->answer))
LOOP(mark_set, c_mark_set(S, LAST_MARK, MARK_NAME, w->store, MARK_STORE))
LOOP(mark_moved, remove_and_set(S, w->store))
LOOP(mark_return, c_mark_return(&e->other, LAST_MARK, MARK_NAME, w->store, MARK_STORE))

/* Each of the links down and up again. */
static void run_changes(const struct lent *t, const struct ends *list, unsigned count, uint16_t *answer) {
    for (unsigned i = 0; i < count; i++) sink += down_and_up(t, list[i], answer);
}

static void (*const loops[CALLS])(const struct work *) = {
    run_clear, run_check, run_number, run_neighbours, run_linked, run_first, run_later_of, run_link, run_asked, run_committed, run_batch,
    run_hear, run_core, run_backbone, run_tree, run_sheet, run_script_length, run_script_write, run_staircase, run_image_write, run_image_read,
    run_image_other, run_image_block, run_new, run_mark_set, run_mark_moved, run_mark_return,
};

#define TEXT(x) #x
#define NAME(x) TEXT(x)
extern const struct program PROGRAM;
const struct program PROGRAM = {
    NAME(PROGRAM), c_has, loops, run_changes, c_clear, c_check, c_number, c_neighbours, c_linked, c_first, c_later_of, c_link, c_ask, c_commit,
    c_link_batch, c_hear, c_core, c_backbone, c_tree, c_sheet, c_script_length, c_script_write, c_staircase, c_image_write, c_image_read, c_image_block,
    c_mark_set, c_mark_remove, c_mark_return,
};
#endif

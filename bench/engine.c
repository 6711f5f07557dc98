/* The engine as a program: its exported calls, handed on. */
#include "../include/summerbugle.h"
#include "program.h"

/* An older archive lacks the newer calls: these are then nowhere, and left out. */
#pragma weak sb_ask_up
#pragma weak sb_ask_down
#pragma weak sb_commit_up
#pragma weak sb_commit_down
#pragma weak sb_script_length
#pragma weak sb_script_write
#pragma weak sb_link_batch
#pragma weak sb_hear
#pragma weak sb_sheet
#pragma weak sb_staircase
#pragma weak sb_mark_set
#pragma weak sb_mark_remove
#pragma weak sb_mark_return

static int c_has(enum timed call) {
    if (call == BATCHED) return sb_link_batch != 0;
    if (call == HEARD) return sb_hear != 0;
    if (call == SHEET) return sb_sheet != 0;
    if (call == SCRIPT_LENGTH || call == SCRIPT_WRITE) return sb_script_length && sb_script_write;
    if (call == STAIRCASE) return sb_staircase != 0;
    if (call == MARK_SET || call == MARK_MOVED || call == MARK_RETURN) return sb_mark_set && sb_mark_remove && sb_mark_return;
    if (call == ASKED || call == COMMITTED) return sb_ask_up && sb_ask_down && sb_commit_up && sb_commit_down;
    return 1;
}

#define OF(t) (t)->links, (t)->links_len, (t)->numbers, (t)->numbers_len, (t)->order, (t)->order_len

static inline struct c_value value(sb_value r) { return (struct c_value){r.number, r.value}; }
static inline struct c_reply reply(sb_reply r) { return (struct c_reply){r.number, r.step, r.count}; }

static unsigned c_clear(const struct lent *t) { return sb_clear(t->n, OF(t)); }
static struct c_value c_check(const struct lent *t) { return value(sb_check(t->n, OF(t))); }
static struct c_value c_number(const struct lent *t, uint32_t v) { return value(sb_number(t->n, v, OF(t))); }
static struct c_value c_neighbours(const struct lent *t, uint32_t v) { return value(sb_neighbours(t->n, v, OF(t))); }
static struct c_value c_linked(const struct lent *t, uint32_t a, uint32_t b) { return value(sb_linked(t->n, a, b, OF(t))); }
static struct c_value c_first(const struct lent *t, uint32_t a, uint32_t b) { return value(sb_first(t->n, a, b, OF(t))); }

static struct c_later c_later_of(const struct lent *t, uint32_t v) {
    sb_later r = sb_later_of(t->n, v, OF(t));
    return (struct c_later){r.number, r.count, r.first};
}

static struct c_reply c_link(int up, const struct lent *t, uint32_t a, uint32_t b, uint16_t *answer, size_t room) {
    return reply(up ? sb_link_up(t->n, a, b, OF(t), answer, room) : sb_link_down(t->n, a, b, OF(t), answer, room));
}

static struct c_reply c_ask(int up, const struct lent *t, uint32_t a, uint32_t b, uint16_t *answer, size_t room) {
    return reply(up ? sb_ask_up(t->n, a, b, OF(t), answer, room) : sb_ask_down(t->n, a, b, OF(t), answer, room));
}

static struct c_reply c_commit(int up, const struct lent *t, uint32_t a, uint32_t b, int step, const uint16_t *list, size_t count) {
    return reply(up ? sb_commit_up(t->n, a, b, step, OF(t), list, count) : sb_commit_down(t->n, a, b, step, OF(t), list, count));
}

static struct c_value c_link_batch(const struct lent *t, const uint16_t *list, size_t count) {
    return value(sb_link_batch(t->n, OF(t), list, count));
}

static struct c_value c_hear(const struct lent *t, const uint8_t *heard, size_t heard_len, uint8_t *further, size_t further_len) {
    return value(sb_hear(t->n, OF(t), heard, heard_len, further, further_len));
}

static struct c_value c_core(const struct lent *t, uint32_t v, uint32_t k, uint16_t *answer, size_t room) {
    return value(sb_core(t->n, v, k, OF(t), answer, room));
}

static struct c_value c_backbone(const struct lent *t, uint16_t *answer, size_t room) { return value(sb_backbone(t->n, OF(t), answer, room)); }

/* A node has the same layout by both names. */
static struct c_value c_tree(const struct lent *t, struct c_node *nodes, size_t places, uint16_t *answer, size_t room) {
    return value(sb_tree(t->n, OF(t), (sb_node *)nodes, places, answer, room));
}

static struct c_value c_sheet(const struct lent *t, uint8_t *page, size_t room) { return value(sb_sheet(t->n, OF(t), page, room)); }
static struct c_value c_script_length(const struct lent *t) { return value(sb_script_length(t->n, OF(t))); }

static struct c_value c_script_write(const struct lent *t, uint8_t *text, size_t room) {
    return value(sb_script_write(t->n, OF(t), text, room));
}

static struct c_value c_staircase(const struct lent *t, uint16_t *table, size_t room) { return value(sb_staircase(t->n, OF(t), table, room)); }

static struct c_value c_image_write(const struct lent *t, uint8_t *buffer, size_t room) {
    return value(sb_image_write(t->n, OF(t), buffer, room));
}

static unsigned c_image_read(const struct lent *t, const uint8_t *image, size_t length) { return sb_image_read(t->n, OF(t), image, length); }

static struct c_block c_image_block(const uint8_t *image, size_t length, size_t next) {
    sb_block r = sb_image_block(image, length, next);
    return (struct c_block){r.number, r.end, r.offset, r.length, r.next};
}

static unsigned c_mark_set(const struct lent *t, const uint8_t *name, size_t length, uint8_t *store, size_t room) {
    return sb_mark_set(t->n, OF(t), name, length, store, room);
}

static unsigned c_mark_remove(const struct lent *t, const uint8_t *name, size_t length, uint8_t *store, size_t room) {
    return sb_mark_remove(t->n, OF(t), name, length, store, room);
}

static unsigned c_mark_return(const struct lent *t, const uint8_t *name, size_t length, const uint8_t *store, size_t room) {
    return sb_mark_return(t->n, OF(t), name, length, store, room);
}

#include "loops.h"

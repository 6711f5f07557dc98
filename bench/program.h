/*
 * What each program that is timed has: every call over the same tables with the same answers, and for every row of the report a
 * loop that makes the call on each site of a set in turn. The engine is one program; C of two kinds, each by the compilers that
 * are installed, are the others.
 */
#ifndef PROGRAM_H
#define PROGRAM_H
#include "rows.h"

#define NOWHERE 65535
#define ROOT 65535

/* The image: bytes of a block, where its check stands, where its content starts, order entries and links of a block. */
#define BLOCK 512
#define BODY 508
#define HEAD 4
#define ENTRIES 252
#define LINKS 126
#define MOST_BLOCKS 86

#define MOST_BATCH 100 /* links of a batch that is timed */
#define PAGE_LINE 65 /* bytes of a line of the site sheet */
#define MOST_SCRIPT 112651 /* bytes of the longest script */

/* The store of named marks: places, bytes of a name, of a place and of the store. */
#define MARKS 8
#define MARK_NAME 8
#define MARK_PLACE (MARK_NAME + MOST_BLOCKS * BLOCK)
#define MARK_STORE (MARKS * MARK_PLACE)

/* The tables that a call is lent, with their lengths. */
struct lent {
    uint32_t n;
    uint8_t *links;
    size_t links_len;
    uint8_t *numbers;
    size_t numbers_len;
    uint16_t *order;
    size_t order_len;
};

struct c_value {
    unsigned number, value;
};

struct c_reply {
    unsigned number;
    int step;
    unsigned count;
};

struct c_later {
    unsigned number, count, first;
};

struct c_pair {
    unsigned number, low, high;
};

struct c_node {
    uint16_t name, level, parent;
};

struct c_block {
    unsigned number, end;
    size_t offset, length, next;
};

struct ends {
    uint16_t a, b;
};

/* A site, another that is written over, a link of the site, two radios that are not linked, links of it for a batch, heard tables of the site
 * without these links and with them, and an image of it. */
struct entry {
    struct lent site, other;
    struct ends ends, apart;
    struct ends *batch;
    unsigned batch_count;
    uint8_t *heard[2];
    uint8_t *image;
    size_t image_length;
};

/* The sites of a run, and what is lent for answers. */
struct work {
    struct entry *entries;
    unsigned count;
    uint16_t *answer;
    struct c_node *nodes;
    uint8_t *buffer;
    size_t room;
    uint8_t *store; /* full: the marks M0 to M7 */
};

/* The calls that are timed. LINK is a link down and up again, ASKED and COMMITTED are the same in two steps, NEW is a new link up. BATCHED
 * clears a site first. HEARD is two hearings: links of the site go down, and come up again. MARK_SET replaces a mark of a full store,
 * MARK_MOVED removes the first of eight and sets it again. */
enum timed {
    CLEAR, CHECK, NUMBER, DEGREE, LINKED, FIRST, LATER_OF, LINK, ASKED, COMMITTED, BATCHED, HEARD, CORE, BACKBONE, TREE, SHEET,
    SCRIPT_LENGTH, SCRIPT_WRITE, STAIRCASE, IMAGE_WRITE, IMAGE_READ, IMAGE_OTHER, IMAGE_BLOCK, NEW, MARK_SET, MARK_MOVED, MARK_RETURN,
    CALLS
};

/* A program that has no answer for a call leaves it out: an older engine, or one that only makes changes. */
struct program {
    const char *name;
    int (*has)(enum timed);
    void (*const *runs)(const struct work *);
    void (*changes)(const struct lent *, const struct ends *, unsigned count, uint16_t *answer);
    unsigned (*clear)(const struct lent *);
    struct c_value (*check)(const struct lent *);
    struct c_value (*number)(const struct lent *, uint32_t v);
    struct c_value (*neighbours)(const struct lent *, uint32_t v);
    struct c_value (*linked)(const struct lent *, uint32_t a, uint32_t b);
    struct c_value (*first)(const struct lent *, uint32_t a, uint32_t b);
    struct c_later (*later_of)(const struct lent *, uint32_t v);
    struct c_reply (*link)(int up, const struct lent *, uint32_t a, uint32_t b, uint16_t *answer, size_t room);
    struct c_reply (*ask)(int up, const struct lent *, uint32_t a, uint32_t b, uint16_t *answer, size_t room);
    struct c_reply (*commit)(int up, const struct lent *, uint32_t a, uint32_t b, int step, const uint16_t *list, size_t count);
    struct c_value (*link_batch)(const struct lent *, const uint16_t *list, size_t count);
    struct c_value (*hear)(const struct lent *, const uint8_t *heard, size_t heard_len, uint8_t *further, size_t further_len);
    struct c_value (*core)(const struct lent *, uint32_t v, uint32_t k, uint16_t *answer, size_t room);
    struct c_value (*backbone)(const struct lent *, uint16_t *answer, size_t room);
    struct c_value (*tree)(const struct lent *, struct c_node *nodes, size_t places, uint16_t *answer, size_t room);
    struct c_value (*sheet)(const struct lent *, uint8_t *page, size_t room);
    struct c_value (*script_length)(const struct lent *);
    struct c_value (*script_write)(const struct lent *, uint8_t *text, size_t room);
    struct c_value (*staircase)(const struct lent *, uint16_t *table, size_t room);
    struct c_value (*image_write)(const struct lent *, uint8_t *buffer, size_t room);
    unsigned (*image_read)(const struct lent *, const uint8_t *image, size_t length);
    struct c_block (*image_block)(const uint8_t *image, size_t length, size_t next);
    unsigned (*mark_set)(const struct lent *, const uint8_t *name, size_t length, uint8_t *store, size_t room);
    unsigned (*mark_remove)(const struct lent *, const uint8_t *name, size_t length, uint8_t *store, size_t room);
    unsigned (*mark_return)(const struct lent *, const uint8_t *name, size_t length, const uint8_t *store, size_t room);
};
#endif

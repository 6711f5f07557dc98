/* The sites of a run: at each size as many as have so many radios together (sites.h), their tables without gaps. */
#ifndef WORK_H
#define WORK_H
#include "sites.h"

#define TOGETHER 512  /* radios of all sites of a run: small sites and large ones leave the processor as much to learn */
#define IN_TURN 16384 /* where they are taken in turn: more than it learns */

static struct entry entries[IN_TURN / 16];
static uint16_t answer[2 * RADIOS];
static struct c_node nodes[RADIOS + 1];
static uint8_t buffer[MOST_SCRIPT]; /* an image is shorter */
static uint8_t store[MARK_STORE];
static struct work work = {entries, 0, answer, nodes, buffer, sizeof buffer, store};

/* Room for the entries' tables and images. */
static uint8_t room[IN_TURN * (4 * ROW + 2 * (1 + 2) + 4 * NEIGHBOURS / 2) + IN_TURN / 16 * (8 * BLOCK + 4 * MOST_BATCH)], *next;

static void *take(const void *from, size_t length) {
    void *to = memcpy(next, from, length);
    next += (length + 7) / 8 * 8;
    return to;
}

static struct lent take_site(const struct site *s) {
    uint8_t *links = take(s->links, ROW * s->n), *numbers = take(s->numbers, s->n);
    return (struct lent){s->n, links, ROW * s->n, numbers, s->n, take(s->order, 2 * s->n), s->n};
}

/* Eight marks of the sites in turn. */
static void use_store(const struct program *p) {
    static uint8_t name[] = "M0      ";
    memset(store, 0, sizeof store);
    if (!p->has(MARK_SET)) return;
    for (unsigned i = 0; i < MARKS; i++) name[1] = '0' + i, p->mark_set(&entries[i % work.count].site, name, MARK_NAME, store, sizeof store);
}

/* The images are what the program writes. */
static void use_sites(const struct program *p, uint32_t n, enum kind kind) {
    static struct site s;
    work.count = (kind < ALONE ? TOGETHER : IN_TURN) / n, next = room;
    for (struct entry *e = entries; e < entries + work.count; e++) {
        make_site(&s, n, kind, e - entries);
        e->site = take_site(&s), e->other = take_site(&s);
        some_links(&s, &e->ends, 1);
        struct ends batch[MOST_BATCH];
        e->batch_count = some_links(&s, batch, MOST_BATCH);
        e->batch = take(batch, sizeof batch);
        e->heard[0] = take(s.links, ROW * n), e->heard[1] = take(s.links, ROW * n);
        for (unsigned i = 0; i < e->batch_count; i++)
            put_bit(e->heard[0], 0, batch[i].a, batch[i].b), put_bit(e->heard[0], 0, batch[i].b, batch[i].a);
        e->apart = some_pair(&s);
        e->image_length = p->image_write(&e->site, buffer, sizeof buffer).value;
        e->image = take(buffer, e->image_length);
    }
    use_store(p);
}
#endif

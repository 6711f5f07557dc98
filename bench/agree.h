/* The engine and another program on the same input must answer the same and leave the same bytes, refusals too. */
#ifndef AGREE_H
#define AGREE_H
#include "work.h"

static const struct program *one, *two;
static const struct entry *e;
static uint32_t n;
static uint16_t x[2 * RADIOS + 1], y[2 * RADIOS + 1];
static struct site t_site, u_site;
static struct lent t, u;

static struct lent lent_by(struct site *t) { return (struct lent){t->n, t->links, ROW * t->n, t->numbers, t->n, t->order, t->n}; }

static int same(struct c_value r, struct c_value q) { return r.number == q.number && r.value == q.value; }
static int same_reply(struct c_reply r, struct c_reply q) { return r.number == q.number && r.step == q.step && r.count == q.count; }

/* Copies of the entry's site, and answer tables of the same content. */
static void start(void) {
    memcpy(t_site.links, e->site.links, ROW * n);
    memcpy(t_site.numbers, e->site.numbers, n);
    memcpy(t_site.order, e->site.order, 2 * n);
    t_site.n = n, u_site = t_site;
    t = lent_by(&t_site), u = lent_by(&u_site);
    for (unsigned i = 0; i <= 2 * RADIOS; i++) x[i] = y[i] = 40000 + i;
}

/* The second site is the first as it is now. */
static void start_again(void) {
    u_site = t_site;
    memcpy(y, x, sizeof y);
}

static int same_tables(void) { return !memcmp(&t_site, &u_site, sizeof t_site) && !memcmp(x, y, sizeof x); }

/* Mostly a link that is not there goes up and one that is there goes down; some calls are refused. */
static int goes_up(unsigned a, unsigned b) { return a == n || b == n || a == b || rand() % 20 == 0 || !marked(t.links, a, b); }

/* A link history, with ends at n and equal ends. */
static int agree_links(void) {
    start();
    for (unsigned i = 0; i < 400; i++) {
        unsigned a = rand() % (n + 1), b = rand() % (n + 1);
        int up = goes_up(a, b);
        if (!same_reply(one->link(up, &t, a, b, x, n), two->link(up, &u, a, b, y, n)) || !same_tables()) return 0;
    }
    return 1;
}

/* The same in two steps: true proposals, and ones with a wrong step, entry or length. */
static int agree_proposals(void) {
    start();
    for (unsigned i = 0; i < 400; i++) {
        unsigned a = rand() % (n + 1), b = rand() % (n + 1);
        int up = goes_up(a, b);
        struct c_reply r = one->ask(up, &t, a, b, x, n);
        if (!same_reply(r, two->ask(up, &u, a, b, y, n)) || !same_tables()) return 0;
        if (i % 4 == 1) r.step++;
        if (i % 4 == 2) x[r.count / 2] ^= 1, y[r.count / 2] ^= 1;
        if (i % 4 == 3) r.count++;
        struct c_reply p = one->commit(up, &t, a, b, r.step, x, r.count), q = two->commit(up, &u, a, b, r.step, y, r.count);
        if (!same_reply(p, q) || !same_tables()) return 0;
    }
    return 1;
}

/* Batches of some links: the last one may be refused, and the list may be odd. */
static int agree_batches(void) {
    uint16_t list[24];
    start();
    for (unsigned i = 0; i < 100; i++) {
        unsigned count = rand() % 24;
        for (unsigned j = 0; j < count; j++) list[j] = rand() % (n + j / 16);
        struct c_value p = one->link_batch(&t, list, count), q = two->link_batch(&u, list, count);
        if (p.number != q.number || p.value != q.value || !same_tables()) return 0;
    }
    return 1;
}

/* Heard tables: what is linked with some bits changed, of one end or of both, at times a radio's own or one at n; much that is heard by
 * all; other lengths. */
static int agree_heard(void) {
    static uint8_t heard[ROW * RADIOS + 1], p[ROW * RADIOS + 1], q[ROW * RADIOS + 1];
    start();
    for (unsigned i = 0; i < 40; i++) {
        memcpy(heard, t.links, ROW * n), memset(p, 77, sizeof p), memset(q, 77, sizeof q);
        for (unsigned j = 0; j < n; j++) {
            unsigned a = rand() % n, b = rand() % n, one_end = rand() % 3 == 0;
            if (a == b || (i % 8 == 7 && j > 50)) continue;
            heard[ROW * a + b / 8] ^= 1 << b % 8;
            if (!one_end) heard[ROW * b + a / 8] ^= 1 << a % 8;
        }
        if (i % 10 == 3) put_bit(heard, 1, i % n, i % n);
        if (i % 10 == 5 && n < RADIOS) put_bit(heard, 1, i % n, n + rand() % (RADIOS - n));
        if (i % 10 == 7)
            for (unsigned a = 0; a < n; a++) put_bit(heard, a != i % n, a, i % n), put_bit(heard, a != i % n, i % n, a);
        size_t h = ROW * n + (i % 20 == 18), f = ROW * n - (i % 20 == 19);
        if (!same(one->hear(&t, heard, h, p, f), two->hear(&u, heard, h, q, f)) || memcmp(p, q, sizeof p) || !same_tables()) return 0;
    }
    return 1;
}

/* A changed byte of the tables: a bit of a row, at times a radio's own, a number, an entry of the order. */
static void damage(unsigned i) {
    unsigned at = rand() % n;
    if (i % 3 == 0) t.links[rand() % (ROW * n)] ^= 1 << rand() % 8;
    if (i % 30 == 0) put_bit(t.links, 1, at, at);
    if (i % 3 == 1) t.numbers[at] += rand() % 2 ? 1 : -1;
    if (i % 3 == 2) t.order[at] = rand() % (n + 1);
}

/* The check and the refusal of a question, on damaged tables; clearing. */
static int agree_damaged(void) {
    for (unsigned i = 0; i < 200; i++) {
        start();
        damage(i);
        u_site = t_site;
        if (!same(one->check(&t), two->check(&u)) || !same(one->backbone(&t, x, n), two->backbone(&u, y, n))) return 0;
        if (!same_tables()) return 0;
    }
    return one->clear(&t) == two->clear(&u) && same_tables();
}

/* Two radios swap their numbers and places, or a link of both rows goes to another radio: each table alone is well formed. */
static void damage_more(unsigned i) {
    unsigned p = rand() % n, q = i % 2 ? rand() % n : (p + 1) % n, a = rand() % n, b = rand() % n;
    uint16_t v = t.order[p];
    if (i % 3) t.order[p] = t.order[q], t.order[q] = v;
    if (i % 3 == 2) {
        uint8_t number = t.numbers[v];
        t.numbers[v] = t.numbers[t.order[p]], t.numbers[t.order[p]] = number;
    }
    if (i % 3 == 0 && a != b) {
        int on = !marked(t.links, a, b);
        put_bit(t.links, on, a, b), put_bit(t.links, on, b, a);
    }
}

static int agree_damaged_more(void) {
    for (unsigned i = 0; i < 200; i++) {
        start();
        damage_more(i);
        u_site = t_site;
        if (!same(one->check(&t), two->check(&u)) || !same_tables()) return 0;
    }
    return 1;
}

static int agree_questions(void) {
    for (unsigned i = 0; i < 200; i++) {
        start();
        unsigned a = rand() % (n + 1), b = rand() % (n + 1), k = rand() % (e->site.numbers[a % n] + 2);
        if (!same(one->number(&t, a), two->number(&u, a)) || !same(one->neighbours(&t, a), two->neighbours(&u, a))) return 0;
        if (!same(one->linked(&t, a, b), two->linked(&u, a, b)) || !same(one->first(&t, a, b), two->first(&u, a, b))) return 0;
        struct c_later l = one->later_of(&t, a), m = two->later_of(&u, a);
        if (l.number != m.number || l.count != m.count || l.first != m.first) return 0;
        if (!same(one->core(&t, a, k, x, n), two->core(&u, a, k, y, n)) || !same_tables()) return 0;
        if (!same(one->backbone(&t, x, n - i % 2), two->backbone(&u, y, n - i % 2)) || !same_tables()) return 0;
    }
    return 1;
}

/* Places for nodes: one too few, just enough, more; and on sites that some link calls have changed. */
static int agree_tree(void) {
    static struct c_node p[RADIOS + 3], q[RADIOS + 3];
    for (unsigned i = 0; i < 30; i++) {
        start();
        for (unsigned k = 0; k < i; k++) two->link(rand() % 3 != 0, &t, rand() % n, rand() % n, x, n);
        start_again();
        memset(p, 77, sizeof p), memset(q, 77, sizeof q);
        if (!same(one->tree(&t, p, n + i % 3, x, n), two->tree(&u, q, n + i % 3, y, n))) return 0;
        if (memcmp(p, q, sizeof p) || !same_tables()) return 0;
    }
    return 1;
}

/* Pages: one byte too short, just right, longer. */
static int agree_sheet(void) {
    static uint8_t p[PAGE_LINE * RADIOS / 8 + 2], q[sizeof p];
    start();
    for (unsigned more = 0; more < 3; more++) {
        memset(p, 77, sizeof p), memset(q, 77, sizeof q);
        size_t length = PAGE_LINE * ((n + 7) / 8) - 1 + more;
        if (!same(one->sheet(&t, p, length), two->sheet(&u, q, length)) || memcmp(p, q, sizeof p)) return 0;
    }
    return 1;
}

/* Text buffers: one byte too short, just right, longer. */
static int agree_script(void) {
    static uint8_t p[MOST_SCRIPT + 1], q[sizeof p];
    start();
    struct c_value size = one->script_length(&t);
    if (!same(size, two->script_length(&u))) return 0;
    for (unsigned more = 0; more < 3; more++) {
        memset(p, 77, sizeof p), memset(q, 77, sizeof q);
        size_t length = size.value - 1 + more;
        if (!same(one->script_write(&t, p, length), two->script_write(&u, q, length)) || memcmp(p, q, sizeof p)) return 0;
    }
    return 1;
}

/* Tables: one entry too few, just enough, more; and on sites that some link calls have changed. */
static int agree_staircase(void) {
    for (unsigned i = 0; i < 30; i++) {
        size_t length = 2 * n - 1 + i % 3;
        start();
        for (unsigned k = 0; k < i; k++) two->link(rand() % 3 != 0, &t, rand() % n, rand() % n, x, n);
        start_again();
        if (!same(one->staircase(&t, x, length), two->staircase(&u, y, length)) || !same_tables()) return 0;
    }
    return 1;
}

/* Blocks: each, the end, far past it; of an image with a changed byte too. */
static int agree_blocks(uint8_t *image) {
    for (unsigned i = 0; i < 80; i++) {
        size_t at = i == 79 ? SIZE_MAX : i, length = e->image_length - (i % 7 == 6);
        if (i == 40) image[rand() % e->image_length] ^= 1;
        struct c_block r = one->image_block(image, length, at), b = two->image_block(image, length, at);
        if (r.number != b.number || r.end != b.end || r.offset != b.offset || r.length != b.length || r.next != b.next) return 0;
    }
    return 1;
}

/* Buffers: one byte too small, just right, larger. */
static int agree_writing(void) {
    static uint8_t p[sizeof buffer + 1], q[sizeof buffer + 1];
    start();
    for (unsigned more = 0; more < 3; more++) {
        memset(p, 77, sizeof p), memset(q, 77, sizeof q);
        size_t length = e->image_length - 1 + more;
        if (!same(one->image_write(&t, p, length), two->image_write(&u, q, length)) || memcmp(p, q, sizeof p)) return 0;
    }
    return agree_blocks(p);
}

/* The same tables, for one radio less. */
static struct lent smaller(struct lent s) { return (struct lent){n - 1, s.links, ROW * (n - 1), s.numbers, n - 1, s.order, n - 1}; }

/* The image into the tables of one radio less. */
static int agree_smaller(const uint8_t *image, unsigned expected) {
    struct lent p = smaller(t), q = smaller(u);
    unsigned number = one->image_read(&p, image, e->image_length);
    return number == two->image_read(&q, image, e->image_length) && same_tables() && (!expected || number == expected);
}

/* Gives a block the check of its bytes. */
static void close_again(uint8_t *block) {
    uint32_t sum = 0;
    for (unsigned i = 0; i < BODY; i++) sum += block[i] * (i + 1);
    for (unsigned i = 0; i < 4; i++) block[BODY + i] = sum >> 8 * i;
}

/* The image of the site, and the same with a changed byte, whose block mostly has its check again, into cleared tables. */
static int agree_reading(void) {
    static uint8_t p[sizeof buffer];
    for (unsigned i = 0; i < 300; i++) {
        start();
        one->clear(&t), one->clear(&u);
        memcpy(p, e->image, e->image_length);
        size_t at = rand() % (i % 3 ? e->image_length : 2 * BLOCK);
        if (i && i % 2) p[at] ^= 1 << rand() % 8;
        if (i && i % 2 == 0) p[at] = rand() % n;
        if (i % 8) close_again(p + at / BLOCK * BLOCK);
        unsigned number = one->image_read(&t, p, e->image_length);
        if (number != two->image_read(&u, p, e->image_length) || !same_tables() || (i == 0 && number)) return 0;
        if (!agree_smaller(p, i ? 0 : 15)) return 0;
    }
    return 1;
}

/* Marks set, removed and come back to, by some names, good and bad, in a store that is damaged now and then. */
static int agree_marks(void) {
    static const char *const some[] = {"A       ", "B       ", "B0      ", "TOWER1  ", "TOWER1AB", "TOWER1AC", "Z       ", "0       ", "9       ", "a       ", "A B     "};
    static uint8_t p[MARK_STORE], q[MARK_STORE];
    memset(p, 0, sizeof p), memset(q, 0, sizeof q);
    start();
    for (unsigned i = 0; i < 120; i++) {
        const uint8_t *name = (const uint8_t *)some[rand() % 11];
        size_t at = rand() % sizeof p, room = sizeof p - (i % 31 == 30);
        uint8_t flip = i % 10 == 9;
        p[at] ^= flip, q[at] ^= flip;
        one->link(rand() % 3 != 0, &t, rand() % n, rand() % n, x, n);
        start_again();
        unsigned number, other;
        if (i % 4 == 2)
            number = one->mark_remove(&t, name, MARK_NAME, p, room), other = two->mark_remove(&u, name, MARK_NAME, q, room);
        else if (i % 4 == 3)
            number = one->mark_return(&t, name, MARK_NAME, p, room), other = two->mark_return(&u, name, MARK_NAME, q, room);
        else
            number = one->mark_set(&t, name, MARK_NAME, p, room), other = two->mark_set(&u, name, MARK_NAME, q, room);
        if (number != other || memcmp(p, q, sizeof p) || !same_tables()) return 0;
        p[at] ^= flip, q[at] ^= flip;
    }
    return 1;
}

/* What differs between the engine and a program on the site of an entry, or NULL. */
static const char *disagreement(const struct program *engine, const struct program *other, const struct entry *entry) {
    one = engine, two = other, e = entry, n = e->site.n;
    if (one->check(&e->site).value != 1) return "the site is not sound";
    if (!agree_damaged() || !agree_damaged_more()) return "check";
    if (!agree_links()) return "link calls";
    if (one->has(COMMITTED) && !agree_proposals()) return "proposals";
    if (one->has(BATCHED) && !agree_batches()) return "batches";
    if (one->has(HEARD) && !agree_heard()) return "hearings";
    if (!agree_questions()) return "questions";
    if (one->has(SHEET) && !agree_sheet()) return "site sheet";
    if (one->has(SCRIPT_WRITE) && !agree_script()) return "script";
    if (!agree_writing()) return "image writing";
    if (!agree_tree()) return "shell tree";
    if (one->has(STAIRCASE) && !agree_staircase()) return "staircase tree";
    if (!agree_reading()) return "image reading";
    if (one->has(MARK_SET) && !agree_marks()) return "marks";
    return NULL;
}
#endif

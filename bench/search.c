/*
 * Looks for an input on which a call takes longer: hill climbing over links, wishes for the order, and what the call names. What counts is how many
 * basic blocks line-by-line C goes through (bench/blocks.c), which follows the engine and is quick to run; bench/worst then counts the engine's
 * instructions on what is found.
 *   search CALL SEED TRIES SECONDS OUT FAMILY X Y Z A B      the family kept/NAME starts from images in OUT's folder
 * It writes OUT.img, for a batch or a hearing OUT-then.img too, and prints the blocks at first and at last, the family it started from, and A and B.
 */
#include "inputs.h"
#include <time.h>

extern const struct program plain;
struct c_pair plain_lift(const struct lent *t, uint32_t v);

static uint64_t blocks;
void __sanitizer_cov_trace_pc(void);
void __sanitizer_cov_trace_pc(void) { blocks++; }

/* ---- what a call costs */

static const char *call;
static struct input tried;
static struct lent lent;
static uint16_t answer[2 * RADIOS], list[RADIOS * NEIGHBOURS];
static struct c_node nodes[RADIOS + 1];
static uint8_t buffer[MOST_SCRIPT], image[MOST_BLOCKS * BLOCK], further[ROW * RADIOS];

static int is(const char *name) { return !strcmp(call, name); }
static int has_then(void) { return is("link_batch") || is("hear"); }
static int names_link(void) { return is("link_up") || is("link_down"); }

/* The refusal number of the call on what is tried. */
static unsigned make_call(void) {
    const struct program *p = &plain;
    unsigned a = tried.a, b = tried.b;
    if (is("link_up") || is("link_down")) return p->link(is("link_up"), &lent, a, b, answer, lent.n).number;
    if (is("hear")) return p->hear(&lent, tried.then, ROW * lent.n, further, ROW * lent.n).number;
    if (is("lift")) return plain_lift(&lent, a).number % 20;
    if (is("core")) return p->core(&lent, a, b, answer, lent.n).number;
    if (is("backbone")) return p->backbone(&lent, answer, lent.n).number;
    if (is("tree")) return p->tree(&lent, nodes, lent.n + 1, answer, lent.n).number;
    if (is("staircase")) return p->staircase(&lent, answer, 2 * lent.n).number;
    if (is("script_write")) return p->script_write(&lent, buffer, sizeof buffer).number;
    if (is("image_write")) return p->image_write(&lent, buffer, sizeof buffer).number;
    return p->check(&lent).number;
}

/* The blocks of the call, 0 where it is refused. */
static uint64_t cost(const struct input *in) {
    tried = *in;
    lent = (struct lent){tried.site.n, tried.site.links, ROW * tried.site.n, tried.site.numbers, tried.site.n, tried.site.order, tried.site.n};
    unsigned count = is("link_batch") ? list_missing(&tried, list) : 0, number;
    size_t length = is("image_read") ? plain.image_write(&lent, image, sizeof image).value : 0;
    blocks = 0;
    if (is("link_batch"))
        number = plain.link_batch(&lent, list, count).number;
    else if (is("image_read"))
        number = plain.image_read(&lent, image, length);
    else
        number = make_call();
    return number ? 0 : blocks;
}

/* ---- changes of an input */

static uint64_t state;
static unsigned below(unsigned m) {
    state ^= state << 13, state ^= state >> 7, state ^= state << 17;
    return (state >> 20) % m;
}

struct climber {
    struct input in;
    uint16_t wishes[RADIOS];
};

/* A link of a links table put in, struck, or moved to another end. */
static void change_links(uint8_t *links, unsigned n) {
    unsigned a = below(n), b = below(n), c = below(n), way = below(3);
    for (unsigned tries = 0; way && tries < 60 && !marked(links, a, b); tries++) b = below(n);
    if (way && marked(links, a, b)) strike(links, a, b);
    if (way == 1 || a == c || marked(links, a, c) || row_count(links, a) >= NEIGHBOURS || row_count(links, c) >= NEIGHBOURS) return;
    put_bit(links, 1, a, c), put_bit(links, 1, c, a);
}

/* Ends or a radio for the call, anew where they do not fit. */
static void choose(struct input *in, int anew) {
    const struct site *s = &in->site;
    for (unsigned tries = 0; tries < 4000; tries++) {
        if (anew || tries) in->a = below(s->n), in->b = is("core") ? below(s->numbers[in->a] + 1) : below(s->n);
        if (is("core") && in->b > s->numbers[in->a]) continue;
        if (!names_link()) return;
        if (in->a == in->b || marked(s->links, in->a, in->b) == is("link_up")) continue;
        if (is("link_down") || (row_count(s->links, in->a) < NEIGHBOURS && row_count(s->links, in->b) < NEIGHBOURS)) return;
    }
}

static void change(struct climber *c) {
    struct site *s = &c->in.site;
    unsigned many = 1 + below(6);
    for (unsigned i = 0; i < many; i++) {
        unsigned way = below(has_then() ? 4 : 3), p = below(s->n), q = below(s->n);
        uint16_t wish = c->wishes[p];
        if (way < 2) change_links(s->links, s->n);
        if (way == 2) c->wishes[p] = c->wishes[q], c->wishes[q] = wish;
        if (way == 3) change_links(c->in.then, s->n);
    }
    order_by(s, c->wishes);
    choose(&c->in, below(4) == 0);
}

/* ---- the climb */

static void read_image(const char *name, struct site *s) {
    FILE *f = fopen(name, "rb");
    memset(s, 0, sizeof *s);
    if (!f) return;
    size_t length = fread(image, 1, sizeof image, f);
    fclose(f);
    s->n = image[4] + 256 * image[5];
    lent = (struct lent){s->n, s->links, ROW * s->n, s->numbers, s->n, s->order, s->n};
    if (plain.image_read(&lent, image, length)) s->n = 0;
}

static int read_start(struct input *in, const char *folder, const char *name, int two) {
    static struct site other;
    char path[300];
    memset(in, 0, sizeof *in);
    snprintf(path, sizeof path, "%s/%s.img", folder, name);
    read_image(path, &in->site);
    if (!two) return in->site.n > 0;
    snprintf(path, sizeof path, "%s/%s-then.img", folder, name);
    read_image(path, &other);
    memcpy(in->then, other.links, sizeof in->then);
    return in->site.n > 0 && other.n > 0;
}

static void write_image(const char *out, const char *which, const struct site *s) {
    char path[300];
    tried.site = *s;
    lent = (struct lent){s->n, tried.site.links, ROW * s->n, tried.site.numbers, s->n, tried.site.order, s->n};
    size_t length = plain.image_write(&lent, image, sizeof image).value;
    snprintf(path, sizeof path, "%s%s.img", out, which);
    FILE *f = fopen(path, "wb");
    if (!f) return;
    fwrite(image, 1, length, f);
    fclose(f);
}

static void write_found(const struct climber *c, const char *out) {
    static struct site then;
    write_image(out, "", &c->in.site);
    if (!has_then()) return;
    then = c->in.site;
    memcpy(then.links, c->in.then, sizeof then.links);
    order_by(&then, c->wishes);
    write_image(out, "-then", &then);
}

static double now(void) {
    struct timespec t;
    clock_gettime(CLOCK_MONOTONIC, &t);
    return t.tv_sec + 1e-9 * t.tv_nsec;
}

/* Changes that cost no less are kept. */
static uint64_t climb(struct climber *c, unsigned tries, double until) {
    static struct climber next;
    uint64_t best = cost(&c->in);
    for (unsigned i = 0; i < tries && now() < until; i++) {
        next = *c;
        change(&next);
        uint64_t found = cost(&next.in);
        if (found >= best) best = found, *c = next;
    }
    return best;
}

int main(int argc, char **argv) {
    static struct climber c;
    if (argc != 12) return 2;
    call = argv[1], state = 88172645463325252ull + 1000003ull * atoi(argv[2]);
    const char *family = argv[6], *folder = argv[5];
    char *slash = strrchr(argv[5], '/');
    unsigned x = atoi(argv[7]);
    if (slash) *slash = 0;
    int made = !strncmp(family, "kept/", 5) ? read_start(&c.in, folder, family + 5, x) : make_input(&c.in, family, x, atoi(argv[8]), atoi(argv[9]));
    if (slash) *slash = '/';
    if (!made) return 1;
    c.in.a = atoi(argv[10]), c.in.b = atoi(argv[11]);
    memcpy(c.wishes, c.in.site.order, sizeof c.wishes);
    choose(&c.in, 0);
    uint64_t first = cost(&c.in), last = climb(&c, atoi(argv[3]), now() + atof(argv[4]));
    write_found(&c, argv[5]);
    printf("%llu %llu %u %u\n", (unsigned long long)first, (unsigned long long)last, c.in.a, c.in.b);
    return 0;
}

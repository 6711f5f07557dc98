/*
 * One link that lifts a radio, at 512 radios: processor time of a question, mean and worst over all radios of a site, by the engine and by the
 * same algorithm in C; how many radios have a pair, and that both answer alike. bench/lift builds and runs it. Files named as arguments, each a
 * struct site, are measured in place of the sites below.
 */
#include "../include/summerbugle.h"
#include "plain/lift.h"
#include "sites.h"
#include <stdio.h>
#include <time.h>

static double now(void) {
    struct timespec t;
    clock_gettime(CLOCK_PROCESS_CPUTIME_ID, &t);
    return 1e3 * t.tv_sec + 1e-6 * t.tv_nsec;
}

struct spent {
    double mean, worst;
};

static void add(struct spent *s, double time) {
    s->mean += time / RADIOS;
    if (time > s->worst) s->worst = time;
}

/* Nearly regular: a circulant of which every 37th radio lacks one link. */
static void nearly_regular(struct site *s, unsigned reach) {
    memset(s, 0, sizeof *s);
    s->n = RADIOS;
    circulant(s, 0, RADIOS, reach);
    for (unsigned a = 0; a + 1 < RADIOS; a += 37) put_bit(s->links, 0, a, a + 1), put_bit(s->links, 0, a + 1, a);
    peel(s);
}

static void random_site(struct site *s, unsigned links) {
    memset(s, 0, sizeof *s);
    s->n = RADIOS;
    srand(links);
    random_links(s, links, NEIGHBOURS);
    peel(s);
}

static int measure(const char *name, struct site *s) {
    struct lent t = {s->n, s->links, sizeof s->links, s->numbers, s->n, s->order, s->n};
    struct spent engine = {0, 0}, plain = {0, 0};
    unsigned pairs = 0, different = 0;
    for (unsigned v = 0; v < s->n; v++) {
        double start = now();
        sb_pair p = sb_lift(s->n, v, s->links, sizeof s->links, s->numbers, s->n, s->order, s->n);
        double middle = now();
        struct c_pair q = c_lift(&t, v);
        add(&engine, middle - start), add(&plain, now() - middle);
        pairs += p.number == 0;
        different += p.number != q.number || p.low != q.low || p.high != q.high;
    }
    printf("| %s | %u | %.3f | %.3f | %.3f | %.3f |\n", name, pairs, engine.mean, engine.worst, plain.mean, plain.worst);
    fflush(stdout);
    return different != 0;
}

/* Whether the file has a whole site. */
static int read_site(const char *name, struct site *s) {
    FILE *f = fopen(name, "rb");
    if (!f) return 0;
    size_t got = fread(s, sizeof *s, 1, f);
    fclose(f);
    return got == 1;
}

int main(int count, char **names) {
    static struct site s;
    int failed = 0;
    printf("| site | radios with a pair | engine, mean ms | worst | C, mean ms | worst |\n|---|---|---|---|---|---|\n");
    for (int i = 1; i < count; i++) failed |= read_site(names[i], &s) ? measure(names[i], &s) : 1;
    if (count > 1) return failed;
    make_site(&s, RADIOS, SPARSE, 0), failed |= measure("sparse", &s);
    make_site(&s, RADIOS, DENSE, 0), failed |= measure("dense", &s);
    make_site(&s, RADIOS, RING, 0), failed |= measure("ring", &s);
    make_site(&s, RADIOS, CIRCULANT, 0), failed |= measure("circulant", &s);
    make_site(&s, RADIOS, GEOMETRIC_8, 0), failed |= measure("geometric, 8", &s);
    make_site(&s, RADIOS, LEVELS, 0), failed |= measure("levels", &s);
    nearly_regular(&s, 2), failed |= measure("nearly regular, 4", &s);
    nearly_regular(&s, 10), failed |= measure("nearly regular, 20", &s);
    nearly_regular(&s, 19), failed |= measure("nearly regular, 38", &s);
    random_site(&s, 770), failed |= measure("random, 3", &s);
    random_site(&s, 1536), failed |= measure("random, 6", &s);
    random_site(&s, 4608), failed |= measure("random, 18", &s);
    if (failed) printf("engine and C differ\n");
    return failed;
}

/*
 * Every program that is linked in (PROGRAMS, the engine first) on the same sites, in one run. Lines of output:
 *   programs NAME ..              the programs, in the order of the times below
 *   time CALL N SITE TIME ..      time of a call in microseconds, by each program; - where it lacks the call
 *   steps N SITE SINGLE ASKED BOTH   the engine's link calls: single, asked and then made single, asked and committed
 *   heard SITE LINKS CALL SINGLE  a hearing of the engine at 512 radios that takes all links down and others up, and the single calls
 *   change SITE TIME ..           time of a link call at 512 radios, over links all over the site
 *   stack CALL BYTES              the most stack that the engine's call took
 * --quick: two sizes, few batches, no sites in turn, and programs compared on two sites of a kind. --once N: only the engine's calls, once each, on sparse sites of N radios, for counting.
 */
#include "agree.h"
#include "clock.h"
#include "names.h"
#include "stack.h"
#include <stdio.h>

#define P(name) extern const struct program name;
PROGRAMS
#undef P
#define P(name) &name,
static const struct program *const programs[] = {PROGRAMS};
#define COUNT (sizeof programs / sizeof *programs)

/* ---- calls */

static enum timed call;
static const struct program *having[COUNT]; /* the programs that have the call */
static void run_call(unsigned i) { having[i]->runs[call](&work); }

static unsigned find_having(void) {
    unsigned count = 0;
    for (unsigned p = 0; p < COUNT; p++)
        if (programs[p]->has(call)) having[count++] = programs[p];
    return count;
}

/* All programs that have the call, in turn, in short batches. */
static void compare(uint32_t size, enum kind kind) {
    double best[COUNT];
    best_of(run_call, find_having(), best);
    printf("time %s %u %s", names[call], size, kinds[kind]);
    for (unsigned p = 0, i = 0; p < COUNT; p++)
        if (programs[p]->has(call))
            printf(" %.4f", best[i++] / work.count);
        else
            printf(" -");
    printf("\n");
}

/* The engine's single link calls and the two steps, in turn. */
static void run_step(unsigned step) { programs[0]->runs[LINK + step](&work); }

static void compare_steps(uint32_t size, enum kind kind) {
    double best[3];
    best_of(run_step, 3, best);
    printf("steps %u %s %.3f %.3f %.3f\n", size, kinds[kind], best[0] / work.count, best[1] / work.count, best[2] / work.count);
}

/* What is timed is a call that is taken, on every site: not one that is refused early. */
static int all_taken(uint32_t size, enum kind kind) {
    const struct program *p = programs[0];
    for (struct entry *e = entries; e < entries + work.count; e++) {
        struct ends l = e->ends;
        unsigned refused = p->check(&e->site).value != 1 || p->core(&e->site, l.a, 1, answer, size).number;
        refused |= p->link(0, &e->site, l.a, l.b, answer, size).number;
        refused |= p->link(1, &e->site, l.a, l.b, answer, size).number;
        refused |= p->image_read(&e->other, e->image, e->image_length);
        for (unsigned i = 0; i < 2 && p->has(HEARD); i++) refused |= p->hear(&e->site, e->heard[i], ROW * size, buffer, ROW * size).number;
        if (p->has(MARK_SET)) refused |= p->mark_return(&e->other, (const uint8_t *)"M7      ", MARK_NAME, store, sizeof store);
        if (!refused) continue;
        printf("a call that is to be timed is refused: %u radios, %s\n", size, kinds[kind]);
        return 0;
    }
    return 1;
}

static unsigned most_compared = TOGETHER;

/* A program that answers has to answer as the engine does, on as many of the sites as have 512 radios together. */
static int all_agree(uint32_t size, enum kind kind) {
    const unsigned count = TOGETHER / size < most_compared ? TOGETHER / size : most_compared;
    for (unsigned p = 1; p < COUNT; p++)
        for (unsigned j = 0; j < count && programs[p]->has(CHECK); j++) {
            const char *what = disagreement(programs[0], programs[p], &entries[j]);
            if (!what) continue;
            printf("engine and %s differ: %s, %u radios, %s\n", programs[p]->name, what, size, kinds[kind]);
            return 0;
        }
    return 1;
}

static void engine_call(void) { programs[0]->runs[call](&work); }

static int time_calls(uint32_t size, enum kind kind, unsigned *stack) {
    use_sites(programs[0], size, kind);
    if (!all_taken(size, kind) || !all_agree(size, kind)) return 0;
    for (call = 0; call < CALLS; call++) {
        if (!programs[0]->has(call)) continue;
        compare(size, kind);
        unsigned bytes = stack_of(engine_call);
        if (bytes > stack[call]) stack[call] = bytes;
    }
    if (programs[0]->has(COMMITTED)) compare_steps(size, kind);
    return 1;
}

/* ---- a hearing that changes every link, and the same by single calls */

static struct site heard_site, heard_start;
static struct lent hearing;
static uint8_t all_heard[ROW * RADIOS], alone[ROW * RADIOS];
static struct ends goes[RADIOS * NEIGHBOURS];
static unsigned downs, switches;

static void run_hearing(unsigned single) {
    heard_site = heard_start;
    if (!single) programs[0]->hear(&hearing, all_heard, sizeof all_heard, alone, sizeof alone);
    for (unsigned i = 0; single && i < switches; i++) programs[0]->link(i >= downs, &hearing, goes[i].a, goes[i].b, answer, RADIOS);
}

/* The links that go down, or up, by lower radio and then higher. */
static void add_switches(int up) {
    for (unsigned a = 0; a < RADIOS; a++)
        for (unsigned b = a + 1; b < RADIOS; b++)
            if (marked(all_heard, a, b) == up && marked(heard_start.links, a, b) != up) goes[switches++] = (struct ends){a, b};
}

/* Radio v hears as 5 v + 1 does: the links of the site under other names. */
static void make_heard(enum kind kind) {
    make_site(&heard_start, RADIOS, kind, 0);
    memset(all_heard, 0, sizeof all_heard);
    for (unsigned a = 0; a < RADIOS; a++)
        for (unsigned b = 0; b < RADIOS; b++)
            if (marked(heard_start.links, (5 * a + 1) % RADIOS, (5 * b + 1) % RADIOS)) put_bit(all_heard, 1, a, b);
    switches = 0;
    add_switches(0), downs = switches, add_switches(1);
    heard_site = heard_start, hearing = lent_by(&heard_site);
}

static int time_hearing(enum kind kind) {
    static struct site one_call;
    double best[2];
    make_heard(kind);
    for (unsigned turn = 0; turn < 3; turn++)
        for (unsigned single = 0; single < 2; single++) {
            double time = batch(run_hearing, single, 1);
            if (!turn || time < best[single]) best[single] = time;
            if (!single) one_call = heard_site;
        }
    printf("heard %s %u %.0f %.0f\n", kinds[kind], switches, best[0], best[1]);
    if (memcmp(&one_call, &heard_site, sizeof one_call)) printf("a hearing and its single calls differ: %s\n", kinds[kind]);
    return !memcmp(&one_call, &heard_site, sizeof one_call);
}

/* ---- changes */

static struct site site;
static struct lent changing;
static struct ends changes[CHANGES];
static unsigned change_count;

static void run_changes(unsigned program) { programs[program]->changes(&changing, changes, change_count, answer); }

/* Each program strikes a link, and must have the numbers that the engine has then. */
static int same_changes(void) {
    static struct site mine, other;
    for (unsigned p = 1; p < COUNT; p++)
        for (unsigned i = 0; i < change_count; i++) {
            mine = other = site;
            struct lent a = lent_by(&mine), b = lent_by(&other);
            programs[0]->link(0, &a, changes[i].a, changes[i].b, answer, RADIOS);
            programs[p]->link(0, &b, changes[i].a, changes[i].b, answer, RADIOS);
            if (memcmp(mine.numbers, other.numbers, RADIOS) || memcmp(mine.links, other.links, sizeof mine.links)) return 0;
        }
    return 1;
}

static int time_changes(enum kind kind) {
    double best[COUNT];
    make_site(&site, RADIOS, kind, 0);
    changing = lent_by(&site), change_count = some_links(&site, changes, CHANGES);
    if (!same_changes()) {
        printf("other numbers after a change: %s\n", kinds[kind]);
        return 0;
    }
    best_of(run_changes, COUNT, best);
    printf("change %s", kinds[kind]);
    for (unsigned p = 0; p < COUNT; p++) printf(" %.3f", best[p] / (2 * change_count));
    printf("\n");
    return 1;
}

/* ---- the runs */

/* bench/instructions.py counts what each loop of the engine takes. */
static int once(uint32_t size) {
    use_sites(programs[0], size, SPARSE);
    printf("sites %u\n", work.count);
    for (call = 0; call < CALLS; call++)
        if (programs[0]->has(call)) programs[0]->runs[call](&work);
    return 0;
}

int main(int argc, char **argv) {
    static const uint32_t sizes[] = {16, 64, 256, 512};
    static unsigned stack[CALLS];
    if (argc > 2) return once(atoi(argv[2]));
    const int quick = argc > 1;
    const unsigned step = quick ? 3 : 1, sites = quick ? ALONE : KINDS;
    if (quick) turns = 3, most_compared = 2;
    printf("programs");
    for (unsigned p = 0; p < COUNT; p++) printf(" %s", programs[p]->name);
    printf("\n");
    for (unsigned i = 0; i < 4; i += step)
        for (unsigned k = 0; k < sites; k++)
            if (!time_calls(sizes[i], k, stack)) return 1;
    for (unsigned k = 0; k < ALONE && programs[0]->has(HEARD); k++)
        if (!time_hearing(k)) return 1;
    for (unsigned k = 0; k < ALONE; k++)
        if (!time_changes(k)) return 1;
    for (call = 0; call < CALLS; call++)
        if (programs[0]->has(call)) printf("stack %s %u\n", names[call], stack[call]);
    return 0;
}

/*
 * Every program that is linked in (PROGRAMS, the engine first) makes the link calls, batches, hearings and shell trees of the benchmark once on each
 * kind of site. Under callgrind the instructions of each loop go to a file of its own; the lines of output, CALL N SITE PROGRAM, stand in the same
 * order. bench/counted builds and runs it.
 */
#include "names.h"
#include "work.h"
#include <stdio.h>
#include <valgrind/callgrind.h>

#define P(name) extern const struct program name;
PROGRAMS
#undef P
#define P(name) &name,
static const struct program *const programs[] = {PROGRAMS};
#define COUNT (sizeof programs / sizeof *programs)

static const enum timed counted[] = {LINK, NEW, BATCHED, HEARD, TREE};

/* One loop of a program over the sites, which are made anew: two calls of a loop may leave another order. */
static void count(const struct program *p, enum timed call, uint32_t n, enum kind kind) {
    use_sites(programs[0], n, kind);
    CALLGRIND_ZERO_STATS;
    CALLGRIND_TOGGLE_COLLECT;
    p->runs[call](&work);
    CALLGRIND_TOGGLE_COLLECT;
    CALLGRIND_DUMP_STATS;
    printf("%s %u %s %s\n", names[call], n, kinds[kind], p->name);
}

int main(void) {
    static const uint32_t sizes[] = {16, 64, 512};
    for (unsigned i = 0; i < 3; i++)
        for (unsigned kind = 0; kind < ALONE; kind++)
            for (unsigned c = 0; c < sizeof counted / sizeof *counted; c++)
                for (unsigned p = 0; p < COUNT; p++) count(programs[p], counted[c], sizes[i], kind);
    return 0;
}

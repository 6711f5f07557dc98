/*
 * Two archives of the engine against each other, in one run: the calls named as arguments, or all that both have. A line for each
 * call, size and kind of site: CALL N SITE BEFORE AFTER RATIO, times of a call in microseconds; then for each call the mean and the
 * worst ratio.
 */
#include "clock.h"
#include "kinds.h"
#include "names.h"
#include <math.h>
#include <stdio.h>

unsigned before_use(uint32_t, unsigned), after_use(uint32_t, unsigned);
int before_has(unsigned), after_has(unsigned);
void before_run(unsigned), after_run(unsigned);

static unsigned call;
static void run(unsigned program) { (program ? after_run : before_run)(call); }

static int is_asked(int argc, char **argv) {
    for (int i = 1; i < argc; i++)
        if (!strcmp(argv[i], names[call])) return 1;
    return argc == 1;
}

static int both_have(void) {
    if (before_has(call) && after_has(call)) return 1;
    printf("%-11s is not in both archives\n", names[call]);
    return 0;
}

static double compare(uint32_t size, enum kind kind) {
    double best[2];
    unsigned count = before_use(size, kind);
    after_use(size, kind);
    best_of(run, 2, best);
    printf("%-11s %4u %-14s %9.3f %9.3f %6.3f\n", names[call], size, kinds[kind], best[0] / count, best[1] / count, best[1] / best[0]);
    return best[1] / best[0];
}

int main(int argc, char **argv) {
    static const uint32_t sizes[] = {16, 64, 256, 512};
    for (call = 0; call < CALLS; call++) {
        if (!is_asked(argc, argv) || !both_have()) continue;
        double sum = 0, worst = 0;
        for (unsigned i = 0; i < 4; i++)
            for (unsigned k = 0; k < KINDS; k++) {
                double ratio = compare(sizes[i], k);
                sum += log(ratio), worst = ratio > worst ? ratio : worst;
            }
        printf("%-11s mean %.3f, worst %.3f\n", names[call], exp(sum / (4 * KINDS)), worst);
    }
    return 0;
}

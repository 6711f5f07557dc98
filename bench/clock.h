/* The time of a call: the best of many short batches, several programs in turn. */
#ifndef CLOCK_H
#define CLOCK_H
#include <time.h>

#define BATCH 500.0 /* microseconds */

static unsigned turns = 40;

static double now(void) {
    struct timespec t;
    clock_gettime(CLOCK_MONOTONIC, &t);
    return t.tv_sec * 1e6 + t.tv_nsec / 1e3;
}

static double batch(void (*run)(unsigned), unsigned program, unsigned times) {
    double start = now();
    for (unsigned i = 0; i < times; i++) run(program);
    return (now() - start) / times;
}

/* The best time of each program, in microseconds; run(i) runs program i once. */
static void best_of(void (*run)(unsigned), unsigned count, double *best) {
    unsigned times[count];
    for (unsigned i = 0; i < count; i++) {
        best[i] = batch(run, i, 3);
        times[i] = 1 + BATCH / best[i];
    }
    for (unsigned turn = 0; turn < turns; turn++)
        for (unsigned i = 0; i < count; i++) {
            double t = batch(run, i, times[i]);
            if (t < best[i]) best[i] = t;
        }
}
#endif

/*
 * A change by the engine and with igraph, which works all core numbers out anew. Lines of output, in microseconds, at 512 radios:
 *   igraph SITE ENGINE CORENESS CHANGE   a link call; igraph_coreness alone; a link struck or added and igraph_coreness
 */
#include "clock.h"
#include "sites.h"
#include <igraph/igraph.h>
#include <stdio.h>

extern const struct program engine;

static struct site site;
static struct lent changing = {RADIOS, site.links, ROW * RADIOS, site.numbers, RADIOS, site.order, RADIOS};
static struct ends changes[CHANGES];
static unsigned change_count;
static igraph_t graph;
static igraph_vector_int_t cores;

static void engine_changes(void) {
    static uint16_t answer[RADIOS];
    engine.changes(&changing, changes, change_count, answer);
}

static void work_out(void) { igraph_coreness(&graph, &cores, IGRAPH_ALL); }

static void igraph_changes(void) {
    for (unsigned i = 0; i < change_count; i++) {
        igraph_integer_t link;
        igraph_get_eid(&graph, &link, changes[i].a, changes[i].b, 0, 1);
        igraph_delete_edges(&graph, igraph_ess_1(link));
        work_out();
        igraph_add_edge(&graph, changes[i].a, changes[i].b);
        work_out();
    }
}

static void run(unsigned program) {
    void (*const runs[3])(void) = {engine_changes, work_out, igraph_changes};
    runs[program]();
}

static void make_graph(void) {
    igraph_vector_int_t links;
    igraph_vector_int_init(&links, 0);
    for (unsigned a = 0; a < RADIOS; a++)
        for (unsigned b = a + 1; b < RADIOS; b++)
            if (marked(site.links, a, b)) igraph_vector_int_push_back(&links, a), igraph_vector_int_push_back(&links, b);
    igraph_create(&graph, &links, RADIOS, 0);
    igraph_vector_int_destroy(&links);
}

/* After the same changes both must have the same numbers. */
static int same_numbers(void) {
    engine_changes(), igraph_changes();
    for (unsigned v = 0; v < RADIOS; v++)
        if (VECTOR(cores)[v] != site.numbers[v]) return 0;
    return 1;
}

int main(int argc, char **argv) {
    double best[3];
    (void)argv;
    if (argc > 1) turns = 3;
    igraph_vector_int_init(&cores, 0);
    for (unsigned k = 0; k < ALONE; k++) {
        make_site(&site, RADIOS, k, 0);
        change_count = some_links(&site, changes, CHANGES);
        make_graph();
        if (!same_numbers()) {
            printf("igraph has other numbers: %s\n", kinds[k]);
            return 1;
        }
        best_of(run, 3, best);
        printf("igraph %s %.3f %.3f %.3f\n", kinds[k], best[0] / (2 * change_count), best[1], best[2] / (2 * change_count));
        igraph_destroy(&graph);
    }
    igraph_vector_int_destroy(&cores);
    return 0;
}

/*
 * Makes calls of the engine on inputs that standard input names, a line each: CALL FAMILY X Y Z A B, the family's three numbers and the call's
 * two. Under callgrind each call's instructions go to a file of its own, in the order of the lines; bench/worst builds and runs it. Without callgrind
 * it prints processor milliseconds. The family kept/NAME is what the search kept: an image of the site, and where X is 1 one of the links then.
 *   worst FOLDER      the folder of the images
 */
#include "../include/summerbugle.h"
#include "inputs.h"
#include <time.h>
#include <valgrind/callgrind.h>

static struct input in;
static const char *kept;
static uint16_t answer[2 * RADIOS], list[RADIOS * NEIGHBOURS];
static sb_node nodes[RADIOS + 1];
static uint8_t buffer[SB_SCRIPT_BYTES], further[ROW * RADIOS], store[SB_STORE_BYTES];
static size_t listed, image;
static int8_t step;

#define S in.site
#define N S.n
#define TABLES S.links, ROW *N, S.numbers, N, S.order, N

/* ---- inputs */

/* An image of a site into its tables; 0 where there is none. */
static int read_image(const char *name, const char *which, uint8_t *links, uint8_t *numbers, uint16_t *order) {
    char path[300];
    snprintf(path, sizeof path, "%s/%s%s.img", kept, name, which);
    FILE *f = fopen(path, "rb");
    if (!f) return 0;
    size_t length = fread(buffer, 1, sizeof buffer, f);
    fclose(f);
    N = buffer[4] + 256 * buffer[5];
    return !sb_image_read(N, links, ROW * N, numbers, N, order, N, buffer, length);
}

static int read_kept(const char *name, int two) {
    static struct site other;
    memset(&in, 0, sizeof in);
    if (!read_image(name, "", S.links, S.numbers, S.order)) return 0;
    if (!two) return 1;
    return read_image(name, "-then", in.then, other.numbers, other.order);
}

static const uint8_t *mark_name(unsigned i) {
    static uint8_t name[] = "M0      ";
    name[1] = '0' + i;
    return name;
}

/* A store of so many marks of the site, M1 on. */
static unsigned make_store(unsigned marks) {
    unsigned number = 0;
    memset(store, 0, sizeof store);
    for (unsigned i = 1; i <= marks; i++) number |= sb_mark_set(N, TABLES, mark_name(i), SB_NAME_BYTES, store, sizeof store);
    return number;
}

static int is(const char *call, const char *name) { return !strcmp(call, name); }

/* What a call is lent beside the site; refusal numbers joined. */
static unsigned prepare(const char *call) {
    if (is(call, "link_batch")) listed = list_missing(&in, list);
    if (is(call, "batch_none")) listed = 0;
    if (is(call, "batch_one")) list[0] = in.a, list[1] = in.b, listed = 2;
    if (is(call, "image_read") || is(call, "image_block")) image = sb_image_write(N, TABLES, buffer, sizeof buffer).value;
    if (!strncmp(call, "mark_", 5)) return make_store(in.a);
    if (strncmp(call, "commit_", 7)) return 0;
    sb_reply r = is(call, "commit_up") ? sb_ask_up(N, in.a, in.b, TABLES, answer, N) : sb_ask_down(N, in.a, in.b, TABLES, answer, N);
    listed = r.count, step = r.step;
    return r.number;
}

/* ---- calls */

struct call {
    const char *name;
    unsigned (*make)(void);
};

#define CALL(name, number) \
    static unsigned call_##name(void) { return number; }

CALL(nothing, 0)
CALL(version, sb_version() != SB_VERSION)
CALL(clear, sb_clear(N, TABLES))
CALL(check, sb_check(N, TABLES).number)
CALL(link_up, sb_link_up(N, in.a, in.b, TABLES, answer, N).number)
CALL(link_down, sb_link_down(N, in.a, in.b, TABLES, answer, N).number)
CALL(link_batch, sb_link_batch(N, TABLES, list, listed).number)
CALL(hear, sb_hear(N, TABLES, in.then, ROW *N, further, ROW *N).number)
CALL(ask_up, sb_ask_up(N, in.a, in.b, TABLES, answer, N).number)
CALL(ask_down, sb_ask_down(N, in.a, in.b, TABLES, answer, N).number)
CALL(commit_up, sb_commit_up(N, in.a, in.b, step, TABLES, answer, listed).number)
CALL(commit_down, sb_commit_down(N, in.a, in.b, step, TABLES, answer, listed).number)
CALL(number, sb_number(N, in.a, TABLES).number)
CALL(neighbours, sb_neighbours(N, in.a, TABLES).number)
CALL(linked, sb_linked(N, in.a, in.b, TABLES).number)
CALL(first, sb_first(N, in.a, in.b, TABLES).number)
CALL(later_of, sb_later_of(N, in.a, TABLES).number)
CALL(lift, sb_lift(N, in.a, TABLES).number % SB_NO_LIFT)
CALL(core, sb_core(N, in.a, in.b, TABLES, answer, N).number)
CALL(backbone, sb_backbone(N, TABLES, answer, N).number)
CALL(tree, sb_tree(N, TABLES, nodes, N + 1, answer, N).number)
CALL(sheet, sb_sheet(N, TABLES, buffer, sizeof buffer).number)
CALL(script_length, sb_script_length(N, TABLES).number)
CALL(script_write, sb_script_write(N, TABLES, buffer, sizeof buffer).number)
CALL(staircase, sb_staircase(N, TABLES, answer, 2 * N).number)
CALL(image_write, sb_image_write(N, TABLES, buffer, sizeof buffer).number)
CALL(image_read, sb_image_read(N, TABLES, buffer, image))
CALL(mark_set, sb_mark_set(N, TABLES, mark_name(in.b), SB_NAME_BYTES, store, sizeof store))
CALL(mark_remove, sb_mark_remove(N, TABLES, mark_name(in.b), SB_NAME_BYTES, store, sizeof store))
CALL(mark_return, sb_mark_return(N, TABLES, mark_name(in.b), SB_NAME_BYTES, store, sizeof store))
CALL(image_block, sb_image_block(buffer, image, 0).number)

#define ROW_OF(name) {#name, call_##name}
/* the first is no call, what counting itself takes; the last two are a batch of the one link, and of none, whose difference is what a link of a batch
 * takes */
static const struct call calls[] = {
    ROW_OF(nothing), ROW_OF(version), ROW_OF(clear), ROW_OF(check), ROW_OF(link_up), ROW_OF(link_down), ROW_OF(link_batch), ROW_OF(hear), ROW_OF(ask_up),
    ROW_OF(ask_down),
    ROW_OF(commit_up), ROW_OF(commit_down), ROW_OF(number), ROW_OF(neighbours), ROW_OF(linked), ROW_OF(first), ROW_OF(later_of), ROW_OF(lift), ROW_OF(core),
    ROW_OF(backbone), ROW_OF(tree), ROW_OF(sheet), ROW_OF(script_length), ROW_OF(script_write), ROW_OF(staircase), ROW_OF(image_write), ROW_OF(image_read),
    ROW_OF(mark_set), ROW_OF(mark_remove), ROW_OF(mark_return), ROW_OF(image_block), {"batch_one", call_link_batch}, {"batch_none", call_link_batch},
};

static double now(void) {
    struct timespec t;
    clock_gettime(CLOCK_PROCESS_CPUTIME_ID, &t);
    return 1e3 * t.tv_sec + 1e-6 * t.tv_nsec;
}

/* One call, counted or timed; how many links and levels its site has. 0 where it is refused. */
static int measure(const struct call *c) {
    unsigned links = 0, levels = 0;
    uint8_t seen[NEIGHBOURS + 1] = {0};
    for (unsigned v = 0; v < N; v++) links += row_count(S.links, v), seen[S.numbers[v]] = 1;
    for (unsigned k = 0; k <= NEIGHBOURS; k++) levels += seen[k];
    if (prepare(c->name)) return 0;
    CALLGRIND_ZERO_STATS;
    double start = now();
    CALLGRIND_TOGGLE_COLLECT;
    unsigned number = c->make();
    CALLGRIND_TOGGLE_COLLECT;
    double spent = now() - start;
    CALLGRIND_DUMP_STATS_AT(c->name);
    printf("%s %u %u %zu %.3f\n", c->name, links / 2, levels, listed / 2, spent);
    fflush(stdout);
    return !number;
}

int main(int argc, char **argv) {
    char call[40], family[40];
    unsigned x, y, z, a, b;
    if (argc != 2) return 2;
    kept = argv[1];
    while (scanf("%39s %39s %u %u %u %u %u", call, family, &x, &y, &z, &a, &b) == 7) {
        const struct call *c = calls, *end = calls + sizeof calls / sizeof calls[0];
        while (c < end && !is(c->name, call)) c++;
        int made = c == end ? 0 : !strncmp(family, "kept/", 5) ? read_kept(family + 5, x) : make_input(&in, family, x, y, z);
        in.a = a, in.b = b, listed = 0;
        if (!made || !measure(c)) {
            printf("no such call or input, or it is refused: %s %s %u %u %u %u %u\n", call, family, x, y, z, a, b);
            return 1;
        }
    }
    return 0;
}

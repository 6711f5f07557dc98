/* A C host: lends tables, takes links up and down, asks, prints a sheet and a script, writes an image, walks it and reads it, sets marks and
 * comes back, and takes what radios hear. examples/run builds and runs it. */
#include "../include/summerbugle.h"
#include <stdio.h>

enum { N = 7, IMAGE_ROOM = 4096 };

static uint8_t links[SB_ROW_BYTES * N], numbers[N], image[IMAGE_ROOM];
static uint16_t order[N], answer[N], kept[2 * N];
static sb_node nodes[N + 1];
static uint8_t store[SB_STORE_BYTES];

#define TABLES links, sizeof links, numbers, N, order, N
#define ANSWER answer, N

static void print_list(const uint16_t *list, uint32_t count) {
    for (uint32_t i = 0; i < count; i++) printf(" %u", list[i]);
    printf("\n");
}

static void print_reply(const char *call, uint32_t a, uint32_t b, sb_reply r) {
    printf("%s %u %u: number %u, step %d, changed", call, a, b, r.number, r.step);
    print_list(answer, r.count);
}

static void up(uint32_t a, uint32_t b) { print_reply("up", a, b, sb_link_up(N, a, b, TABLES, ANSWER)); }

static void down(uint32_t a, uint32_t b) { print_reply("down", a, b, sb_link_down(N, a, b, TABLES, ANSWER)); }

/* A link call in two steps: a proposal, a commit with a wrong list, and the commit. */
static void propose_down(uint32_t a, uint32_t b) {
    sb_reply asked = sb_ask_down(N, a, b, TABLES, ANSWER);
    print_reply("ask down", a, b, asked);
    printf("one short: number %u\n", sb_commit_down(N, a, b, asked.step, TABLES, answer, asked.count - 1).number);
    print_reply("commit down", a, b, sb_commit_down(N, a, b, asked.step, TABLES, answer, asked.count));
    asked = sb_ask_up(N, a, b, TABLES, ANSWER);
    print_reply("ask up", a, b, asked);
    print_reply("commit up", a, b, sb_commit_up(N, a, b, asked.step, TABLES, answer, asked.count));
}

static void print_value(const char *question, sb_value v) { printf("%s: number %u, value %u\n", question, v.number, v.value); }

/* A batch that stops at its third link, with the links before it up; and one with half a link. */
static void take_batch(void) {
    uint16_t list[] = {0, 1, 0, 6, 6, 6, 2, 3};
    print_value("batch", sb_link_batch(N, TABLES, list, 8));
    print_value("batch of an odd list", sb_link_batch(N, TABLES, list + 6, 1));
    printf("order");
    print_list(order, N);
}

/* What is linked is heard, but 6 does not hear 0 any more, and 2 and 3 hear each other; then 5 hears itself. */
static void take_heard(void) {
    uint8_t heard[sizeof links], one_sided[sizeof links];
    for (unsigned i = 0; i < sizeof links; i++) heard[i] = links[i];
    heard[SB_ROW_BYTES * 6] ^= 1 << 0;
    heard[SB_ROW_BYTES * 2] ^= 1 << 3;
    heard[SB_ROW_BYTES * 3] ^= 1 << 2;
    print_value("hear", sb_hear(N, TABLES, heard, sizeof heard, one_sided, sizeof one_sided));
    for (unsigned v = 0; v < N; v++)
        for (unsigned u = 0; u < N; u++)
            if (one_sided[SB_ROW_BYTES * v + u / 8] >> u % 8 & 1) printf("only %u hears %u\n", v, u);
    print_value("linked 0 6", sb_linked(N, 0, 6, TABLES));
    print_value("linked 2 3", sb_linked(N, 2, 3, TABLES));
    heard[SB_ROW_BYTES * 5] ^= 1 << 5;
    print_value("hear itself", sb_hear(N, TABLES, heard, sizeof heard, one_sided, sizeof one_sided));
    printf("order");
    print_list(order, N);
}

static void print_later(uint32_t v) {
    sb_later l = sb_later_of(N, v, TABLES);
    printf("later than %u: number %u, count %u, first %u\n", v, l.number, l.count, l.first);
}

static void print_lift(uint32_t v) {
    sb_pair p = sb_lift(N, v, TABLES);
    printf("lift of %u: number %u, pair %u %u\n", v, p.number, p.low, p.high);
}

static void print_radios(const char *question, sb_value v) {
    printf("%s: number %u, radios", question, v.number);
    print_list(answer, v.value);
}

/* Two triangles, a link between them, and a radio that hangs on one. */
static void make_links(void) {
    static const uint8_t ends[][2] = {{0, 1}, {0, 2}, {1, 2}, {3, 4}, {3, 5}, {4, 5}, {2, 3}, {0, 6}};
    printf("clear: number %u\n", sb_clear(N, TABLES));
    for (unsigned i = 0; i < sizeof ends / sizeof *ends; i++) up(ends[i][0], ends[i][1]);
    up(6, 7);
    up(6, 6);
    up(6, 0);
    printf("order");
    print_list(order, N);
}

static void ask(void) {
    print_value("check", sb_check(N, TABLES));
    print_value("number of 0", sb_number(N, 0, TABLES));
    print_value("neighbours of 0", sb_neighbours(N, 0, TABLES));
    print_value("linked 0 6", sb_linked(N, 0, 6, TABLES));
    print_value("linked 1 6", sb_linked(N, 1, 6, TABLES));
    print_value("first of 0 and 6", sb_first(N, 0, 6, TABLES));
    print_later(0);
    print_later(1);
    print_later(7);
    print_lift(6);
    print_lift(0);
    print_lift(7);
    print_radios("core of 6 at level 1", sb_core(N, 6, 1, TABLES, ANSWER));
    print_radios("core of 6 at level 2", sb_core(N, 6, 2, TABLES, ANSWER));
    print_radios("backbone", sb_backbone(N, TABLES, ANSWER));
}

/* The nodes, then each radio's node name. */
static void print_tree(void) {
    sb_value tree = sb_tree(N, TABLES, nodes, N + 1, ANSWER);
    print_value("tree", tree);
    for (uint32_t i = 0; i < tree.value; i++) printf("node %u, level %u, parent %u\n", nodes[i].name, nodes[i].level, nodes[i].parent);
    printf("names");
    print_list(answer, N);
}

static void print_sheet(void) {
    uint8_t page[SB_PAGE_LINE];
    sb_value sheet = sb_sheet(N, TABLES, page, sizeof page);
    print_value("sheet", sheet);
    printf("%.*s", (int)sheet.value, (const char *)page);
    print_value("sheet on a short page", sb_sheet(N, TABLES, page, sizeof page - 1));
}

/* The length beforehand is the length written. */
static void print_script(void) {
    uint8_t text[128];
    sb_value length = sb_script_length(N, TABLES);
    print_value("script length", length);
    sb_value script = sb_script_write(N, TABLES, text, length.value);
    print_value("script", script);
    printf("%.*s", (int)script.value, (const char *)text);
    print_value("script in a short buffer", sb_script_write(N, TABLES, text, length.value - 1));
}

/* The kept links, two entries each. */
static void print_staircase(void) {
    sb_value staircase = sb_staircase(N, TABLES, kept, 2 * N);
    print_value("staircase", staircase);
    for (uint32_t i = 0; i < staircase.value; i++) printf("keeps %u %u\n", kept[2 * i], kept[2 * i + 1]);
    print_value("staircase in a short table", sb_staircase(N, TABLES, kept, 2 * N - 1));
}

/* The payload lies in the image itself; each step checks the whole image. */
static void walk(size_t length) {
    sb_block block = sb_image_block(image, length, 0);
    for (; block.number == SB_OK && !block.end; block = sb_image_block(image, length, block.next)) {
        const uint8_t *payload = image + block.offset;
        printf("block at %zu, %zu bytes: %u %u %u %u ..\n", block.offset, block.length, payload[0], payload[1], payload[2], payload[3]);
    }
    printf("walk: number %u, end %u, next %zu\n", block.number, block.end, block.next);
}

static void keep(void) {
    sb_value written = sb_image_write(N, TABLES, image, sizeof image);
    print_value("image", written);
    walk(written.value);
    image[600] ^= 1;
    walk(written.value);
    image[600] ^= 1;
    down(0, 6);
    printf("read: number %u\n", sb_image_read(N, TABLES, image, written.value));
    print_value("linked 0 6", sb_linked(N, 0, 6, TABLES));
}

#define NAME(text) (const uint8_t *)(text), SB_NAME_BYTES
#define STORE store, sizeof store

/* Two states named, and the way back to the first. */
static void mark(void) {
    printf("set TOWER1: number %u\n", sb_mark_set(N, TABLES, NAME("TOWER1  "), STORE));
    down(0, 6);
    printf("set A: number %u\n", sb_mark_set(N, TABLES, NAME("A       "), STORE));
    printf("first %.8s, second %.8s\n", (const char *)store, (const char *)store + SB_PLACE_BYTES);
    printf("set a: number %u\n", sb_mark_set(N, TABLES, NAME("a       "), STORE));
    printf("back to TOWER1: number %u\n", sb_mark_return(N, TABLES, NAME("TOWER1  "), STORE));
    print_value("linked 0 6", sb_linked(N, 0, 6, TABLES));
    printf("remove A: number %u\n", sb_mark_remove(N, TABLES, NAME("A       "), STORE));
    printf("back to A: number %u\n", sb_mark_return(N, TABLES, NAME("A       "), STORE));
}

int main(void) {
    make_links();
    ask();
    print_tree();
    print_sheet();
    print_script();
    print_staircase();
    keep();
    mark();
    down(0, 6);
    down(2, 3);
    propose_down(0, 1);
    down(0, 1);
    take_batch();
    take_heard();
    return 0;
}

/* What the header says, held against the archive. It is C and C++; include/test builds it by both compilers. */
#include "summerbugle_site.h"
#include <stdio.h>
#include <string.h>

static int failures;

static void expect(const char *what, size_t is, size_t should_be) {
    if (is == should_be) return;
    printf("%s: %zu, not %zu\n", what, is, should_be);
    failures++;
}

#define SIZE(type, bytes) expect("size of " #type, sizeof(type), bytes)
#define PART(type, part, at, bytes)                            \
    expect("place of " #type "." #part, offsetof(type, part), at), \
        expect("size of " #type "." #part, sizeof(((type *)0)->part), bytes)

static void test_structs(void) {
    SIZE(sb_value, 8), PART(sb_value, number, 0, 4), PART(sb_value, value, 4, 4);
    SIZE(sb_reply, 12), PART(sb_reply, number, 0, 4), PART(sb_reply, step, 4, 1), PART(sb_reply, count, 8, 4);
    SIZE(sb_later, 12), PART(sb_later, number, 0, 4), PART(sb_later, count, 4, 4), PART(sb_later, first, 8, 4);
    SIZE(sb_pair, 12), PART(sb_pair, number, 0, 4), PART(sb_pair, low, 4, 4), PART(sb_pair, high, 8, 4);
    SIZE(sb_node, 6), PART(sb_node, name, 0, 2), PART(sb_node, level, 2, 2), PART(sb_node, parent, 4, 2);
    SIZE(sb_block, 32), PART(sb_block, number, 0, 4), PART(sb_block, end, 4, 4);
    PART(sb_block, offset, 8, 8), PART(sb_block, length, 16, 8), PART(sb_block, next, 24, 8);
}

/* The largest site that the header allows. */
static uint8_t links[SB_ROW_BYTES * SB_RADIOS], numbers[SB_RADIOS], image[8 * SB_BLOCK_BYTES];
static uint16_t order[SB_RADIOS], answer[SB_RADIOS], kept[2 * SB_RADIOS];
static sb_node nodes[SB_RADIOS + 1];
static uint8_t store[SB_STORE_BYTES];
#define TABLES links, sizeof links, numbers, SB_RADIOS, order, SB_RADIOS
#define ANSWER answer, SB_RADIOS

static size_t up(uint32_t a, uint32_t b) { return sb_link_up(SB_RADIOS, a, b, TABLES, ANSWER).number; }

static void test_limits(void) {
    expect("the version", sb_version(), SB_VERSION);
    expect("clear at the limit", sb_clear(SB_RADIOS, TABLES), SB_OK);
    expect("clear past the limit", sb_clear(SB_RADIOS + 1, TABLES), SB_SIZE);
    expect("a byte short", sb_clear(SB_RADIOS, links, sizeof links - 1, numbers, SB_RADIOS, order, SB_RADIOS), SB_LENGTH);
    for (uint32_t b = 1; b <= SB_NEIGHBOURS; b++) expect("a neighbour", up(0, b), SB_OK);
    expect("a neighbour past the limit", up(0, SB_NEIGHBOURS + 1), SB_NO_ROOM);
    expect("a step down", sb_link_down(SB_RADIOS, 0, 1, TABLES, ANSWER).step == -1, 1);
    expect("a step up", sb_link_up(SB_RADIOS, 0, 1, TABLES, ANSWER).step == 1, 1);
    expect("neighbours", sb_neighbours(SB_RADIOS, 0, TABLES).value, SB_NEIGHBOURS);
}

/* As many links as n radios can have: all of them up to 41 radios, then those at most 20 apart in a ring. */
static uint32_t fill_site(uint32_t n) {
    static uint16_t list[2 * SB_MOST_LINKS(SB_RADIOS)];
    uint32_t count = 0;
    for (uint32_t a = 0; a < n; a++)
        for (uint32_t b = a + 1; b < n; b++)
            if (n <= 41 || b - a <= 20 || n - (b - a) <= 20) list[2 * count] = (uint16_t)a, list[2 * count++ + 1] = (uint16_t)b;
    sb_clear(n, links, SB_LINKS_FOR(n), numbers, SB_NUMBERS_FOR(n), order, SB_ORDER_FOR(n));
    expect("links taken up", sb_link_batch(n, links, SB_LINKS_FOR(n), numbers, n, order, n, list, 2 * count).value, count);
    return count;
}

/* The lengths that the header says, exact where it says so, on the fullest sites. */
static void test_lengths(void) {
    static uint8_t room[SB_SCRIPT_BYTES];
    const uint32_t sizes[] = {1, 2, 8, 9, 10, 11, 40, 41, 42, 100, 101, 252, 253, SB_RADIOS};
    for (size_t i = 0; i < sizeof sizes / sizeof *sizes; i++) {
        uint32_t n = sizes[i];
        const sb_site site = {n, links, numbers, order};
        expect("most links", fill_site(n), SB_MOST_LINKS(n));
        expect("longest image", sb_site_image_write(&site, room, SB_IMAGE_FOR(n)).value, SB_IMAGE_FOR(n));
        expect("a page", sb_site_sheet(&site, room, SB_PAGE_FOR(n)).value, SB_PAGE_FOR(n));
        expect("a script fits", sb_site_script_write(&site, room, SB_SCRIPT_FOR(n)).number, SB_OK);
        expect("a tree fits", sb_site_tree(&site, nodes, answer).number, SB_OK);
        expect("a staircase tree fits", sb_site_staircase(&site, kept).number, SB_OK);
    }
    expect("the longest image of all", SB_IMAGE_FOR(SB_RADIOS), SB_IMAGE_BYTES);
    expect("the longest script of all", SB_SCRIPT_FOR(SB_RADIOS), SB_SCRIPT_BYTES);
    expect("a script of two radios, whole", SB_SCRIPT_FOR(2u), 16);
}

SB_SITE(hub, 7);

/* Calls over the struct: a triangle, and a radio that hangs on it. */
static void test_site(void) {
    numbers[0] = 9;
    expect("cleared", sb_site_clear(&hub), SB_OK);
    for (uint32_t v = 0; v < 3; v++) expect("a link of the triangle", sb_site_link_up(&hub, v, (v + 1) % 3, answer).number, SB_OK);
    sb_reply asked = sb_site_ask_up(&hub, 2, 6, answer);
    expect("one radio would rise", asked.count, 1), expect("the sixth", answer[0], 6);
    expect("it rises", sb_site_commit_up(&hub, 2, 6, asked.step, answer, asked.count).count, 1);
    expect("number", sb_site_number(&hub, 2).value, 2), expect("linked", sb_site_linked(&hub, 6, 2).value, 1);
    expect("the core at level 1", sb_site_core(&hub, 6, 1, answer).value, 4), expect("too high", sb_site_core(&hub, 6, 2, answer).number, SB_LEVEL);
    memset(store, 0, sizeof store);
    const uint8_t *name = (const uint8_t *)"TRIANGLE";
    expect("marked", sb_site_mark_set(&hub, name, store), SB_OK), expect("cleared again", sb_site_clear(&hub), SB_OK);
    expect("come back", sb_site_mark_return(&hub, name, store), SB_OK), expect("as it was", hub.numbers[0], 2);
    expect("other tables are kept", numbers[0], 9);
    memset(store, 0, sizeof store);
}

/* Refusal numbers in words, a line each. */
static void print_words(void) {
    for (uint32_t number = SB_OK; number <= SB_NO_LIFT; number++) printf("%u %s\n", (unsigned)number, sb_words(number));
    expect("no number", strcmp(sb_words(SB_NO_LIFT + 1), "no refusal number"), 0);
}

/* A star: its leaves stand before its hub but for one, which goes last. */
static void test_later(void) {
    sb_later none = sb_later_of(SB_RADIOS, order[SB_RADIOS - 1], TABLES);
    sb_later leaf = sb_later_of(SB_RADIOS, 2, TABLES), past = sb_later_of(SB_RADIOS, SB_RADIOS, TABLES);
    expect("none later", none.count, 0), expect("nobody", none.first, SB_NOBODY), expect("no refusal", none.number, SB_OK);
    expect("one later", leaf.count, 1), expect("the hub", leaf.first, 0);
    expect("later of no radio", past.number, SB_RADIO), expect("zero", past.count + past.first, 0);
}

/* A star: a link between its first two leaves lifts the hub, and the hub itself takes no link more. One radio alone has no pair. */
static void test_lift(void) {
    sb_pair hub = sb_lift(SB_RADIOS, 0, TABLES), alone = sb_lift(SB_RADIOS, SB_RADIOS - 1, TABLES), past = sb_lift(SB_RADIOS, SB_RADIOS, TABLES);
    expect("a pair", hub.number, SB_OK), expect("its lower radio", hub.low, 1), expect("its higher radio", hub.high, 2);
    expect("past the hub, which is full", alone.low, 1), expect("the radio itself", alone.high, SB_RADIOS - 1);
    expect("lift of no radio", past.number, SB_RADIO), expect("zero", past.low + past.high, 0);
    static const uint8_t row[SB_ROW_BYTES] = {0}, number[1] = {0};
    static const uint16_t place[1] = {0};
    sb_pair none = sb_lift(1, 0, row, sizeof row, number, 1, place, 1);
    expect("no pair", none.number, SB_NO_LIFT), expect("zeros", none.low + none.high, 0);
}

/* A star with one leaf less: a batch takes it up again, and stops at a link that is up. */
static void test_batch(void) {
    uint16_t list[] = {0, 1, 2, 0, 3, 4};
    sb_link_down(SB_RADIOS, 0, 1, TABLES, ANSWER);
    sb_value odd = sb_link_batch(SB_RADIOS, TABLES, list, 5), none = sb_link_batch(SB_RADIOS, TABLES, list, 0);
    sb_value some = sb_link_batch(SB_RADIOS, TABLES, list, 6);
    expect("an odd list", odd.number, SB_LENGTH), expect("no link done", odd.value, 0);
    expect("an empty list", none.number, SB_OK), expect("none done", none.value, 0);
    expect("a link that is up", some.number, SB_LINK_STATE), expect("one link done", some.value, 1);
    expect("it remains", sb_linked(SB_RADIOS, 0, 1, TABLES).value, 1), expect("the next does not", sb_linked(SB_RADIOS, 3, 4, TABLES).value, 0);
}

/* A star of 40 leaves: what is linked is heard, then a 41st leaf, one-sided and agreed. */
static void test_heard(void) {
    static uint8_t heard[sizeof links], one_sided[sizeof links];
    uint8_t *hub = heard + (SB_NEIGHBOURS + 1) / 8, *leaf = heard + SB_ROW_BYTES * (SB_NEIGHBOURS + 1);
    memcpy(heard, links, sizeof links), memset(one_sided, 77, sizeof one_sided);
#define HEAR sb_hear(SB_RADIOS, TABLES, heard, sizeof heard, one_sided, sizeof one_sided)
    expect("a byte short", sb_hear(SB_RADIOS, TABLES, heard, sizeof heard, one_sided, sizeof one_sided - 1).number, SB_LENGTH);
    expect("a row more", sb_hear(1, links, SB_ROW_BYTES, numbers, 1, order, 1, heard, 2 * SB_ROW_BYTES, one_sided, SB_ROW_BYTES).number, SB_LENGTH);
    leaf[(SB_NEIGHBOURS + 1) / 8] ^= 1 << (SB_NEIGHBOURS + 1) % 8;
    expect("hears itself", HEAR.number, SB_HEARD), expect("kept", one_sided[0], 77);
    leaf[(SB_NEIGHBOURS + 1) / 8] ^= 1 << (SB_NEIGHBOURS + 1) % 8;
    expect("what is linked", HEAR.value, 0), expect("no one-sided pair", one_sided[0], 0);
    *hub |= 1 << (SB_NEIGHBOURS + 1) % 8, *leaf |= 1, one_sided[0] = 77;
    expect("a 41st link", HEAR.number, SB_NO_ROOM), expect("kept again", one_sided[0], 77);
    *leaf &= ~1;
    expect("one end alone", HEAR.value, 1), expect("marked", one_sided[(SB_NEIGHBOURS + 1) / 8], 1 << (SB_NEIGHBOURS + 1) % 8);
    expect("not linked", sb_linked(SB_RADIOS, 0, SB_NEIGHBOURS + 1, TABLES).value, 0);
    expect("as before", sb_neighbours(SB_RADIOS, 0, TABLES).value, SB_NEIGHBOURS);
}

/* A star: a link between two leaves raises them and the hub. */
static void test_proposals(void) {
    sb_reply asked = sb_ask_up(SB_RADIOS, 1, 2, TABLES, ANSWER), down;
    expect("asked", asked.number, SB_OK), expect("a step asked", asked.step == 1, 1), expect("changed", asked.count, 3);
    expect("not yet", sb_linked(SB_RADIOS, 1, 2, TABLES).value, 0);
    expect("a short list", sb_commit_up(SB_RADIOS, 1, 2, asked.step, TABLES, answer, 2).number, SB_PROPOSAL);
    expect("another step", sb_commit_up(SB_RADIOS, 1, 2, 0, TABLES, answer, 3).number, SB_PROPOSAL);
    expect("committed", sb_commit_up(SB_RADIOS, 1, 2, asked.step, TABLES, answer, 3).count, 3);
    down = sb_ask_down(SB_RADIOS, 1, 2, TABLES, ANSWER);
    expect("committed down", sb_commit_down(SB_RADIOS, 1, 2, down.step, TABLES, answer, down.count).step == -1, 1);
}

static void test_refusals(void) {
    expect("radio", up(0, SB_RADIOS), SB_RADIO);
    expect("same ends", up(3, 3), SB_SAME_ENDS);
    expect("link state", up(0, 1), SB_LINK_STATE);
    expect("level", sb_core(SB_RADIOS, 0, 2, TABLES, ANSWER).number, SB_LEVEL);
    numbers[0] = 9;
    expect("unsound", sb_backbone(SB_RADIOS, TABLES, ANSWER).number, SB_UNSOUND);
    numbers[0] = 1;
    expect("sound again", sb_check(SB_RADIOS, TABLES).value, 1);
}

/* A star: the root, and one node at level 1. */
static void test_tree(void) {
    expect("too few nodes", sb_tree(SB_RADIOS, TABLES, nodes, SB_RADIOS, ANSWER).number, SB_LENGTH);
    expect("nodes", sb_tree(SB_RADIOS, TABLES, nodes, SB_RADIOS + 1, ANSWER).value, 2);
    expect("root", nodes[0].name, SB_ROOT);
    expect("level", nodes[1].level, 1);
    expect("parent", nodes[1].parent, SB_ROOT);
}

/* 64 lines; the hub has 1, as its leaves have, and radio 41 has 0. */
static void test_sheet(void) {
    static uint8_t page[SB_PAGE_LINE * SB_RADIOS / 8 + 1];
    size_t length = sizeof page - 1;
    page[length] = 77, page[0] = 77;
    expect("short page", sb_sheet(SB_RADIOS, TABLES, page, length - 1).number, SB_PAGE), expect("kept", page[0], 77);
    expect("sheet", sb_sheet(SB_RADIOS, TABLES, page, sizeof page).value, length), expect("kept past it", page[length], 77);
    expect("first radio", memcmp(page, "  0: 1    1: 1  ", 16), 0);
    expect("line feed", page[SB_PAGE_LINE - 1], '\n');
    expect("radio 41", memcmp(page + 5 * SB_PAGE_LINE + 8, " 41: 0  ", 8), 0);
    expect("last radio", memcmp(page + length - 9, "511: 0  \n", 9), 0);
}

/* A star keeps all its links, in their order. */
static void test_staircase(void) {
    kept[2 * SB_NEIGHBOURS] = SB_NOBODY;
    expect("too few entries", sb_staircase(SB_RADIOS, TABLES, kept, 2 * SB_RADIOS - 1).number, SB_LENGTH);
    expect("kept links", sb_staircase(SB_RADIOS, TABLES, kept, 2 * SB_RADIOS).value, SB_NEIGHBOURS);
    expect("first link", kept[0] + 600 * kept[1], 600);
    expect("last link", kept[2 * SB_NEIGHBOURS - 2] + 600 * kept[2 * SB_NEIGHBOURS - 1], 600 * SB_NEIGHBOURS);
    expect("later entry", kept[2 * SB_NEIGHBOURS], SB_NOBODY);
}

/* The hub's 40 links: line 1, 9 lines of 7 bytes and 31 of 8. */
static void test_script(void) {
    static uint8_t text[SB_SCRIPT_BYTES];
    size_t length = sb_script_length(SB_RADIOS, TABLES).value;
    expect("script length", length, 11 + 9 * 7 + 31 * 8);
    text[length] = 77, text[0] = 77;
    expect("short text", sb_script_write(SB_RADIOS, TABLES, text, length - 1).number, SB_TEXT), expect("kept", text[0], 77);
    expect("script", sb_script_write(SB_RADIOS, TABLES, text, sizeof text).value, length), expect("kept past it", text[length], 77);
    expect("first lines", memcmp(text, "radios 512\nup 0 1\nup 0 2\n", 25), 0);
    expect("last line", memcmp(text + length - 8, "up 0 40\n", 8), 0);
    numbers[0] = 9;
    expect("unsound", sb_script_length(SB_RADIOS, TABLES).number, SB_UNSOUND);
    numbers[0] = 1;
}

static void test_images(void) {
    size_t length = 5 * SB_BLOCK_BYTES; /* 1, 3 of the order, 1 of the links */
    expect("short buffer", sb_image_write(SB_RADIOS, TABLES, image, length - 1).number, SB_IMAGE_SIZE);
    expect("image", sb_image_write(SB_RADIOS, TABLES, image, sizeof image).value, length);
    sb_block block = sb_image_block(image, length, 1);
    expect("payload offset", block.offset, SB_BLOCK_BYTES + 4);
    expect("payload length", block.length, SB_PAYLOAD_BYTES);
    expect("next", block.next, 2);
    expect("end", sb_image_block(image, length, 5).end, 1);
    expect("image length", sb_image_block(image, length - 1, 0).number, SB_IMAGE_SIZE);
    expect("image of another n", sb_image_read(1, links, SB_ROW_BYTES, numbers, 1, order, 1, image, length), SB_OTHER_SIZE);
    expect("image of none", sb_image_read(SB_RADIOS, TABLES, image, length - SB_BLOCK_BYTES), SB_IMAGE);
    expect("image read", sb_image_read(SB_RADIOS, TABLES, image, length), SB_OK);
    expect("neighbours read", sb_neighbours(SB_RADIOS, 0, TABLES).value, SB_NEIGHBOURS);
    image[0] ^= 1;
    expect("image check", sb_image_block(image, length, 0).number, SB_IMAGE_CHECK);
}

static size_t mark(const char *name) { return sb_mark_set(SB_RADIOS, TABLES, (const uint8_t *)name, SB_NAME_BYTES, store, sizeof store); }

/* The tables hold a star. */
static void test_marks(void) {
    static const char names[] = "M0      M1      M2      M3      M4      M5      M6      M7      ";
    const uint8_t *first = (const uint8_t *)names;
    expect("places", SB_MARKS * SB_PLACE_BYTES, SB_STORE_BYTES);
    for (uint32_t i = 0; i < SB_MARKS; i++) expect("mark", mark(names + SB_NAME_BYTES * i), SB_OK);
    expect("ninth name", mark("M8      "), SB_MARKS_FULL);
    expect("name again", mark("M7      "), SB_OK);
    expect("name of 7 bytes", sb_mark_set(SB_RADIOS, TABLES, first, 7, store, sizeof store), SB_MARK);
    expect("lower case", mark("m8      "), SB_MARK);
    expect("short store", sb_mark_set(SB_RADIOS, TABLES, first, SB_NAME_BYTES, store, sizeof store - 1), SB_LENGTH);
    expect("removed", sb_mark_remove(SB_RADIOS, TABLES, first, SB_NAME_BYTES, store, sizeof store), SB_OK);
    expect("removed again", sb_mark_remove(SB_RADIOS, TABLES, first, SB_NAME_BYTES, store, sizeof store), SB_NO_MARK);
    expect("moved down", memcmp(store, "M1      ", SB_NAME_BYTES), 0);
    expect("cleared", sb_clear(SB_RADIOS, TABLES), SB_OK);
    expect("no such mark", sb_mark_return(SB_RADIOS, TABLES, first, SB_NAME_BYTES, store, sizeof store), SB_NO_MARK);
    expect("come back", sb_mark_return(SB_RADIOS, TABLES, first + 8, SB_NAME_BYTES, store, sizeof store), SB_OK);
    expect("neighbours again", sb_neighbours(SB_RADIOS, 0, TABLES).value, SB_NEIGHBOURS);
    store[0] = ' ';
    expect("spoiled", sb_mark_return(SB_RADIOS, TABLES, first + 16, SB_NAME_BYTES, store, sizeof store), SB_MARK);
}

int main(void) {
    print_words();
    test_structs();
    test_lengths();
    test_site();
    test_limits();
    test_later();
    test_lift();
    test_batch();
    test_heard();
    test_proposals();
    test_refusals();
    test_tree();
    test_sheet();
    test_script();
    test_staircase();
    test_marks();
    test_images();
    return failures != 0;
}

/*
 * A host of 100,000 link calls, with batches, hearings, images, marks and all questions between them, each held against the model. It
 * prints what it did and a digest over every answer, which is the same wherever the engine answers the same.
 */
#include "host.h"
#include "../board.h"

uint32_t n, failures;
uint8_t links[SB_LINKS_FOR(SB_RADIOS)], numbers[SB_RADIOS], heard[SB_LINKS_FOR(SB_RADIOS)], one_sided[SB_LINKS_FOR(SB_RADIOS)];
uint16_t order[SB_RADIOS], answer[SB_RADIOS + 8], table[SB_STAIRCASE_FOR(SB_RADIOS) + 8];
sb_node nodes[SB_NODES_FOR(SB_RADIOS) + 8];
uint8_t page[SB_PAGE_FOR(SB_RADIOS) + 8], text[SB_SCRIPT_BYTES + 8], image[SB_IMAGE_BYTES + 8], store[SB_STORE_BYTES];
model now;

static uint32_t link_calls, by_number[SB_NO_LIFT + 1];
static change changed;
static uint8_t expected[SB_SCRIPT_BYTES];
static uint16_t radios[2 * SB_RADIOS];

void wanted(bool holds, const char *file, int line) {
    if (holds || failures++ >= 20) return;
    say("does not hold: "), say(file), say(":"), say_number((uint32_t)line);
    say(", radios "), say_number(n), say(", link call "), say_number(link_calls), say("\n");
}

void answered(uint32_t number, uint32_t right) {
    want(number == right);
    if (number <= SB_NO_LIFT) by_number[number]++;
    mix32(number);
}

/* ---- the tables against the model */

static void same_row(uint32_t a) {
    uint8_t row[SB_ROW_BYTES];
    if (a < n) want(model_row(&now, a, row) > 0 && memcmp(row, links + SB_LINKS_FOR(a), sizeof row) == 0);
}

void same_rows(uint32_t a, uint32_t b) {
    same_row(a), same_row(b);
    want(memcmp(numbers, now.number, n) == 0 && memcmp(order, now.order, n * sizeof *order) == 0);
}

void same_tables(void) {
    for (uint32_t a = 0; a < n; a++) same_rows(a, a);
    want(sb_check(n, TABLES).value == 1);
    mix(links, SB_LINKS_FOR(n)), mix(numbers, n), mix16s(order, n);
}

/* ---- link calls */

/* The answer table is filled before a call; what is past the answer must be kept. */
static void fill_answer(void) {
    memset(answer, 0x5a, sizeof answer);
}

static void listed(const uint16_t *list, uint32_t count) {
    want(memcmp(answer, list, count * sizeof *answer) == 0);
    for (uint32_t i = count; i < n + 8; i++) want(answer[i] == 0x5a5a);
    mix16s(answer, count);
}

static void same_reply(sb_reply r, uint32_t right) {
    answered(r.number, right);
    want(r.step == changed.step && r.count == changed.count);
    mix32((uint32_t)r.step), mix32(r.count);
}

/* A proposal that is not what asking gives: another step, another length, another entry. */
static void wrong_proposal(uint32_t a, uint32_t b, bool up, sb_reply asked) {
    uint32_t way = below(4), count = asked.count, other = 1 + below(600);
    int8_t step = asked.step;
    if (way == 0) step = (int8_t)(step == 0 ? 1 : 0);
    if (way == 1) radios[count++] = (uint16_t)below(n + 3);
    if (way == 2 && count > 0) count--;
    if (way == 3 && count > 0) radios[below(count)] ^= (uint16_t)other;
    if (way >= 2 && asked.count == 0) step = (int8_t)(up ? 1 : -1);
    sb_reply r = up ? sb_commit_up(n, a, b, step, TABLES, radios, count) : sb_commit_down(n, a, b, step, TABLES, radios, count);
    answered(r.number, SB_PROPOSAL), want(r.step == 0 && r.count == 0);
    same_rows(a, b);
}

/* Asks, and commits what was answered; the model has not taken the link yet. */
static sb_reply in_two_steps(uint32_t a, uint32_t b, bool up, uint32_t right) {
    sb_reply asked = up ? sb_ask_up(n, a, b, TABLES, answer, n + 8) : sb_ask_down(n, a, b, TABLES, answer, n + 8);
    want(asked.number == right), same_rows(a, b);
    memcpy(radios, answer, n * sizeof *answer);
    if (right == SB_OK && below(3) == 0) wrong_proposal(a, b, up, asked);
    memcpy(radios, answer, n * sizeof *answer);
    sb_reply r = up ? sb_commit_up(n, a, b, asked.step, TABLES, radios, asked.count) : sb_commit_down(n, a, b, asked.step, TABLES, radios, asked.count);
    want(r.step == asked.step && r.count == asked.count);
    return r;
}

/* The ends of a call: mostly a link that is down, or one that is up; now and then a full radio, the same radio twice, or none. */
static void choose(uint32_t *a, uint32_t *b, bool up) {
    *a = below(8) == 0 ? below(n < 3 ? n : 3) : below(n), *b = below(n);
    if (!up && now.degree[*a] > 0 && below(16) > 0) *b = now.near[*a][below(now.degree[*a])];
    if (below(64) == 0) *b = *a;
    uint32_t none = n + below(3), whether = below(128);
    if (whether == 0) *a = none;
    if (whether == 1) *b = none;
}

static void one_link(uint32_t goal) {
    uint32_t a, b;
    bool up = below(100) < (model_links(&now) < goal ? 64u : 44u);
    choose(&a, &b, up);
    uint32_t right = model_refuses(&now, a, b, up);
    bool two_steps = below(4) == 0;
    fill_answer();
    sb_reply r;
    if (two_steps) r = in_two_steps(a, b, up, right);
    else r = up ? sb_link_up(n, a, b, TABLES, answer, n + 8) : sb_link_down(n, a, b, TABLES, answer, n + 8);
    changed.step = 0, changed.count = 0;
    if (right == SB_OK) model_link(&now, a, b, up, &changed);
    same_reply(r, right), listed(changed.radios, changed.count), same_rows(a, b);
    link_calls++;
}

/* ---- many links at once */

static void batch(void) {
    uint32_t count = below(30), done = 0, right = SB_OK;
    for (uint32_t i = 0; i < 2 * count; i++) radios[i] = (uint16_t)below(n + (below(200) == 0));
    sb_value odd = sb_link_batch(n, TABLES, radios, 2 * count + 1), r = sb_link_batch(n, TABLES, radios, 2 * count);
    for (; done < count; done++) {
        right = model_refuses(&now, radios[2 * done], radios[2 * done + 1], true);
        if (right != SB_OK) break;
        model_link(&now, radios[2 * done], radios[2 * done + 1], true, &changed);
    }
    answered(odd.number, SB_LENGTH), want(odd.value == 0);
    answered(r.number, right), want(r.value == done), mix32(r.value);
    same_tables();
}

static bool hears(uint32_t a, uint32_t b) {
    return heard[SB_LINKS_FOR(a) + b / 8] >> b % 8 & 1;
}

static void turn(uint32_t a, uint32_t b) {
    heard[SB_LINKS_FOR(a) + b / 8] = (uint8_t)(heard[SB_LINKS_FOR(a) + b / 8] ^ 1u << b % 8);
}

/* What a heard table is refused by: 14, then 7; and its pairs of which one end alone hears. */
static uint32_t judge_heard(uint32_t *pairs) {
    uint32_t right = SB_OK;
    *pairs = 0;
    for (uint32_t a = 0; a < n; a++) {
        uint32_t agreed = 0;
        for (uint32_t b = 0; b < SB_RADIOS; b++) {
            if (!hears(a, b)) continue;
            if (b == a || b >= n) return SB_HEARD;
            if (hears(b, a)) agreed++;
            else ++*pairs;
        }
        if (agreed > SB_NEIGHBOURS) right = SB_NO_ROOM;
    }
    return right;
}

/* The agreed links that are down come up, or the others go down; pairs of which one end alone hears are marked. */
static void hear_links(bool up) {
    for (uint32_t a = 0; a < n; a++)
        for (uint32_t b = a + 1; b < n; b++) {
            bool agreed = hears(a, b) && hears(b, a);
            if (agreed == up && model_linked(&now, a, b) != up) model_link(&now, a, b, up, &changed);
            bool marked = one_sided[SB_LINKS_FOR(a) + b / 8] >> b % 8 & 1, back = one_sided[SB_LINKS_FOR(b) + a / 8] >> a % 8 & 1;
            want(marked == (hears(a, b) && !hears(b, a)) && back == (hears(b, a) && !hears(a, b)));
        }
}

static void change_heard(uint32_t way) {
    memcpy(heard, links, sizeof heard);
    for (uint32_t i = 0, a, b; i < 12; i++) {
        a = below(n), b = below(n);
        if (a == b) continue;
        turn(a, b);
        if (below(3) > 0) turn(b, a);
    }
    uint32_t last = below(n);
    if (way == 0) turn(last, below(SB_RADIOS));
    for (uint32_t b = 1; way == 1 && b < n && b < 60; b++)
        for (uint32_t i = 0; i < 2; i++)
            if (!hears(i == 0 ? 0 : b, i == 0 ? b : 0)) turn(i == 0 ? 0 : b, i == 0 ? b : 0);
}

static void hearing(void) {
    uint32_t pairs;
    change_heard(below(5));
    uint32_t right = judge_heard(&pairs);
    memset(one_sided, 0x5a, sizeof one_sided);
    sb_value r = sb_hear(n, TABLES, heard, SB_LINKS_FOR(n), one_sided, SB_LINKS_FOR(n));
    answered(r.number, right), want(r.value == (right == SB_OK ? pairs : 0)), mix32(r.value);
    if (right == SB_OK) hear_links(false), hear_links(true), mix(one_sided, SB_LINKS_FOR(n));
    else want(one_sided[0] == 0x5a && one_sided[SB_LINKS_FOR(n) - 1] == 0x5a);
    want(n == SB_RADIOS || one_sided[SB_LINKS_FOR(n)] == 0x5a);
    same_tables();
}

/* ---- texts and images */

static void same_text(sb_value r, const uint8_t *written, uint32_t length) {
    answered(r.number, SB_OK), want(r.value == length);
    want(memcmp(written, expected, length) == 0 && written[length] == 0x5a);
    mix(written, length);
}

static void texts(void) {
    memset(page, 0x5a, sizeof page), memset(text, 0x5a, sizeof text);
    uint32_t sheet = model_sheet(&now, expected);
    want(sheet == SB_PAGE_FOR(n));
    answered(sb_sheet(n, TABLES, page, sheet - 1).number, SB_PAGE), want(page[0] == 0x5a);
    same_text(sb_sheet(n, TABLES, page, sizeof page), page, sheet);
    uint32_t script = model_script(&now, expected);
    want(script <= SB_SCRIPT_FOR(n) && sb_script_length(n, TABLES).value == script);
    answered(sb_script_write(n, TABLES, text, script - 1).number, SB_TEXT), want(text[0] == 0x5a);
    same_text(sb_script_write(n, TABLES, text, sizeof text), text, script);
}

static void blocks(uint32_t length) {
    uint32_t count = length / SB_BLOCK_BYTES;
    for (uint32_t i = 0; i <= count; i++) {
        sb_block b = sb_image_block(image, length, i);
        want(b.number == SB_OK && b.end == (i == count) && b.next == i + (i < count));
        want(b.offset == (i < count ? SB_BLOCK_BYTES * i + 4 : 0) && b.length == (i < count ? SB_PAYLOAD_BYTES : 0));
    }
    sb_block far = sb_image_block(image, length, 1000000);
    want(far.number == SB_OK && far.end == 1 && far.length == 0 && far.next == 1000000);
}

/* Two entries of a block, or two links, change places; now and then a bit is turned too. The blocks get their checks anew. */
static void damage(uint32_t length) {
    uint8_t *block = image + SB_BLOCK_BYTES * below(length / SB_BLOCK_BYTES);
    uint32_t width = below(2) == 0 ? 2 : 4, near = 4 + width * below(4), far = 4 + width * below(below(2) == 0 ? 8 : SB_PAYLOAD_BYTES / width);
    for (uint32_t i = 0; i < width; i++) {
        uint8_t byte = block[far + i];
        block[far + i] = block[near + i], block[near + i] = byte;
    }
    uint32_t at = below(508), bit = below(8);
    if (below(4) == 0) block[at] ^= (uint8_t)(1u << bit);
    for (uint32_t i = 0; i < length; i += SB_BLOCK_BYTES) model_seal(image + i);
}

/* Reads bytes whose checks are right; the model says whether they are an image, and of how many radios. */
static void read_damaged(uint32_t length) {
    static model read;
    damage(length);
    bool good = model_read(&read, image, length);
    answered(sb_image_read(n, TABLES, image, length), !good ? SB_IMAGE : read.n == n ? SB_OK : SB_OTHER_SIZE);
    if (good && read.n == n) now = read;
    same_tables();
}

static void images(void) {
    memset(image, 0x5a, sizeof image);
    uint32_t length = model_image(&now, expected);
    want(length <= SB_IMAGE_FOR(n));
    answered(sb_image_write(n, TABLES, image, length - 1).number, SB_IMAGE_SIZE), want(image[0] == 0x5a);
    same_text(sb_image_write(n, TABLES, image, sizeof image), image, length);
    blocks(length);
    memset(links, 0xee, sizeof links), memset(numbers, 0xee, sizeof numbers), memset(order, 0xee, sizeof order);
    answered(sb_image_read(n, TABLES, image, length), SB_OK), same_tables();
    uint32_t other = n % SB_RADIOS + 1, at = below(length);
    answered(sb_image_read(other, links, SB_LINKS_FOR(other), numbers, other, order, other, image, length), SB_OTHER_SIZE);
    answered(sb_image_read(n, TABLES, image, length - 1), SB_IMAGE_SIZE), answered(sb_image_read(n, TABLES, image, 0), SB_IMAGE_SIZE);
    answered(sb_image_block(image, length - 1, 0).number, SB_IMAGE_SIZE);
    image[at] ^= (uint8_t)(1u << below(8));
    answered(sb_image_read(n, TABLES, image, length), SB_IMAGE_CHECK), answered(sb_image_block(image, length, 7).number, SB_IMAGE_CHECK);
    same_tables();
    for (uint32_t i = 0; i < 8; i++) memcpy(image, expected, length), read_damaged(length);
}

/* ---- questions */

static void about_radios(uint32_t v, uint32_t w) {
    uint32_t pv = model_place(&now, v), pw = model_place(&now, w), count = 0, first = SB_NOBODY;
    want(sb_number(n, v, TABLES).value == now.number[v] && sb_neighbours(n, v, TABLES).value == now.degree[v]);
    want(sb_linked(n, v, w, TABLES).value == model_linked(&now, v, w) && sb_linked(n, v, v, TABLES).value == 0);
    want(sb_first(n, v, w, TABLES).value == (pv <= pw ? v : w));
    for (uint32_t i = n; i-- > pv + 1;)
        if (model_linked(&now, v, now.order[i])) count++, first = now.order[i];
    sb_later l = sb_later_of(n, v, TABLES);
    answered(l.number, SB_OK), want(l.count == count && l.first == first && count <= now.number[v]);
}

/* The pair must be the first that lifts: of a small site every pair before it is tried, of a large one a few. */
static void lift(uint32_t v) {
    sb_pair p = sb_lift(n, v, TABLES);
    bool none = p.number == SB_NO_LIFT;
    if (none) p.low = n, p.high = n;
    else want(p.low < p.high && model_lifts(&now, v, p.low, p.high));
    answered(p.number, none ? SB_NO_LIFT : SB_OK), mix32(p.low), mix32(p.high);
    for (uint32_t i = 0; n > 40 && i < 20; i++) {
        uint32_t a = below(n), b = below(n);
        if (a < b && (a < p.low || (a == p.low && b < p.high))) want(!model_lifts(&now, v, a, b));
    }
    for (uint32_t a = 0; n <= 40 && a <= p.low && a < n; a++)
        for (uint32_t b = a + 1; b < n && (a < p.low || b < p.high); b++) want(!model_lifts(&now, v, a, b));
}

static void cores(uint32_t v) {
    uint32_t k = below(now.number[v] + 1u), count = model_core(&now, v, k, radios);
    fill_answer();
    sb_value r = sb_core(n, v, k, TABLES, answer, n + 8);
    answered(r.number, SB_OK), want(r.value == count), listed(radios, count);
    fill_answer();
    answered(sb_core(n, v, now.number[v] + 1u, TABLES, answer, n).number, SB_LEVEL), listed(radios, 0);
    count = model_backbone(&now, radios);
    r = sb_backbone(n, TABLES, answer, n + 8);
    answered(r.number, SB_OK), want(r.value == count), listed(radios, count);
}

static void trees(void) {
    static sb_node right[SB_NODES_FOR(SB_RADIOS)];
    uint32_t count = model_tree(&now, right, radios);
    fill_answer(), memset(nodes, 0x5a, sizeof nodes);
    sb_value r = sb_tree(n, TABLES, nodes, SB_NODES_FOR(n) + 7, answer, n + 8);
    answered(r.number, SB_OK), want(r.value == count && memcmp(nodes, right, count * sizeof *nodes) == 0);
    want(nodes[count].name == 0x5a5a), listed(radios, n);
    for (uint32_t i = 0; i < count; i++) mix32(nodes[i].name), mix32(nodes[i].level), mix32(nodes[i].parent);
    count = model_staircase(&now, radios);
    memset(table, 0x5a, sizeof table);
    r = sb_staircase(n, TABLES, table, SB_STAIRCASE_FOR(n) + 8);
    answered(r.number, SB_OK), want(r.value == count && memcmp(table, radios, 2 * count * sizeof *table) == 0);
    want(table[2 * count] == 0x5a5a), mix16s(table, 2 * count);
}

static void questions(void) {
    uint32_t v = below(n), w = below(n);
    about_radios(v, w), cores(below(n)), trees(), lift(below(n)), texts();
    same_tables();
}

/* ---- a site from its clearing on */

static void clear(uint32_t size) {
    n = size;
    memset(links, 0xee, sizeof links), memset(numbers, 0xee, sizeof numbers), memset(order, 0xee, sizeof order);
    answered(sb_clear(n, TABLES), SB_OK), model_clear(&now, n), same_tables();
    want(n == SB_RADIOS || links[SB_LINKS_FOR(n)] == 0xee);
}

/* Every `often` calls something else comes between. */
static void keep(uint32_t size, uint32_t goal, uint32_t calls, uint32_t often) {
    clear(size), marks_anew();
    for (uint32_t i = 1; i <= calls; i++) {
        one_link(goal);
        if (i % often == 0) batch();
        if (i % often == often / 5) hearing();
        if (i % often == 2 * often / 5) images();
        if (i % often == 3 * often / 5) marks();
        if (i % often == 4 * often / 5) questions();
    }
    refusals(), nothing_lent();
}

#ifndef SHARE
#define SHARE 1 /* 10: a tenth of the calls, in which some refusals may be missing */
#endif

int main(void) {
    keep(1, 0, 100 / SHARE, 10), keep(2, 1, 400 / SHARE, 40), keep(7, 14, 4500 / SHARE, 100), keep(33, 160, 15000 / SHARE, 250);
    keep(65, 700, 20000 / SHARE, 500), keep(129, 256, 30000 / SHARE, 1000), keep(253, 1000, 15000 / SHARE, 1500);
    keep(SB_RADIOS, 2500, 15000 / SHARE, 1500);
    say("link calls "), say_number(link_calls), say("; by refusal number");
    for (uint32_t i = 0; i <= SB_NO_LIFT; i++) say(" "), say_number(by_number[i]), failures += SHARE == 1 && by_number[i] == 0;
    say("\ndigest "), say_digest(), say("\n");
    return failures > 0;
}

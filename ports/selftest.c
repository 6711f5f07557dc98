/*
 * A test of a port, small enough for a board: 7 KB of tables and the engine's stack. It makes every call of the engine on a site of 32
 * radios and prints one digest over all answers and tables, which is the same wherever the engine answers the same.
 *
 * Compile it with say.c, the engine, and a function `void put(char c)` of your own that prints a character (board.h). It needs no C library
 * but memcpy, memset and, by some compilers, memmove; board/memory.c has them. `main` gives 0 where the digest is the right one.
 */
#include "say.h"
#include "summerbugle_site.h"

/* docs/PORTS.md names it. */
#define RIGHT 0xf9a7b6d4242a705du

enum { RADIOS = 32, ROOM = 2 * SB_LINKS_FOR(RADIOS) };
SB_SITE(hub, RADIOS);
static uint16_t answer[SB_ANSWER_FOR(RADIOS)];
/* Lent for one call at a time. */
static union {
    uint8_t bytes[ROOM];
    sb_node nodes[SB_NODES_FOR(RADIOS)];
    uint16_t table[SB_STAIRCASE_FOR(RADIOS)];
} room;

static void mix_value(sb_value r) {
    mix32(r.number), mix32(r.value);
}

static void mix_reply(sb_reply r) {
    mix32(r.number), mix32((uint32_t)r.step), mix32(r.count), mix16s(answer, r.count);
}

static void mix_tables(void) {
    mix(hub.links, SB_LINKS_FOR(RADIOS)), mix(hub.numbers, RADIOS), mix16s(hub.order, RADIOS);
}

/* Two in three calls go up; one in four is asked and committed. */
static void one_link(void) {
    uint32_t a = below(RADIOS + 1), b = below(RADIOS);
    int up = below(3) > 0;
    if (below(4) > 0) {
        mix_reply(up ? sb_site_link_up(&hub, a, b, answer) : sb_site_link_down(&hub, a, b, answer));
        return;
    }
    sb_reply r = up ? sb_site_ask_up(&hub, a, b, answer) : sb_site_ask_down(&hub, a, b, answer);
    mix_reply(r);
    mix_reply(up ? sb_site_commit_up(&hub, a, b, r.step, answer, r.count) : sb_site_commit_down(&hub, a, b, r.step, answer, r.count));
}

static void many_links(void) {
    uint16_t list[8];
    uint8_t *heard = room.bytes, *one_sided = room.bytes + SB_LINKS_FOR(RADIOS);
    for (int i = 0; i < 8; i++) list[i] = (uint16_t)below(RADIOS);
    mix_value(sb_site_link_batch(&hub, list, 8));
    for (uint32_t i = 0; i < SB_LINKS_FOR(RADIOS); i++) heard[i] = hub.links[i];
    for (uint32_t i = 0, a, b; i < 9; i++) {
        a = below(RADIOS), b = below(RADIOS);
        if (a != b) heard[SB_LINKS_FOR(a) + b / 8] ^= (uint8_t)(1u << b % 8);
    }
    mix_value(sb_site_hear(&hub, heard, one_sided)), mix(one_sided, SB_LINKS_FOR(RADIOS));
}

static void about_radio(uint32_t v, uint32_t w) {
    mix_value(sb_site_number(&hub, v)), mix_value(sb_site_neighbours(&hub, v));
    mix_value(sb_site_linked(&hub, v, w)), mix_value(sb_site_first(&hub, v, w));
    sb_later later = sb_site_later_of(&hub, v);
    mix32(later.number), mix32(later.count), mix32(later.first);
    sb_pair pair = sb_site_lift(&hub, v);
    mix32(pair.number), mix32(pair.low), mix32(pair.high);
    sb_value core = sb_site_core(&hub, v, w % 4, answer);
    mix_value(core), mix16s(answer, core.value);
}

static void about_site(void) {
    sb_value r = sb_site_backbone(&hub, answer);
    mix_value(r), mix16s(answer, r.value);
    r = sb_site_tree(&hub, room.nodes, answer), mix_value(r), mix16s(answer, RADIOS);
    for (uint32_t i = 0; i < r.value; i++) mix32(room.nodes[i].name), mix32(room.nodes[i].level), mix32(room.nodes[i].parent);
    r = sb_site_staircase(&hub, room.table), mix_value(r), mix16s(room.table, 2 * r.value);
    r = sb_site_sheet(&hub, room.bytes, ROOM), mix_value(r), mix(room.bytes, r.value);
    mix_value(sb_site_script_length(&hub));
    r = sb_site_script_write(&hub, room.bytes, ROOM), mix_value(r), mix(room.bytes, r.value);
}

/* An image written, stepped through, read back, and refused with a byte spoiled. */
static void one_image(void) {
    sb_value r = sb_site_image_write(&hub, room.bytes, ROOM);
    mix_value(r), mix(room.bytes, r.value);
    for (size_t next = 0; next < 9;) {
        sb_block block = sb_image_block(room.bytes, r.value, next);
        mix32(block.number), mix32(block.end), mix32((uint32_t)block.offset), mix32((uint32_t)block.length), mix32((uint32_t)block.next);
        next = block.end != 0 || block.number != SB_OK ? 9 : block.next;
    }
    mix32(sb_site_clear(&hub)), mix32(sb_site_image_read(&hub, room.bytes, r.value)), mix_tables();
    room.bytes[below(r.value + 1)] ^= 4;
    mix32(sb_site_image_read(&hub, room.bytes, r.value));
}

/* A store of marks is 344 KB, which few boards have: the calls are made with a shorter one, and refused. */
static void no_marks(void) {
    const uint8_t *name = (const uint8_t *)"HUB     ";
    mix32(sb_mark_set(hub.n, SB_SITE_TABLES(&hub), name, SB_NAME_BYTES, room.bytes, ROOM));
    mix32(sb_mark_remove(hub.n, SB_SITE_TABLES(&hub), name, SB_NAME_BYTES, room.bytes, ROOM));
    mix32(sb_mark_return(hub.n, SB_SITE_TABLES(&hub), name, SB_NAME_BYTES, room.bytes, ROOM));
}

int main(void) {
    mix32(sb_site_clear(&hub));
    for (int i = 1; i <= 600; i++) {
        one_link();
        if (i % 50 > 0) continue;
        uint32_t v = below(RADIOS), w = below(RADIOS);
        many_links(), about_radio(v, w), about_site(), one_image();
        mix_value(sb_site_check(&hub)), mix_tables();
    }
    no_marks();
    say_digest(), say(digest_now() == RIGHT ? " right\n" : " WRONG\n");
    return digest_now() != RIGHT;
}

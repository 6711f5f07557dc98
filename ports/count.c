/*
 * Counts the instructions of each call on a Cortex-M4, and how much stack it takes, at 16 to 512 radios with two links a radio. It runs on
 * the board mps2-an386 of the emulator with `-icount shift=6`: an instruction takes 64 ns, and the board's timer, at 25 MHz, tells how many
 * there were. A line of output is a call, the radios, the instructions and the bytes of stack. Link calls are the mean of 64.
 */
#include "board.h"
#include "say.h"
#include "summerbugle_site.h"

#define TIMER ((volatile uint32_t *)0x40000000)
enum { DEEP = 16384, TURNS = 64, CONTROL = 0, VALUE = 1, RELOAD = 2 };

static uint8_t links[SB_LINKS_FOR(SB_RADIOS)], numbers[SB_RADIOS], heard[SB_LINKS_FOR(SB_RADIOS)], one_sided[SB_LINKS_FOR(SB_RADIOS)];
static uint16_t order[SB_RADIOS], answer[SB_RADIOS], table[SB_STAIRCASE_FOR(SB_RADIOS)];
static sb_node nodes[SB_NODES_FOR(SB_RADIOS)];
static uint8_t page[SB_PAGE_FOR(SB_RADIOS)], text[SB_SCRIPT_BYTES], image[SB_IMAGE_BYTES], store[SB_STORE_BYTES];
static sb_site hub = {SB_RADIOS, links, numbers, order};
static uint32_t began, nothing, spent, deepest;
static volatile uint8_t *top;

/* Paints the stack below the caller's, and starts the clock. */
__attribute__((noinline)) static void begin(volatile uint8_t *sp) {
    top = sp;
    for (uint32_t i = 64; i < DEEP; i++) sp[-(int)i] = 0xa5;
    began = TIMER[VALUE];
}

/* Stops the clock, and looks for the lowest byte of the stack that was written. */
__attribute__((noinline)) static void end(void) {
    uint32_t ticks = began - TIMER[VALUE], depth = DEEP - 1;
    while (depth > 64 && top[-(int)depth] == 0xa5) depth--;
    spent = (uint32_t)((uint64_t)ticks * 25 / 40) - nothing;
    if (depth > deepest) deepest = depth;
}

static inline __attribute__((always_inline)) volatile uint8_t *stack(void) {
    volatile uint8_t *sp;
    __asm__ volatile("mov %0, sp" : "=r"(sp));
    return sp;
}

#define COUNT(expression) (begin(stack()), (void)(expression), end())

static void tell(const char *call, uint32_t instructions) {
    say(call), say(" "), say_number(hub.n), say(" "), say_number(instructions), say(" "), say_number(deepest), say("\n");
    deepest = 0;
}

#define ONE(call, expression) (COUNT(expression), tell(call, spent))

/* A link that is down goes up, or one that is up down, in one call or in two, and back again: four kinds of calls a turn. */
enum { UP, DOWN, ASK_UP, ASK_DOWN, COMMIT_UP, COMMIT_DOWN, KINDS };
static const char *const kinds[KINDS] = {"link_up", "link_down", "ask_up", "ask_down", "commit_up", "commit_down"};
static uint32_t depths[KINDS];
static uint64_t sums[KINDS];

static void add(uint32_t kind) {
    sums[kind] += spent;
    if (deepest > depths[kind]) depths[kind] = deepest;
    deepest = 0;
}

static void one_turn(uint32_t a, uint32_t b) {
    sb_reply r;
    COUNT(sb_site_link_up(&hub, a, b, answer)), add(UP);
    COUNT(r = sb_site_ask_down(&hub, a, b, answer)), add(ASK_DOWN);
    COUNT(sb_site_commit_down(&hub, a, b, r.step, answer, r.count)), add(COMMIT_DOWN);
    COUNT(r = sb_site_ask_up(&hub, a, b, answer)), add(ASK_UP);
    COUNT(sb_site_commit_up(&hub, a, b, r.step, answer, r.count)), add(COMMIT_UP);
    COUNT(sb_site_link_down(&hub, a, b, answer)), add(DOWN);
}

static void link_calls(void) {
    for (uint32_t kind = 0; kind < KINDS; kind++) sums[kind] = depths[kind] = 0;
    for (uint32_t turn = 0; turn < TURNS;) {
        uint32_t a = below(hub.n), b = below(hub.n);
        if (a == b || sb_site_linked(&hub, a, b).value == 1) continue;
        one_turn(a, b), turn++;
    }
    for (uint32_t kind = 0; kind < KINDS; kind++) deepest = depths[kind], tell(kinds[kind], (uint32_t)(sums[kind] / TURNS));
}

/* The search for a link that lifts a radio hangs on the radio: the most of four. */
static void lift(void) {
    uint32_t most = 0;
    for (uint32_t i = 0; i < 4; i++) {
        uint32_t v = below(hub.n);
        COUNT(sb_site_lift(&hub, v));
        if (spent > most) most = spent;
    }
    tell("lift", most);
}

/* Twenty links go up in a batch; a hearing takes them down again. */
static void many_links(void) {
    uint16_t list[40];
    for (uint32_t i = 0; i < sizeof links; i++) heard[i] = links[i];
    for (uint32_t count = 0; count < 20;) {
        uint32_t a = below(hub.n), b = below(hub.n);
        if (sb_site_link_up(&hub, a, b, answer).number == SB_OK) list[2 * count] = (uint16_t)a, list[2 * count++ + 1] = (uint16_t)b;
    }
    sb_site_hear(&hub, heard, one_sided);
    ONE("link_batch", sb_site_link_batch(&hub, list, 40));
    ONE("hear", sb_site_hear(&hub, heard, one_sided));
}

static void questions(void) {
    uint32_t v = below(hub.n), w = below(hub.n);
    ONE("check", sb_site_check(&hub)), ONE("number", sb_site_number(&hub, v)), ONE("neighbours", sb_site_neighbours(&hub, v));
    ONE("linked", sb_site_linked(&hub, v, w)), ONE("first", sb_site_first(&hub, v, w)), ONE("later_of", sb_site_later_of(&hub, v));
    ONE("core", sb_site_core(&hub, v, 0, answer)), ONE("backbone", sb_site_backbone(&hub, answer));
    ONE("tree", sb_site_tree(&hub, nodes, answer)), ONE("staircase", sb_site_staircase(&hub, table));
    ONE("sheet", sb_site_sheet(&hub, page, sizeof page)), ONE("script_length", sb_site_script_length(&hub));
    ONE("script_write", sb_site_script_write(&hub, text, sizeof text));
}

static void images(void) {
    const uint8_t *name = (const uint8_t *)"HUB     ";
    uint32_t length = sb_site_image_write(&hub, image, sizeof image).value;
    ONE("image_write", sb_site_image_write(&hub, image, sizeof image)), ONE("image_read", sb_site_image_read(&hub, image, length));
    ONE("image_block", sb_image_block(image, length, 0));
    ONE("mark_set", sb_site_mark_set(&hub, name, store)), ONE("mark_return", sb_site_mark_return(&hub, name, store));
    ONE("mark_remove", sb_site_mark_remove(&hub, name, store));
}

int main(void) {
    static const uint32_t sizes[] = {16, 64, 128, 256, 512};
    TIMER[RELOAD] = 0xffffffff, TIMER[VALUE] = 0xffffffff, TIMER[CONTROL] = 1;
    COUNT(0), nothing = spent, deepest = 0;
    for (uint32_t i = 0; i < 5; i++) {
        hub.n = sizes[i];
        ONE("clear", sb_site_clear(&hub));
        for (uint32_t up = 0; up < 2 * hub.n;) {
            uint32_t a = below(hub.n);
            up += sb_site_link_up(&hub, a, below(hub.n), answer).number == SB_OK;
        }
        link_calls(), many_links(), questions(), lift(), images();
    }
    return 0;
}

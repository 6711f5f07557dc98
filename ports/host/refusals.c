/* Every call refused by each question that concerns it, also where a later question would get "no" too; what is lent keeps its content. */
#include "host.h"
#include "../board.h"

enum kind { LINKS, NUMBERS, ORDER, ANSWER, LIST, HEARD, ONE_SIDED, NODES, TABLE, PAGE, TEXT, IMAGE, NAME, STORE, KINDS };
#define BIT(kind) (1u << (kind))
#define SITE (BIT(LINKS) | BIT(NUMBERS) | BIT(ORDER))
/* Tables whose length is question 2's, and of these the ones that may not be longer. */
#define MEASURED (SITE | BIT(ANSWER) | BIT(HEARD) | BIT(ONE_SIDED) | BIT(NODES) | BIT(TABLE) | BIT(STORE))
#define EXACT (SITE | BIT(HEARD) | BIT(ONE_SIDED) | BIT(STORE))

enum call {
    CLEAR, CHECK, LINK_UP, LINK_DOWN, LINK_BATCH, HEAR, ASK_UP, ASK_DOWN, COMMIT_UP, COMMIT_DOWN, NUMBER, NEIGHBOURS, LINKED, FIRST, LATER_OF,
    LIFT, CORE, BACKBONE, TREE, SHEET, SCRIPT_LENGTH, SCRIPT_WRITE, STAIRCASE, IMAGE_WRITE, IMAGE_READ, MARK_SET, MARK_REMOVE, MARK_RETURN, CALLS
};
/* The tables of each call; whether tables must be sound; how many radios it names. */
static const struct { uint32_t tables; bool sound; uint32_t radios; } calls[CALLS] = {
    {SITE, false, 0}, {SITE, false, 0}, {SITE | BIT(ANSWER), true, 2}, {SITE | BIT(ANSWER), true, 2}, {SITE | BIT(LIST), true, 0},
    {SITE | BIT(HEARD) | BIT(ONE_SIDED), true, 0}, {SITE | BIT(ANSWER), true, 2}, {SITE | BIT(ANSWER), true, 2}, {SITE | BIT(LIST), true, 2},
    {SITE | BIT(LIST), true, 2}, {SITE, true, 1}, {SITE, true, 1}, {SITE, true, 2}, {SITE, true, 2}, {SITE, true, 1}, {SITE, true, 1},
    {SITE | BIT(ANSWER), true, 1}, {SITE | BIT(ANSWER), true, 0}, {SITE | BIT(NODES) | BIT(ANSWER), true, 0}, {SITE | BIT(PAGE), true, 0},
    {SITE, true, 0}, {SITE | BIT(TEXT), true, 0}, {SITE | BIT(TABLE), true, 0}, {SITE | BIT(IMAGE), true, 0}, {SITE | BIT(IMAGE), false, 0},
    {SITE | BIT(NAME) | BIT(STORE), true, 0}, {SITE | BIT(NAME) | BIT(STORE), true, 0}, {SITE | BIT(NAME) | BIT(STORE), true, 0},
};

/* What a call is given beside the tables: a count of radios, two radios, and each table's length and place. */
typedef struct {
    uint32_t n, a, b;
    size_t length[KINDS];
    void *at[KINDS];
} given;
/* What it answers: its number, and whatever must be 0 on a refusal. */
typedef struct { uint32_t number, rest; } outcome;
static uint8_t name[SB_NAME_BYTES] = "HUB     ";
static uint16_t list[2] = {0, 1};
static const size_t width[KINDS] = {1, 1, 2, 2, 2, 1, 1, sizeof(sb_node), 2, 1, 1, 1, 1, 1};

static given all_right(void) {
    return (given){n, n - 1, 0,
        {SB_LINKS_FOR(n), n, n, n, 2, SB_LINKS_FOR(n), SB_LINKS_FOR(n), SB_NODES_FOR(n), SB_STAIRCASE_FOR(n), SB_PAGE_FOR(n), SB_SCRIPT_FOR(n),
            SB_IMAGE_FOR(n), SB_NAME_BYTES, SB_STORE_BYTES},
        {links, numbers, order, answer, list, heard, one_sided, nodes, table, page, text, image, name, store}};
}

static outcome of_number(uint32_t number) { return (outcome){number, 0}; }
static outcome of_value(sb_value r) { return (outcome){r.number, r.value}; }
static outcome of_reply(sb_reply r) { return (outcome){r.number, (uint8_t)r.step | r.count}; }
static outcome of_later(sb_later r) { return (outcome){r.number, r.count | r.first}; }
static outcome of_pair(sb_pair r) { return (outcome){r.number, r.low | r.high}; }

#define LENT(kind) g->at[kind], g->length[kind]
#define LENT_SITE LENT(LINKS), LENT(NUMBERS), LENT(ORDER)
static outcome make_call(enum call which, const given *g) {
    switch (which) {
    case CLEAR: return of_number(sb_clear(g->n, LENT_SITE));
    case CHECK: return of_value(sb_check(g->n, LENT_SITE));
    case LINK_UP: return of_reply(sb_link_up(g->n, g->a, g->b, LENT_SITE, LENT(ANSWER)));
    case LINK_DOWN: return of_reply(sb_link_down(g->n, g->a, g->b, LENT_SITE, LENT(ANSWER)));
    case LINK_BATCH: return of_value(sb_link_batch(g->n, LENT_SITE, LENT(LIST)));
    case HEAR: return of_value(sb_hear(g->n, LENT_SITE, LENT(HEARD), LENT(ONE_SIDED)));
    case ASK_UP: return of_reply(sb_ask_up(g->n, g->a, g->b, LENT_SITE, LENT(ANSWER)));
    case ASK_DOWN: return of_reply(sb_ask_down(g->n, g->a, g->b, LENT_SITE, LENT(ANSWER)));
    case COMMIT_UP: return of_reply(sb_commit_up(g->n, g->a, g->b, 1, LENT_SITE, LENT(LIST)));
    case COMMIT_DOWN: return of_reply(sb_commit_down(g->n, g->a, g->b, -1, LENT_SITE, LENT(LIST)));
    case NUMBER: return of_value(sb_number(g->n, g->a, LENT_SITE));
    case NEIGHBOURS: return of_value(sb_neighbours(g->n, g->a, LENT_SITE));
    case LINKED: return of_value(sb_linked(g->n, g->a, g->b, LENT_SITE));
    case FIRST: return of_value(sb_first(g->n, g->a, g->b, LENT_SITE));
    case LATER_OF: return of_later(sb_later_of(g->n, g->a, LENT_SITE));
    case LIFT: return of_pair(sb_lift(g->n, g->a, LENT_SITE));
    case CORE: return of_value(sb_core(g->n, g->a, 0, LENT_SITE, LENT(ANSWER)));
    case BACKBONE: return of_value(sb_backbone(g->n, LENT_SITE, LENT(ANSWER)));
    case TREE: return of_value(sb_tree(g->n, LENT_SITE, LENT(NODES), LENT(ANSWER)));
    case SHEET: return of_value(sb_sheet(g->n, LENT_SITE, LENT(PAGE)));
    case SCRIPT_LENGTH: return of_value(sb_script_length(g->n, LENT_SITE));
    case SCRIPT_WRITE: return of_value(sb_script_write(g->n, LENT_SITE, LENT(TEXT)));
    case STAIRCASE: return of_value(sb_staircase(g->n, LENT_SITE, LENT(TABLE)));
    case IMAGE_WRITE: return of_value(sb_image_write(g->n, LENT_SITE, LENT(IMAGE)));
    case IMAGE_READ: return of_number(sb_image_read(g->n, LENT_SITE, LENT(IMAGE)));
    case MARK_SET: return of_number(sb_mark_set(g->n, LENT_SITE, LENT(NAME), LENT(STORE)));
    case MARK_REMOVE: return of_number(sb_mark_remove(g->n, LENT_SITE, LENT(NAME), LENT(STORE)));
    case MARK_RETURN: return of_number(sb_mark_return(g->n, LENT_SITE, LENT(NAME), LENT(STORE)));
    case CALLS: break;
    }
    return of_number(SB_OK);
}

/* A sum over every byte that the call is lent when all is right. */
static uint32_t content(enum call which) {
    given g = all_right();
    uint32_t sum = 0;
    for (uint32_t kind = 0; kind < KINDS; kind++) {
        const uint8_t *bytes = g.at[kind];
        for (size_t i = 0; (calls[which].tables & BIT(kind)) != 0 && i < g.length[kind] * width[kind]; i++) sum = (sum << 5 | sum >> 27) ^ bytes[i];
    }
    return sum;
}

static void refused(enum call which, const given *g, uint32_t right) {
    uint32_t before = content(which);
    outcome r = make_call(which, g);
    answered(r.number, right), want(r.rest == 0 && content(which) == before);
}

/* Question 2, one table at a time. */
static void by_length(enum call which, uint32_t radio) {
    for (uint32_t kind = 0; kind < KINDS; kind++) {
        if ((calls[which].tables & MEASURED & BIT(kind)) == 0) continue;
        given g = all_right();
        g.a = radio, g.length[kind]--, refused(which, &g, SB_LENGTH);
        g.length[kind] = 0, g.at[kind] = NULL, refused(which, &g, SB_LENGTH);
        if ((EXACT & BIT(kind)) == 0) continue;
        g = all_right(), g.length[kind]++;
        refused(which, &g, SB_LENGTH);
    }
}

static void one_call(enum call which) {
    static const uint32_t sizes[] = {0, SB_RADIOS + 1, 0xffffffff};
    given g = all_right();
    for (uint32_t i = 0; i < 3; i++) g.n = sizes[i], g.length[LINKS] = i, refused(which, &g, SB_SIZE);
    by_length(which, n + 1);
    g = all_right(), g.a = n;
    numbers[n - 1]++;
    if (calls[which].sound) refused(which, &g, SB_UNSOUND);
    numbers[n - 1]--;
    if (calls[which].radios > 0) refused(which, &g, SB_RADIO);
    g.a = 0xffffffff, g.b = 0xffffffff;
    if (calls[which].radios > 0) refused(which, &g, SB_RADIO);
    g.a = 0;
    if (calls[which].radios > 1) refused(which, &g, SB_RADIO);
}

void refusals(void) {
    for (uint32_t which = 0; which < CALLS; which++) one_call((enum call)which);
    numbers[0]++;
    want(sb_check(n, TABLES).number == SB_OK && sb_check(n, TABLES).value == 0);
    numbers[0]--;
    same_tables();
}

/* ---- length 0 */

static void lent_nothing(enum call which, enum kind kind, uint32_t right) {
    given g = all_right();
    g.length[kind] = 0, g.at[kind] = NULL;
    if (right != SB_OK) refused(which, &g, right);
    else answered(make_call(which, &g).number, SB_OK);
}

/* A link that changes no number is committed with an empty list: it is taken down and up again. */
static void commit_nothing(void) {
    static change changed;
    for (uint32_t a = 0; a < n; a++)
        for (uint32_t i = 0; i < now.degree[a]; i++) {
            uint32_t b = now.near[a][i];
            if (sb_ask_down(n, a, b, TABLES, answer, n).count != 0) continue;
            answered(sb_commit_down(n, a, b, 0, TABLES, NULL, 0).number, SB_OK), model_link(&now, a, b, false, &changed);
            answered(sb_commit_up(n, a, b, 0, TABLES, NULL, 0).number, SB_OK), model_link(&now, a, b, true, &changed);
            same_tables();
            return;
        }
}

void nothing_lent(void) {
    lent_nothing(LINK_BATCH, LIST, SB_OK), commit_nothing();
    lent_nothing(SHEET, PAGE, SB_PAGE), lent_nothing(SCRIPT_WRITE, TEXT, SB_TEXT), lent_nothing(IMAGE_WRITE, IMAGE, SB_IMAGE_SIZE);
    lent_nothing(IMAGE_READ, IMAGE, SB_IMAGE_SIZE), lent_nothing(MARK_SET, NAME, SB_MARK), lent_nothing(MARK_RETURN, NAME, SB_MARK);
    answered(sb_image_block(NULL, 0, 0).number, SB_IMAGE_SIZE);
    same_tables();
}

/* What the model says to each question. */
#include "model.h"
#include "../board.h"

uint32_t model_row(const model *m, uint32_t a, uint8_t *row) {
    memset(row, 0, SB_ROW_BYTES);
    for (uint32_t i = 0; i < m->degree[a]; i++) row[m->near[a][i] / 8] = (uint8_t)(row[m->near[a][i] / 8] | 1u << m->near[a][i] % 8);
    return SB_ROW_BYTES;
}

uint32_t model_place(const model *m, uint32_t v) {
    uint32_t at = 0;
    while (m->order[at] != v) at++;
    return at;
}

/* ---- connected cores */

/* Gives every radio that links lead to from v, over radios with number k or more, the label; v itself too. */
static void flood(const model *m, uint32_t v, uint32_t k, uint16_t label, uint16_t *labels) {
    static uint16_t found[SB_RADIOS];
    uint32_t count = 1;
    found[0] = (uint16_t)v, labels[v] = label;
    for (uint32_t at = 0; at < count; at++)
        for (uint32_t i = 0; i < m->degree[found[at]]; i++) {
            uint16_t w = m->near[found[at]][i];
            if (m->number[w] < k || labels[w] == label) continue;
            labels[w] = label, found[count++] = w;
        }
}

/* Labels the connected cores of level k by their lowest radios of number k; a core without one by a number that is no radio's. */
static void label_cores(const model *m, uint32_t k, uint16_t *labels) {
    memset(labels, 0xff, SB_RADIOS * sizeof *labels);
    for (uint32_t v = 0; v < m->n; v++)
        if (m->number[v] == k && labels[v] == SB_NOBODY) flood(m, v, k, (uint16_t)v, labels);
}

uint32_t model_core(const model *m, uint32_t v, uint32_t k, uint16_t *radios) {
    static uint16_t labels[SB_RADIOS];
    uint32_t count = 0;
    memset(labels, 0, sizeof labels);
    flood(m, v, k, 1, labels);
    for (uint32_t w = 0; w < m->n; w++)
        if (labels[w] == 1) radios[count++] = (uint16_t)w;
    return count;
}

uint32_t model_backbone(const model *m, uint16_t *radios) {
    static uint16_t labels[SB_RADIOS];
    static uint8_t greatest[SB_RADIOS];
    uint32_t count = 0;
    memset(labels, 0xff, sizeof labels), memset(greatest, 0, sizeof greatest);
    for (uint32_t v = 0; v < m->n; v++)
        if (labels[v] == SB_NOBODY) flood(m, v, 0, (uint16_t)v, labels);
    for (uint32_t v = 0; v < m->n; v++)
        if (m->number[v] > greatest[labels[v]]) greatest[labels[v]] = m->number[v];
    for (uint32_t v = 0; v < m->n; v++)
        if (m->number[v] > 0 && m->number[v] == greatest[labels[v]]) radios[count++] = (uint16_t)v;
    return count;
}

/* ---- the shell tree: a core that has a radio of its level's number is a node; one that has none occurs at a higher level too */

uint32_t model_tree(const model *m, sb_node *nodes, uint16_t *names) {
    static uint16_t labels[SB_RADIOS], above[SB_RADIOS];
    uint32_t count = 1;
    nodes[0].name = nodes[0].parent = SB_ROOT, nodes[0].level = 0;
    for (uint32_t v = 0; v < m->n; v++) names[v] = SB_ROOT, above[v] = SB_ROOT;
    for (uint16_t k = 1; k <= SB_NEIGHBOURS; k++) {
        label_cores(m, k, labels);
        for (uint32_t v = 0; v < m->n; v++) {
            if (labels[v] == SB_NOBODY) continue;
            if (labels[v] == v) nodes[count].name = (uint16_t)v, nodes[count].level = k, nodes[count++].parent = above[v];
            if (m->number[v] == k) names[v] = labels[v];
        }
        for (uint32_t v = 0; v < m->n; v++)
            if (labels[v] != SB_NOBODY) above[v] = labels[v];
    }
    return count;
}

/* ---- the staircase tree */

static uint16_t root_of(const uint16_t *parent, uint32_t v) {
    while (parent[v] != v) v = parent[v];
    return (uint16_t)v;
}

static uint32_t keep_links(const model *m, uint32_t weight, uint16_t *parent, uint16_t *table, uint32_t count) {
    for (uint32_t a = 0; a < m->n; a++)
        for (uint32_t i = 0; i < m->degree[a]; i++) {
            uint32_t b = m->near[a][i], less = m->number[a] < m->number[b] ? m->number[a] : m->number[b];
            if (b < a || less != weight || root_of(parent, a) == root_of(parent, b)) continue;
            parent[root_of(parent, b)] = root_of(parent, a);
            table[2 * count] = (uint16_t)a, table[2 * count++ + 1] = (uint16_t)b;
        }
    return count;
}

uint32_t model_staircase(const model *m, uint16_t *table) {
    static uint16_t parent[SB_RADIOS];
    uint32_t count = 0;
    for (uint32_t v = 0; v < m->n; v++) parent[v] = (uint16_t)v;
    for (uint32_t weight = SB_NEIGHBOURS; weight > 0; weight--) count = keep_links(m, weight, parent, table, count);
    return count;
}

bool model_lifts(const model *m, uint32_t v, uint32_t a, uint32_t b) {
    static uint8_t number[SB_RADIOS];
    if (model_refuses(m, a, b, true) != SB_OK) return false;
    model_numbers(m, a, b, number);
    return number[v] > m->number[v];
}

/* ---- texts */

static uint32_t put_word(uint8_t *text, uint32_t at, const char *word) {
    while (*word != 0) text[at++] = (uint8_t)*word++;
    return at;
}

static uint32_t put_digits(uint8_t *text, uint32_t at, uint32_t x) {
    if (x >= 100) text[at++] = (uint8_t)('0' + x / 100);
    if (x >= 10) text[at++] = (uint8_t)('0' + x / 10 % 10);
    text[at++] = (uint8_t)('0' + x % 10);
    return at;
}

static uint32_t put_right(uint8_t *text, uint32_t at, uint32_t x, uint32_t columns) {
    uint32_t digits = x < 10 ? 1 : x < 100 ? 2 : 3;
    for (; columns > digits; columns--) text[at++] = ' ';
    return put_digits(text, at, x);
}

uint32_t model_sheet(const model *m, uint8_t *page) {
    uint32_t at = 0;
    for (uint32_t v = 0; v < (m->n + 7) / 8 * 8; v++) {
        if (v < m->n) {
            at = put_word(page, put_right(page, at, v, 3), ":");
            at = put_word(page, put_right(page, at, m->number[v], 2), "  ");
        } else at = put_word(page, at, "        ");
        if (v % 8 == 7) page[at++] = '\n';
    }
    return at;
}

uint32_t model_script(const model *m, uint8_t *text) {
    uint32_t at = put_word(text, put_digits(text, put_word(text, 0, "radios "), m->n), "\n");
    for (uint32_t a = 0; a < m->n; a++)
        for (uint32_t i = 0; i < m->degree[a]; i++) {
            if (m->near[a][i] < a) continue;
            at = put_word(text, put_digits(text, put_word(text, at, "up "), a), " ");
            at = put_word(text, put_digits(text, at, m->near[a][i]), "\n");
        }
    return at;
}

/* ---- images */

static void put_two(uint8_t *at, uint32_t x) {
    at[0] = (uint8_t)x, at[1] = (uint8_t)(x >> 8);
}

void model_seal(uint8_t *block) {
    uint32_t sum = 0;
    for (uint32_t i = 0; i < 508; i++) sum += block[i] * (i + 1);
    put_two(block + 508, sum), put_two(block + 510, sum >> 16);
}

static void close_block(uint8_t *image, uint8_t kind, uint32_t index) {
    uint8_t *block = image + 512 * index;
    block[0] = kind, block[1] = 0, put_two(block + 2, index), model_seal(block);
}

static uint32_t put_links(const model *m, uint8_t *image, uint32_t blocks) {
    uint32_t count = 0;
    for (uint32_t a = 0; a < m->n; a++)
        for (uint32_t i = 0; i < m->degree[a]; i++) {
            if (m->near[a][i] < a) continue;
            uint8_t *at = image + 512 * (blocks + count / 126) + 4 + 4 * (count % 126);
            put_two(at, a), put_two(at + 2, m->near[a][i]);
            count++;
        }
    return (count + 125) / 126;
}

uint32_t model_image(const model *m, uint8_t *image) {
    uint32_t orders = (m->n + 251) / 252, links = (model_links(m) + 125) / 126;
    memset(image, 0, 512 * (1 + orders + links));
    put_two(image + 4, m->n), put_two(image + 6, model_links(m));
    for (uint32_t i = 0; i < m->n; i++) put_two(image + 512 * (1 + i / 252) + 4 + 2 * (i % 252), m->order[i]);
    put_links(m, image, 1 + orders);
    for (uint32_t i = 0; i < 1 + orders + links; i++) close_block(image, i == 0 ? 0 : i <= orders ? 1 : 2, i);
    return 512 * (1 + orders + links);
}

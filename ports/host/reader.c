/* The model of a site from an image: what the blocks list is taken in, and must be sound and give the same bytes again. */
#include "model.h"
#include "../board.h"

static uint32_t two(const uint8_t *at) {
    return at[0] + 256u * at[1];
}

/* An entry of two bytes in the blocks from `block` on, which have 252 each. */
static uint32_t entry(const uint8_t *image, uint32_t block, uint32_t i) {
    return two(image + 512 * (block + i / 252) + 4 + 2 * (i % 252));
}

static bool take_order(model *m, const uint8_t *image) {
    static bool seen[SB_RADIOS];
    memset(seen, 0, sizeof seen);
    for (uint32_t i = 0; i < m->n; i++) {
        uint32_t v = entry(image, 1, i);
        if (v >= m->n || seen[v]) return false;
        seen[v] = true, m->order[i] = (uint16_t)v;
    }
    return true;
}

static bool take_links(model *m, const uint8_t *image, uint32_t block, uint32_t count) {
    for (uint32_t i = 0; i < count; i++) {
        uint32_t a = entry(image, block, 2 * i), b = entry(image, block, 2 * i + 1);
        if (model_refuses(m, a, b, true) != SB_OK) return false;
        model_join(m, a, b);
    }
    return true;
}

/* Numbers never fall along the order, and no radio has more later neighbours than its number. */
static bool k_order(const model *m) {
    for (uint32_t i = 0; i < m->n; i++) {
        uint32_t v = m->order[i], later = 0;
        if (i > 0 && m->number[m->order[i - 1]] > m->number[v]) return false;
        for (uint32_t j = i + 1; j < m->n; j++) later += model_linked(m, v, m->order[j]);
        if (later > m->number[v]) return false;
    }
    return true;
}

bool model_read(model *m, const uint8_t *image, uint32_t length) {
    static uint8_t again[SB_IMAGE_BYTES];
    uint32_t n = two(image + 4), count = two(image + 6), orders = (n + 251) / 252;
    if (n == 0 || n > SB_RADIOS || length != 512 * (1 + orders + (count + 125) / 126) || length > SB_IMAGE_BYTES) return false;
    model_clear(m, n);
    if (!take_order(m, image) || !take_links(m, image, 1 + orders, count)) return false;
    model_numbers(m, 0, 0, m->number);
    return k_order(m) && model_image(m, again) == length && memcmp(again, image, length) == 0;
}

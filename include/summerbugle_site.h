/*
 * summerbugle_site.h: the calls of summerbugle.h over one struct, for hosts that would rather not write six arguments for the tables of a
 * site each time. Optional: nothing is compiled that is not called, and sb_site_X is sb_X.
 *
 *     SB_SITE(hub, 120);                        the tables of 120 radios in static memory, and the site
 *     uint16_t answer[SB_ANSWER_FOR(120)];
 *     sb_site_clear(&hub);
 *     sb_reply reply = sb_site_link_up(&hub, 3, 4, answer);
 *
 * A table without a length beside it is lent at the length that its SB_.._FOR(n) says; the answer table is lent at n entries.
 */
#ifndef SUMMERBUGLE_SITE_H
#define SUMMERBUGLE_SITE_H

#include "summerbugle.h"

/* A site: its count of radios, and the tables that the host lends for it. */
typedef struct {
    uint32_t n;
    uint8_t *links;
    uint8_t *numbers;
    uint16_t *order;
} sb_site;

/* A site of a constant count of radios with its tables, in static memory. Clear it, or read an image into it, before anything else. */
#define SB_SITE(name, radios)                                                       \
    static uint8_t name##_links[SB_LINKS_FOR(radios)], name##_numbers[SB_NUMBERS_FOR(radios)]; \
    static uint16_t name##_order[SB_ORDER_FOR(radios)];                             \
    static const sb_site name = {radios, name##_links, name##_numbers, name##_order}

/* The six arguments of a site's tables. */
#define SB_SITE_TABLES(site)                                                                                          \
    (site)->links, SB_LINKS_FOR((size_t)(site)->n), (site)->numbers, SB_NUMBERS_FOR((site)->n), (site)->order, SB_ORDER_FOR((site)->n)

/* ---- the site itself */

static inline uint32_t sb_site_clear(const sb_site *site) {
    return sb_clear(site->n, SB_SITE_TABLES(site));
}

static inline sb_value sb_site_check(const sb_site *site) {
    return sb_check(site->n, SB_SITE_TABLES(site));
}

/* ---- links */

static inline sb_reply sb_site_link_up(const sb_site *site, uint32_t a, uint32_t b, uint16_t *answer) {
    return sb_link_up(site->n, a, b, SB_SITE_TABLES(site), answer, site->n);
}

static inline sb_reply sb_site_link_down(const sb_site *site, uint32_t a, uint32_t b, uint16_t *answer) {
    return sb_link_down(site->n, a, b, SB_SITE_TABLES(site), answer, site->n);
}

static inline sb_value sb_site_link_batch(const sb_site *site, const uint16_t *list, size_t list_len) {
    return sb_link_batch(site->n, SB_SITE_TABLES(site), list, list_len);
}

static inline sb_value sb_site_hear(const sb_site *site, const uint8_t *heard, uint8_t *one_sided) {
    return sb_hear(site->n, SB_SITE_TABLES(site), heard, SB_LINKS_FOR((size_t)site->n), one_sided, SB_LINKS_FOR((size_t)site->n));
}

static inline sb_reply sb_site_ask_up(const sb_site *site, uint32_t a, uint32_t b, uint16_t *answer) {
    return sb_ask_up(site->n, a, b, SB_SITE_TABLES(site), answer, site->n);
}

static inline sb_reply sb_site_ask_down(const sb_site *site, uint32_t a, uint32_t b, uint16_t *answer) {
    return sb_ask_down(site->n, a, b, SB_SITE_TABLES(site), answer, site->n);
}

static inline sb_reply sb_site_commit_up(const sb_site *site, uint32_t a, uint32_t b, int8_t step, const uint16_t *changed, size_t changed_len) {
    return sb_commit_up(site->n, a, b, step, SB_SITE_TABLES(site), changed, changed_len);
}

static inline sb_reply sb_site_commit_down(const sb_site *site, uint32_t a, uint32_t b, int8_t step, const uint16_t *changed, size_t changed_len) {
    return sb_commit_down(site->n, a, b, step, SB_SITE_TABLES(site), changed, changed_len);
}

/* ---- questions */

static inline sb_value sb_site_number(const sb_site *site, uint32_t v) {
    return sb_number(site->n, v, SB_SITE_TABLES(site));
}

static inline sb_value sb_site_neighbours(const sb_site *site, uint32_t v) {
    return sb_neighbours(site->n, v, SB_SITE_TABLES(site));
}

static inline sb_value sb_site_linked(const sb_site *site, uint32_t a, uint32_t b) {
    return sb_linked(site->n, a, b, SB_SITE_TABLES(site));
}

static inline sb_value sb_site_first(const sb_site *site, uint32_t a, uint32_t b) {
    return sb_first(site->n, a, b, SB_SITE_TABLES(site));
}

static inline sb_later sb_site_later_of(const sb_site *site, uint32_t v) {
    return sb_later_of(site->n, v, SB_SITE_TABLES(site));
}

static inline sb_pair sb_site_lift(const sb_site *site, uint32_t v) {
    return sb_lift(site->n, v, SB_SITE_TABLES(site));
}

static inline sb_value sb_site_core(const sb_site *site, uint32_t v, uint32_t k, uint16_t *answer) {
    return sb_core(site->n, v, k, SB_SITE_TABLES(site), answer, site->n);
}

static inline sb_value sb_site_backbone(const sb_site *site, uint16_t *answer) {
    return sb_backbone(site->n, SB_SITE_TABLES(site), answer, site->n);
}

static inline sb_value sb_site_tree(const sb_site *site, sb_node *nodes, uint16_t *answer) {
    return sb_tree(site->n, SB_SITE_TABLES(site), nodes, SB_NODES_FOR((size_t)site->n), answer, site->n);
}

static inline sb_value sb_site_staircase(const sb_site *site, uint16_t *table) {
    return sb_staircase(site->n, SB_SITE_TABLES(site), table, SB_STAIRCASE_FOR((size_t)site->n));
}

/* ---- sheet, script, image */

static inline sb_value sb_site_sheet(const sb_site *site, uint8_t *page, size_t page_len) {
    return sb_sheet(site->n, SB_SITE_TABLES(site), page, page_len);
}

static inline sb_value sb_site_script_length(const sb_site *site) {
    return sb_script_length(site->n, SB_SITE_TABLES(site));
}

static inline sb_value sb_site_script_write(const sb_site *site, uint8_t *text, size_t text_len) {
    return sb_script_write(site->n, SB_SITE_TABLES(site), text, text_len);
}

static inline sb_value sb_site_image_write(const sb_site *site, uint8_t *buffer, size_t buffer_len) {
    return sb_image_write(site->n, SB_SITE_TABLES(site), buffer, buffer_len);
}

static inline uint32_t sb_site_image_read(const sb_site *site, const uint8_t *image, size_t image_len) {
    return sb_image_read(site->n, SB_SITE_TABLES(site), image, image_len);
}

/* ---- marks: a name of SB_NAME_BYTES, a store of SB_STORE_BYTES */

static inline uint32_t sb_site_mark_set(const sb_site *site, const uint8_t *name, uint8_t *store) {
    return sb_mark_set(site->n, SB_SITE_TABLES(site), name, SB_NAME_BYTES, store, SB_STORE_BYTES);
}

static inline uint32_t sb_site_mark_remove(const sb_site *site, const uint8_t *name, uint8_t *store) {
    return sb_mark_remove(site->n, SB_SITE_TABLES(site), name, SB_NAME_BYTES, store, SB_STORE_BYTES);
}

static inline uint32_t sb_site_mark_return(const sb_site *site, const uint8_t *name, const uint8_t *store) {
    return sb_mark_return(site->n, SB_SITE_TABLES(site), name, SB_NAME_BYTES, store, SB_STORE_BYTES);
}

#endif

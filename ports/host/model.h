/*
 * A site by its definitions, beside the engine and written without a look at it: lists of neighbours, core numbers by taking radios away,
 * the order and every answer as the papers word them. The host program holds the engine against it.
 */
#ifndef MODEL_H
#define MODEL_H

#include "summerbugle.h"
#include <stdbool.h>

typedef struct {
    uint32_t n;
    uint16_t near[SB_RADIOS][SB_NEIGHBOURS]; /* ascending */
    uint8_t degree[SB_RADIOS];
    uint8_t number[SB_RADIOS];
    uint16_t order[SB_RADIOS];
} model;

/* What a link call changes. */
typedef struct {
    int step;
    uint32_t count;
    uint16_t radios[SB_RADIOS];
} change;

void model_clear(model *m, uint32_t n);
bool model_linked(const model *m, uint32_t a, uint32_t b);
/* The number that refuses a link, or 0. */
uint32_t model_refuses(const model *m, uint32_t a, uint32_t b, bool up);
/* The core numbers with the link between a and b turned over, or as they are where a is b. */
void model_numbers(const model *m, uint32_t a, uint32_t b, uint8_t *number);
/* Takes an accepted link up or down. */
void model_link(model *m, uint32_t a, uint32_t b, bool up, change *c);
/* Adds a link to the lists alone. */
void model_join(model *m, uint32_t a, uint32_t b);
uint32_t model_links(const model *m);

/* The answers; each gives its count or its length. */
uint32_t model_row(const model *m, uint32_t a, uint8_t *row);
uint32_t model_place(const model *m, uint32_t v);
uint32_t model_core(const model *m, uint32_t v, uint32_t k, uint16_t *radios);
uint32_t model_backbone(const model *m, uint16_t *radios);
uint32_t model_tree(const model *m, sb_node *nodes, uint16_t *names);
uint32_t model_staircase(const model *m, uint16_t *table);
bool model_lifts(const model *m, uint32_t v, uint32_t a, uint32_t b);
uint32_t model_sheet(const model *m, uint8_t *page);
uint32_t model_script(const model *m, uint8_t *text);
uint32_t model_image(const model *m, uint8_t *image);
/* Puts the check of a block at its end. */
void model_seal(uint8_t *block);
/* Whether the bytes, at least a block, are the image of some sound site, and then that site. */
bool model_read(model *m, const uint8_t *image, uint32_t length);

#endif

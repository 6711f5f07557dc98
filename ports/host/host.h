/* The host program: the tables that it lends to the engine, and its model of them. */
#ifndef HOST_H
#define HOST_H

#include "../say.h"
#include "model.h"

/* Room for the largest site; a site of n radios is lent the front of each. Buffers are longer than what goes into them. */
extern uint32_t n;
extern uint8_t links[SB_LINKS_FOR(SB_RADIOS)], numbers[SB_RADIOS], heard[SB_LINKS_FOR(SB_RADIOS)], one_sided[SB_LINKS_FOR(SB_RADIOS)];
extern uint16_t order[SB_RADIOS], answer[SB_RADIOS + 8], table[SB_STAIRCASE_FOR(SB_RADIOS) + 8];
extern sb_node nodes[SB_NODES_FOR(SB_RADIOS) + 8];
extern uint8_t page[SB_PAGE_FOR(SB_RADIOS) + 8], text[SB_SCRIPT_BYTES + 8], image[SB_IMAGE_BYTES + 8], store[SB_STORE_BYTES];
extern model now;
#define TABLES links, SB_LINKS_FOR(n), numbers, n, order, n

/* Counts what does not hold, and says where. */
#define want(holds) wanted(holds, __FILE__, __LINE__)
void wanted(bool holds, const char *file, int line);
extern uint32_t failures;

/* Counts a call by its refusal number, which must be the one that is right, and mixes it into the digest. */
void answered(uint32_t number, uint32_t right);

/* Whether the tables hold what the model does: the rows of a and b, all numbers and the order; or all rows too. */
void same_rows(uint32_t a, uint32_t b);
void same_tables(void);

/* Every call refused by each question, and what is lent kept. */
void refusals(void);
/* Empty lists and tables of length 0 whose pointer is NULL. */
void nothing_lent(void);
/* Named marks set, removed, come back to. */
void marks(void);
void marks_anew(void);

#endif

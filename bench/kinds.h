/* The kinds of sites, with their names. */
#ifndef KINDS_H
#define KINDS_H

/* The last two are as SPARSE and GEOMETRIC_8, but so many sites are taken in turn that branch prediction does not learn them. */
enum kind { SPARSE, DENSE, RING, CIRCULANT, PARTS, GEOMETRIC_8, GEOMETRIC_20, LEVELS, SPARSE_TURN, GEOMETRIC_TURN, KINDS };
static const char *const kinds[KINDS] = {"sparse",      "dense",        "ring",   "circulant",   "parts",
                                         "geometric_8", "geometric_20", "levels", "sparse_turn", "geometric_turn"};

#define ALONE SPARSE_TURN /* the kinds before it are shown by a single site */
#endif

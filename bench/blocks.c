/* Line-by-line C for the search of bench/worst, the lift with it: compiled so that each basic block it goes through is counted. */
#define PROGRAM plain
#include "plain.c"
#include "plain/lift.h"

struct c_pair plain_lift(const struct lent *t, uint32_t v);
struct c_pair plain_lift(const struct lent *t, uint32_t v) { return c_lift(t, v); }

/* Careful C as a program: the same tables and answers, each call as a careful programmer would write it, in portable C. */
#include "careful/core.h"
#include "careful/heard.h"
#include "careful/image.h"
#include "careful/link.h"
#include "careful/marks.h"
#include "careful/radios.h"
#include "careful/script.h"
#include "careful/staircase.h"
#include "careful/tree.h"

static int c_has(enum timed call) { return call < CALLS; }

#include "loops.h"

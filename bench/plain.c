/* Line-by-line C as a program: the engine's algorithms, pass by pass, without its guards. */
#include "plain/core.h"
#include "plain/heard.h"
#include "plain/image.h"
#include "plain/link.h"
#include "plain/marks.h"
#include "plain/radios.h"
#include "plain/script.h"
#include "plain/staircase.h"
#include "plain/tree.h"

static int c_has(enum timed call) { return call < CALLS; }

#include "loops.h"

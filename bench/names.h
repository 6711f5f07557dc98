/* The names of the calls that are timed, in their order. */
#ifndef NAMES_H
#define NAMES_H
#include "program.h"

static const char *const names[CALLS] = {
    "clear", "check", "number", "neighbours", "linked", "first", "later_of", "down+up", "ask+link", "ask+commit", "batch", "hear", "core", "backbone",
    "tree", "sheet", "script_length", "script_write", "staircase", "image_write", "image_read", "image_other", "image_block", "new", "mark_set", "remove+set",
    "mark_return",
};
#endif

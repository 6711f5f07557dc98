/* The calls of one archive of the engine, for bench/versions: compiled and linked once for each of the two. */
#define PROGRAM engine
#include "engine.c"
#include "work.h"

#define JOIN(a, b) a##b
#define OF_VERSION(a, b) JOIN(a, b)

int OF_VERSION(VERSION, _has)(unsigned c) { return engine.has(c); }

/* Comes back with how many sites there are of this size. */
unsigned OF_VERSION(VERSION, _use)(uint32_t size, unsigned kind) {
    use_sites(&engine, size, kind);
    return work.count;
}

void OF_VERSION(VERSION, _run)(unsigned c) { engine.runs[c](&work); }

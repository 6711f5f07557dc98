/* Printing, a digest and pseudo-random numbers, for programs without a C library: the same on every machine. */
#ifndef SAY_H
#define SAY_H

#include <stddef.h>
#include <stdint.h>

void say(const char *text);
void say_number(uint32_t x);
void say_digest(void);

/* The digest is 64-bit FNV-1a over bytes; wider numbers go in lowest byte first. */
void mix(const uint8_t *bytes, size_t count);
void mix32(uint32_t x);
void mix16s(const uint16_t *entries, size_t count);
uint64_t digest_now(void);

/* A number below bound, which is not 0. */
uint32_t below(uint32_t bound);

#endif

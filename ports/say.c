#include "say.h"
#include "board.h"

static uint64_t digest = 14695981039346656037u;
static uint32_t seed = 20261117;

void say(const char *text) {
    while (*text != 0) put(*text++);
}

void say_number(uint32_t x) {
    char digits[10];
    size_t count = 0;
    do digits[count++] = (char)('0' + x % 10), x /= 10;
    while (x > 0);
    while (count > 0) put(digits[--count]);
}

void say_digest(void) {
    for (int at = 60; at >= 0; at -= 4) put("0123456789abcdef"[digest >> at & 15]);
}

void mix(const uint8_t *bytes, size_t count) {
    for (size_t i = 0; i < count; i++) digest = (digest ^ bytes[i]) * 1099511628211u;
}

void mix32(uint32_t x) {
    for (int i = 0; i < 4; i++, x >>= 8) mix(&(uint8_t){(uint8_t)x}, 1);
}

void mix16s(const uint16_t *entries, size_t count) {
    for (size_t i = 0; i < count; i++) mix((uint8_t[2]){(uint8_t)entries[i], (uint8_t)(entries[i] >> 8)}, 2);
}

uint64_t digest_now(void) {
    return digest;
}

uint32_t below(uint32_t bound) {
    seed ^= seed << 13, seed ^= seed >> 17, seed ^= seed << 5;
    return seed % bound;
}

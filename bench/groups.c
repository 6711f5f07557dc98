/*
 * A site of at most 512 radios in groups of so many, each radio linked with the next ones of its group; then the check, or asking for the link from
 * the first radio in the order to the one at place 300, which changes nobody. bench/groups builds it, runs it and counts its instructions.
 *   groups check|ask SIZE REACH
 */
#include "../include/summerbugle.h"
#include <stdio.h>
#include <stdlib.h>
#include <string.h>

#define RADIOS 512
#define ROW 64
#define FAR 300

static uint8_t links[ROW * RADIOS], numbers[RADIOS];
static uint16_t order[RADIOS], answer[RADIOS];
static uint32_t n;
#define TABLES links, ROW *n, numbers, n, order, n

/* Each radio of a group with the next `reach` of it. */
static unsigned make_groups(unsigned size, unsigned reach) {
    unsigned refused = sb_clear(n, TABLES);
    for (unsigned a = 0; a < n; a++)
        for (unsigned b = a + 1; b <= a + reach && b / size == a / size; b++) refused |= sb_link_up(n, a, b, TABLES, answer, n).number;
    return refused;
}

__attribute__((noinline)) static sb_reply measured(int ask) {
    if (ask) return sb_ask_up(n, order[0], order[FAR], TABLES, answer, n);
    sb_value v = sb_check(n, TABLES);
    return (sb_reply){v.number, 0, !v.value};
}

int main(int argc, char **argv) {
    if (argc != 4) return 2;
    unsigned size = atoi(argv[2]);
    n = RADIOS / size * size;
    unsigned refused = make_groups(size, atoi(argv[3]));
    sb_reply r = measured(!strcmp(argv[1], "ask"));
    if (!refused && !r.number && !r.count) return 0;
    printf("a call is refused, or a radio changes\n");
    return 1;
}

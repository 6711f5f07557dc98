/* Prints the sites of 512 radios for bench/networkx_change.py: kind, numbers, the links that are changed, all links. */
#include "sites.h"
#include <stdio.h>

int main(void) {
    static struct site s;
    struct ends changes[CHANGES];
    for (unsigned k = 0; k < ALONE; k++) {
        make_site(&s, RADIOS, k, 0);
        printf("%s\n", kinds[k]);
        for (unsigned v = 0; v < s.n; v++) printf("%u ", s.numbers[v]);
        printf("\n");
        unsigned count = some_links(&s, changes, CHANGES);
        for (unsigned i = 0; i < count; i++) printf("%u %u ", changes[i].a, changes[i].b);
        printf("\n");
        for (unsigned a = 0; a < s.n; a++)
            for (unsigned b = a + 1; b < s.n; b++)
                if (marked(s.links, a, b)) printf("%u %u ", a, b);
        printf("\n");
    }
    return 0;
}

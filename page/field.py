"""A script of 512 radios spread over a field, 16 by 10, linked where they are at most 1 apart: the site of docs/page.png.

    python3 page/field.py | bin/page >page.html
"""

import math
import random

RADIOS, MOST, REACH = 512, 40, 1.0


def links(places):
    """The pairs within reach, the nearest first, each radio with as many as the engine takes."""
    ends = [0] * len(places)
    pairs = ((math.dist(places[a], places[b]), a, b) for a in range(len(places)) for b in range(a + 1, len(places)))
    for far, a, b in sorted(pairs):
        if far <= REACH and max(ends[a], ends[b]) < MOST:
            ends[a] += 1
            ends[b] += 1
            yield a, b


def main():
    chance = random.Random(7)
    places = [(chance.uniform(0, 16), chance.uniform(0, 10)) for _ in range(RADIOS)]
    print("radios", RADIOS)
    for a, b in sorted(links(places)):
        print("up", a, b)


main()

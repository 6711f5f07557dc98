"""What crates/test_histories prints: its pseudo-random link histories, walked through again from document 01 alone.

  python3 oracle/histories.py           write crates/test_histories/stdout
  python3 oracle/histories.py --check   say whether the stored file is what would be written

The picks follow crates/test_histories/src/picking.rt and trouble.rt, from the same
seeds; every answer comes from the site of oracle/peeled.py.
"""

import sys
from pathlib import Path

from peeled import Site
from questions import RADIOS

OUT = Path(__file__).resolve().parent.parent / "crates/test_histories/stdout"
WORD = 2 ** 64
HEAD = "history radios: accepted, refused by 1 to 7, changed radios, calls, differences, canaries\n"
CANARIES = 11  # wrong expectations that the program puts to its own comparisons after each history


class Draws:
    """Marsaglia's xorshift over 64 bits."""

    def __init__(self, seed):
        self.x = seed

    def below(self, n):
        x = self.x
        x = (x ^ x << 13) % WORD
        x ^= x >> 7
        self.x = x = (x ^ x << 17) % WORD
        return (x >> 32) % n


def seek(site, m, a, b, wanted):
    """The first radio from b on, round the m used, that is a neighbour of a, or is not."""
    for u in [(b + i) % m for i in range(m)]:
        if u != a and (u in site.near[a]) == wanted:
            return u
    return b


def pick(site, m, most, ups, draws):
    a, b, way = draws.below(m), draws.below(m), draws.below(16)
    up = way < ups and len(site.near[a]) < most
    b = seek(site, m, a, b, not up)
    luck = draws.below(48)
    if luck == 0:
        a = site.n
    if luck == 1:
        b = a
    return up != (luck == 2), a, b


def pick_in_clique(m, i):
    j = i if i < m * m else i * 641 % (m * m)
    return i < m * m, j // m, j % m


def pick_in_groups(site, group, reach, i):
    links = site.n * reach
    if i >= 2 * links:
        return True, site.order[0], site.order[5 * i % site.n]
    a = i % links // reach
    b = a + 1 + i % reach
    if a // group != b // group:
        b = a
    return (True, a, b) if i < links else (True, b, a)


def troubled(n, draws):
    """The refusal that a call's trouble brings, 0 for none."""
    kind = draws.below(112)
    draws.below(n), draws.below(255)
    if kind in (4, 5) or kind == 6 and n == RADIOS:
        return 1
    if 6 <= kind <= 13:
        return 2
    return 3 if 1 <= kind <= 3 else 0


def history(n, calls, seed, picked):
    """The counts of a history's answers."""
    site, draws, counts = Site(n), Draws(seed), [0] * 11 + [CANARIES]
    for i in range(calls):
        up, a, b = picked(site, draws, i)
        number, changed = troubled(n, draws), []
        if not number:
            number, _, changed = site.call(up, a, b)
        counts[number] += 1
        counts[8] += len(changed)
        counts[9] += 1
    return counts


def random_history(n, m, most, ups, calls, seed):
    return history(n, calls, seed, lambda site, draws, i: pick(site, m, most, ups, draws))


def clique_history(n, m):
    return history(n, 2 * m * m, 123456789123456789, lambda site, draws, i: pick_in_clique(m, i))


def group_history(n, group, reach):
    return history(n, 2 * n * reach + 200, 521288629362436069, lambda site, draws, i: pick_in_groups(site, group, reach, i))


def site_lines(n, calls, m):
    return [("sparse", n, random_history(n, n, 4, 10, calls, 88172645463325252)),
            ("dense", n, random_history(n, min(n, 48), 48, 14, calls, 362436069521288629)),
            ("clique", n, clique_history(n, m))]


SITES = [(1, 500, 1), (2, 1000, 2), (41, 1800, 41), (42, 1800, 42), (64, 1800, 42), (253, 800, 16), (512, 800, 16)]

GROUPS = [("pairs", 512, 2, 1), ("paths", 126, 3, 1), ("triangles", 126, 3, 2), ("cliques", 128, 4, 3)]

lines = [line for n, calls, m in SITES for line in site_lines(n, calls, m)]
lines += [(name, n, group_history(n, group, reach)) for name, n, group, reach in GROUPS]
lines.append(("all", 0, [sum(column) for column in zip(*(counts for _, _, counts in lines))]))
text = HEAD + "".join(" ".join(str(x) for x in (name, n, *counts)) + "\n" for name, n, counts in lines)
if "--check" in sys.argv:
    same = OUT.read_text() == text
    print("crates/test_histories/stdout:", "as written by this program" if same else "DIFFERENT")
    sys.exit(not same)
OUT.write_text(text)

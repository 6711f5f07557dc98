"""The verdicts that the soundness check owes on damaged tables, worked out from document 01 alone.

`python3 oracle/damaged.py` writes crates/test_damaged/stdout; with --check it says
whether the stored file is what it would write.
"""

import sys
from pathlib import Path

RADIOS, NEIGHBOURS, ROW = 512, 40, 64
OUT = Path(__file__).parent.parent / "crates/test_damaged/stdout"


def table(n, bits):
    rows = bytearray(ROW * n)
    for a, b in bits:
        rows[ROW * a + b // 8] |= 1 << b % 8
    return rows


def both(pairs):
    return {end for a, b in pairs for end in ((a, b), (b, a))}


def verdict(n, rows, numbers, order):
    """Refusal number, and whether the tables are sound."""
    if not 1 <= n <= RADIOS:
        return 1, 0
    if (len(rows), len(numbers), len(order)) != (ROW * n, n, n):
        return 2, 0
    marks = [{b for b in range(8 * ROW) if rows[ROW * a + b // 8] >> b % 8 & 1} for a in range(n)]
    place = {v: i for i, v in enumerate(order)}
    sound = (
        all(a in marks[b] for a in range(n) for b in marks[a] if b < n)
        and all(a not in marks[a] for a in range(n))
        and all(b < n for a in range(n) for b in marks[a])
        and all(len(marks[a]) <= NEIGHBOURS for a in range(n))
        and sorted(order) == list(range(n))
        and all(numbers[order[i]] <= numbers[order[i + 1]] for i in range(n - 1))
        and all(sum(place[b] > place[a] for b in marks[a]) <= numbers[a] for a in range(n))
        and all(sum(numbers[b] >= numbers[a] for b in marks[a]) >= numbers[a] for a in range(n))
    )
    return 0, int(sound)


LINKS = both([(0, 1), (1, 2), (0, 2), (2, 3)])
NUMBERS, ORDER = [2, 2, 2, 1, 0], [4, 3, 2, 0, 1]


def site(n=5, bits=LINKS, numbers=NUMBERS, order=ORDER):
    return verdict(n, table(5, bits), numbers, order)


def star(k, own=False):
    """Radio k linked to all radios below it, and to itself where `own` is set."""
    bits = both((v, k) for v in range(k)) | ({(k, k)} if own else set())
    return verdict(k + 1, table(k + 1, bits), [1] * (k + 1), list(range(k + 1)))


CASES = [
    ("sound", site()),
    ("one-sided", site(bits=LINKS | {(0, 3)})),
    ("own-bit", site(bits=LINKS | {(0, 0)})),
    ("bit-at-n", site(bits=LINKS | {(0, 5)})),
    ("bit-at-511", site(bits=LINKS | {(4, 511)})),
    ("bit-lost", site(bits=LINKS - {(3, 2)})),
    ("neighbours-40", star(40)),
    ("neighbours-41", star(41)),
    *[(f"bits-{k}", star(k)) for k in (40, 41, 255, 256, 257, 288, 296)],
    ("bits-512", star(511, own=True)),
    ("entry-twice", site(order=[4, 3, 2, 0, 0])),
    ("entry-n", site(order=[4, 3, 2, 0, 5])),
    ("entry-65535", site(order=[65535, 3, 2, 0, 1])),
    ("numbers-fall", site(order=[3, 4, 2, 0, 1])),
    ("later-too-many", site(numbers=[1, 1, 1, 1, 0])),
    ("not-enough", site(numbers=[2, 2, 2, 1, 1])),
    ("number-255", site(numbers=[2, 255, 2, 1, 0])),
    ("n-0", site(n=0)),
    ("n-513", site(n=513)),
    ("n-4", site(n=4)),
    ("short-numbers", site(numbers=NUMBERS[:4])),
    ("short-order", site(order=ORDER[:4])),
    ("one-sided-mended", site()),
    ("bit-at-511-mended", site()),
    ("other-order", site(order=[4, 3, 0, 1, 2])),
]

text = "".join(f"{name} {number} {value}\n" for name, (number, value) in CASES)
if "--check" in sys.argv:
    same = OUT.read_text() == text
    print("crates/test_damaged/stdout:", "as written by this program" if same else "DIFFERENT")
    sys.exit(not same)
OUT.write_text(text)

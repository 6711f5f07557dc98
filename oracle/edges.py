"""What crates/test_edges prints: document 01's cases that are not marked, worked out from it alone.

  python3 oracle/edges.py           write crates/test_edges/stdout
  python3 oracle/edges.py --check   say whether the stored file is what would be written
"""

import sys
from pathlib import Path

import reference
from peeled import Site
from questions import RADIOS

OUT = Path(__file__).resolve().parent.parent / "crates/test_edges/stdout"
UNWRITTEN = 7777

SHAPES = {
    "none": lambda n: [],
    "line": lambda n: [(v, v + 1) for v in range(n - 1)],
    "all": lambda n: [(a, b) for a in range(n) for b in range(a + 1, n)],
}


def image_of(site):
    """The image's bytes, by the writer of oracle/reference.py."""
    plain = reference.Site(site.n)
    plain.links = {(a, b) for a in range(site.n) for b in site.near[a] if a < b}
    plain.numbers, plain.order = site.numbers, site.order
    return plain.image()


def refused(n):
    """Question 1 gets no; tables keep zeros and what is not to be written."""
    zeros = [0] * n
    return ["clear 1", "up 1 0 0", "check 1 0", ("numbers", *zeros), ("order", *zeros),
            ("answer", *[UNWRITTEN] * n), "write 1 0 0", "write 1 0 0", "write 1 0 0", "image"]


def lines(name, n):
    if not 1 <= n <= RADIOS:
        return refused(n)
    site, answer = Site(n), [UNWRITTEN] * n
    for a, b in SHAPES[name](n) + [(0, n - 1)]:
        number, step, changed = site.call(True, a, b)
        answer[:len(changed)] = changed
    image = image_of(site)
    written = f"write 0 {len(image)} 0"
    return ["clear 0", ("up", number, int(step == 1), len(changed)), "check 0 1",
            ("numbers", *site.numbers), ("order", *site.order), ("answer", *answer),
            written, "write 9 0 0", written, ("image", *image)]


CASES = [("none", 0), ("none", 1), ("none", 252), ("none", 253), ("none", 512), ("none", 513),
         ("line", 126), ("line", 127), ("all", 33), ("all", 41), ("all", 42)]

text = ""
for name, n in CASES:
    for line in [(name, n)] + lines(name, n):
        text += (line if isinstance(line, str) else " ".join(str(x) for x in line)) + "\n"
text += "canary 1\n"  # a byte written where none may be
if "--check" in sys.argv:
    same = OUT.read_text() == text
    print("crates/test_edges/stdout:", "as written by this program" if same else "DIFFERENT")
    sys.exit(not same)
OUT.write_text(text)

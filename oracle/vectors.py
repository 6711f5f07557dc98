"""Link histories with what they leave, for the proved table of crate `vectors`.

  python3 oracle/vectors.py             write crates/vectors/specs/Histories.antt
  python3 oracle/vectors.py --check     say whether the stored file is what would be written
  python3 oracle/vectors.py --document  hold M1 to M10 to document 01's own words

Expected values come from `reference`, which is written from document 01 alone.
Seeds are fixed: the same file comes out each time.
"""

import re
import sys
from pathlib import Path

import worked as cases
from calls import (CLIQUES, FALLS, IMAGES, JOINS, PRINTING, REFUSALS, RISES, TABLES, TREES,
                   random_group)
from reference import ROOT, check_bytes, line_of, play, reading, sound, with_bytes

FILE = Path(__file__).resolve().parent.parent / "crates/vectors/specs/Histories.antt"


# ---- as definitions

def filled(words, width=160):
    """Words of a list, filled into lines in the layout of `rt fmt`."""
    lines, line = [], "    " + words[0]
    for word in words[1:] + ["[]"]:
        if len(line) + 3 + len(word) > width:
            lines.append(line)
            line = "    ∷ " + word
        else:
            line += " ∷ " + word
    return "\n".join(lines + [line])


def short(values):
    return "(" + " ∷ ".join([str(v) for v in values] + ["[]"]) + ")" if values else "[]"


def call_text(call):
    going, a, b = call
    return f"{'up' if going else 'down'} {a} {b}"


def answer_text(answer):
    number, step, changed = answer
    if number:
        return f"refused {number}"
    return {1: f"risen {short(changed)}", -1: f"fallen {short(changed)}", 0: "unchanged"}[step]


def name_text(name):
    return "root_name" if name == ROOT else str(name)


def node_text(record):
    name, level, parent = record
    return f"node {name} {level} {name_text(parent)}" if level else "root"


def cores_asked(site):
    """A radio's part; the highest core; a core at level 1; a level too high; a
    radio that is not there."""
    n, top = site.n, max(site.numbers)
    asked = [(n - 1, 0), (site.numbers.index(top), top), (n // 2, 1), (0, site.numbers[0] + 1), (n, 0)]
    return list(dict.fromkeys(asked))


def text_of(line):
    return '"' + line.replace("\n", "\\n") + '"'


def put_text(puts):
    return short([f"put {at} {x}" for at, x in puts])


def only_printed(site):
    return []


def what_is_left(site):
    nodes, names = site.tree()
    yield "all_numbers " + short(site.numbers)
    yield "whole_order " + short(site.order)
    yield f"shell_tree {short([node_text(x) for x in nodes])} {short([name_text(x) for x in names])}"
    yield "backbone_radios " + short(site.backbone())
    for v, k in cores_asked(site):
        number, radios = site.core(v, k)
        yield f"connected_core {v} {k} {number} {short(radios)}"
    yield f"image_checks {len(site.image())} {short(site.checks())}"


def soundness_tried(site):
    """The tables as they are, then damaged: a number one more and one less,
    the order turned round, one radio twice in it, a link in one row only, a
    radio its own neighbour, a bit at n."""
    n, rows, numbers, order = site.n, site.rows(), site.numbers, site.order
    last = n - 1
    raised = [k + (v == 0) for v, k in enumerate(numbers)]
    lowered = [k - (v == last and k > 0) for v, k in enumerate(numbers)]
    tried = [([], numbers, order), ([], raised, order), ([], lowered, order), ([], numbers, order[::-1]),
             ([], numbers, order[:-1] + order[:1])]
    for a, b in ((0, last), (0, 0), (last, n)):
        at = 64 * a + b // 8
        tried.append(([(at, rows[at] ^ 1 << b % 8)], numbers, order))
    for puts, ks, vs in tried:
        answer = "true" if sound(n, with_bytes(rows, puts), ks, vs) else "false"
        yield f"soundness {put_text(puts)} {short(ks)} {short(vs)} {answer}"


def checked(image, puts):
    """The puts, and further ones that make the checks good again."""
    changed = with_bytes(image, puts)
    for at in sorted({512 * (at // 512) for at, _ in puts}):
        puts = puts + [(at + 508 + i, x) for i, x in enumerate(check_bytes(changed[at:at + 512]))
                       if changed[at + 508 + i] != x]
    return puts


def reading_tried(site):
    """The image as it is, for another n, cut short, empty, with a byte changed;
    then with good checks: a byte of the unused payload, two entries of the
    order exchanged, the count of links one more, a header that says 0, 513 or
    one more radio, read with this n and with that one, a radio in the order
    that is none, read with another n, the first link's ends equal."""
    n, image = site.n, site.image()
    whole = len(image)
    tried = [(n, whole, []), (n + 1, whole, []), (n, whole - 1, []), (n, 0, []), (n, whole - 512, []),
             (n, whole, [(4, image[4] ^ 3)]), (n, whole, checked(image, [(900, 1)])),
             (n, whole, checked(image, [(516, image[518]), (518, image[516])])),
             (n, whole, checked(image, [(6, image[6] + 1)])),
             (n, whole, checked(image, [(4, 0)])), (n, whole, checked(image, [(4, 1), (5, 2)])),
             (n, whole, checked(image, [(4, n + 1)])), (n + 1, whole, checked(image, [(4, n + 1)])),
             (n + 1, whole, checked(image, [(516, n)]))]
    if site.links:
        tried.append((n, whole, checked(image, [(1028, image[1030])])))
    for m, many, puts in tried:
        yield f"image_reading {m} {many} {put_text(puts)} {reading(m, with_bytes(image, puts)[:many])}"


def row_text(about, n, calls, start, wanted):
    site, answers = play(n, calls)
    lines = [line_of(x) for x in answers] + site.closing_lines()
    made = "(\n" + filled([call_text(c) for c in calls]) + ")" if calls else "[]"
    answered = "(\n" + filled([answer_text(x) for x in answers]) + ")" if calls else "[]"
    wants = [f"printed (\n{filled([text_of(x) for x in lines])})"] + list(dict.fromkeys(wanted(site)))
    return (f"    -- {about}\n    {start}row {n} {made} (\n    last_answers {answered}\n"
            f"    ∷ {filled(wants).lstrip()})\n")


# name, what it is about, the histories, what is wanted besides answers and printed lines
GROUPS = [
    ("refusals", "calls that are refused", REFUSALS, what_is_left),
    ("cliques", "cliques built and torn down", CLIQUES, what_is_left),
    ("joins", "parts that join", JOINS, what_is_left),
    ("rises", "links going up", RISES, what_is_left),
    ("falls", "links going down", FALLS, what_is_left),
    ("trees", "shell trees", TREES, what_is_left),
    ("printing", "numbers of two and three digits", PRINTING, only_printed),
    ("tables", "soundness, with damaged tables", TABLES, soundness_tried),
    ("images", "image reading, with damaged images", IMAGES, reading_tried),
    ("random_small", "random calls at 2 to 5 radios",
     random_group(101, [(2, 8, 0.5), (3, 10, 0.6), (3, 12, 0.5), (4, 12, 0.7), (4, 16, 0.6),
                        (5, 14, 0.7), (5, 16, 0.8), (5, 20, 0.6), (5, 24, 0.7)]), what_is_left),
    ("random_middle", "random calls at 6 and 7 radios",
     random_group(201, [(6, 16, 0.8), (6, 20, 0.7), (6, 24, 0.8), (7, 18, 0.8), (7, 20, 0.9),
                        (7, 24, 0.7)]), what_is_left),
    ("random_large", "random calls at 8 radios",
     random_group(301, [(8, 20, 0.8), (8, 24, 0.9), (8, 24, 0.75), (8, 28, 0.85)]), what_is_left),
]


HEAD = """-- Link histories from cleared sites, with every answer and what they leave. Written by `python3 oracle/vectors.py`,
-- whose expected values come from document 01 alone, by all sets of radios; not to be changed by hand.
INDEX--   histories       all of them, TOTAL rows
-- That every row is right is `histories_right` in proofs/Histories.antt. Definitions only.
use Rattle.lists.specs.Kit.{true, false, List, [], ◌∷◌, ◌++◌}
use Rattle.mesh.specs.Tree.{root_name, node, root}
use Rattle.calls.specs.Worked.{Row, row, up, down, risen, fallen, unchanged, refused, last_answers, all_numbers, whole_order, shell_tree, connected_core}
use Rattle.calls.specs.Worked.{backbone_radios, image_checks, printed, put, soundness, image_reading}
"""


def text():
    index = "".join(f"--   {name:<15} {about}\n" for name, about, _, _ in GROUPS)
    total = sum(len(rows) for _, _, rows, _ in GROUPS)
    out = HEAD.replace("INDEX", index).replace("TOTAL", str(total))
    for name, _, rows, wanted in GROUPS:
        out += f"\nunfoldable pub {name} : List Row\n{name} =\n"
        for i, (what, n, calls) in enumerate(rows):
            out += row_text(what, n, calls, "∷ " if i else "", wanted)
        out += "    ∷ []\n"
    names = [name for name, _, _, _ in GROUPS]
    joined = " ++ (".join(names[:4]) + " ++\n    (" + " ++ (".join(names[4:-1]) + " ++ " + names[-1] + ")" * (len(names) - 2)
    out += f"\nunfoldable pub histories : List Row\nhistories = {joined}\n"
    return "\n".join(map(narrow, out.split("\n")))


def narrow(line):
    """A line that passes 160 columns has its last word on a line of its own."""
    return re.sub(r" (\[\]\)|\()$", r"\n    \1", line) if len(line) > 160 else line


def main(words):
    if words == []:
        FILE.write_text(text())
        return 0
    if words == ["--check"]:
        good = FILE.exists() and FILE.read_text() == text()
        print(f"{FILE.name}: {'as written by this program' if good else 'NOT as written by this program'}")
        return 0 if good else 1
    if words == ["--document"]:
        bad = 0
        for name, got, said in cases.compared():
            print(f"{name}: {'as document 01 says' if got == said else f'NOT {said}'}: {got}")
            bad += got != said
        return 1 if bad else 0
    print(__doc__)
    return 2


if __name__ == "__main__":
    sys.exit(main(sys.argv[1:]))

"""Document 01's cases M1 to M10, worked out by `reference` and held to the
document's own words; M7 to document 02's (W-202)."""

from reference import ROOT, Site, line_of, play


def up(a, b):
    return True, a, b


def down(a, b):
    return False, a, b


def triangle(a, b, c):
    return [up(a, b), up(b, c), up(a, c)]


M1 = """0 +1 0 1
0 +1 2
0 +1 0 1 2
0 -1 0 1 2
numbers 1 1 1 0
order 3 0 2 1
"""


def compared():
    """Of each sentence of M1 to M10: its name, what was worked out, what the
    document says."""
    def prints(n, calls):
        site, answers = play(n, calls)
        return "".join([line_of(x) for x in answers] + site.closing_lines())

    yield "M1", prints(4, [up(0, 1), up(1, 2), up(0, 2), down(0, 1)]), M1

    site, _ = play(4, [up(0, 1), up(2, 3)])
    yield "M2, the order before", site.order, [2, 3, 0, 1]
    yield "M2, the last call", site.call(True, 0, 2), (0, 0, [])
    yield "M2, the order after", site.order, [3, 2, 0, 1]

    triangles = triangle(0, 1, 2) + triangle(3, 4, 5)
    site, _ = play(6, triangles)
    root = (ROOT, 0, ROOT)
    yield "M3, numbers", site.numbers, [2] * 6
    yield "M3, nodes", site.tree()[0], [root, (0, 2, ROOT), (3, 2, ROOT)]
    yield "M4, the call", site.call(True, 2, 3), (0, 0, [])
    yield "M4, nodes", site.tree()[0], [root, (0, 2, ROOT)]
    site, _ = play(7, triangles + [up(2, 3), up(0, 6)])
    yield "M5, nodes", site.tree()[0], [root, (6, 1, ROOT), (0, 2, 6)]
    yield "M6, level 1", site.core(6, 1), (0, list(range(7)))
    yield "M6, level 2", site.core(6, 2), (8, [])
    site, _ = play(5, triangle(0, 1, 2) + [up(3, 4)])
    yield "M7", site.backbone(), [0, 1, 2, 3, 4]
    yield "M8, bytes", len(Site(1).image()), 1024
    yield "M8, checks", Site(1).checks(), [5, 4]
    yield "M9", Site(3).call(True, 3, 3), (4, 0, [])

    site, _ = play(42, [up(0, b) for b in range(1, 40)])
    yield "M10, the 40th", site.call(True, 0, 40)[0], 0
    yield "M10, the 41st", site.call(True, 0, 41)[0], 7
    yield "M10, the 41st, ends exchanged", site.call(True, 41, 0)[0], 7
    yield "M10, one down", site.call(False, 0, 1)[0], 0
    yield "M10, the 41st again", site.call(True, 0, 41)[0], 0

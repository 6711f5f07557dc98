"""The link calls of each history: lists of (what it is about, n, calls)."""

import random
from itertools import combinations

from worked import down, triangle, up
from reference import play


def ups(*pairs):
    return [up(a, b) for a, b in pairs]


def downs(*pairs):
    return [down(a, b) for a, b in pairs]


def path(*radios):
    return list(zip(radios, radios[1:]))


def cycle(*radios):
    return path(*radios) + [(radios[-1], radios[0])]


def clique(*radios):
    return list(combinations(radios, 2))


def sides(left, right):
    return [(a, b) for a in left for b in right]


REFUSALS = [
    ("one radio, no call", 1, []),
    ("one radio: every call is refused", 1,
     [up(0, 0), up(0, 1), up(1, 0), up(1, 1), down(0, 0), down(0, 1)]),
    ("a link is taken up once and down once, ends in either order", 2,
     [down(0, 1), up(0, 1), up(0, 1), up(1, 0), down(1, 0), down(0, 1), up(1, 0)]),
    ("4 before 5, 5 before 6, and a refused call changes nothing", 4,
     ups(*path(0, 1, 2)) + [up(4, 4), down(9, 9), up(2, 2), down(2, 2), up(0, 4), down(65535, 0),
                            up(1, 0), down(0, 2), up(2, 3)]),
    ("eight radios, no link", 8, [up(8, 0), down(0, 7), up(7, 7)]),
]

CLIQUES = [
    ("a clique of 4 built and torn down to nothing", 4,
     ups(*clique(0, 1, 2, 3)) + downs(*clique(0, 1, 2, 3))),
    ("a clique of 5 built, and torn down from its last radio", 5,
     ups(*clique(0, 1, 2, 3, 4)) + downs((3, 4), (2, 4), (1, 4), (0, 4))),
    ("a clique of 6, one link down", 6, ups(*clique(0, 1, 2, 3, 4, 5)) + downs((2, 4))),
    ("a clique of 8", 8, ups(*clique(*range(8)))),
    ("two cliques of 4 torn down in turn", 8,
     ups(*clique(0, 2, 4, 6), *clique(1, 3, 5, 7)) + downs((0, 2), (1, 3), (4, 6), (5, 7), (0, 6))),
    ("two cliques of 4 with one radio in both", 7, ups(*clique(0, 1, 2, 3), *clique(3, 4, 5, 6))),
    ("three against three, then a link inside a side", 6,
     ups(*sides((0, 1, 2), (3, 4, 5)), (0, 1)) + downs((0, 3))),
]

JOINS = [
    ("two pairs join, and part again", 4, ups((0, 1), (2, 3), (1, 2)) + downs((1, 2))),
    ("two triangles join by one link, by two, by three", 6,
     triangle(0, 1, 2) + triangle(3, 4, 5) + ups((0, 3), (1, 4), (2, 5))),
    ("two triangles joined, the joint goes down", 7,
     triangle(0, 1, 2) + triangle(4, 5, 6) + ups((2, 3), (3, 4)) + downs((2, 3), (3, 4))),
    ("a triangle and a clique of 4 join", 8,
     triangle(5, 6, 7) + ups(*clique(0, 1, 2, 3), (3, 5), (2, 4), (4, 7))),
    ("three pairs join to a ring", 6, ups((0, 1), (2, 3), (4, 5), (1, 2), (3, 4), (5, 0))),
]

RISES = [
    ("equal ends in two subcores, both rise: two radios held by one triangle", 5,
     triangle(0, 1, 2) + ups((0, 3), (1, 4), (3, 4))),
    ("equal ends in two subcores of several radios, all rise", 7,
     triangle(0, 1, 2) + ups((0, 3), (3, 4), (1, 5), (5, 6), (4, 6))),
    ("equal ends in two subcores, level 2, both rise", 6,
     ups(*clique(0, 1, 2, 3), (0, 4), (1, 4), (2, 5), (3, 5), (4, 5))),
    ("a long path is looked at, three radios rise", 8, ups(*path(0, 1, 2, 3, 4, 5, 6, 7), (5, 7))),
    ("a ring closes, all rise", 8, ups(*path(3, 1, 4, 0, 5, 2, 6, 7), (7, 3))),
    ("ends of different numbers, the lower level alone changes", 6,
     ups(*clique(0, 1, 2, 3), (4, 5), (4, 0), (5, 1))),
    ("no radio rises, level 1 is laid out anew", 6, ups((0, 1), (2, 3), (4, 5), (1, 4), (0, 3))),
]

FALLS = [
    ("a link goes down, and a whole ring falls with it", 8,
     ups(*cycle(0, 1, 2, 3, 4, 5, 6, 7)) + downs((3, 4))),
    ("links up, then down to nothing, in the same order", 5,
     ups(*path(0, 1, 2, 3, 4)) + downs(*path(0, 1, 2, 3, 4))),
    ("links up, then down to nothing, in the other order", 5,
     ups(*path(4, 2, 0, 1, 3)) + downs(*reversed(path(4, 2, 0, 1, 3)))),
    ("a wheel loses a spoke, then a link of its rim", 7,
     ups(*cycle(1, 2, 3, 4, 5, 6), *sides((0,), range(1, 7))) + downs((0, 3), (5, 6))),
    ("a star loses its links one by one", 6,
     ups(*sides((5,), range(5))) + downs(*sides((5,), range(5)))),
    ("a triangle opens at the end of a tail", 6, triangle(3, 4, 5) + ups(*path(0, 1, 2, 3)) + downs((4, 5))),
    ("one part of a level falls, the other stays", 6,
     triangle(0, 1, 2) + triangle(3, 4, 5) + downs((4, 5))),
    ("a link goes down and nothing falls", 5, ups(*clique(0, 1, 2, 3), (0, 4), (1, 4), (2, 4)) + downs((3, 0))),
]

TREES = [
    ("an empty level is skipped: level 3 under level 1", 5, ups(*clique(1, 2, 3, 4), (0, 1))),
    ("empty levels are skipped: level 4 under level 1", 7, ups(*clique(0, 1, 2, 3, 4), (4, 5), (5, 6))),
    ("levels 3 and 2 under one node of level 1", 8,
     ups(*clique(0, 1, 2, 3), (3, 7), (7, 4)) + triangle(4, 5, 6) + downs((4, 7)) + ups((7, 6))),
    ("level 3 under level 2, and a part of level 1 beside it", 8,
     ups(*clique(2, 3, 4, 5), (2, 1), (3, 1), (0, 6))),
    ("levels 1, 2 and 3, one inside the other, names not in order", 7,
     ups(*clique(3, 4, 5, 6), (3, 1), (6, 1), (1, 2), (2, 6), (0, 1))),
    ("two nodes of level 2 under one of level 1, tied by a path", 8,
     triangle(0, 1, 2) + triangle(5, 6, 7) + ups((2, 3), (3, 4), (4, 5)) + downs((3, 4)) + ups((4, 3))),
    ("a node falls apart when its tie goes down", 7,
     triangle(0, 1, 2) + triangle(4, 5, 6) + ups((2, 3), (3, 4), (0, 4)) + downs((0, 4), (3, 4))),
]


PRINTING = [
    ("two digits", 12, ups((9, 10), (11, 10), (9, 11), (0, 11)) + [down(10, 9), up(12, 3)]),
    ("three digits", 101, ups((99, 100))),
]

# of these the soundness check is tried too, with damaged tables
TABLES = [
    ("a pair, a radio beside it", 3, ups((2, 0))),
    ("a triangle", 3, triangle(0, 1, 2)),
]

# of these image reading is tried too, with damaged images
IMAGES = [
    ("one radio", 1, []),
    ("two radios, one link", 2, ups((0, 1))),
]


def mixed(seed, n, length, upward):
    """Random calls: about one in ten names a radio that may not be there or
    one radio twice; of the others a share `upward` goes up."""
    chance = random.Random(seed)
    calls = []
    for _ in range(length):
        going = chance.random() < upward
        if chance.random() < 0.1:
            a, b = chance.randrange(n + 1), chance.randrange(n + 1)
        else:
            a, b = chance.sample(range(n), 2)
            site, _ = play(n, calls)
            if not going and site.links:
                a, b = chance.choice(sorted(site.links))
        calls.append((going, a, b))
    return calls


def random_group(start, rows):
    return [(f"random, seed {seed}", n, mixed(seed, n, length, upward))
            for seed, (n, length, upward) in enumerate(rows, start)]

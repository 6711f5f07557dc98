"""The sites of which the program `test_answers` asks one link that lifts a radio, and the lines that it owes, worked out from document 02 alone.
oracle/answers.py writes and checks what is stored.

Of sites of up to 12 radios every pair is tried, and all numbers are worked out anew with its link. Of larger ones too, but whom a link
raises is found as document 000 finds it, by a search from the lower end: that the two ways agree is asserted on every small site. A file has
words of 32 bits, lowest byte first: the count of sites, and for each ten words and its links, two entries each.
"""

import random
from itertools import combinations

import peeled
import words
from questions import NEIGHBOURS, RADIOS

SMALL = 12


# ---- whom a link raises


def raised_anew(site, before, a, b):
    """All numbers worked out again."""
    site.near[a].add(b), site.near[b].add(a)
    after = site.core_numbers()
    site.near[a].remove(b), site.near[b].remove(a)
    return {v for v in range(site.n) if after[v] > before[v]}


class Search:
    """Document 000: from the lower end over radios of its number that have more neighbours which are not below it than that number; of
    these, ones that have too few among themselves and the radios above go, until none does."""

    def __init__(self, site, before):
        self.before = before
        self.peers = [{u for u in near if before[u] == before[v]} for v, near in enumerate(site.near)]
        self.above = [sum(before[u] > before[v] for u in near) for v, near in enumerate(site.near)]

    def raised(self, a, b):
        before, level = self.before, min(self.before[a], self.before[b])
        above, peers = {}, {}
        for v, u in ((a, b), (b, a)):
            if before[v] == level:
                above[v] = self.above[v] + (before[u] > level)
                peers[v] = self.peers[v] | ({u} if before[u] == level else set())
        root = a if before[a] == level else b
        seen, due, left = {root}, [root], {}
        while due:
            v = due.pop()
            near = peers.get(v) or self.peers[v]
            left[v] = above.get(v, self.above[v]) + len(near)
            if left[v] > level:
                due.extend(near - seen)
                seen |= near
        poor = [v for v in seen if left[v] <= level]
        while poor:
            v = poor.pop()
            if v in seen:
                seen.remove(v)
                for u in (peers.get(v) or self.peers[v]) & seen:
                    left[u] -= 1
                    if left[u] <= level:
                        poor.append(u)
        return seen


def firsts(site):
    """For each radio the first pair that lifts it, by lower radio and then higher."""
    before, first = site.core_numbers(), {}
    search, open_ = Search(site, before), [0] * site.n
    for x in before:
        open_[x] += 1  # radios of a level that have no pair yet
    for a, b in combinations(range(site.n), 2):
        if not open_[min(before[a], before[b])] or site.refusal(True, a, b):
            continue
        raised = search.raised(a, b)
        if site.n <= SMALL:
            assert raised == raised_anew(site, before, a, b)
        for v in raised - first.keys():
            first[v] = a, b
            open_[before[v]] -= 1
    return first


# ---- files


class File:
    """What one file has, and what the program adds up over it."""

    def __init__(self):
        self.words, self.sites, self.asked, self.pairs, self.none, self.h = [], 0, 0, 0, 0, 0

    def record(self, fresh, n, lengths, spoil, start, step, asked, links):
        self.words += [fresh, n, *lengths, spoil, start, step, asked, 2 * len(links)] + [x for link in links for x in link]
        self.sites += 1

    def say(self, number, low=0, high=0):
        self.asked += 1
        self.pairs += number == 0
        self.none += number == 20
        self.h = words.digest(self.h, (number, low, high))

    def site(self, n, links, step=1):
        """Every radio is asked for, or every `step`-th, and one that is no radio."""
        links, parts = list(links), []
        while len(links) > 600:
            parts.append(links[:600])
            links = links[600:]
        asked = n // step + 1
        for i, part in enumerate([*parts, links]):
            self.record(i == 0, n, (64 * n, n, n), 0, 0, step, asked if i == len(parts) else 0, part)
            self.sites -= i != 0
        site = peeled.Site(n)
        for a, b in [x for part in [*parts, links] for x in part]:
            assert site.refusal(True, a, b) == 0
            site.near[a].add(b), site.near[b].add(a)
        first = firsts(site)
        for v in range(0, asked * step, step):
            if v >= n:
                self.say(4)
            elif v in first:
                self.say(0, *first[v])
            else:
                self.say(20)

    def refused(self, number, n, lengths, spoil=0, radios=4):
        """A call on a cleared site of at most 512 radios, or after a refused clearing, that is refused by this number."""
        self.record(1, n, lengths, spoil, 0, 1, radios, [])
        for _ in range(radios):
            self.say(number)


def questions():
    """1 to 4, each before the next."""
    f = File()
    for n in (0, 513):
        f.refused(1, n, (64 * n, n, n))
        f.refused(1, n, (1, 1, 1))
    for lengths in ((255, 4, 4), (257, 4, 4), (256, 3, 4), (256, 5, 4), (256, 4, 3), (256, 4, 5)):
        f.refused(2, 4, lengths)
        f.refused(2, 4, lengths, spoil=1)
    f.refused(3, 4, (256, 4, 4), spoil=1, radios=6)  # radio 0 marks itself
    return f


def all_graphs(n):
    f = File()
    pairs = list(combinations(range(n), 2))
    for bits in range(1 << len(pairs)):
        f.site(n, [p for i, p in enumerate(pairs) if bits >> i & 1])
    return f


def worked():
    """Worked pairs: no links, a path, a triangle, one radio, a triangle with a tail, two triangles, a ring with a diagonal."""
    triangle, other = [(0, 1), (0, 2), (1, 2)], [(3, 4), (3, 5), (4, 5)]
    f = File()
    for n, links in ((3, []), (3, [(0, 1), (1, 2)]), (3, triangle), (1, []), (5, triangle + [(2, 3), (3, 4)]), (6, triangle + other),
                     (4, [(0, 1), (1, 2), (2, 3), (0, 3), (0, 2)])):
        f.site(n, links)
    return f


def chosen(some, n, count, most=NEIGHBOURS):
    """So many different links, no radio with more than `most`."""
    links, degree = set(), [0] * n
    for _ in range(20 * count):
        a, b = sorted(some.sample(range(n), 2))
        if len(links) < count and (a, b) not in links and max(degree[a], degree[b]) < most:
            links.add((a, b))
            degree[a] += 1
            degree[b] += 1
    return sorted(links)


def small():
    f, some = File(), random.Random(212)
    for _ in range(150):
        n = some.randrange(6, SMALL + 1)
        f.site(n, chosen(some, n, some.randrange(n * (n - 1) // 2 + 1)))
    return f


def middle():
    f, some = File(), random.Random(1212)
    for n, count in ((20, 40), (30, 45), (30, 90), (40, 200), (60, 90), (60, 180), (64, 300), (100, 150)):
        f.site(n, chosen(some, n, count))
    return f


def circulant(n, steps):
    return sorted({(min(v, u), max(v, u)) for v in range(n) for u in ((v + s) % n for s in steps)})


def regular():
    """Nearly regular sites, in which one link more lifts many or none: rings, circulants, with a link less, cliques in a chain."""
    f = File()
    for n, steps in ((16, (1,)), (16, (1, 2)), (24, (1, 5)), (30, (1, 2, 3)), (48, (1, 7))):
        links = circulant(n, steps)
        f.site(n, links)
        f.site(n, links[1:])
        f.site(n, links[:-2])
    cliques = [(6 * i + a, 6 * i + b) for i in range(6) for a, b in combinations(range(6), 2)]
    f.site(36, cliques)
    f.site(36, cliques + [(6 * i + 5, 6 * i + 6) for i in range(5)])
    return f


def full():
    """Radios with 39 and 40 neighbours: question 7."""
    f = File()
    for count in (NEIGHBOURS - 1, NEIGHBOURS):
        star = [(0, v) for v in range(1, count + 1)]
        f.site(count + 3, star)
        f.site(count + 3, star + [(count + 1, count + 2)])
        f.site(count + 3, [(count + 2, v) for v in range(1, count + 1)])
    f.site(42, list(combinations(range(41), 2)))
    f.site(82, list(combinations(range(41), 2)) + [(a + 41, b + 41) for a, b in combinations(range(41), 2) if (a, b) != (3, 7)])
    return f


def large():
    """512 radios: none linked, a ring, and halls of 4 to 20 radios, some joined to the next."""
    f, some = File(), random.Random(512)
    f.site(RADIOS, [])
    f.site(RADIOS, circulant(RADIOS, (1,)), 7)
    links, at = [], 0
    while at < RADIOS:
        size = min(some.randrange(4, 21), RADIOS - at)
        if size > 1:
            links += [(at + a, at + b) for a, b in chosen(some, size, some.randrange(size, 4 * size))]
        if some.randrange(2) and at + size < RADIOS:
            links.append((at, at + size))
        at += size
    f.site(RADIOS, sorted(set(links)))
    return f


FILES = {"worked": worked, "questions": questions, "all-4": lambda: all_graphs(4), "all-5": lambda: all_graphs(5), "small": small,
         "middle": middle, "regular": regular, "full": full, "large": large}


def made():
    """The files of data/ by name, and the lines that the program owes for them."""
    files, lines = {}, []
    for name, make in FILES.items():
        f = make()
        files[name] = words.little([len_of(f), *f.words])
        lines.append(f"{name} sites {f.sites} asked {f.asked} pairs {f.pairs} none {f.none} digest {f.h}\n")
    return files, "".join(lines)


def len_of(f):
    """How many records a file has: each is ten words and its list."""
    at = count = 0
    while at < len(f.words):
        at += 10 + f.words[at + 9]
        count += 1
    return count

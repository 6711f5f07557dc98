"""Shell trees, connected cores, backbones and staircase trees of sites, worked out from document 01 and W-202 and W-209 of document 02
alone. oracle/answers.py writes and checks what is stored.

A connected core is a part of the radios with number k or more. The tree is made by comparing
sets: one node for each different connected core, at the largest k. Small sites are compared with
`reference`, which looks at all sets of radios. Staircase trees are oracle/kruskal.py's.

data/trees has words of 16 bits, lower byte first: the count of sites; of each its name, of 16
bytes; n; the count of links and the links; the count of calls and the calls on the site; the
same for calls after all numbers are set to 255. A call is its kind (1 tree, 2 backbone, 3 core,
4 staircase tree), n, the length of the answer table, for a tree the places for nodes, for a core
the radio and the level; then what is owed: refusal number, value, for a tree the lists of names,
levels and parents, and the list in the answer table; a list is its count and its entries. Of the last site, `canary`, each call owes one wrong value.
"""

import random

import kruskal
import reference
import words
from questions import NEIGHBOURS

ROOT, PLACES, ENTRIES = 65535, 515, 1030


# ---- a site

class Site:
    def __init__(self, n, links):
        self.n, self.links = n, sorted({(min(a, b), max(a, b)) for a, b in links})
        self.near = [set() for _ in range(n)]
        for a, b in self.links:
            assert a != b
            self.near[a].add(b)
            self.near[b].add(a)
        assert all(len(near) <= NEIGHBOURS for near in self.near)
        self.numbers = self.core_numbers()

    def core_numbers(self):
        """Radios with fewer than k neighbours left are thrown out, k rising."""
        numbers, left, k = [0] * self.n, set(range(self.n)), 0
        while left:
            poor = {v for v in left if len(self.near[v] & left) < k}
            left -= poor
            if not poor:
                for v in left:
                    numbers[v] = k
                k += 1
        return numbers

    def core(self, v, k):
        """All radios reachable from v over radios with number k or more."""
        found, look = {v}, [v]
        while look:
            fresh = {u for u in self.near[look.pop()] if self.numbers[u] >= k} - found
            found |= fresh
            look += fresh
        return frozenset(found)

    def backbone(self):
        """Part by part: the radios with the part's greatest number, where that is not 0 (document 02, W-202)."""
        listed, rest = [], set(range(self.n))
        while rest:
            part = self.core(min(rest), 0)
            top = max(self.numbers[v] for v in part)
            listed += [v for v in part if self.numbers[v] == top and top > 0]
            rest -= part
        return sorted(listed)

    def tree(self):
        """Node records (name, level, parent), the root first, and each radio's node name."""
        highest = {}
        for k in range(1, max(self.numbers) + 1):
            rest = {v for v in range(self.n) if self.numbers[v] >= k}
            while rest:
                core = self.core(min(rest), k)
                highest[core] = k
                rest -= core
        name = {s: min(v for v in s if self.numbers[v] == k) for s, k in highest.items()}
        nodes = []
        for s, k in highest.items():
            around = [t for t in highest if s < t]
            nodes.append((k, name[s], name[min(around, key=len)] if around else ROOT))
        names = [name[self.core(v, k)] if k else ROOT for v, k in enumerate(self.numbers)]
        return [(ROOT, 0, ROOT)] + [(v, k, p) for k, v, p in sorted(nodes)], names


# ---- the calls of a file, and what is owed

class File:
    def __init__(self, site):
        self.site, self.calls, self.later = site, [], []
        self.made = self.compared = 0

    def refused(self, n, w, sound):
        if not 1 <= n <= 512:
            return 1
        if n != self.site.n or w < n:
            return 2
        return 0 if sound else 3

    def note(self, sound, words, compared):
        (self.calls if sound else self.later).append(words)
        self.made += 1
        self.compared += compared

    def tree(self, n, w, sound=True, room=PLACES, owed=lambda outcome: outcome):
        """What is owed are lists: number and value, names, levels, parents, answer; `owed` may change them."""
        number = self.refused(n, w if room > n else -1, sound)
        nodes, names = ([], []) if number else self.site.tree()
        columns = [[node[i] for node in nodes] for i in range(3)]
        head, *lists = owed([[number, len(nodes)]] + columns + [names])
        self.note(sound, [1, n, w, room] + head + [x for y in lists for x in [len(y)] + y], 2 + 3 * PLACES + w)

    def listing(self, head, number, radios, w, sound):
        self.note(sound, head + [number, len(radios), len(radios)] + radios, 2 + w)

    def backbone(self, n, w, sound=True):
        number = self.refused(n, w, sound)
        self.listing([2, n, w], number, [] if number else self.site.backbone(), w, sound)

    def staircase(self, n, w, sound=True, owed=lambda entries: entries):
        """The table is lent for two entries a link; `owed` may change them."""
        number = self.refused(n, w // 2, sound)
        kept = [] if number else kruskal.staircase(n, self.site.links, self.site.numbers)
        entries = owed([v for link in kept for v in link])
        self.note(sound, [4, n, w, number, len(kept), len(entries)] + entries, 2 + w)

    def core(self, n, w, v, k, sound=True):
        number = self.refused(n, w, sound)
        if not number and v >= n:
            number = 4
        if not number and k > self.site.numbers[v]:
            number = 8
        self.listing([3, n, w, v, k], number, [] if number else sorted(self.site.core(v, k)), w, sound)

    def all_calls(self, radios):
        n, numbers = self.site.n, self.site.numbers
        for w in (n, PLACES):
            self.tree(n, w)
            self.backbone(n, w)
            self.staircase(n, 2 * w)
        for v in radios:
            for k in sorted({0, 1, numbers[v] // 2, numbers[v], numbers[v] + 1}):
                self.core(n, PLACES, v, k)
        self.core(n, PLACES, n, 0)
        self.core(n, n, 0, 65535)
        for room in (n + 1, n, 0):
            self.tree(n, PLACES, room=room)
        for m, w in ((0, PLACES), (513, PLACES), (n % 512 + 1, PLACES), (n, n - 1)):
            self.tree(m, w)
            self.backbone(m, w)
            self.core(m, w, 0, 0)
            self.staircase(m, min(2 * w + 1, ENTRIES))
        for call in (self.tree, self.backbone):
            call(n, PLACES, sound=False)
        self.staircase(n, ENTRIES, sound=False)
        self.core(n, PLACES, 0, 0, sound=False)
        return self

    def canary(self):
        """Each part of a tree's outcome owed wrongly once, each list also with an entry too few and one too many; and a staircase
        tree's list."""
        wrong = [lambda xs, i=i: xs[:i] + [xs[i] ^ 1] + xs[i + 1:] for i in (0, 1)]
        others = [wrong[1], lambda xs: xs[:-1], lambda xs: xs + [0]]
        for part, change in [(0, wrong[0]), (0, wrong[1])] + [(i, change) for i in range(1, 5) for change in others]:
            self.tree(self.site.n, PLACES, owed=lambda outcome: [
                change(xs) if i == part else xs for i, xs in enumerate(outcome)])
        for change in others:
            self.staircase(self.site.n, ENTRIES, owed=change)
        return self

    def bytes(self):
        site = self.site
        content = [site.n, len(site.links)] + [v for link in site.links for v in link]
        for calls in (self.calls, self.later):
            content += [len(calls)] + [x for call in calls for x in call]
        return words.little(content, 2)


# ---- sites

def clique(radios):
    return [(a, b) for i, a in enumerate(radios) for b in radios[:i]]


def nested(levels):
    """Cores of all levels down from `levels`, each in the next: a clique, and then always one
    radio more with one link less, to the radios with the fewest neighbours."""
    links, degree = clique(list(range(levels + 1))), [levels] * (levels + 1)
    for k in range(levels - 1, 0, -1):
        v = len(degree)
        ends = sorted(range(v), key=lambda u: (degree[u], u))[:k]
        links += [(u, v) for u in ends]
        for u in ends:
            degree[u] += 1
        degree.append(k)
    return len(degree), links


def chain(levels):
    """Cliques of 2, 3, .. radios one after another, each hung on the one before by one link: the
    connected core at a level is all cliques from its size on."""
    links, at = [], 0
    for size in range(2, levels + 2):
        links += clique(list(range(at, at + size)))
        if at:
            links.append((at - 1, at))
        at += size
    return at, links


def moved(n, links, seed):
    """The same with other radio numbers."""
    names = list(range(n))
    random.Random(seed).shuffle(names)
    return [(names[a], names[b]) for a, b in links]


def branches():
    """A ring with cliques of three sizes on it, one of them hung on another, and a tail; some
    radios alone."""
    ring = list(range(10, 22))
    links = list(zip(ring, ring[1:] + ring[:1]))
    links += clique([0, 1, 2, 3, 10]) + clique([4, 5, 6, 7, 13]) + clique([16, 30, 31, 32, 33, 34, 35])
    links += clique([40, 41, 42, 43]) + [(40, 30), (41, 31)] + [(21, 50), (50, 51), (51, 52)]
    return 60, links


def parts():
    """Parts that share no link, in turn of the same kind: a clique with a tail, a ring, a pair."""
    links, at = [], 0
    for size in range(3, 13):
        links += clique(list(range(at, at + size))) + [(at, at + size), (at + size, at + size + 1)]
        ring = list(range(at + size + 2, at + 2 * size + 2))
        links += list(zip(ring, ring[1:] + ring[:1])) + [(at + 2 * size + 2, at + 2 * size + 3)]
        at += 2 * size + 5
    return 210, moved(210, links, 6)


def towers():
    """Radio v is of tower v mod 3: two towers, the first with more links than the second, and radios without links."""
    strong, weak = random_links(171, 1200, 21), random_links(171, 200, 22)
    return 512, [(3 * a, 3 * b) for a, b in strong] + [(3 * a + 1, 3 * b + 1) for a, b in weak]


def random_links(n, count, seed):
    draw, links = random.Random(seed), set()
    degree = [0] * n
    while len(links) < count:
        a, b = sorted(draw.sample(range(n), 2))
        if (a, b) not in links and max(degree[a], degree[b]) < NEIGHBOURS:
            links.add((a, b))
            degree[a] += 1
            degree[b] += 1
    return sorted(links)


triangles = clique([0, 1, 2]) + clique([3, 4, 5])
SITES = {
    "m3": (6, triangles),
    "m4": (6, triangles + [(2, 3)]),
    "m5": (7, triangles + [(2, 3), (0, 6)]),
    "m7": (5, clique([0, 1, 2]) + [(3, 4)]),
    "halls": (7, clique([0, 1, 2]) + [(2, 3), (4, 5)]),
    "one-radio": (1, []),
    "cleared-512": (512, []),
    "clique-41": (41, clique(list(range(41)))),
    "pairs-512": (512, [(v, 511 - v) for v in range(256)]),
    "nested-12": nested(12),
    "nested-12-moved": (30, moved(30, nested(12)[1], 12)),
    "chain-6": chain(6),
    "chain-28": chain(28),
    "chain-28-moved": (512, moved(512, chain(28)[1], 28)),
    "branches": branches(),
    "parts": parts(),
    "towers-512": towers(),
    "sparse-512": (512, random_links(512, 700, 512)),
    "random-40": (40, random_links(40, 70, 40)),
    "random-200": (200, random_links(200, 420, 200)),
    "dense-100": (100, random_links(100, 900, 100)),
}


# ---- what is known beforehand

def compared_with_reference(site):
    other = reference.Site(site.n)
    other.links, other.numbers = set(site.links), reference.core_numbers(site.n, set(site.links))
    assert site.numbers == other.numbers and site.tree() == other.tree() and site.backbone() == other.backbone()
    for v in range(site.n):
        for k in range(site.numbers[v] + 1):
            assert sorted(site.core(v, k)) == other.core(v, k)[1]


def made():
    """data/trees, and the lines that the program owes for it."""
    written, lines = {}, []
    for name, (n, links) in SITES.items():
        site = Site(n, links)
        if n <= 60:
            compared_with_reference(site)
        tops = sorted(range(n), key=lambda v: (site.numbers[v], v))
        file = File(site).all_calls(sorted({0, n - 1, tops[n // 3], tops[n // 2], tops[-1]}))
        written[name] = file.bytes()
        lines.append(f"{name} calls {file.made} compared {file.compared} wrong 0\n")
    file = File(Site(*SITES["m5"])).canary()
    written["canary"] = file.bytes()
    lines.append(f"canary calls {file.made} compared {file.compared} wrong {file.made}\n")
    for name, radios in (("m7", [0, 1, 2, 3, 4]), ("halls", [0, 1, 2, 4, 5]), ("m3", list(range(6))), ("cleared-512", [])):
        assert Site(*SITES[name]).backbone() == radios
    for name, kept in (("one-radio", []), ("m3", [(0, 1), (0, 2), (3, 4), (3, 5)]), ("m5", [(0, 1), (0, 2), (2, 3), (3, 4), (3, 5), (0, 6)])):
        site = Site(*SITES[name])
        assert kruskal.staircase(site.n, site.links, site.numbers) == kept
    for name, levels in (("nested-12-moved", 12), ("chain-6", 6), ("chain-28-moved", 28)):
        nodes = Site(*SITES[name]).tree()[0]
        assert [level for _, level, _ in nodes] == list(range(levels + 1))
        assert all(node[2] == below[0] for below, node in zip(nodes, nodes[1:]))
    return {"trees": words.cases(written)}, "".join(lines)

"""The hearings that the program `test_hosts` makes, and the lines that it owes, worked out from document 02 alone. oracle/hosts.py writes and
checks what is stored.

A heard table is a set of ordered pairs here: (a, b) where a hears b. A hearing is so many single calls, each worked out by
oracle/peeled.py; none of them may be refused. The one-sided table stands in front of the program's buffer.
"""

import random

import host as hosts
import peeled
import reference
from host import BYTE, ENTRIES, KEPT
from questions import NEIGHBOURS, RADIOS
from words import digest

CLEAR, HEAR, SPOIL = "clear", "hear", "spoil-links"


def both(links):
    """Each end hears the other."""
    return {pair for a, b in links for pair in ((a, b), (b, a))}


def table(pairs, rows):
    """Bit b of row a for each pair."""
    content = [0] * (64 * rows)
    for a, b in pairs:
        content[64 * a + b // 8] |= 1 << b % 8
    return content


class Host:
    """`site` is what the tables hold while they are sound, `heard` whom each radio hears."""

    def __init__(self):
        self.links, self.numbers, self.order = [BYTE] * (64 * ENTRIES), [BYTE] * ENTRIES, [KEPT] * ENTRIES
        self.heard, self.shown, self.further = set(), [0] * (64 * ENTRIES), [BYTE] * (64 * ENTRIES)
        self.site, self.spoiled = None, False
        self.words, self.lines, self.canaries, self.switches = [], [], 0, 0

    # ---- a call: its words, what it does, its line

    def call(self, kind, n, hears=None, **lent):
        """Lengths that are not given are the right ones; a heard table that is not given is the one before."""
        many = min(n, ENTRIES)
        right = {"links": 64 * many, "numbers": many, "order": many, "heard": 64 * many, "further": 64 * many}
        lengths = {**right, **lent}
        self.heard = self.heard if hears is None else set(hears)
        shown = table(self.heard, ENTRIES)
        at = {"a": n, "b": 1} if kind == SPOIL else {"n": n}
        room = {"room": lengths["further"], "seen": 64 * ENTRIES}
        self.words.append(hosts.call(kind, changes=hosts.changes(self.shown, shown), **{x: lengths[x] for x in lengths if x != "further"}, **at, **room))
        self.shown = shown
        said = {CLEAR: self.clear, HEAR: self.hear, SPOIL: self.spoil}[kind](n, lengths, right)
        h = 0
        for content in (self.links, self.numbers, self.order, self.shown, self.further):
            h = digest(h, content)
        self.lines.append(f"{said} {h}\n")

    def put(self):
        """The site's tables, in front of the host's."""
        n, near = self.site.n, self.site.near
        self.links[:64 * n] = table(((v, u) for v in range(n) for u in near[v]), n)
        self.numbers[:n], self.order[:n] = self.site.numbers, self.site.order

    def clear(self, n, lengths, right):
        assert 1 <= n <= RADIOS and lengths == right
        self.site, self.spoiled = peeled.Site(n), False
        self.put()
        return "clear 0 0"

    def spoil(self, at, lengths, right):
        self.links[at] ^= 1
        self.spoiled = not self.spoiled
        self.canaries += 1
        return "spoil"

    def refusal(self, n, lengths, right, heard):
        """Questions 1, 2, 3, 14 and 7."""
        if not 1 <= n <= RADIOS:
            return 1
        if lengths != right:
            return 2
        if self.spoiled or self.site is None or self.site.n != n:
            assert not reference.sound(n, self.links[:64 * n], self.numbers[:n], self.order[:n])
            return 3
        if any(a == b or b >= n for a, b in heard):
            return 14
        agreed = [sum((b, a) in heard for b in range(n) if (a, b) in heard) for a in range(n)]
        return 7 if max(agreed) > NEIGHBOURS else 0

    def hear(self, n, lengths, right):
        heard = {(a, b) for a, b in self.heard if a < n}
        number = self.refusal(n, lengths, right, heard)
        if number:
            return f"hear {number} 0"
        alone = {(a, b) for a, b in heard if (b, a) not in heard}
        self.further[:64 * n] = table(alone, n)
        near = self.site.near
        downs = [(False, a, b) for a in range(n) for b in sorted(near[a]) if a < b and not ((a, b) in heard and (b, a) in heard)]
        ups = [(True, a, b) for a, b in sorted(heard) if a < b and (b, a) in heard and b not in near[a]]
        for up, a, b in downs + ups:
            assert self.site.call(up, a, b)[0] == 0
        self.switches += len(downs) + len(ups)
        self.put()
        return f"hear 0 {len(alone)}"


def worked(host):
    """Document 02's example, and each refusal: alone, and before a later one."""
    heard = [(0, 1), (1, 0), (1, 2), (0, 2), (2, 0), (2, 3), (3, 2)]
    host.call(HEAR, 4, heard)  # nothing is cleared yet
    host.call(CLEAR, 4)
    host.call(HEAR, 4, both([(0, 1), (0, 2), (1, 2)]))
    host.call(HEAR, 4, heard)
    assert (host.site.numbers, host.site.order, host.further[:256]) == ([1] * 4, [3, 2, 0, 1], [4 if at == 64 else 0 for at in range(256)])
    host.call(HEAR, 4, [*heard, (0, 0)])
    host.call(HEAR, 4, [*heard, (3, 4)])
    host.call(HEAR, 4, [*heard, (2, RADIOS - 1)])
    host.call(HEAR, 4, [*heard, (4, 4), (5, 0)])  # rows that are not lent
    for n in (0, RADIOS + 1):
        host.call(HEAR, n)
    for name, right in (("links", 256), ("numbers", 4), ("order", 4), ("heard", 256), ("further", 256)):
        host.call(HEAR, 4, heard, **{name: right - 1})
        host.call(HEAR, 4, heard, **{name: right + 1})
    host.call(SPOIL, 0, links=256)  # radio 0 marks itself, or no longer does
    host.call(HEAR, 4, heard)
    host.call(HEAR, 4, [*heard, (0, 0)])
    host.call(HEAR, 4, heard, further=255)
    host.call(SPOIL, 0, links=256)
    host.call(HEAR, 4, heard)
    host.call(HEAR, 4, [])


def limits(host):
    """The 40th agreed link and the 41st; more that are heard, and not agreed; 14 before 7."""
    star = [(0, v) for v in range(1, NEIGHBOURS + 2)]
    host.call(CLEAR, 64)
    host.call(HEAR, 64, both(star))
    host.call(HEAR, 64, {*both(star), (63, 63)})
    host.call(HEAR, 64, {*both(star), (63, 64)})
    host.call(HEAR, 64, both(star[:-1]))
    host.call(HEAR, 64, both(star))
    host.call(HEAR, 64, {*both(star[:-1]), star[-1]})
    host.call(HEAR, 64, {*both(star[1:]), (1, 0)})
    last = [(v, 63) for v in range(63 - NEIGHBOURS - 1, 63)]
    host.call(HEAR, 64, both(last))
    host.call(HEAR, 64, both(last[1:]))
    host.call(HEAR, 64, both(last[:-1]))
    host.call(HEAR, 64, {(a, b) for a in range(64) for b in range(64) if a != b})
    # every radio has 40 links, and then 40 others
    clique = [(a, b) for a in range(82) for b in range(a) if (a < 41) == (b < 41)]
    host.call(CLEAR, 82)
    host.call(HEAR, 82, both(clique))
    host.call(HEAR, 82, both((a, 41 + (a + k) % 41) for a in range(41) for k in range(NEIGHBOURS)))
    host.call(HEAR, 82)


def sites(host):
    """From 1 to 512 radios: random tables, what is linked, one-sided pairs alone, nobody."""
    some = random.Random(205)
    for n, degree in ((1, 1), (2, 1), (3, 2), (5, 3), (8, 4), (16, 6), (33, 12), (65, 8), (130, 6), (255, 4), (RADIOS - 1, 3), (RADIOS, 5)):
        host.call(CLEAR, n)
        pairs = [(a, b) for a in range(n) for b in range(a)]
        for _ in range(2):
            links = some.sample(pairs, min(len(pairs), n * degree // 2))
            alone = [(a, b) if some.random() < 0.5 else (b, a) for a, b in some.sample(pairs, min(len(pairs), n))]
            host.call(HEAR, n, {*both(links), *alone})
        before = host.switches
        host.call(HEAR, n, {(v, u) for v in range(n) for u in host.site.near[v]})
        assert host.switches == before
        host.call(HEAR, n, [(b, a) for a, b in pairs if n in (3, 16, RADIOS) or a % 16 == 2])
        host.call(HEAR, n)
    # much is heard, little agreed
    n = 200
    host.call(CLEAR, n)
    for chance in (0.3, 0.35):
        host.call(HEAR, n, [(a, b) for a in range(n) for b in range(n) if a != b and some.random() < chance])


def made():
    """data/hearings, and the lines that the program owes for it."""
    host = Host()
    worked(host)
    limits(host)
    sites(host)
    return {"hearings": hosts.file(host.lines, host.words, heard=64 * ENTRIES)}, "".join(host.lines) + f"canaries {host.canaries}\n"

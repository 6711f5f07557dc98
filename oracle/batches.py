"""The batches that the program `test_hosts` makes, and the lines that it owes, worked out from document 02 alone. oracle/hosts.py writes and
checks what is stored.

A batch is so many single calls, each worked out by oracle/peeled.py, until one is refused. Its list stands in front of the program's fields.
"""

import random

import host as hosts
import peeled
import reference
from host import BYTE, ENTRIES, KEPT
from questions import NEIGHBOURS, RADIOS
from words import digest

LIST = 1200  # the entries of a list, of the program's fields
CLEAR, BATCH, SPOIL = "clear", "link-batch", "spoil-links"


class Host:
    """`site` is what the tables hold while they are sound."""

    def __init__(self):
        self.links, self.numbers, self.order = [BYTE] * (64 * ENTRIES), [BYTE] * ENTRIES, [KEPT] * ENTRIES
        self.list, self.site, self.spoiled = [KEPT] * LIST, None, False
        self.words, self.lines, self.canaries = [], [], 0

    # ---- a call: its words, what it does, its line

    def call(self, kind, n, entries=(), links=None, numbers=None, order=None):
        """Lengths that are not given are the right ones."""
        many = min(n, ENTRIES)
        lengths = [y if x is None else x for x, y in zip((links, numbers, order), (64 * many, many, many))]
        at = {"a": n, "b": 1} if kind == SPOIL else {"n": n}
        self.words.append(hosts.call(kind, entries=entries, links=lengths[0], numbers=lengths[1], order=lengths[2], fields=len(entries), **at))
        self.list[:len(entries)] = entries
        said = {CLEAR: self.clear, BATCH: self.batch, SPOIL: self.spoil}[kind](n, entries, lengths)
        h = 0
        for table in (self.links, self.numbers, self.order, self.list):
            h = digest(h, table)
        self.lines.append(f"{said} {h}\n")

    def sized(self, n, lengths):
        if not 1 <= n <= RADIOS:
            return 1
        return 0 if lengths == [64 * n, n, n] else 2

    def put(self):
        """The site's tables, in front of the host's."""
        n = self.site.n
        rows = [0] * (64 * n)
        for v in range(n):
            for u in self.site.near[v]:
                rows[64 * v + u // 8] |= 1 << u % 8
        self.links[:64 * n], self.numbers[:n], self.order[:n] = rows, self.site.numbers, self.site.order

    def clear(self, n, entries, lengths):
        number = self.sized(n, lengths)
        if not number:
            self.site, self.spoiled = peeled.Site(n), False
            self.put()
        return f"clear {number} 0"

    def spoil(self, at, entries, lengths):
        self.links[at] ^= 1
        self.spoiled = not self.spoiled
        self.canaries += 1
        return "spoil"

    def batch(self, n, entries, lengths):
        number = self.sized(n, lengths) or (2 if len(entries) % 2 else 0)
        if not number and (self.spoiled or self.site is None or self.site.n != n):
            assert not reference.sound(n, *(t[:k] for t, k in zip((self.links, self.numbers, self.order), lengths)))
            number = 3
        if number:
            return f"batch {number} 0"
        done = 0
        for a, b in zip(entries[::2], entries[1::2]):
            number = self.site.call(True, a, b)[0]
            if number:
                break
            done += 1
        self.put()
        return f"batch {number} {done}"


def pairs(links):
    return [x for link in links for x in link]


def worked(host):
    """Document 02's questions: each refusal, alone and beside a count."""
    host.call(BATCH, 4, (0, 1))  # nothing is cleared yet
    host.call(CLEAR, 4)
    host.call(BATCH, 4, ())
    host.call(BATCH, 4, (0, 1, 2))
    host.call(BATCH, 4, (0, 1, 1, 2, 0, 0, 0, 2))
    host.call(BATCH, 4, (0, 2, 1, 0, 3, 0))
    host.call(BATCH, 4, (3, 4))
    host.call(BATCH, 4, (65535, 0))
    host.call(BATCH, 4, (3, 0, 4, 4))
    host.call(BATCH, 4, (1, 3, 2, 3))
    for n in (0, 513):
        host.call(BATCH, n, ())
        host.call(BATCH, n, (0, 1, 2))
    for short in ({"links": 255}, {"links": 257}, {"numbers": 3}, {"numbers": 5}, {"order": 3}, {"order": 5}):
        host.call(BATCH, 4, (), **short)
    host.call(SPOIL, 0, links=256)  # radio 0 marks itself, or no longer does
    host.call(BATCH, 4, ())
    host.call(BATCH, 4, (0, 1, 2))
    host.call(SPOIL, 0, links=256)
    host.call(BATCH, 4, ())


def limits(host):
    """The 40th neighbour and the 41st."""
    host.call(CLEAR, 64)
    host.call(BATCH, 64, pairs((0, v) for v in range(1, NEIGHBOURS + 1)))
    host.call(BATCH, 64, (1, 2, NEIGHBOURS + 1, 0, 3, 4))
    host.call(CLEAR, 64)
    host.call(BATCH, 64, pairs((0, v) for v in range(1, NEIGHBOURS + 2)))


def sites(host):
    """Rings, which change every radio at their last link, a clique, and random lists, some with links that are refused."""
    for n in (1, 2, 3, 16, RADIOS):
        host.call(CLEAR, n)
        host.call(BATCH, n, pairs((v, (v + 1) % n) for v in range(n)))
    host.call(CLEAR, 33)
    host.call(BATCH, 33, pairs((a, b) for a in range(33) for b in range(a))[:LIST - LIST % 2])
    some = random.Random(213)
    for n, count in ((5, 8), (30, 60), (200, 250), (RADIOS, 300)):
        host.call(CLEAR, n)
        for _ in range(2):
            host.call(BATCH, n, [some.randrange(n) for _ in range(2 * count)])
        links = [(a, b) for a in range(n) for b in range(a) if b not in host.site.near[a]]
        host.call(BATCH, n, pairs(some.sample(links, min(count, len(links)))))


def made():
    """data/batches, and the lines that the program owes for it."""
    host = Host()
    worked(host)
    limits(host)
    sites(host)
    return {"batches": hosts.file(host.lines, host.words, fields=LIST)}, "".join(host.lines) + f"canaries {host.canaries}\n"

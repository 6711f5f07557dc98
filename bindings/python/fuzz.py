"""Bad arguments by fixed seeds, held against a separate model (oracle/peeled.py): nothing crashes, no nonsense is accepted, and after every
exception the tables are as they were. What a call must raise or do is worked out from its arguments and the model.

    python3 bindings/python/fuzz.py [ROUNDS]
"""

import copy
import os
import random
import sys
import zlib

HERE = os.path.dirname(os.path.abspath(__file__))
sys.path[:0] = [HERE, os.path.join(HERE, "..", "..", "oracle")]

import peeled  # noqa: E402
from summerbugle import Batch, Change, Marks, Refused, Site  # noqa: E402

BIG = (-1, -2**31, 2**16 - 1, 2**16, 2**16 + 1, 2**32 - 1, 2**32, 2**32 + 1, 2**63, 2**64, 10**40)
NO_NUMBER = ("0", 0.0, 1.5, None, b"\0", [], (), {}, object(), float("nan"), 1j, range(2))
NO_TABLE = (None, 7, "x" * 256, [0] * 256, object(), 1.5)
NAMES = ("A", "B", "TOWER1", "ZZZZZZZZ", "", "a", "A B", "LONGNAMES", "\u00c4", " A", "A\n", "\0")


def number_of(what, *values):
    """The refusal number that a call raises, 0 where it raises none, or the name of another exception."""
    try:
        return 0, what(*values)
    except Refused as refused:
        return int(refused.number), None
    except (TypeError, ValueError) as raised:
        return type(raised).__name__, None


class Model(peeled.Site):
    """The model, with what Python may hand over in place of a radio."""

    def radios(self, *values):
        """What is wrong with these as radios."""
        if any(not isinstance(x, int) for x in values):
            return "TypeError"
        return 0 if all(0 <= x < self.n for x in values) else 4

    def link(self, up, a, b):
        """What is wrong with a link call."""
        return self.radios(a, b) or self.refusal(up, a, b)

    def batch(self, pairs):
        """How many links are done, and the number of the next."""
        for at, (a, b) in enumerate(pairs):
            wrong = self.link(True, a, b)
            if wrong:
                return Batch(at, wrong)
            self.call(True, a, b)
        return Batch(len(pairs), 0)

    def links(self):
        return [(a, b) for a in range(self.n) for b in sorted(self.near[a]) if a < b]


class Fuzz:
    def __init__(self, seed):
        self.random = random.Random(seed)
        self.n = self.random.choice((1, 2, 3, 7, 20, 43, 60))
        self.site, self.model, self.marks, self.marked = Site(self.n), Model(self.n), Marks(), {}

    # ---- values, mostly good

    def number(self):
        kind = self.random.random()
        if kind < 0.8:
            return self.random.randrange(self.n)
        return self.random.choice((self.n, *BIG) if kind < 0.93 else NO_NUMBER)

    def state(self):
        site = self.site
        return bytes(site.links), bytes(site.numbers), bytes(site.order), zlib.crc32(self.marks.store)

    def same(self, got, wanted, what):
        if got != wanted:
            raise SystemExit("%s: %r, expected %r" % (what, got, wanted))

    def tried(self, wanted, what, *values):
        """A call, its number or exception as expected; after a refusal or an exception everything is as it was."""
        before = self.state()
        got, answer = number_of(what, *values)
        self.same(got, wanted, (what.__name__, values))
        if got:
            self.same(self.state(), before, ("changed by", what.__name__, values))
        return answer

    # ---- turns

    def link(self):
        up, a, b = self.random.random() < 0.7, self.number(), self.number()
        wanted = self.model.link(up, a, b)
        asked = self.tried(wanted, self.site.ask_up if up else self.site.ask_down, a, b)
        if self.random.random() < 0.3:
            self.commit(up, a, b, wanted, asked)
        change = self.tried(wanted, self.site.link_up if up else self.site.link_down, a, b)
        if wanted == 0:
            self.same(change, Change(*self.model.call(up, a, b)[1:]), "change")
            self.same(asked, change, "asked")

    def commit(self, up, a, b, wanted, asked):
        """A proposal that is never what asking gives."""
        step, radios = asked or (self.random.choice((-1, 0, 1)), [])
        what = self.site.commit_up if up else self.site.commit_down
        for step, radios in ((step + 256, radios), (step - 2**32, radios), (step, radios + [self.n]), (step, [2**16, *radios])):
            self.tried(wanted or 16, what, a, b, Change(step, radios))
        for change in (None, 5, (step,), Change(1.5, radios), Change(step, [None]), Change(step, 5)):
            self.tried("TypeError" if not isinstance(change, tuple) or len(change) == 2 else "ValueError", what, a, b, change)

    def batch(self):
        pairs = [(self.number(), self.number()) for _ in range(self.random.randrange(6))]
        for bad in ((0,), (0, 1, 2), 5, None):
            self.tried("TypeError", self.site.link_batch, pairs + [bad])
        if any(self.model.radios(*pair) == "TypeError" for pair in pairs):
            self.tried("TypeError", self.site.link_batch, pairs)
        else:
            self.same(self.tried(0, self.site.link_batch, pairs), self.model.batch(pairs), ("batch", pairs))

    def questions(self):
        a, b = self.number(), self.number()
        site, model = self.site, self.model
        one, two = model.radios(a), model.radios(a, b)
        self.same(self.tried(one, site.neighbours_of, a), None if one else sorted(model.near[a]), "neighbours")
        self.same(self.tried(one, site.number, a), None if one else model.numbers[a], "number")
        self.same(self.tried(two, site.linked, a, b), None if two else b in model.near[a], "linked")
        self.same(self.tried(two, site.first, a, b), None if two else min(a, b, key=model.order.index), "first")
        self.tried(one, site.later_of, a)
        level = "TypeError" if not isinstance(b, int) else one or (0 if 0 <= b <= model.numbers[a] else 8)
        self.tried(one if one == "TypeError" else level, site.core, a, b)

    def hear(self):
        table = bytearray(self.site.links)
        self.same(self.tried(0, self.site.hear, table), [], "heard")
        for bad in NO_TABLE:
            self.tried("TypeError", self.site.hear, bad)
        self.tried(2, self.site.hear, table + b"\0")
        self.tried(2, self.site.hear, table[1:])
        a, b = self.random.randrange(self.n), self.random.choice((None, *range(self.n, 512)))
        b = a if b is None else b
        table[64 * a + b // 8] |= 1 << b % 8
        self.tried(14, self.site.hear, table)

    def tables(self):
        """A table of another kind, of another length, read-only or not sound, and then the own one again."""
        name = self.random.choice(("links", "numbers", "order"))
        own = getattr(self.site, name)
        short = own[:-1]
        spoiled = own[:]
        spoiled[self.random.randrange(len(own))] ^= 1 << self.random.randrange(6)
        overlapping = memoryview(own).cast("B").cast("H" if name == "order" else "B")
        for table, wanted in [(x, "TypeError") for x in NO_TABLE] + [(short, 2), (spoiled, 3), (bytes(own) if name != "order" else None, "TypeError")]:
            setattr(self.site, name, table)
            before = bytes(table) if table is short or table is spoiled else None
            got = number_of(self.site.link_up, 0, self.n)[0]
            self.same(got, wanted, (name, type(table).__name__))
            self.same(before, bytes(table) if before is not None else None, name)
            setattr(self.site, name, own)
        if name != "order":
            other = {"links": "numbers", "numbers": "links"}[name]
            mine = getattr(self.site, other)
            setattr(self.site, other, overlapping)
            self.same(number_of(self.site.clear)[0], "ValueError", "overlap")
            setattr(self.site, other, mine)
        del overlapping

    def images(self):
        image = bytearray(self.site.image())
        for bad in NO_TABLE:
            self.tried("TypeError", self.site.read_image, bad)
        self.tried(9, self.site.read_image, image[:-1])
        self.tried(9, self.site.read_image, b"")
        image[self.random.randrange(len(image))] ^= 1 << self.random.randrange(8)
        self.tried(10, self.site.read_image, image)

    def mark(self):
        name = self.random.choice(NAMES + (None, 5, b"A"))
        good = isinstance(name, str) and name in NAMES[:4]
        wrong = 0 if good else 17 if isinstance(name, str) else "TypeError"
        what = self.random.choice(("set", "remove", "come_back"))
        if not wrong and what != "set" and name not in self.marked:
            wrong = 18
        self.tried(wrong, getattr(self.marks, what), self.site, name)
        if wrong:
            return
        if what == "set":
            self.marked[name] = copy.deepcopy(self.model)
        elif what == "remove":
            del self.marked[name]
        else:
            self.model = copy.deepcopy(self.marked[name])
        self.same(self.marks.names(), sorted(self.marked), "names")

    def turn(self):
        turns = [self.link] * 10 + [self.questions] * 3 + [self.batch] * 2 + [self.hear, self.tables, self.images, self.mark]
        self.random.choice(turns)()
        self.same(self.site.link_list(), self.model.links(), "links")
        self.same((list(self.site.numbers), list(self.site.order)), (self.model.numbers, self.model.order), "numbers and order")


def main():
    rounds = int(sys.argv[1]) if len(sys.argv) > 1 else 30
    for seed in range(rounds):
        fuzz = Fuzz(seed)
        for _ in range(150):
            fuzz.turn()
    print("%d turns: as the model has it" % (150 * rounds))


if __name__ == "__main__":
    main()

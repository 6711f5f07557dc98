"""The calls of every kind that the program `test_hosts` makes, and the lines that it owes, worked out from document 01 alone. oracle/hosts.py
writes and checks what is stored.

The program counts how many of the tables that it spoils its digest shows; all must be. Tables stand in lists as long as the
program's; a call is answered from their lent parts and nothing else. Link calls are oracle/peeled.py's, the rest is
oracle/reference.py's.
"""

import host as hosts
import kruskal
import peeled
import reference
from host import BYTE, ENTRIES, KEPT, KINDS, PLACES
from questions import RADIOS
from words import digest

BUFFER = 4608  # of the program's buffer what is in the digest: no image or page here is longer
SIGNED = {1: "+1", -1: "-1", 0: "0"}


def step_said(word):
    """The step of a proposal, as a word of the file says it."""
    return word if word < 128 else -128 if word == 128 else -1


class Host:
    def __init__(self):
        self.links, self.numbers, self.order = [BYTE] * (64 * ENTRIES), [BYTE] * ENTRIES, [KEPT] * ENTRIES
        self.answer, self.fields, self.buffer = [KEPT] * PLACES, [KEPT] * (3 * PLACES), [BYTE] * BUFFER
        self.words, self.lines, self.known = [], [], {}

    # ---- a call: its words, what it does, its line

    def call(self, kind, n, a=0, b=0, links=None, numbers=None, order=None, answer=None, room=None):
        """Lengths that are not given are the right ones; all of the buffer is lent, room for n + 1 nodes, and for n links."""
        many = min(n, ENTRIES)
        right = 64 * many, many, many, many, {"tree": many + 1, "staircase": 2 * many}.get(kind, BUFFER)
        lengths = [y if x is None else x for x, y in zip((links, numbers, order, answer, room), right)]
        list_lent = {"tree": 3 * PLACES, "staircase": lengths[4]}.get(kind, lengths[3])
        self.words.append(hosts.call(kind, said=int(kind == "clear"), n=n, a=a, b=b, links=lengths[0], numbers=lengths[1], order=lengths[2],
                                     answer=lengths[3], fields=list_lent, room=lengths[4], seen=BUFFER))
        self.answer = [KEPT] * PLACES
        if kind in ("tree", "ask-up", "ask-down"):
            self.fields = [KEPT] * (3 * PLACES)
        if kind in ("image-write", "sheet"):
            self.buffer = [BYTE] * BUFFER
        said = getattr(self, kind.replace("-", "_"))(n, a, b, lengths)
        h = 0
        for table in (self.links, self.numbers, self.order, self.answer, self.fields, self.buffer):
            h = digest(h, table)
        name = kind if not kind.startswith("spoil") else "spoil"
        self.lines.append(" ".join(str(x) for x in (name, *said, h)) + "\n")

    def lent(self, lengths):
        return [table[:length] for table, length in zip((self.links, self.numbers, self.order), lengths)]

    def put(self, tables):
        """Tables of an accepted call, which have the right lengths."""
        links, numbers, order = tables
        self.links[:len(links)], self.numbers[:len(numbers)], self.order[:len(order)] = links, numbers, order

    def words_said(self):
        """The numbers of the last line, without its digest."""
        return [int(x) for x in self.lines[-1].split()[1:-1]]

    # ---- questions 1 to 4

    def sized(self, n, lengths, room=True):
        """Questions 1 and 2; `room` says whether answer table and nodes are long enough."""
        if not 1 <= n <= RADIOS:
            return 1
        return 0 if [len(table) for table in self.lent(lengths)] == [64 * n, n, n] and room else 2

    def is_sound(self, n, lengths):
        tables = self.lent(lengths)
        key = n, *(tuple(table) for table in tables)
        if key not in self.known:
            self.known[key] = reference.sound(n, *tables)
        return self.known[key]

    def refused(self, n, lengths, *radios, room=True):
        number = self.sized(n, lengths, room)
        if number:
            return number
        if not self.is_sound(n, lengths):
            return 3
        return 0 if all(v < n for v in radios) else 4

    def site(self, n):
        """The site that the tables hold."""
        site = reference.Site(n)
        site.links = {(a, b) for a in range(n) for b in range(a, n) if reference.marked(self.links, a, b)}
        site.numbers, site.order = self.numbers[:n], self.order[:n]
        return site

    # ---- the calls

    def clear(self, n, a, b, lengths):
        number = self.sized(n, lengths)
        if not number:
            self.put(([0] * (64 * n), [0] * n, list(range(n))))
        return [number]

    def check(self, n, a, b, lengths):
        number = self.sized(n, lengths)
        return [number, 0 if number else int(self.is_sound(n, lengths))]

    def changes(self, up, n, a, b):
        """Number, step and changed radios of a link call on sound tables, and the tables that it leaves."""
        site, old = peeled.Site(n), self.site(n)
        site.numbers, site.order = old.numbers, old.order
        for v, u in old.links:
            site.near[v].add(u)
            site.near[u].add(v)
        number, step, changed = site.call(up, a, b)
        old.links = {(v, u) for v in range(n) for u in site.near[v] if v < u}
        return number, step, changed, (old.rows(), site.numbers, site.order)

    def link(self, up, n, a, b, lengths):
        number = self.refused(n, lengths, room=lengths[3] >= n)
        if number:
            return [number, 0, 0]
        number, step, changed, tables = self.changes(up, n, a, b)
        self.put(tables)
        self.answer[:len(changed)] = changed
        return [number, SIGNED[step], len(changed)]

    # document 02, W-210: the proposal is kept among the fields

    def ask(self, up, n, a, b, lengths):
        number = self.refused(n, lengths, room=lengths[3] >= n)
        if number:
            return [number, 0, 0]
        number, step, changed, _ = self.changes(up, n, a, b)
        self.fields[:len(changed)] = changed
        return [number, SIGNED[step], len(changed)]

    def commit(self, up, n, a, b, lengths):
        number = self.refused(n, lengths)
        if number:
            return [number, 0, 0]
        number, step, changed, tables = self.changes(up, n, a, b)
        if not number and (step_said(lengths[4]) != step or self.fields[:lengths[3]] != changed):
            number = 16
        if number:
            return [number, 0, 0]
        self.put(tables)
        return [number, SIGNED[step], len(changed)]

    def ask_up(self, *call):
        return self.ask(True, *call)

    def ask_down(self, *call):
        return self.ask(False, *call)

    def commit_up(self, *call):
        return self.commit(True, *call)

    def commit_down(self, *call):
        return self.commit(False, *call)

    def link_up(self, *call):
        return self.link(True, *call)

    def link_down(self, *call):
        return self.link(False, *call)

    def asked(self, number, value):
        return [number, 0 if number else value()]

    def number(self, n, v, b, lengths):
        return self.asked(self.refused(n, lengths, v), lambda: self.numbers[v])

    def neighbours(self, n, v, b, lengths):
        return self.asked(self.refused(n, lengths, v), lambda: self.site(n).degree(v))

    def linked(self, n, a, b, lengths):
        return self.asked(self.refused(n, lengths, a, b), lambda: int(reference.linked(self.site(n).links, a, b)))

    def first(self, n, a, b, lengths):
        return self.asked(self.refused(n, lengths, a, b), lambda: min(a, b, key=self.order.index))

    def later_of(self, n, v, b, lengths):
        number = self.refused(n, lengths, v)
        if number:
            return [number, 0, 0]
        order = self.order[:n]
        later = [u for u in order[order.index(v) + 1:] if reference.linked(self.site(n).links, v, u)]
        return [0, len(later), later[0] if later else 65535]

    def listed(self, number, radios):
        self.answer[:len(radios)] = radios
        return [number, len(radios)]

    def core(self, n, v, k, lengths):
        number = self.refused(n, lengths, v, room=lengths[3] >= n)
        return self.listed(number, []) if number else self.listed(*self.site(n).core(v, k))

    def backbone(self, n, a, b, lengths):
        number = self.refused(n, lengths, room=lengths[3] >= n)
        return self.listed(number, [] if number else self.site(n).backbone())

    def tree(self, n, a, b, lengths):
        number = self.refused(n, lengths, room=lengths[3] >= n and lengths[4] >= n + 1)
        nodes, names = ([], []) if number else self.site(n).tree()
        self.fields[:3 * len(nodes)] = [x for node in nodes for x in node]
        self.answer[:len(names)] = names
        return [number, len(nodes)]

    def staircase(self, n, a, b, lengths):
        number = self.refused(n, lengths, room=lengths[4] >= 2 * n)
        kept = [] if number else kruskal.staircase(n, self.site(n).links, self.numbers)
        self.fields[:2 * len(kept)] = [v for link in kept for v in link]
        return [number, len(kept)]

    def image_write(self, n, a, b, lengths):
        number = self.refused(n, lengths)
        image = [] if number else self.site(n).image()
        if len(image) > lengths[4]:
            number, image = 9, []
        self.buffer[:len(image)] = image
        return [number, len(image)]

    def sheet(self, n, a, b, lengths):
        """Document 02, W-201."""
        number = self.refused(n, lengths)
        cells = [] if number else [f"{v:3}:{x:2}  " for v, x in enumerate(self.numbers[:n])]
        page = "".join("".join(cells[i:i + 8]).ljust(64) + "\n" for i in range(0, len(cells), 8)).encode()
        if len(page) > lengths[4]:
            number, page = 12, b""
        self.buffer[:len(page)] = page
        return [number, len(page)]

    def image_read(self, n, a, b, lengths):
        number = self.sized(n, lengths)
        if not number:
            number, site = reference.read(n, self.buffer[:lengths[4]])
        if not number:
            self.put((site.rows(), site.numbers, site.order))
        return [number]

    def image_block(self, n, a, b, lengths):
        image, at = self.buffer[:lengths[4]], 2 ** 32 * a + b
        number = reference.block_refusal(image)
        if number:
            return [number, 0, 0, 0, at]
        return [0, 0, 512 * at + 4, 504, at + 1] if at < len(image) // 512 else [0, 1, 0, 0, at]

    # ---- what the host does to its own tables

    def spoil(self, table, at, bits, kind):
        table[at] ^= bits
        return [KINDS.index(kind)]

    def spoil_links(self, n, at, bits, lengths):
        return self.spoil(self.links, at, bits, "spoil-links")

    def spoil_numbers(self, n, at, bits, lengths):
        return self.spoil(self.numbers, at, bits, "spoil-numbers")

    def spoil_order(self, n, at, bits, lengths):
        return self.spoil(self.order, at, bits, "spoil-order")

    def spoil_answer(self, n, at, bits, lengths):
        return self.spoil(self.answer, at, bits, "spoil-answer")

    def spoil_fields(self, n, at, bits, lengths):
        return self.spoil(self.fields, at, bits, "spoil-fields")

    def spoil_buffer(self, n, at, bits, lengths):
        return self.spoil(self.buffer, at, bits, "spoil-buffer")


# ---- what a host tries

LARGEST = 2 ** 32 - 1
SITE = ["check", "link-up", "link-down", "ask-up", "ask-down", "commit-up", "commit-down", "number", "neighbours", "linked", "first",
        "later-of", "core", "backbone", "tree", "staircase", "image-write", "sheet"]
ANSWER = ["link-up", "link-down", "ask-up", "ask-down", "core", "backbone", "tree"]
RADIO = ["link-up", "link-down", "ask-up", "ask-down", "commit-up", "commit-down", "number", "neighbours", "linked", "first", "later-of", "core"]


def sizes_and_lengths(host, n):
    """Questions 1 and 2 put to every call, and 1 before 2."""
    for kind in ["clear", "image-read"] + SITE:
        for other in (0, 513, LARGEST):
            host.call(kind, other, 0, 1)
        host.call(kind, 0, 0, 1, links=63)
        for lengths in ({"links": 64 * n - 1}, {"links": 64 * n + 1}, {"numbers": n - 1}, {"numbers": n + 1},
                        {"order": n - 1}, {"order": n + 1}, {"links": 0, "numbers": 0, "order": 0}):
            host.call(kind, n, 0, 1, **lengths)
    for kind in ANSWER:
        host.call(kind, n, 0, 1, answer=n - 1)
    host.call("tree", n, room=n)
    host.call("staircase", n, room=2 * n - 1)


def unsound(host, n):
    """Question 3 put to every call: 2 before 3, and 3 before all others. The tables are mended again."""
    for table, at, bits in (("links", 1, 1), ("links", 64, 1), ("numbers", 0, 1), ("order", n - 1, 1)):
        host.call(f"spoil-{table}", n, at, bits)
        for kind in SITE:
            host.call(kind, n, 0, 1)
        host.call(f"spoil-{table}", n, at, bits)
    host.call("spoil-numbers", n, 0, 255)
    for kind in SITE[1:]:
        host.call(kind, n, n, n, order=n - 1)
        host.call(kind, n, n, n, room=0 if kind in ("image-write", "sheet") else None)
    host.call("spoil-numbers", n, 0, 255)
    host.call("check", n)


def radios(host, n):
    """Questions 4 to 6: a radio that is not there, 4 before 5, 5 before 6."""
    for kind in RADIO:
        for v in (n, LARGEST):
            host.call(kind, n, v, 0)
            host.call(kind, n, 0, v)
            host.call(kind, n, v, v)
    for kind in ("link-up", "link-down", "linked", "first"):
        host.call(kind, n, 2, 2)


def questions(host, n):
    """Every question about every radio."""
    for v in range(n):
        for kind in ("number", "neighbours", "later-of"):
            host.call(kind, n, v)
        for k in range(4):
            host.call("core", n, v, k)
        for u in (0, v, n - 1):
            host.call("linked", n, v, u)
            host.call("first", n, v, u)


def lists(host, n):
    """Backbone, tree and staircase tree, with tables that just do and longer ones."""
    for answer, room in ((n, n + 1), (n + 1, n + 2), (PLACES, PLACES)):
        host.call("backbone", n, answer=answer)
        host.call("tree", n, answer=answer, room=room)
        host.call("staircase", n, room=2 * answer)


def sheets(host, n):
    """The site sheet: a page one byte short, one that just does, a longer one."""
    size = 65 * ((n + 7) // 8)
    for room in (0, size - 1, size, size + 10, BUFFER):
        host.call("sheet", n, room=room)


def proposals(host):
    """Document 02, W-210: true, false and stale proposals; 16 after 7, and a listed radio at n or above meets 16."""
    up, down, none = 1, 255, 0
    commit = lambda kind, n, a, b, step, count: host.call(f"commit-{kind}", n, a, b, answer=count, room=step)
    # a path 0 1 2: the ring would raise all three; every wrong step and list, then the right one, then again: 6
    host.call("clear", 3)
    for a, b in [(0, 1), (1, 2)]:
        host.call("link-up", 3, a, b)
    host.call("ask-up", 3, 0, 2, answer=PLACES)
    for step, count in ((up, 2), (up, 4), (up, 0), (up, PLACES), (none, 3), (down, 3), (2, 3), (127, 3), (128, 3), (none, 0)):
        commit("up", 3, 0, 2, step, count)
    for at, bits in ((2, 3), (2, 1), (1, 3), (0, KEPT), (2, 512)):
        host.call("spoil-fields", 3, at, bits)
        commit("up", 3, 0, 2, up, 3)
        host.call("spoil-fields", 3, at, bits)
    commit("up", 3, 2, 0, up, 3)
    commit("up", 3, 0, 2, up, 3)
    host.call("check", 3)
    host.call("ask-down", 3, 0, 1)
    commit("up", 3, 0, 1, down, 3)
    commit("down", 3, 0, 1, up, 3)
    commit("down", 3, 0, 1, down, 2)
    commit("down", 3, 1, 0, down, 3)
    # a proposal made before other calls is good exactly if it is still true
    host.call("clear", 6)
    for a, b in [(0, 1), (3, 4)]:
        host.call("link-up", 6, a, b)
    host.call("ask-up", 6, 1, 2)
    host.call("link-up", 6, 4, 5)
    commit("up", 6, 1, 2, up, 1)
    host.call("ask-up", 6, 0, 2)
    host.call("link-down", 6, 1, 2)
    commit("up", 6, 0, 2, up, 3)
    host.call("link-up", 6, 1, 2)
    commit("up", 6, 0, 2, up, 3)
    # M2: nothing changes, and the list is empty
    host.call("clear", 4)
    for a, b in [(0, 1), (2, 3)]:
        host.call("link-up", 4, a, b)
    host.call("ask-up", 4, 0, 2)
    commit("up", 4, 0, 2, none, 1)
    commit("up", 4, 0, 2, up, 0)
    commit("up", 4, 0, 2, none, 0)
    host.call("ask-down", 4, 2, 0)
    commit("down", 4, 2, 0, none, 0)
    # 7 before 16
    host.call("clear", 42)
    for v in range(1, 41):
        host.call("link-up", 42, 0, v)
    host.call("ask-up", 42, 0, 41)
    commit("up", 42, 0, 41, none, 0)
    commit("up", 42, 0, 41, up, PLACES)
    host.call("link-down", 42, 0, 1)
    host.call("ask-up", 42, 0, 41)
    commit("up", 42, 0, 41, up, 1)


def single_or_two(host, n, count, seed):
    """A pseudo-random history on a small site: every call asked, committed falsely and truly, and now and then made single."""
    host.call("clear", n)
    x = seed
    for i in range(count):
        x = (x * 1103515245 + 12345) % 2 ** 31
        a, b = x // 65536 % n, x // 4096 % n
        site = host.site(n)
        way = "down" if a != b and reference.linked(site.links, a, b) else "up"
        host.call(f"ask-{way}", n, a, b)
        number, step, radios = host.words_said()
        if number == 0:
            host.call(f"commit-{way}", n, a, b, answer=radios + 1, room=step % 256)
            host.call(f"commit-{way}", n, a, b, answer=radios, room=(step + 1) % 256)
        if i % 5 == 4:
            host.call(f"link-{way}", n, a, b)
        else:
            host.call(f"commit-{way}", n, a, b, answer=radios, room=step % 256)
    host.call("check", n)


def images(host, n):
    """An image written, walked, damaged and read back: 9 before 10, 10 before 15 and 11, 2 before 9."""
    size = len(host.site(n).image())
    host.call("image-write", n, room=size - 1)
    host.call("image-write", n, room=0)
    host.call("image-write", n, room=size)
    for at in [(0, i) for i in range(size // 512 + 2)] + [(1, 0), (LARGEST, LARGEST)]:
        host.call("image-block", n, *at, room=size)
    for room in (0, 511, size - 1, size + 1):
        host.call("image-block", n, 0, 1, room=room)
        host.call("image-read", n, room=room)
        host.call("image-read", n, room=room, numbers=n + 1)
    host.call("spoil-buffer", n, 4, 1)
    for room in (size, size - 512, size - 1):
        host.call("image-block", n, 0, 0, room=room)
        host.call("image-read", n, room=room)
    host.call("spoil-buffer", n, 4, 1)
    host.call("image-read", n, room=size - 512)
    host.call("image-read", n + 1, room=size)
    if n > 1:
        host.call("image-read", n - 1, room=size)
    host.call("clear", n)
    host.call("image-read", n, room=size)
    host.call("check", n)


def play(host):
    # document 01's M5 by way of M3 and M4, each number asked for
    sizes_and_lengths(host, 7)
    host.call("check", 7)
    host.call("clear", 7)
    lists(host, 7)
    images(host, 7)
    for a, b in [(0, 1), (1, 2), (2, 0), (3, 4), (4, 5), (3, 5), (2, 3), (0, 6)]:
        host.call("link-up", 7, a, b, answer=7 + a)
    for kind in ("link-up", "link-down"):
        host.call(kind, 7, 6, 0)
        host.call(kind, 7, 0, 6)
        host.call(kind, 7, 1, 6)
    host.call("link-up", 7, 6, 0)
    sizes_and_lengths(host, 7)
    unsound(host, 7)
    radios(host, 7)
    questions(host, 7)
    lists(host, 7)
    images(host, 7)
    for a, b in [(2, 3), (5, 4), (0, 1)]:
        host.call("link-down", 7, a, b)
        host.call("tree", 7)
        host.call("staircase", 7)
    # M10: a 40th neighbour is taken, a 41st gets 7, 6 before 7; after one link goes down it is taken
    host.call("clear", 42)
    for v in range(1, 42):
        host.call("link-up", 42, 0, v)
    host.call("link-up", 42, 41, 0)
    host.call("link-up", 42, 1, 0)
    host.call("link-down", 42, 0, 1)
    host.call("link-up", 42, 41, 0)
    lists(host, 42)
    for v in (0, 1, 2, 41):
        host.call("later-of", 42, v)
    sheets(host, 42)
    # document 02, W-206: a ring, whose order is 3 2 0 1
    host.call("clear", 4)
    for a, b in [(0, 1), (1, 2), (2, 3), (3, 0)]:
        host.call("link-up", 4, a, b)
    for v in range(5):
        host.call("later-of", 4, v)
    # document 02, W-201: one line and two, a number of two digits
    for n in (8, 9):
        host.call("clear", n)
        for a, b in [(0, 1), (1, 2), (2, 0), (n - 2, n - 1)]:
            host.call("link-up", n, a, b)
        sheets(host, n)
    host.call("clear", 12)
    for a in range(11):
        for b in range(a):
            host.call("link-up", 12, a, b)
    sheets(host, 12)
    host.call("staircase", 4)
    proposals(host)
    for n, count in ((7, 60), (24, 90)):
        single_or_two(host, n, count, n)
    # one radio, and as many as a site may have
    host.call("clear", 1)
    lists(host, 1)
    sheets(host, 1)
    images(host, 1)
    host.call("clear", 512)
    for a, b in [(0, 511), (511, 256), (256, 0)]:
        host.call("link-up", 512, a, b)
    lists(host, 512)
    sheets(host, 512)
    host.call("core", 512, 511, 2)
    images(host, 512)
    # the last entry of each table spoiled: the digest must show it
    for table in ("links", "numbers", "order", "answer", "fields", "buffer"):
        host.call(f"spoil-{table}", 512, len(getattr(host, table)) - 1, 1)


def made():
    """data/exports, and the lines that the program owes for it."""
    host = Host()
    play(host)
    spoiled = sum(line.startswith("spoil ") for line in host.lines)
    file = hosts.file(host.lines, host.words, answer=PLACES, fields=3 * PLACES)
    return {"exports": file}, "".join(host.lines) + f"canaries {spoiled}\n"

"""The calls on named marks that the program `test_hosts` makes, and the lines that it owes, worked out from documents 01 and 02. oracle/hosts.py
writes and checks what is stored.

A store keeps the rules when what is read out of it, name by name and site by site, written again gives the same bytes; the program goes
by the rules one by one. Link calls are oracle/peeled.py's, images oracle/images.py's. The name of a mark stands in front of the
program's heard table. The program counts the changes of other hands that its digest shows; all must be.
"""

import random

import host as hosts
import images
import peeled
from host import STORE
from words import BASE, MODULUS, digest

ENTRIES, PLACE, PLACES = 64, 44040, 8  # the tables' radios that are in the digest; the bytes of a place, the places of a store
KINDS = {"clear": "clear", "up": "link-up", "down": "link-down", "set": "mark-set", "remove": "mark-remove", "return": "mark-return",
         "flip": "spoil-buffer", "spoil": "spoil-numbers", "copy": "copy-place"}
SIGNS = b"ABCDEFGHIJKLMNOPQRSTUVWXYZ0123456789"


def zeros_digest(h, count):
    """The same of so many zeros: a geometric sum."""
    power = pow(BASE, count, MODULUS)
    return (h * power + (power - 1) * pow(BASE - 1, -1, MODULUS)) % MODULUS


def bytes_digest(h, content):
    """Place by place, the zeros at the end of each at a time."""
    for at in range(0, len(content), PLACE):
        place = content[at:at + PLACE]
        used = place.rstrip(b"\0")
        h = zeros_digest(digest(h, used), len(place) - len(used))
    return h


# ---- the store

def is_name(name):
    letters = name.rstrip(b" ")
    return len(name) == 8 and len(letters) > 0 and all(x in SIGNS for x in letters)


def site_in(n, rest):
    """The site whose image stands in front of these bytes, and the image's length, where there is one."""
    count = rest[6] + 256 * rest[7]
    length = 512 * (1 + -(-n // 252) + -(-count // 126))
    if length > len(rest):
        return None
    image = list(rest[:length])
    if images.block_refusal(image):
        return None
    tables = images.pictured(n, image)
    return tables and (image, tables)


def written(marks):
    """The store of these names and images."""
    store = bytearray()
    for name, image in sorted(marks.items()):
        store += (name + bytes(image)).ljust(PLACE, b"\0")
    return bytes(store.ljust(STORE, b"\0"))


def marks_in(n, store):
    """Names and images, or None where the store breaks the rules."""
    marks = {}
    for i in range(PLACES):
        place = store[PLACE * i:PLACE * i + PLACE]
        if any(place):
            found = site_in(n, place[8:])
            if not is_name(place[:8]) or not found or len(found[0]) > PLACE - 8:
                return None
            marks[place[:8]] = found[0]
    return marks if written(marks) == store else None


# ---- the host

class Host:
    def __init__(self):
        self.links, self.numbers, self.order = bytearray([165] * (64 * ENTRIES)), bytearray([165] * ENTRIES), [600] * ENTRIES
        self.store, self.site, self.words, self.lines, self.seen = bytes(STORE + 1), None, [], [], 0
        self.shown = bytes(9)  # what the heard table has in front

    def call(self, kind, a=0, b=0, name=b"", n=None, length=None, room=STORE):
        n = self.site.n if n is None else n
        letters = name[:8].ljust(8, b"\0")
        length = len(name) if length is None else length
        shown, self.shown = self.shown, letters + b"X"
        many = min(n, ENTRIES)
        no_store = kind in ("clear", "up", "down")
        self.words.append(hosts.call(KINDS[kind], changes=hosts.changes(shown, self.shown), said=1, n=n, a=a, b=b, links=64 * many, numbers=many,
                                     order=many, answer=ENTRIES, heard=length, room=room, seen=0 if no_store else STORE + 1))
        number = getattr(self, kind)(n, a, b, (letters + b"X")[:length], room)
        h = digest(digest(digest(0, self.links), self.numbers), self.order)
        self.lines.append(f"{kind} {number} {h if no_store else bytes_digest(h, self.store)}\n")
        return number

    # ---- tables

    def put(self, n, near, numbers, order):
        self.links[:64 * n] = images.rows(n, [(v, u) for v in range(n) for u in near[v] if v < u])
        self.numbers[:n], self.order[:n] = bytes(numbers), list(order)

    def show(self):
        site = self.site
        self.put(site.n, site.near, site.numbers, site.order)

    def clear(self, n, a, b, name, room):
        if not 1 <= n <= ENTRIES:
            return 1 if not 1 <= n <= 512 else 2
        self.site = peeled.Site(n)
        self.show()
        return 0

    def link(self, up, n, a, b):
        number = self.lent(n, True) or self.site.call(up, a, b)[0]
        if not number:
            self.show()
        return number

    def up(self, n, a, b, name, room):
        return self.link(True, n, a, b)

    def down(self, n, a, b, name, room):
        return self.link(False, n, a, b)

    def lent(self, n, further):
        """Questions 1 to 3. Calls with another n than the site's are made only where it is no size, or too large for the tables."""
        if not 1 <= n <= 512:
            return 1
        if n > ENTRIES or not further:
            return 2
        assert n == self.site.n
        return 0 if list(self.numbers[:n]) == self.site.numbers else 3

    # ---- marks

    def asked(self, n, name, room):
        """Questions 1, 2, 3 and 17; and the marks."""
        number = self.lent(n, room == STORE)
        if number:
            return number, {}
        marks = marks_in(n, self.store[:STORE])
        return (0, marks) if marks is not None and is_name(name) else (17, {})

    def image(self):
        site = self.site
        return images.image_of(site.n, [(v, u) for v in range(site.n) for u in site.near[v] if v < u], site.order)

    def set(self, n, a, b, name, room):
        number, marks = self.asked(n, name, room)
        if not number and name not in marks and len(marks) == PLACES:
            number = 19
        if not number:
            self.store = written({**marks, name: self.image()}) + self.store[STORE:]
        return number

    def remove(self, n, a, b, name, room):
        number, marks = self.asked(n, name, room)
        if not number and name not in marks:
            number = 18
        if not number:
            self.store = written({x: y for x, y in marks.items() if x != name}) + self.store[STORE:]
        return number

    def __return(self, n, a, b, name, room):
        number, marks = self.asked(n, name, room)
        if not number and name not in marks:
            number = 18
        if not number:
            links, numbers, order = images.pictured(n, marks[name])
            self.site.near = [{u for u in range(n) if links[64 * v + u // 8] >> u % 8 & 1} for v in range(n)]
            self.site.numbers, self.site.order = numbers, order
            self.show()
        return number

    # ---- other hands: what the program prints is b

    def flip(self, n, a, b, name, room):
        content = bytearray(self.store)
        content[a] ^= b
        self.store = bytes(content)
        self.seen += 1
        return b

    def spoil(self, n, a, b, name, room):
        self.numbers[a] ^= b
        self.seen += 1
        return b

    def copy(self, n, a, b, name, room):
        before = self.store
        self.store = before[:PLACE * b] + before[PLACE * a:PLACE * a + PLACE] + before[PLACE * b + PLACE:]
        assert before != self.store, "a copy that changes nothing"
        self.seen += 1
        return b


setattr(Host, "return", Host._Host__return)


# ---- the calls

def name(text):
    return text.encode().ljust(8)


def worked(host):
    """Document 02's figures, and names that break the rules."""
    host.call("clear", n=3)
    for a, b in ((0, 1), (1, 2), (0, 2)):
        host.call("up", a, b)
    host.call("set", name=name("TOWER1"))
    host.call("down", 0, 1)
    host.call("down", 1, 2)
    host.call("set", name=name("A"))
    host.call("return", name=name("TOWER1"))
    host.call("return", name=name("B"))
    for bad in (b"a       ", b"        ", b"A B     ", b" A      ", b"A\0      ", b"@       ", b"[       ", b"/       ", b":       ",
                b"A      \0", b"A       "[:7], b"", b"ABCDEFG "[:1]):
        host.call("set", name=bad)
    host.call("set", name=name("A"), length=9)
    for bad in (b"a       ", b"A B     "):
        host.call("remove", name=bad)
        host.call("return", name=bad)
    for room in (0, STORE - 1, STORE + 1):
        for kind in ("set", "remove", "return"):
            host.call(kind, name=name("A"), room=room)
    for n in (0, 65, 512, 513):
        host.call("set", name=name("A"), n=n)
        host.call("return", name=name("A"), n=n)
    host.call("spoil", 1, 3)
    for kind in ("set", "remove", "return"):
        host.call(kind, name=b"a       ")
    host.call("set", name=name("A"), room=1)
    host.call("spoil", 1, 3)
    host.call("remove", name=name("A"))
    host.call("remove", name=name("A"))
    host.call("return", name=name("TOWER1"))


def full(host):
    """Eight marks of several lengths, a ninth name, marks replaced by longer and shorter ones, names that differ in the last byte."""
    for text in ("TOWER1A", "TOWER1AA", "TOWER1AB", "Z", "0", "9Z", "ZZZZZZZZ"):
        host.call("set", name=name(text))
    host.call("set", name=name("NINTH"))
    host.call("set", name=name("TOWER1AC"))
    host.call("down", 0, 2)
    for text in ("Z", "0", "TOWER1AB", "ZZZZZZZZ"):
        host.call("set", name=name(text))
    for text in ("TOWER1", "TOWER1AA", "0", "TOWER1AC"):
        host.call("return", name=name(text))
    host.call("remove", name=name("TOWER1AC"))
    for text in ("0", "ZZZZZZZZ", "TOWER1A"):
        host.call("remove", name=name(text))
    host.call("set", name=name("NINTH"))
    host.call("return", name=name("TOWER1AB"))


def damage(host):
    """Each kind of damage, found by every call, and mended. Six marks are there: 9Z, NINTH, TOWER1, TOWER1AA, TOWER1AB, Z."""
    used = len(marks_in(host.site.n, host.store[:STORE]))
    size = len(host.image())
    spots = [(0, 0, 32), (0, 1, 1), (0, 7, 32), (1, 7, 1), (0, 8, 1), (1, 8 + 4, 1), (1, 8 + 6, 2), (1, 8 + 508, 1), (0, 8 + 512 + 4, 1),
             (2, 8 + size, 1), (2, PLACE - 1, 128), (used - 1, PLACE - 1, 1), (used, 0, 65), (used, PLACE - 1, 1), (7, PLACE - 1, 1)]
    for i, at, x in spots:
        host.call("flip", PLACE * i + at, x)
        for kind in ("set", "remove", "return"):
            host.call(kind, name=name("Z"))
        host.call("flip", PLACE * i + at, x)
    host.call("flip", STORE, 1)  # past the store
    host.call("return", name=name("Z"))
    host.call("copy", 0, 7)  # behind unused places
    host.call("return", name=name("Z"))
    host.call("copy", used, 7)
    host.call("copy", 1, used)  # not rising
    host.call("set", name=name("Z"))
    host.call("copy", used - 1, used)  # a name twice
    host.call("remove", name=name("Z"))
    host.call("copy", used + 1, used)
    host.call("copy", 0, 1)  # a name twice, in front
    host.call("return", name=name("Z"))
    host.call("copy", 2, 1)
    host.call("return", name=name("TOWER1"))
    host.call("copy", used, 1)  # an unused place among used ones
    host.call("return", name=name("TOWER1"))
    host.call("copy", used, 0)
    for i in range(2, used):  # down by one: rising and used places first again
        host.call("copy", i, i - 2)
    host.call("copy", used, used - 1)
    host.call("copy", used, used - 2)
    host.call("return", name=name("TOWER1"))


def sizes(host):
    """Another n; then a site of 60 radios, sparse and dense: images of several blocks."""
    host.call("clear", n=4)
    for kind in ("set", "remove", "return"):
        host.call(kind, name=name("TOWER1"))
    for i in range(PLACES - 1):
        if any(host.store[PLACE * i:PLACE * i + PLACE]):
            host.call("copy", 7, i)
    host.call("set", name=name("TOWER1"))
    host.call("return", name=name("TOWER1"))
    host.call("remove", name=name("TOWER1"))
    rng = random.Random(211)
    host.call("clear", n=60)
    pairs = [(a, b) for a in range(60) for b in range(a + 1, 60)]
    rng.shuffle(pairs)
    for a, b in pairs[:20]:
        host.call("up", a, b)
    host.call("set", name=name("SPARSE"))
    host.call("set", name=name("M"))
    for a, b in pairs[20:150]:
        host.call("up", a, b)
    host.call("set", name=name("DENSE"))
    host.call("set", name=name("M"))
    host.call("return", name=name("SPARSE"))
    host.call("set", name=name("M"))
    host.call("return", name=name("DENSE"))
    host.call("remove", name=name("DENSE"))
    host.call("down", *pairs[0])
    host.call("return", name=name("M"))
    host.call("return", name=name("SPARSE"))


def made():
    """data/marks, and the lines that the program owes for it."""
    host = Host()
    for part in (worked, full, damage, sizes):
        part(host)
    return {"marks": hosts.file(host.lines, host.words, byte=0, entries=ENTRIES)}, "".join(host.lines) + f"canaries {host.seen}\n"

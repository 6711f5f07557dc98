"""Tests of the package: it has every call and every number of the header; document 01's cases; refusals, which change nothing; numbers that
are not cut, tables that are not lent, threads; what a test engineer has beside the calls.

    bindings/python/build && python3 bindings/python/test.py
"""

import copy
import ctypes
import ctypes.util
import doctest
import html
import os
import pickle
import re
import subprocess
import sys
import threading
import unittest
from array import array

HERE = os.path.dirname(os.path.abspath(__file__))
ROOT = os.path.dirname(os.path.dirname(HERE))
sys.path.insert(0, HERE)

import summerbugle  # noqa: E402
from summerbugle import BadLine, Batch, Change, Later, Marks, Node, Pair, Refusal, Refused, Site, call, entries, heard  # noqa: E402
from summerbugle.refusals import CLASSES, refused  # noqa: E402


def linked(n, pairs):
    """A site of n radios with these links."""
    site = Site(n)
    for a, b in pairs:
        site.link_up(a, b)
    return site


def clique(radios):
    return [(a, b) for a in radios for b in radios if a < b]


def words_of(parameters):
    """The parameters of a declaration, as CALLS says them."""
    left = [x.strip() for x in parameters.split(",")] if parameters != "void" else []
    words = {"uint32_t": "u32", "int8_t": "step", "size_t": "size", "uint8_t": "bytes", "uint16_t": "entries", "sb_node": "nodes"}
    for at, parameter in enumerate(left):
        const, kind, star, _ = re.fullmatch(r"(const )?(\w+) (\*?)(\w+)", parameter).groups()
        if star:
            yield words[kind] + ("" if const else "*")
        elif kind != "size_t" or "*" not in left[at - 1]:
            yield words[kind]


def kept(site):
    """All that a refused call must leave as it was."""
    return bytes(site.links), bytes(site.numbers), site.order.tobytes()


class Header(unittest.TestCase):
    """The module against include/summerbugle.h."""

    def setUp(self):
        with open(os.path.join(ROOT, "include", "summerbugle.h")) as f:
            self.text = f.read()

    def test_every_call(self):
        declared = re.findall(r"^(\w+) (sb_\w+)\(([^)]*)\);", self.text, re.M)
        self.assertEqual({name for _, name, _ in declared}, set(summerbugle.CALLS))
        for result, name, parameters in declared:
            kind, words = summerbugle.CALLS[name]
            self.assertEqual(words, " ".join(words_of(parameters)), name)
            self.assertEqual(getattr(kind, "_fields_", "u32"), "u32" if result == "uint32_t" else self.fields(result), name)

    def fields(self, name):
        """The fields of a struct, as ctypes has them."""
        body = re.search(r"typedef struct \{([^}]*)\} %s;" % name, self.text).group(1)
        kinds = {"uint32_t": ctypes.c_uint32, "uint16_t": ctypes.c_uint16, "int8_t": ctypes.c_int8, "size_t": ctypes.c_size_t}
        return [(field, kinds[kind]) for kind, field in re.findall(r"(\w+) (\w+);", body)]

    def test_nodes(self):
        self.assertEqual(summerbugle.calls._Node._fields_, self.fields("sb_node"))

    def test_every_number(self):
        numbers = {name: int(x) for name, x in re.findall(r"^    SB_(\w+) = (\d+)", self.text, re.M) if x != "0"}
        self.assertEqual(numbers, {refusal.name: refusal for refusal in Refusal})
        self.assertEqual(set(numbers.values()), set(summerbugle.MEANINGS))

    def test_limits(self):
        for name, value in (("RADIOS", summerbugle.RADIOS), ("NEIGHBOURS", summerbugle.NEIGHBOURS), ("ROW_BYTES", summerbugle.ROW_BYTES),
                            ("ROOT", summerbugle.ROOT), ("NOBODY", summerbugle.NOBODY), ("BLOCK_BYTES", summerbugle.BLOCK_BYTES),
                            ("PAGE_LINE", summerbugle.PAGE_LINE), ("NAME_BYTES", summerbugle.NAME_BYTES), ("PLACE_BYTES", summerbugle.PLACE_BYTES),
                            ("STORE_BYTES", summerbugle.STORE_BYTES)):
            self.assertEqual(int(re.search(r"#define SB_%s (\d+)u" % name, self.text).group(1)), value)


class Cases(unittest.TestCase):
    """Document 01's cases M1 to M10, with the changes of document 02."""

    def test_m1(self):
        site = Site(4)
        self.assertEqual(site.link_up(0, 1), Change(1, [0, 1]))
        self.assertEqual(site.link_up(1, 2), Change(1, [2]))
        self.assertEqual(site.link_up(0, 2), Change(1, [0, 1, 2]))
        self.assertEqual(site.link_down(0, 1), Change(-1, [0, 1, 2]))
        self.assertEqual((list(site.numbers), list(site.order)), ([1, 1, 1, 0], [3, 0, 2, 1]))

    def test_m2(self):
        site = linked(4, [(0, 1), (2, 3)])
        self.assertEqual(list(site.order), [2, 3, 0, 1])
        self.assertEqual(site.link_up(0, 2), Change(0, []))
        self.assertEqual(list(site.order), [3, 2, 0, 1])

    def test_m3_to_m6(self):
        site = linked(6, clique([0, 1, 2]) + clique([3, 4, 5]))
        self.assertEqual(site.tree().nodes, [Node(65535, 0, 65535), Node(0, 2, 65535), Node(3, 2, 65535)])
        self.assertEqual(site.link_up(2, 3), Change(0, []))
        self.assertEqual(site.tree().nodes, [Node(65535, 0, 65535), Node(0, 2, 65535)])
        site = linked(7, clique([0, 1, 2]) + clique([3, 4, 5]) + [(2, 3), (0, 6)])
        self.assertEqual(site.tree().nodes, [Node(65535, 0, 65535), Node(6, 1, 65535), Node(0, 2, 6)])
        self.assertEqual(site.core(6, 1), list(range(7)))
        self.refused(8, site, site.core, 6, 2)

    def test_m7(self):
        self.assertEqual(linked(5, clique([0, 1, 2]) + [(3, 4)]).backbone(), [0, 1, 2, 3, 4])

    def test_m8(self):
        image = Site(1).image()
        checks = [int.from_bytes(image[at + 508:at + 512], "little") for at in (0, 512)]
        self.assertEqual((len(image), checks), (1024, [5, 4]))

    def test_m9(self):
        site = Site(3)
        self.refused(4, site, site.link_up, 3, 3)

    def test_m10(self):
        site = linked(42, [(0, b) for b in range(1, 41)])
        self.refused(7, site, site.link_up, 0, 41)
        self.refused(7, site, site.link_up, 41, 0)
        site.link_down(0, 1)
        self.assertEqual(site.link_up(0, 41), Change(1, [41]))

    def refused(self, number, site, what, *values):
        before = kept(site)
        with self.assertRaises(Refused) as caught:
            what(*values)
        self.assertEqual(caught.exception.number, number)
        self.assertEqual(caught.exception.meaning, summerbugle.MEANINGS[number])
        self.assertEqual(kept(site), before)


class Questions(unittest.TestCase):
    """Each question that a call can answer with "no"."""

    def test_size_and_lengths(self):
        for n in (0, 513):
            with self.assertRaises(Refused) as caught:
                Site(n)
            self.assertEqual(caught.exception.number, 1)
        answer = entries(4)
        self.assertEqual(call("sb_link_up", 4, 0, 1, bytearray(255), bytearray(4), entries(4), answer).number, 2)
        self.assertEqual(call("sb_link_up", 4, 0, 1, bytearray(256), bytearray(4), array("H", range(4)), entries(3)).number, 2)

    def test_unsound(self):
        site = linked(3, [(0, 1)])
        site.numbers[0] = 2
        self.assertFalse(site.check())
        with self.assertRaises(Refused) as caught:
            site.number(0)
        self.assertEqual(caught.exception.number, 3)

    def test_link_states(self):
        site = linked(3, [(0, 1)])
        for number, what, ends in ((5, site.link_up, (1, 1)), (6, site.link_up, (1, 0)), (6, site.link_down, (1, 2))):
            with self.assertRaises(Refused) as caught:
                what(*ends)
            self.assertEqual(caught.exception.number, number)

    def test_proposals(self):
        site = linked(3, [(0, 1), (1, 2)])
        change = site.ask_up(0, 2)
        self.assertEqual((change, list(site.numbers)), (Change(1, [0, 1, 2]), [1, 1, 1]))
        for other in (Change(0, [0, 1, 2]), Change(1, [0, 1]), Change(1, [0, 2, 1]), Change(1, [0, 1, 3]), Change(1, [])):
            with self.assertRaises(Refused) as caught:
                site.commit_up(0, 2, other)
            self.assertEqual(caught.exception.number, 16)
        self.assertEqual(site.commit_up(0, 2, change), change)
        self.assertEqual(site.commit_down(0, 2, site.ask_down(0, 2)), Change(-1, [0, 1, 2]))

    def test_images(self):
        site = linked(5, clique([0, 1, 2]) + [(3, 4)])
        image = site.image()
        self.assertEqual(kept(Site.read(image)), kept(site))
        spoiled = bytearray(image)
        spoiled[600] += 1
        for number, n, data in ((9, 5, b""), (9, 5, image[:-1]), (10, 5, spoiled), (15, 6, image), (11, 5, nonsense(image))):
            with self.assertRaises(Refused) as caught:
                Site.read(data, n)
            self.assertEqual(caught.exception.number, number)
        self.assertEqual([len(part) for part in summerbugle.blocks(image)], [504, 504, 504])

    def test_clearing(self):
        site = linked(5, clique([0, 1, 2]))
        before, image = kept(site), site.image()
        site.clear()
        self.assertEqual(kept(site), kept(Site(5)))
        site.read_image(image)
        self.assertEqual(kept(site), before)

    def test_batches(self):
        site = Site(4)
        self.assertEqual(site.link_batch([(0, 1), (1, 2), (0, 0), (0, 2)]), Batch(2, 5))
        self.assertEqual((list(site.numbers), site.link_batch([])), ([1, 1, 1, 0], Batch(0, 0)))
        self.assertEqual(call("sb_link_batch", 4, site.links, site.numbers, site.order, entries(3)).number, 2)
        site.numbers[3] = 1
        with self.assertRaises(Refused) as caught:
            site.link_batch([(2, 3)])
        self.assertEqual(caught.exception.number, 3)

    def test_heard(self):
        site = linked(4, clique([0, 1, 2]))
        heard = bytearray(256)
        for a, b in ((0, 1), (1, 0), (1, 2), (0, 2), (2, 0), (2, 3), (3, 2)):
            heard[64 * a] |= 1 << b
        before = bytes(heard)
        self.assertEqual(site.hear(heard), [(1, 2)])
        self.assertEqual((list(site.numbers), list(site.order), heard), ([1, 1, 1, 1], [3, 2, 0, 1], before))
        self.assertEqual([site.linked(a, b) for a, b in clique(range(4))], [True, True, False, False, False, True])
        left = kept(site)
        heard[0] |= 1
        for number, table in ((14, heard), (2, heard[:255]), (2, heard + b"\0")):
            with self.assertRaises(Refused) as caught:
                site.hear(table)
            self.assertEqual((caught.exception.number, kept(site)), (number, left))
        self.assertEqual((site.hear(site.links), kept(site)), ([], left))

    def test_scripts(self):
        self.assertEqual(linked(2, [(0, 1)]).script(), "radios 2\nup 0 1\n")
        site = Site(12)
        site.link_batch([(0, 9), (0, 11), (9, 10), (10, 11)])
        self.assertEqual(site.script(), "radios 12\nup 0 9\nup 0 11\nup 9 10\nup 10 11\n")
        short = bytearray(b"x" * 41)
        self.assertEqual(call("sb_script_write", 12, site.links, site.numbers, site.order, short).number, 13)
        self.assertEqual(short, b"x" * 41)

    def test_lift(self):
        tail = linked(5, clique([0, 1, 2]) + [(2, 3), (3, 4)])
        before = kept(tail)
        self.assertEqual((Site(3).lift(2), tail.lift(3), tail.lift(4)), (Pair(0, 2), Pair(0, 3), Pair(0, 4)))
        self.assertEqual(kept(tail), before)
        self.assertEqual(linked(4, [(0, 1), (1, 2), (2, 3), (0, 3), (0, 2)]).lift(0), Pair(1, 3))
        self.assertEqual(linked(43, [(0, b) for b in range(1, 41)]).lift(42), Pair(1, 42))
        for number, site, v in ((20, Site(1), 0), (20, linked(6, clique([0, 1, 2]) + clique([3, 4, 5])), 0), (4, Site(3), 3)):
            with self.assertRaises(Refused) as caught:
                site.lift(v)
            self.assertEqual(caught.exception.number, number)

    def test_marks(self):
        site, marks = linked(3, clique([0, 1, 2])), Marks()
        marks.set(site, "TOWER1")
        before = kept(site)
        site.link_down(0, 1)
        marks.set(site, "A")
        site.link_down(1, 2)
        marks.come_back(site, "TOWER1")
        self.assertEqual(kept(site), before)
        for number, what, name in ((18, marks.come_back, "B"), (18, marks.remove, "B"), (17, marks.set, "a"), (17, marks.set, ""), (17, marks.set, "A B")):
            with self.assertRaises(Refused) as caught:
                what(site, name)
            self.assertEqual(caught.exception.number, number)
        marks.remove(site, "A")
        self.assertEqual((bytes(marks.store[:8]), marks.store[44040:].count(0)), (b"TOWER1  ", 7 * 44040))
        for i in range(7):
            marks.set(site, "M%d" % i)
        with self.assertRaises(Refused) as caught:
            marks.set(site, "NINTH")
        self.assertEqual(caught.exception.number, 19)
        marks.set(site, "M3")

    def test_page(self):
        site = Site(9)
        page = bytearray(b"x" * 129)
        self.assertEqual(call("sb_sheet", 9, site.links, site.numbers, site.order, page).number, 12)
        self.assertEqual(page, b"x" * 129)
        self.assertEqual(site.sheet()[65:], "  8: 0  " + 56 * " " + "\n")


def nonsense(image):
    """The image with a count of links that is not its own, and the check mended."""
    block = bytearray(image[:512])
    block[6] += 1
    block[508:512] = sum(x * (i + 1) for i, x in enumerate(block[:508])).to_bytes(4, "little")
    return bytes(block) + image[512:]


class Sample(unittest.TestCase):
    """The sample script, and what the rest of the calls say of its site."""

    def test_sample(self):
        with open(os.path.join(ROOT, "examples", "site.txt")) as f:
            lines = [line.split() for line in f]
        site = Site(int(lines[0][1]))
        for word, a, b in lines[1:]:
            (site.link_up if word == "up" else site.link_down)(int(a), int(b))
        self.assertEqual(Site.from_script("".join(" ".join(line) + "\n" for line in lines)), site)
        self.assertEqual((list(site.numbers), list(site.order)), ([1, 1, 1, 2, 2, 2, 1], [6, 0, 1, 2, 5, 3, 4]))
        self.assertEqual([site.number(v) for v in range(7)], list(site.numbers))
        self.assertEqual([site.neighbours(v) for v in range(7)], [2, 1, 3, 3, 2, 2, 1])
        self.assertTrue(site.linked(2, 3) and not site.linked(0, 1) and not site.linked(3, 3))
        self.assertEqual((site.first(0, 6), site.first(4, 4)), (6, 4))
        self.assertEqual((site.later_of(6), site.later_of(4)), (Later(1, 0), Later(0, None)))
        self.assertEqual(site.backbone(), [3, 4, 5])
        self.assertEqual(site.core(3, 2), [3, 4, 5])
        self.assertEqual(site.staircase(), [(3, 4), (3, 5), (0, 2), (0, 6), (1, 2), (2, 3)])
        self.assertTrue(site.check())


# numbers that no radio, n, level or step has; entries of a list have 16 bits, others 32
OUTSIDE = (-1, -2**31, -2**32 + 1, 2**32, 2**32 + 1, 2**64 + 1, 10**30)
NO_NUMBERS = ("1", 1.5, None, b"1", [1], 1j, object())


class Numbers(unittest.TestCase):
    """No number is cut."""

    def setUp(self):
        self.site = linked(4, [(0, 1), (1, 2)])
        self.before = kept(self.site)

    def refused(self, number, what, *values):
        with self.assertRaises(Refused) as caught:
            what(*values)
        self.assertEqual((caught.exception.number, kept(self.site)), (number, self.before), (what, values))

    def test_radios(self):
        site = self.site
        for v in OUTSIDE + (4, 65535, 65536, 70000):
            for what in (site.link_up, site.link_down, site.ask_up, site.ask_down, site.linked, site.first):
                self.refused(4, what, 0, v)
                self.refused(4, what, v, 0)
            for what in (site.number, site.neighbours, site.neighbours_of, site.later_of, site.lift):
                self.refused(4, what, v)
            self.refused(4, site.core, v, 0)
            self.assertEqual((site.link_batch([(0, v)]), site.link_batch([(v, 0)])), (Batch(0, 4), Batch(0, 4)))
            self.assertEqual(kept(site), self.before)
            self.refused(4, site.commit_up, 0, v, Change(1, [3]))
            self.refused(16, site.commit_up, 0, 3, Change(1, [v]))
            self.refused(14, heard, 4, [(0, v)])
            self.refused(14, heard, 4, [(v, 0)])

    def test_others(self):
        for x in OUTSIDE:
            self.refused(8, self.site.core, 0, x)
            self.refused(1, Site, x)
            self.refused(1, heard, x, [])
            self.refused(1, Site.from_links, x, [])
        for step in OUTSIDE + (257, -255, 255, 128, -128, 127):
            self.refused(16, self.site.commit_up, 0, 3, Change(step, [3]))
        self.assertEqual(self.site.commit_up(0, 3, Change(1, [3])), Change(1, [3]))
        for n in OUTSIDE + (0, 513, 4 + 2**32):
            self.site.n = n
            for what in (self.site.check, self.site.tree, self.site.sheet, self.site.script, self.site.image, self.site.clear):
                with self.assertRaises(summerbugle.SizeRefused):
                    what()
            with self.assertRaises(summerbugle.SizeRefused):
                self.site.hear(bytes(256))

    def test_no_numbers(self):
        site = self.site
        for x in NO_NUMBERS:
            for what, values in ((site.link_up, (0, x)), (site.number, (x,)), (site.core, (0, x)), (site.link_batch, ([(0, x)],)), (Site, (x,)),
                                 (site.commit_up, (0, 3, Change(x, [3]))), (site.commit_up, (0, 3, Change(1, [x]))), (heard, (4, [(0, x)])),
                                 (call, ("sb_check", x, site.links, site.numbers, site.order))):
                with self.assertRaises(TypeError):
                    what(*values)
                self.assertEqual(kept(site), self.before)

    def test_pairs(self):
        for links in ([(0, 1, 2, 3)], [(3,), (1, 2), (0,)], [(0, 2, 3)], [0, 2], ["ab"], [()], [None], 5, None):
            with self.assertRaises(TypeError):
                self.site.link_batch(links)
            self.assertEqual(kept(self.site), self.before)
        self.assertEqual(self.site.link_batch(iter([[0, 2], (3, 0)])), Batch(2, 0))


class Lent(unittest.TestCase):
    """Tables that are not lent: the call is not made."""

    def setUp(self):
        self.site = linked(4, [(0, 1)])
        self.before = kept(self.site)

    def test_read_only(self):
        for name in ("links", "numbers", "order"):
            site = self.site.copy()
            setattr(site, name, memoryview(getattr(site, name)).toreadonly())
            for what, values in ((site.link_up, (1, 2)), (site.link_down, (0, 1)), (site.link_batch, ([(1, 2)],)), (site.clear, ()),
                                 (site.hear, (bytes(256),)), (site.read_image, (site.image(),)), (site.commit_up, (1, 2, Change(1, [2])))):
                with self.assertRaises(TypeError):
                    what(*values)
                self.assertEqual(kept(site), self.before)
            self.assertEqual((site.number(1), site.ask_up(1, 2), site.check()), (1, Change(1, [2]), True))
        for written in (b"x" * 100, memoryview(bytearray(100)).toreadonly()):
            with self.assertRaises(TypeError):
                call("sb_sheet", 4, self.site.links, self.site.numbers, self.site.order, written)

    def test_other_elements(self):
        site = self.site
        for order in (array("I", range(4)), bytearray(8), [0, 1, 2, 3], None, 4):
            with self.assertRaises(TypeError):
                call("sb_check", 4, site.links, site.numbers, order)
        for links in (array("H", range(128)), "x" * 256, memoryview(bytearray(512))[::2]):
            with self.assertRaises(TypeError):
                call("sb_check", 4, links, site.numbers, site.order)
        for values in ((), (site.order, site.order)):
            with self.assertRaises(TypeError):
                call("sb_check", 4, site.links, site.numbers, *values)

    def test_shapes(self):
        """Tables of a host's own making: a part of something larger, and rows as rows."""
        room = bytearray(1024)
        site = self.site.copy()
        site.links = memoryview(room)[512:768].cast("B", (4, 64))
        site.numbers = (ctypes.c_uint8 * 4)()
        site.order = (ctypes.c_uint16 * 4)()
        site.clear()
        self.assertEqual(site.link_batch([(0, 1), (1, 2), (0, 3)]), Batch(3, 0))
        self.assertEqual((site.neighbours_of(0), site.link_list(), repr(site)), ([1, 3], [(0, 1), (0, 3), (1, 2)], "<Site of 4 radios, 3 links, greatest number 1>"))
        self.assertEqual((room[512], any(room[:512]), any(room[768:]), site.copy()), (10, False, False, site))

    def test_overlaps(self):
        room = bytearray(1024)
        view = memoryview(room)
        for links, numbers in ((view[:256], view[255:259]), (view[4:260], view[:8]), (room[:0] or view[:256], view[:4])):
            with self.assertRaises(ValueError):
                call("sb_clear", 4, links, numbers, self.site.order)
        self.assertEqual(bytes(room), bytes(1024))
        self.assertEqual(call("sb_clear", 4, view[:256], view[256:260], view[260:268].cast("H")), 0)
        self.assertEqual(call("sb_check", 4, view[:256], view[256:260], view[260:268].cast("H")).value, 1)
        with self.assertRaises(ValueError):
            call("sb_clear", 4, view[:256], view[256:260], view[261:269].cast("H"))
        self.assertEqual(self.site.hear(self.site.links), [])
        tables = (4, self.site.links, self.site.numbers, self.site.order)
        for name, other in (("sb_backbone", self.site.order), ("sb_link_batch", self.site.order), ("sb_image_read", self.site.numbers)):
            with self.assertRaises(ValueError):
                call(name, *tables, other)


class Raised(unittest.TestCase):
    """What a refused call raises."""

    def test_classes(self):
        for refusal in Refusal:
            self.assertEqual(CLASSES[refusal].__name__, refusal.name.title().replace("_", "") + "Refused")
            self.assertIs(getattr(summerbugle, CLASSES[refusal].__name__), CLASSES[refusal])
            again = pickle.loads(pickle.dumps(refused(refusal, "line 3")))
            self.assertEqual((type(again), again.number, again.meaning, str(again)),
                             (CLASSES[refusal], refusal, summerbugle.MEANINGS[refusal], "line 3: %d: %s" % (refusal, refusal.meaning)))
        with self.assertRaises(summerbugle.LinkStateRefused) as caught:
            Site(3).link_down(0, 1)
        self.assertEqual(str(caught.exception), "6: going up the link is up already, going down it is down")

    def test_no_engine(self):
        for path in ("/nowhere/libsummerbugle.so", __file__, ctypes.util.find_library("c") or "libc.so.6"):
            run = subprocess.run([sys.executable, "-c", "import summerbugle; summerbugle.Site(4)"], cwd=HERE, env={**os.environ, "SUMMERBUGLE": path},
                                 stderr=subprocess.PIPE, text=True)
            self.assertIn("OSError: the engine cannot be loaded", run.stderr)
            self.assertIn("run bindings/python/build", run.stderr)


class Threads(unittest.TestCase):
    """Calls on one site, and on one store, take turns."""

    def setUp(self):
        self.interval = sys.getswitchinterval()
        sys.setswitchinterval(1e-6)

    def tearDown(self):
        sys.setswitchinterval(self.interval)

    def together(self, *works):
        wrong = []

        def guarded(work):
            try:
                for i in range(1500):
                    work(i)
            except Exception as raised:
                wrong.append(raised)

        threads = [threading.Thread(target=guarded, args=(work,)) for work in works]
        for thread in threads:
            thread.start()
        for thread in threads:
            thread.join()
        self.assertEqual(wrong, [])

    def turned(self, site, seed):
        """A link turned, whatever the other threads do."""
        def work(i):
            a = seed * i % 512
            b = (a + 1 + i % 7) % 512
            try:
                (site.link_down if site.linked(a, b) else site.link_up)(a, b)
            except (summerbugle.LinkStateRefused, summerbugle.NoRoomRefused):
                pass
        return work

    def test_site(self):
        site = linked(512, [(v, v + 1) for v in range(511)])
        self.together(self.turned(site, 3), self.turned(site, 5), lambda i: site.script() if i % 9 == 0 else site.neighbours_of(i % 512))
        self.assertTrue(site.check())

    def test_marks(self):
        marks, sites = Marks(), [linked(8, clique(range(2 + i))) for i in range(3)]

        def work(i, site, name):
            marks.set(site, name)
            marks.come_back(site, name)
            if i % 3 == 0:
                marks.remove(site, name)
        self.together(*[lambda i, s=s, name=name: work(i, s, name) if i < 150 else None for s, name in zip(sites, "ABC")])
        self.assertEqual((marks.names(), sites), (["A", "B", "C"], [linked(8, clique(range(2 + i))) for i in range(3)]))


class Beside(unittest.TestCase):
    """What a test engineer has beside the calls."""

    def setUp(self):
        self.links = clique([0, 1, 2]) + [(2, 3)]
        self.site = linked(5, self.links)

    def test_readme(self):
        self.assertEqual(doctest.testfile("README.md"), (0, 6))

    def test_lists(self):
        self.assertEqual(self.site.link_list(), self.links)
        self.assertEqual([self.site.neighbours_of(v) for v in range(5)], [[1, 2], [0, 2], [0, 1, 3], [2], []])
        full = linked(512, [(v, (v + d) % 512) for d in range(1, 21) for v in range(512)])
        self.assertEqual(len(full.link_list()), 10240)
        self.assertEqual(full.neighbours_of(511), [*range(20), *range(491, 511)])

    def test_repr(self):
        self.assertEqual(repr(self.site), "<Site of 5 radios, 4 links, greatest number 2>")
        self.site.numbers[0] = 9
        self.assertEqual(repr(self.site), "<Site: 3: the tables are not sound>")
        self.site.links = None
        self.assertIn("<Site: ", repr(self.site))

    def test_copies(self):
        for other in (self.site.copy(), copy.copy(self.site), copy.deepcopy(self.site), pickle.loads(pickle.dumps(self.site))):
            self.assertEqual(other, self.site)
            other.link_down(0, 1)
            self.assertNotEqual(other, self.site)
            self.assertTrue(other.check() and self.site.check())
        self.assertNotEqual(self.site, Site(5))
        self.assertNotEqual(self.site, 5)
        marks = Marks()
        marks.set(self.site, "A")
        self.assertEqual((pickle.loads(pickle.dumps(marks)), marks.copy().names()), (marks, ["A"]))

    def test_from_links(self):
        self.assertEqual(Site.from_links(5, self.links), self.site)
        with self.assertRaises(summerbugle.SameEndsRefused) as caught:
            Site.from_links(5, [(0, 1), (1, 2), (3, 3)])
        self.assertEqual(caught.exception.where, "link 2 of the list")

    def test_from_script(self):
        self.assertEqual(Site.from_script(self.site.script()), self.site)
        self.assertEqual(Site.from_script(self.site.script().encode()).link_list(), self.links)
        with self.assertRaises(summerbugle.LinkStateRefused) as caught:
            Site.from_script("radios 3\nup 0 1\nup 1 0\n")
        self.assertEqual(caught.exception.where, "line 3")
        for line, text in ((1, ""), (1, "radios 0\n"), (1, "radios 513\n"), (1, "radios 04\n"), (1, "radios 4 \n"), (1, "up 0 1\n"), (1, "radios 4"), (1, "\n"),
                           (2, "radios 4\nup 0 1"), (2, "radios 4\nup 0  1\n"), (2, "radios 4\nup 0 65536\n"), (2, "radios 4\nUP 0 1\n"),
                           (2, "radios 4\nup 0 1\r\nup 1 2\r\n"), (3, "radios 4\nup 0 1\n\nup 1 2\n"), (2, "radios 4\nup 0 \u0661\n"),
                           (2, "radios 4\nx\nup 0 1"), (2, "radios 4\nradios 4\n")):
            with self.assertRaises(BadLine) as caught:
                Site.from_script(text)
            self.assertEqual(caught.exception.line, line, text)
        with self.assertRaises(TypeError):
            Site.from_script(4)

    def test_heard(self):
        pairs = [(a, b) for a, b in self.links] + [(b, a) for a, b in self.links[1:]]
        self.assertEqual(self.site.hear(heard(5, pairs)), [(0, 1)])
        self.assertEqual(self.site.link_list(), self.links[1:])
        for pairs in ([(1, 1)], [(0, 5)], [(5, 0)]):
            with self.assertRaises(summerbugle.HeardRefused):
                heard(5, pairs)

    def test_mark_names(self):
        marks = Marks()
        for name in ("TOWER1", "A", "7"):
            marks.set(self.site, name)
        self.assertEqual(marks.names(), ["7", "A", "TOWER1"])
        for name in ("\u00c4", "LONGNAMES", " A", "a"):
            with self.assertRaises(summerbugle.MarkRefused):
                marks.set(self.site, name)
        for name in (b"A", 7, None):
            with self.assertRaises(TypeError):
                marks.set(self.site, name)
        marks.store[0] = 200
        with self.assertRaises(summerbugle.MarkRefused):
            marks.names()
        with self.assertRaises(summerbugle.LengthRefused):
            Marks(b"").names()
        with self.assertRaises(TypeError):
            Marks(8)

    def test_networkx(self):
        try:
            import networkx
        except ImportError:
            self.skipTest("no networkx")
        graph = self.site.to_networkx()
        self.assertEqual((list(graph), [tuple(x) for x in self.site.link_list()]), ([0, 1, 2, 3, 4], sorted(graph.edges())))
        self.assertEqual(networkx.core_number(graph), networkx.get_node_attributes(graph, "number"))
        self.assertEqual(Site.from_networkx(graph), self.site)
        for other in (networkx.DiGraph(graph), networkx.relabel_nodes(graph, {0: "a"}), networkx.relabel_nodes(graph, {0: 9})):
            with self.assertRaises(ValueError):
                Site.from_networkx(other)

    def test_page(self):
        page = self.site.page()
        self.assertTrue(page.startswith("<!doctype html>") and "/*DATA*/null" not in page)
        frame = self.site._repr_html_()
        self.assertEqual((html.unescape(re.search(r'srcdoc="(.*)"', frame, re.S).group(1)), frame.count('"')), (page, 4))


if __name__ == "__main__":
    unittest.main()

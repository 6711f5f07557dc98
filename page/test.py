"""Tests of page/make.py as a command: what it makes of scripts and images, and what it says of inputs that are neither.

    bindings/python/build && python3 page/test.py
"""

import base64
import json
import os
import random
import re
import subprocess
import sys
import unittest
from array import array

HERE = os.path.dirname(os.path.abspath(__file__))
ROOT = os.path.dirname(HERE)
sys.path.insert(0, os.path.join(ROOT, "bindings", "python"))

from summerbugle import Site  # noqa: E402
from summerbugle.page import STEPS  # noqa: E402

SAMPLE = b"radios 3\nup 0 1\n"
NOISE = random.Random(5).randbytes(100000)


def run(data, words=(), stdout=subprocess.PIPE, **more):
    """A run of make.py: status, output and error output."""
    done = subprocess.run([sys.executable, os.path.join(HERE, "make.py"), *words], input=data, stdout=stdout, stderr=subprocess.PIPE, **more)
    return done.returncode, (done.stdout or b"").decode(), done.stderr.decode()


def data_of(page):
    return json.loads(re.search(r"const data = (.*);\n", page).group(1))


def entries(text):
    return array("H", base64.b64decode(text))


def summed(steps, n):
    """The links and the numbers that the steps of a page come to."""
    links, numbers = set(), [0] * n
    for _, turned, radios, by in steps:
        flat = entries(turned)
        links ^= {(min(link), max(link)) for link in zip(flat[::2], flat[1::2])}
        for i, v in enumerate(entries(radios)):
            numbers[v] += by[i] if isinstance(by, list) else by
    return sorted(links), numbers


def turning(count):
    """A script of so many calls, none refused: each link of a ring is turned five times, and then the next."""
    up, lines = set(), ["radios 20\n"]
    for i in range(count):
        a = i // 5 % 20
        lines.append("%s %d %d\n" % ("down" if a in up else "up", a, (a + 1) % 20))
        up ^= {a}
    return "".join(lines)


class Made(unittest.TestCase):
    def setUp(self):
        with open(os.path.join(ROOT, "examples", "towers.txt")) as f:
            self.script = f.read()

    def test_script(self):
        status, page, said = run(self.script.encode())
        self.assertEqual((status, said, len(data_of(page)["steps"])), (0, "", self.script.count("\n") - 1))

    def test_image(self):
        site = Site.from_script(self.script)
        status, page, said = run(site.image())
        self.assertEqual((status, said, page), (0, "", site.page()))
        self.assertEqual((data_of(page)["script"], data_of(page)["steps"]), (False, []))

    def test_refused_calls_are_shown(self):
        status, page, said = run(b"radios 3\nup 0 1\nup 1 0\nup 0 3\nup 2 2\ndown 0 2\n")
        self.assertEqual((status, said), (0, ""))
        self.assertEqual([step[0] for step in data_of(page)["steps"]], [[1, 0, 1, 0], [1, 1, 0, 6], [1, 0, 3, 4], [1, 2, 2, 5], [0, 0, 2, 6]])

    def test_long(self):
        for count, together in ((STEPS, 1), (STEPS + 1, 2), (2 * STEPS + 1, 3)):
            script = turning(count)
            status, page, said = run(script.encode())
            self.assertEqual((status, said), (0, "" if together == 1 else "page: %d calls, %d to a step\n" % (count, together)))
            steps, site = data_of(page)["steps"], Site.from_script(script)
            self.assertEqual(len(steps), -(-count // together))
            self.assertEqual(summed(steps, site.n), (site.link_list(), list(site.numbers)))
            if together > 1:
                self.assertEqual([sum(x) for x in zip(*(step[0] for step in steps))], [count, 0])


class Wrong(unittest.TestCase):
    """One line, status 1, no page."""

    def said(self, line, data=SAMPLE, **more):
        status, page, said = run(data, **more)
        self.assertEqual((status, page, said.split("\n")[1:]), (1, "", [""]), said)
        self.assertIn(line, said)
        self.assertTrue(said.startswith("page: "))

    def test_inputs(self):
        form = "no line of the language stands here"
        for data, line in ((b"", "the input is empty"),
                           (NOISE, "no script, and longer than the longest image, 44032 bytes"),
                           (NOISE[:1024], "no script; image: refused by 10: a block does not pass its check"),
                           (NOISE[:1000], "no script; image: refused by 9: "),
                           (b"up 0 1\n", "no script; image: refused by 9: "),
                           (b"radios 5\n" + NOISE, "script, line 2: " + form),
                           (b"radios" + NOISE, "script, line 1: " + form),
                           (b"radios 4\nup 0 1\nup 0  2\nup", "script, line 3: " + form),
                           (b"radios 4\nup 0 1", "script, line 2: the last line has no line feed"),
                           (b"radios 4\r\nup 0 1\r\n", "script, line 1: a carriage return stands here")):
            self.said(line, data)

    def test_ends(self):
        with open("/dev/full", "wb") as full:
            self.said("the output cannot be written: No space left on device", stdout=full)
        self.said("the input cannot be read: ", preexec_fn=lambda: os.close(0))
        self.said("the output cannot be written: ", preexec_fn=lambda: os.close(1))

    def test_words(self):
        self.said("the input is standard input", words=("examples/site.txt",))

    def test_no_engine(self):
        self.said("run bindings/python/build", env={**os.environ, "SUMMERBUGLE": "/nowhere"})


if __name__ == "__main__":
    unittest.main()

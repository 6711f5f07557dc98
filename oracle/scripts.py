"""Scripts for the replay program, with what it owes on each, worked out from document 01 alone.

  python3 oracle/scripts.py           write crates/test_scripts/data and crates/test_scripts/stdout
  python3 oracle/scripts.py --check   say whether the stored files are what would be written

What the program prints in the end, of scripts that it writes itself, is oracle/rebuilt.py's. Lines are read by a pattern; a site is the
one of oracle/peeled.py.
"""

import re

import stored
from peeled import Site
from questions import RADIOS

LARGEST = 65535
NUMBER = rb"(0|[1-9][0-9]{0,4})"
LINE = re.compile(rb"(?:radios " + NUMBER + rb"|(up|down) " + NUMBER + rb" " + NUMBER + rb")\n")


# ---- the program

def lines_of(script):
    """The lines with their line feeds; the last may have none."""
    parts = script.split(b"\n")
    return [part + b"\n" for part in parts[:-1]] + [part for part in parts[-1:] if part]


def printed(*fields):
    return " ".join(str(f) for f in fields) + "\n"


def replay(script):
    """What the program prints."""
    out, site, last = [], None, 0
    for last, line in enumerate(lines_of(script), 1):
        said = LINE.fullmatch(line)
        if not said or max(int(x) for x in (said[1], said[3], said[4]) if x) > LARGEST:
            return "".join(out) + printed("bad", last)
        if (said[1] is not None) != (last == 1) or last == 1 and not 1 <= int(said[1]) <= RADIOS:
            return "".join(out) + printed("bad", last)
        if last == 1:
            site = Site(int(said[1]))
            continue
        number, step, changed = site.call(said[2] == b"up", int(said[3]), int(said[4]))
        out.append(printed(number, {1: "+1", -1: "-1", 0: "0"}[step], *changed))
    if site is None:
        return printed("bad", 1)
    return "".join(out) + printed("numbers", *site.numbers) + printed("order", *site.order)


# ---- scripts

def script(n, calls):
    return "".join([f"radios {n}\n"] + [f"{word} {a} {b}\n" for word, a, b in calls]).encode()


def ups(pairs):
    return [("up", a, b) for a, b in pairs]


def downs(pairs):
    return [("down", a, b) for a, b in pairs]


def clique(n):
    return [(a, b) for a in range(n) for b in range(a + 1, n)]


def circulant(n, reach):
    return [(v, (v + d) % n) for d in range(1, reach + 1) for v in range(n)]


def grown(n, many, seed):
    """So many pairs of n radios, one after another, each once, drawn by a congruential generator."""
    found, x = [], seed
    while len(found) < many:
        x = (x * 6364136223846793005 + 1442695040888963407) % 2**64
        a, b = (x >> 33) % n, (x >> 48) % n
        if a != b and (a, b) not in found and (b, a) not in found:
            found.append((a, b))
    return found


def pairs(many):
    """A link up and down in turn: lines of 7 and 9 bytes, which print 9 each."""
    return [("down" if i % 2 else "up", 0, 1) for i in range(many)]


TRIANGLES = clique(3) + [(a + 3, b + 3) for a, b in clique(3)]
START = b"radios 4\nup 0 1\n"

SCRIPTS = {
    # document 01's cases
    "m1": script(4, ups([(0, 1), (1, 2), (0, 2)]) + downs([(0, 1)])),
    "m2": script(4, ups([(0, 1), (2, 3), (0, 2)])),
    "m4": script(6, ups(TRIANGLES + [(2, 3)])),
    "m5": script(7, ups(TRIANGLES + [(2, 3), (0, 6)])),
    "m9": script(3, ups([(3, 3)])),
    "m10": script(42, ups([(0, v) for v in range(1, 42)] + [(41, 0)]) + downs([(0, 1)]) + ups([(0, 41)])),
    # refusals of each kind
    "refusals": script(3, ups([(0, 1), (0, 1), (1, 0), (1, 1), (0, 3), (3, 0), (0, 65535)])
                       + downs([(0, 2), (2, 2), (3, 3), (1, 0), (0, 1)])),
    # sizes
    "one-radio": script(1, ups([(0, 0), (0, 1)])),
    "no-calls-512": script(512, []),
    "clique-41": script(41, ups(clique(41)) + downs(clique(41))),
    "ring-512": script(512, ups(circulant(512, 1)) + downs([(0, 1), (511, 0)])),
    "circulant-512": script(512, ups(circulant(512, 20)) + downs([(0, 1), (0, 20)])),
    # sites that grow link by link, sparse and dense, and one that rises whole
    "grown-512": script(512, ups(grown(512, 1200, 1))),
    "grown-48": script(48, ups(grown(48, 900, 2))),
    "risen-96": script(96, ups(circulant(96, 6)) + downs([(0, 1), (40, 43)]) + ups([(40, 43), (1, 0)])),
    # edges of the language
    "empty": b"",
    "empty-line": b"\n",
    "no-first-line": b"up 0 1\n",
    "unterminated-first-line": b"radios 4",
    "radios-0": b"radios 0\n",
    "radios-513": b"radios 513\n",
    "radios-65536": b"radios 65536\n",
    "radios-leading-zero": b"radios 04\n",
    "radios-alone": b"radios\n",
    "radios-two-numbers": b"radios 4 4\n",
    "radios-very-long": b"radios 4" + b"0" * 5000 + b"\n",
    "radios-space-at-the-end": b"radios 4 \nup 0 1\n",
    "radios-space-at-the-front": b" radios 4\nup 0 1\n",
    "radios-carriage-return": b"radios 4\r\nup 0 1\n",
    "radios-byte-255": b"radios 4\xff\nup 0 1\n",
    "radios-255-first": b"\xffradios 4\nup 0 1\n",
    "radios-255-for-line-feed": b"radios 4\xffup 0 1\n",
    "second-radios": START + b"radios 4\nup 1 2\n",
    "leading-zero": START + b"up 00 1\n",
    "value-65535": START + b"up 65535 65535\ndown 65535 65535\nup 1 2\n",
    "value-65536": START + b"up 1 65536\n",
    "two-spaces": START + b"up 1  2\n",
    "space-at-the-end": START + b"up 1 2 \n",
    "space-at-the-front": START + b" up 1 2\n",
    "tab": START + b"up\t1 2\n",
    "carriage-return": START + b"up 1 2\r\n",
    "empty-line-later": START + b"\nup 1 2\n",
    "capital": START + b"Up 1 2\n",
    "sign": START + b"up +1 2\n",
    "one-number": START + b"up 1\n",
    "three-numbers": START + b"up 1 2 3\n",
    "unterminated": START + b"up 1 2",
    "very-long": START + b"down 1 2" + b"0" * 20000 + b"\nup 1 2\n",
    "very-long-unterminated": START + b"x" * 10000,
    "above-127": START + b"up 1 \xb2\n",
    "zero-byte": START + b"up 1 2\x00\n",
    "byte-255": START + b"\xff\nup 1 2\n",
    # more than one read and one write: a bad line late; 4,095 to 4,097 bytes printed, then the closing lines; 4,096 bytes after line 1
    "bad-late": script(4, pairs(800)) + b"up 1  2\nup 1 2\n",
    "output-4095": script(4, pairs(455)),
    "output-4096": script(4, pairs(400) + [("up", 9, 9)] * 124),
    "output-4097": script(4, pairs(401) + [("up", 9, 9)] * 122),
    "input-4096": script(4, pairs(512)),
    # M1 with another last call
    "canary": script(4, ups([(0, 1), (1, 2), (0, 2), (0, 3)])),
}

# played again with a read for each byte: more than 1,000 reads, each of less than the program has room for
BY_BYTES = ["m1", "refusals", "clique-41", "radios-very-long", "unterminated", "very-long", "byte-255", "bad-late", "output-4096"]

UNREAD = {"folder": "the input is a folder", "closed": "the input is closed, or not open for reading", "no room": "the input cannot be read"}
UNWRITTEN, UNKEPT = "the output cannot be written", "the answers cannot be kept until the end of the input"
HELP = (stored.CRATES / "player/src/words.rt").read_text()


def run(text):
    """What is printed, and the status: 0 where every line was played."""
    shown = replay(text)
    return f"{shown}status {int(shown.splitlines()[-1].startswith('bad'))}\n"


def fails(words):
    return f"replay: {words}\nstatus 1\n"


def failures():
    """Runs that cannot be read or written print nothing but their error line; words in place of an input."""
    yield ".", fails(UNREAD["folder"])
    yield "closed", fails(UNREAD["closed"])
    yield "m1", fails(UNREAD["no room"])
    yield from ((name, fails(UNWRITTEN)) for name in ("m1", "output-4096", "empty"))
    yield "replay --help", "replay <FILE" + HELP.split('b"replay <FILE')[1].split('",')[0] + "status 0\n"
    yield "replay --version", "summerbugle 1.0.0\nstatus 0\n"
    yield "replay m1", fails("no word is taken, and the script is standard input: replay <FILE")


# its last answer, its numbers and its order differ from M1's
last_lines = [replay(SCRIPTS[name]).splitlines()[3:] for name in ("m1", "canary")]
assert all(x != y for x, y in zip(*last_lines)) and [len(lines) for lines in last_lines] == [3, 3]


def made():
    """The files of data/ by name, and what is printed of all."""
    shown = {name: run(text) for name, text in SCRIPTS.items()}
    played = [(name, shown[name]) for name in [*SCRIPTS, *BY_BYTES]]
    return SCRIPTS, "".join(f"{name}\n{text}" for name, text in [*played, *failures()])


def kept():
    """No file of data/, and what is printed of keeps: two that take no long answer, none for a short one; a new one has no name, and is no
    descriptor of the program's own. Then the program with the words `--status 1`: the output, the status in it, and the error line."""
    played = [f"output-4096 kept\n{fails(UNKEPT)}"] * 2 + [f"m1 kept\n{run(SCRIPTS['m1'])}"]
    news = "keep 1\nnamed 0\nkeep 0\nnamed 0\ninput 0\n"
    started = f"m1 started\n{replay(SCRIPTS['m1'])}0\n. started\n1\nreplay: {UNREAD['folder']}\n"
    return {}, "".join(played) + news + started


if __name__ == "__main__":
    import rebuilt

    stored.keep("test_scripts", made(), rebuilt.made(), kept())

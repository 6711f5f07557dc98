"""Images and scripts for the program `site`, with what it owes on each, worked out from documents 01 and 02 and docs/FORMATS.md alone.

  python3 oracle/site.py           write data/, args and stdout of crates/test_site, and stdin, args and stdout of crates/site
  python3 oracle/site.py --check   say whether the stored files are what would be written

Images are written and refused by oracle/images.py, scripts are played on the site of oracle/peeled.py, cores, backbones and trees are
of oracle/trees.py, staircase trees of oracle/kruskal.py, links that lift a radio of oracle/lift.py, which tries every pair.
"""

import random
import sys
from functools import cache
from pathlib import Path

import images
import kruskal
import lift
import peeled
import trees
from scripts import LARGEST, LINE, UNREAD, UNWRITTEN, lines_of, printed

CRATES = Path(__file__).resolve().parent.parent / "crates"
WORDS = {1: "the count of radios is not from 1 to 512", 2: "a table has another length", 3: "the tables are not sound",
         4: "a radio named is not below the count of radios", 5: "the ends of the link are the same radio",
         6: "the link is up already, or down already", 7: "an end has 40 neighbours", 8: "the level is above the radio's number",
         9: "the length is 0 or no multiple of 512", 10: "a block does not pass its check",
         11: "the bytes are the image of no sound site", 12: "the page is shorter than the sheet",
         13: "the buffer is shorter than the script", 14: "a heard row marks its own radio or one that is none",
         15: "the bytes are the image of a site of another size", 16: "the proposal is not what asking would give now",
         17: "a place of the store or the name breaks the rules", 18: "there is no mark of this name", 19: "a new name finds 8 marks",
         20: "no link would raise the radio's number"}
OTHER = "the call is refused"
FORM, NO_FEED = "no line of the language stands here", "the last line has no line feed"
CARRIAGE = "a carriage return stands before the line feed"
LONGEST = 17  # bytes of a line of the language
FRONT = 44544  # bytes that are read before an input is told to be a script
VERSION = "summerbugle 1.0.0\n"
MODULUS, BASE = 4294967291, 65599  # of the digest that the program prints
VERBS = ["check", "numbers", "sheet", "script", "backbone", "staircase", "tree"]
HELP = (CRATES / "site_program/src/help.rt").read_text()


class Refused(Exception):
    """The one line that a run owes on the error output."""


def refused(where, number):
    return Refused(f"{where}refused by {number}: {WORDS[number]}")


# ---- the input

class Found:
    """A site that was read: links, numbers, order."""

    def __init__(self, n, links, order):
        self.n, self.links, self.order = n, sorted(links), order
        self.site = trees.Site(n, links)
        self.numbers = self.site.numbers


def fault(line):
    """What is wrong with a line of another form."""
    if len(line) > LONGEST:
        return FORM
    if not line.endswith(b"\n"):
        return NO_FEED
    return CARRIAGE if line.endswith(b"\r\n") else FORM


def played(script):
    site = None
    for last, line in enumerate(lines_of(script), 1):
        said = LINE.fullmatch(line)
        form = said and max(int(x) for x in (said[1], said[3], said[4]) if x) <= LARGEST and (said[1] is not None) == (last == 1)
        if not form or last == 1 and not 1 <= int(said[1]) <= images.RADIOS:
            raise Refused(f"script, line {last}: {fault(line)}")
        if last == 1:
            site = peeled.Site(int(said[1]))
            continue
        number = site.call(said[2] == b"up", int(said[3]), int(said[4]))[0]
        if number:
            raise refused(f"script, line {last}: ", number)
    return Found(site.n, [(a, b) for a in range(site.n) for b in site.near[a] if a < b], site.order)


def formed(n, image):
    """Whether the image is one of n radios but for what its order and links are: kinds, indices, counts and unused bytes."""
    words = [a + 256 * b for a, b in zip(image[::2], image[1::2])]
    links = words[3]
    sizes = [4] + [2 * min(252, n - i) for i in range(0, n, 252)] + [4 * min(126, links - i) for i in range(0, links, 126)]
    kinds = [0] + [1] * -(-n // 252) + [2] * -(-links // 126)
    if words[2] != n or len(image) != 512 * len(sizes):
        return False
    return all(image[512 * i:512 * i + 4] == [kind, 0] + images.little(i) and not any(image[512 * i + 4 + size:512 * i + 508])
               for i, (kind, size) in enumerate(zip(kinds, sizes)))


def read(image):
    if len(image) > 86 * 512:
        raise Refused("no script, and longer than the longest image, 44032 bytes")
    image = list(image)
    number, n, tables = images.source(image)
    n = n if 1 <= n <= images.RADIOS else 1
    if number == 9:
        raise refused(f"no script; image, length {len(image)}: ", 9)
    if number == 10:
        blocks = [image[at:at + 512] for at in range(0, len(image), 512)]
        bad = [images.little(images.check(block), 4) == block[508:] for block in blocks].index(False)
        raise refused(f"no script; image, block {bad}: ", 10)
    if number == 11:
        what = "order or links" if formed(n, image) else "form of an image"
        raise refused(f"no script; image, {what} of radios {n}: ", 11)
    rows, _, order = tables
    return Found(n, [(a, b) for a in range(n) for b in range(a + 1, n) if rows[64 * a + b // 8] >> b % 8 & 1], order)


def found(data):
    if not data:
        raise Refused("the input is empty")
    return played(data) if data.startswith(b"radios") else read(data)


# ---- the verbs

def sheet(site):
    cells = [f"{v:3}:{k:2}  " for v, k in enumerate(site.numbers)]
    return "".join("".join(cells[i:i + 8]).ljust(64) + "\n" for i in range(0, site.n, 8))


def tree(site):
    nodes, names = site.site.tree()
    return "".join(printed("node", *node) for node in nodes) + printed("nodes", *names)


def core(site, v, k):
    if v >= site.n:
        raise refused("", 4)
    if k > site.numbers[v]:
        raise refused("", 8)
    return printed("core", *sorted(site.site.core(v, k)))


@cache
def firsts(n, links):
    """For each radio that a link lifts the first one."""
    site = peeled.Site(n)
    for a, b in links:
        site.near[a].add(b), site.near[b].add(a)
    return lift.firsts(site)


def lifted(site, v):
    if v >= site.n:
        raise refused("", 4)
    first = firsts(site.n, tuple(site.links))
    if v not in first:
        raise refused("", 20)
    return printed("link", *first[v])


# Verbs with numbers: what they take, and what they print.
TAKES = {"core": (2, "a radio and a level, 0 to 65535 each", core), "lift": (1, "a radio, 0 to 65535", lifted)}

SAYS = {
    "check": lambda s: f"0 accepted: a site of {s.n} radios\n",
    "numbers": lambda s: printed("numbers", *s.numbers),
    "sheet": sheet,
    "script": lambda s: printed("radios", s.n) + "".join(printed("up", *link) for link in s.links),
    "backbone": lambda s: printed("backbone", *s.site.backbone()),
    "staircase": lambda s: "".join(printed("link", *link) for link in kruskal.staircase(s.n, s.links, s.numbers)),
    "tree": tree,
    "image": lambda s: bytes(images.image_of(s.n, s.links, s.order)).decode("latin-1"),
}


def number(word):
    """A number of a script's form, or nothing."""
    return int(word) if word.isdigit() and word == str(int(word)) and int(word) <= LARGEST else None


def help_page():
    """The page stands once, in the program's text."""
    return HELP.split('b"')[1].split('";\n')[0]


def answer(data, verb, words):
    if verb in ("help", "--help"):
        return help_page()
    if verb == "--version":
        return VERSION
    if verb not in SAYS and verb not in TAKES:
        raise Refused("unknown verb; site help lists them")
    numbers = [number(word) for word in words]
    count, what, says = TAKES.get(verb) or (0, "no number", SAYS.get(verb))
    if count == 0 and words and not words[0][:1].isdigit():
        raise Refused(f"{verb} reads standard input: site {verb} <FILE")
    if len(words) != count or None in numbers:
        raise Refused(f"{verb} takes {what}")
    return says(found(data), *numbers)


def run(data, verb, words=()):
    """What is printed, the error output with it, and the status."""
    try:
        return answer(data, verb, list(words)) + "status 0\n"
    except Refused as line:
        return f"site: {line}\nstatus 1\n"


# ---- the inputs

def script(n, links):
    return "".join([printed("radios", n)] + [printed("up", *link) for link in links]).encode()


def wandered(n, count, seed):
    """Links among n radios, each radio with at most 40 of them."""
    draw, near, links = random.Random(seed), [0] * n, set()
    for _ in range(count):
        a, b = sorted(draw.sample(range(n), 2))
        if near[a] < 40 and near[b] < 40 and (a, b) not in links:
            links.add((a, b))
            near[a] += 1
            near[b] += 1
    return sorted(links)


def with_checks(image):
    """The image with the check of each block worked out anew."""
    out = []
    for at in range(0, len(image), 512):
        block = image[at:at + 508]
        out += block + images.little(images.check(block), 4)
    return out


def changed(image, at, x):
    return image[:at] + [x] + image[at + 1:]


def damaged(image, *blocks):
    """A byte of each of these blocks is another."""
    for i in blocks:
        image = changed(image, 512 * i + 300, image[512 * i + 300] ^ 1)
    return image


def circulant(n, reach):
    return sorted({tuple(sorted((v, (v + d) % n))) for v in range(n) for d in range(1, reach + 1)})


def k_order(n, links):
    """A k-order: a radio with the fewest neighbours left is next."""
    near = {v: set() for v in range(n)}
    for a, b in links:
        near[a].add(b)
        near[b].add(a)
    order = []
    while near:
        v = min(near, key=lambda u: (len(near[u]), u))
        order.append(v)
        for u in near.pop(v):
            near[u].discard(v)
    numbers = images.peeled(n, links)
    return sorted(order, key=lambda v: numbers[v])


SEVEN = [(0, 1), (1, 2), (0, 2), (3, 4), (4, 5), (3, 5), (2, 3), (0, 6)]


def files():
    seven = played(script(7, SEVEN))
    image = images.image_of(7, seven.links, seven.order)
    large = {n: wandered(n, count, n) for n, count in ((300, 500), (512, 2000))}
    out = {f"image-{n}": images.image_of(n, links, k_order(n, links)) for n, links in large.items()}
    clique = [(0, v) for v in range(1, 42)]
    out |= {
        "script-7": script(7, SEVEN), "image-7": image, "image-1": images.image_of(1, [], [0]),
        "empty": [], "cut": image[:-12], "cut-at-a-block": image[:-512], "two-images": image + image,
        "damaged-first-byte": changed(image, 0, 9), "damaged-check": changed(image, 508, image[508] ^ 1),
        "damaged-check-high": changed(image, 511, image[511] ^ 128), "long-first-line": b"radios 3" + b" " * 30 + b"\n",
        "damaged-last-block": changed(image, len(image) - 400, image[-400] ^ 16),
        "says-0-radios": with_checks(changed(image, 4, 0)), "says-600-radios": with_checks(changed(changed(image, 4, 88), 5, 2)),
        "says-8-radios": with_checks(changed(image, 4, 8)),
        "other-order": with_checks(image[:516] + image[518:520] + image[516:518] + image[520:]),
        "longest-zeros": [0] * 44032, "longer-zeros": [0] * 44033,
        "refused-4": b"radios 3\nup 0 1\nup 0 3\nup 1 2\n", "refused-5": b"radios 3\nup 2 2\n",
        "refused-6": b"radios 3\nup 0 1\nup 1 0\n", "refused-7": script(42, clique),
        "radios-alone": b"radios", "radios-0": b"radios 0\n", "radios-513": b"radios 513\n", "first-line-only": b"radios 9\n",
        "no-line-feed": b"radios 3\nup 0 1", "second-radios": b"radios 3\nradios 3\n", "empty-line": b"radios 3\n\nup 0 1\n",
        "form-300": with_checks(changed(out["image-300"], 1, 7)), "damaged-5-and-9": damaged(out["image-512"], 5, 9),
        "full-512": images.image_of(512, circulant(512, 20), k_order(512, circulant(512, 20))),
        "script-512": script(512, [link for link in large[512] if link[0] >= 100][:200]),
        "refused-4-longest": b"radios 3\ndown 65535 65535\n", "carriage-return": b"radios 3\nup 0 1\r\n",
        "carriage-return-first": b"radios 512\r\nup 0 1\r\n", "no-line-feed-first": b"radios 3",
        "very-long-line": b"radios 3\nup 0 1" + b" " * 5000 + b"\n", "capital": b"radios 3\nUp 0 1\n",
    }
    return {name: bytes(content) for name, content in out.items()}


# ---- the run

def cases():
    """Inputs and words, in the order of data/cases."""
    for name in ("script-7", "image-7", "image-1", "image-300", "image-512"):
        yield from ((name, verb, [], ("", "")) for verb in VERBS)
    yield "script-7", "help", [], ("", "")
    yield "script-7", "--help", [], ("", "")
    yield "script-7", "--version", [], ("", "")
    yield "script-512", "check", [], ("", "")
    yield "script-512", "numbers", [], ("", "")
    for name, v, k in [("image-7", "6", "1"), ("script-7", "0", "2"), ("image-7", "6", "2"), ("image-7", "7", "0"), ("image-7", "65535", "65535"),
                       ("image-7", "65536", "0"), ("image-7", "01", "0"), ("image-7", "", "0"), ("image-7", "1 2", "0"),
                       ("image-7", "0", "256"), ("image-7", "512", "0"), ("image-7", "256", "0"), ("image-7", "0", "x"), ("image-7", "0", "01"), ("image-7", "0" * 18, "0")]:
        yield name, "core", [v, k], (v, k)
    for name, v in [("script-7", "6"), ("script-7", "0"), ("script-7", "7"), ("image-7", "6"), ("image-7", "0"), ("image-7", "7"), ("image-7", "65535"),
                    ("image-7", "65536"), ("image-7", "06"), ("image-7", ""), ("image-1", "0"), ("image-300", "299"), ("image-300", "0"), ("full-512", "0"),
                    ("refused-6", "0"), ("cut", "0")]:
        yield name, "lift", [v], (v, "")
    yield "script-7", "lift", [], ("", "")
    yield "image-7", "lift", [], ("", "")
    yield "image-7", "lift", ["6", "1"], ("6", "1")
    yield "image-7", "core", ["6"], ("6", "")
    yield "image-7", "core", [], ("", "")
    yield "image-7", "core", ["6", "1", "1"], ("6", "1")
    yield "image-7", "sheet", ["6"], ("6", "")
    yield "image-7", "sheet", ["image-7"], ("image-7", "")
    yield "image-7", "check", ["x", "y"], ("x", "y")
    yield from (("image-7", verb, [], ("", "")) for verb in ("sheets", "", "page"))
    for name, verb in [("empty", "check"), ("empty", "sheet"), ("cut", "check"), ("cut-at-a-block", "check"), ("damaged-first-byte", "check"),
                       ("damaged-check", "numbers"), ("damaged-last-block", "check"), ("two-images", "check"), ("says-0-radios", "check"),
                       ("says-600-radios", "check"), ("says-8-radios", "check"), ("other-order", "check"), ("longest-zeros", "check"),
                       ("longer-zeros", "check"), ("refused-4", "numbers"), ("refused-5", "check"), ("refused-6", "image"), ("refused-7", "tree"),
                       ("radios-alone", "check"), ("radios-0", "check"), ("radios-513", "check"), ("first-line-only", "sheet"),
                       ("no-line-feed", "check"), ("second-radios", "check"), ("empty-line", "check"), ("very-long-line", "check"),
                       ("capital", "check"), ("form-300", "check"), ("damaged-5-and-9", "check"), ("refused-4-longest", "check"),
                       ("carriage-return", "check"), ("carriage-return-first", "check"), ("no-line-feed-first", "check"),
                       ("damaged-check-high", "check"), ("long-first-line", "check")]:
        yield name, verb, [], ("", "")


def long_texts():
    """Noise, and 71,680 lines that take a link up and down again and again: what they end with decides."""
    noise = bytes(10485760)
    refusal = f"long script\nsite: script, line {71680 + 3}: refused by 6: {WORDS[6]}\nstatus 1\n"
    yield "noise\n" + run(noise, "check")
    yield "noise\n" + run(noise, "check")
    yield f"noise\nsite: script, line 2: {FORM}\nstatus 1\n"
    yield "long script\nnumbers 0 0 0\nstatus 0\n"
    yield "long script\nnumbers 0 1 1\nstatus 0\n"
    yield refusal
    yield "long script\nnumbers 0 1 1\nstatus 0\n"
    yield refusal
    yield "shown script\n" + shown_text(11 * 4096, 1000)


def shown_text(size, most):
    """A script of that many bytes after line 1, of which the lines are 16 bytes for two: each read after the front shows its line."""
    read, shown = FRONT, ""
    while True:
        line = 2 + 2 * ((read - 9) // 16) + ((read - 9) % 16 >= 7)
        shown += f"\rline {line}"
        if read == size + 9:
            break
        read = min(read + most, size + 9)
    return SAYS["check"](played(script(3, []))) + shown + "\r" + 26 * " " + "\r\nstatus 0\n"


def wrong(words):
    return f"site: {words}\nstatus 1\n"


def read_texts(data):
    """Reads of one byte; one without room; a folder; a closed input."""
    yield from (f"{name} {verb}  \n{run(data[name], verb)}" for name, verb in (("script-7", "numbers"), ("image-7", "numbers"), ("no-line-feed", "check")))
    yield "script-7 numbers  \n" + wrong(UNREAD["no room"])
    yield ". check  \n" + wrong(UNREAD["folder"])
    yield "closed\n" + wrong(UNREAD["closed"])


def silent_texts():
    """Errors that cannot be written: they go nowhere else."""
    yield "radios-0 check  \nstatus 1\nscript-7 unknown  \nstatus 1\n"


def write_texts():
    for name, verb in (("script-7", "check"), ("image-512", "image"), ("script-7", "help"), ("script-7", "--version")):
        yield f"{name} {verb}  \n" + wrong(UNWRITTEN)


def digest(text):
    h = 0
    for x in text:
        h = (h * BASE + x + 1) % MODULUS
    return h


def full_texts(data):
    """A site of 10,240 links: of each text the length and the digest."""
    for verb in ("check", "numbers", "sheet", "script", "image", "backbone", "staircase", "tree"):
        said = SAYS[verb](found(data["full-512"])).encode("latin-1")
        yield f"full-512 {verb}  \nstatus 0\nbytes {len(said)}\ndigest {digest(said)}\n"


def last_texts():
    yield "told 0\ntold 1\n"
    yield from (f"refused by {number}: {WORDS.get(number, OTHER)}\n" for number in range(22))


def started_texts(data):
    """The program with the words `--status 1 staircase`: the output, the status in it, and the error line; a long script is shown on a terminal."""
    said, status = run(data["script-7"], "staircase").split("status ")
    yield f"script-7 started\n{said}{status}"
    line, status = run(data["radios-0"], "staircase").split("status ")
    yield f"radios-0 started\n{status}{line}"
    yield "many lines started\n0\n"
    yield f"terminal started\n0\nfirst byte 13\n"


def text(data):
    out = []
    for name, verb, words, shown in cases():
        out.append(" ".join([name, verb, *shown]) + "\n" + run(data[name], verb, words))
    for name, image in (("script-7", "image-7"), ("image-512", "image-512")):
        assert SAYS["image"](found(data[name])).encode("latin-1") == data[image]
        out.append(f"{name} image\nstatus 0\nsame 1\n" + run(data[image], "check"))
    return "".join([*out, *long_texts(), *read_texts(data), *write_texts(), *silent_texts(), *full_texts(data), *last_texts(),
                    *started_texts(data)]).encode()


def stored_files():
    data = files()
    towers = (CRATES.parent / "examples/towers.txt").read_bytes()
    core = run(towers, "core", ["3", "1"]).removesuffix("status 0\n")
    site = {"stdin": towers, "args": b"--status\n1\ncore\n3\n1\n", "stdout": f"{core}0".encode()}  # the status to the output
    out = {CRATES / "test_site/data" / name: content for name, content in data.items()}
    out[CRATES / "test_site/data/cases"] = "".join(f"{name}|{verb}|{len(words)}|{'|'.join(shown)}\n" for name, verb, words, shown in cases()).encode()
    out |= {CRATES / "site" / name: content for name, content in site.items()}
    return out | {CRATES / "test_site/args": b"--status\n1\nstaircase\n", CRATES / "test_site/stdout": text(data)}


def main():
    written = stored_files()
    data = CRATES / "test_site/data"
    if "--check" in sys.argv:
        same = {path for path in written if path.exists() and path.read_bytes() == written[path]}
        right = same == set(written) and {path.name for path in data.iterdir()} == {path.name for path in written if path.parent == data}
        print("crates/site, crates/test_site:", "as written by this program" if right else "DIFFERENT")
        sys.exit(not right)
    data.mkdir(parents=True, exist_ok=True)
    for path, content in written.items():
        path.write_bytes(content)


if __name__ == "__main__":
    main()

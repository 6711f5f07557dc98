"""One HTML file with the engine inside: no server, no network.

    python3 page/live/make.py MODULE.wasm >live.html
    python3 page/live/make.py --check LIVE.html      says whether a page is what would be made now with the module that is in it

The module has the calls of include/summerbugle.h by the C ABI of wasm32: a struct comes back through a pointer in front. What the page knows of
the interface it has from that header: limits, words of the refusal numbers, structs, calls.
"""

import base64
import hashlib
import json
import os
import re
import sys

HERE = os.path.dirname(os.path.abspath(__file__))
ROOT = os.path.dirname(os.path.dirname(HERE))
SCRIPTS = ["engine.js", "places.js", "draw.js", "panel.js", "live.js", "hand.js"]
WIDTHS = {"uint8_t": 1, "int8_t": 1, "uint16_t": 2, "uint32_t": 4, "size_t": 4}  # of wasm32


def read(*names):
    with open(os.path.join(*names), encoding="utf-8") as f:
        return f.read()


def laid(body):
    """The parts of a struct with their offsets, and its size."""
    parts, at, widest = [], 0, 1
    for kind, name in re.findall(r"(\w+) (\w+);", body):
        width = WIDTHS[kind]
        at += -at % width
        parts.append([name, kind, at])
        at += width
        widest = max(widest, width)
    return parts, at + -at % widest


def header():
    """What the page needs of the header."""
    text = read(ROOT, "include", "summerbugle.h")
    bare = re.sub(r"/\*.*?\*/", "", text, flags=re.S)
    structs = {name: laid(body) for body, name in re.findall(r"typedef struct \{(.*?)\} (sb_\w+);", bare, re.S)}
    words = {0: "accepted", **{int(number): " ".join(said.split()) for number, said in re.findall(r"SB_\w+ = (\d+),?\s*/\* (.*?) \*/", text, re.S)}}
    return {
        "limits": {name: int(value) for name, value in re.findall(r"^#define SB_(\w+) (\d+)u$", bare, re.M)},
        "words": [words[number] for number in range(len(words))],
        "structs": {name: parts for name, (parts, _) in structs.items()},
        "sizes": {name: size for name, (_, size) in structs.items()},
        "calls": {name: result for result, name in re.findall(r"^(uint32_t|sb_\w+) (sb_\w+)\(", bare, re.M)},
    }


def page(module):
    """The page, with this module."""
    parts = {
        "/*STYLE*/": read(HERE, "live.css").strip(),
        "/*SCRIPTS*/": "\n".join(read(HERE, name).replace('"use strict";\n', "", 1) for name in SCRIPTS).strip(),
        "/*HEADER*/null": json.dumps(header(), separators=(",", ":")),
        "/*SAMPLE*/null": json.dumps(read(ROOT, "examples", "towers.txt")),
        "/*MODULE*/null": json.dumps({"bytes": len(module), "sha256": hashlib.sha256(module).hexdigest(), "base64": base64.b64encode(module).decode("ascii")}),
    }
    text = read(HERE, "live.html")
    for place, part in parts.items():
        if text.count(place) != 1:
            raise SystemExit("the page has not one place for " + place)
        text = text.replace(place, part)
    return text


def check(path):
    """Whether a page is what would be made now with its own module."""
    text = read(path)
    inside = re.search(r'"base64": "([^"]*)"', text)
    if not inside or page(base64.b64decode(inside.group(1))) != text:
        raise SystemExit("%s is not the page of page/live: page/live/build --write makes it" % path)


def main():
    if len(sys.argv) == 3 and sys.argv[1] == "--check":
        return check(sys.argv[2])
    if len(sys.argv) != 2:
        raise SystemExit("usage: python3 page/live/make.py MODULE.wasm >live.html")
    try:
        with open(sys.argv[1], "rb") as f:
            module = f.read()
    except OSError as error:
        raise SystemExit("%s: %s" % (sys.argv[1], error.strerror))
    if module[:4] != b"\0asm":
        raise SystemExit("%s is no WebAssembly module" % sys.argv[1])
    sys.stdout.buffer.write(page(module).encode("utf-8"))


if __name__ == "__main__":
    main()

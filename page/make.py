"""A page to look at: writes one HTML file that shows a site, or a script's mesh step by step.

    bindings/python/build && bin/page <examples/site.txt >page.html

The input is a script of the replay program, which is played, or an image. Everything shown is the engine's own output: answers, numbers,
backbone, shell tree, connected cores, staircase tree. The page only draws it. A page has at most 5,000 steps: of a longer script several
calls are one step, and a line on the error output says how many. What goes wrong is one line there that begins with `page: `, and status 1.
"""

import os
import sys

HERE = os.path.dirname(os.path.abspath(__file__))
sys.path.insert(0, os.path.join(HERE, "..", "bindings", "python"))

from summerbugle import LONGEST_IMAGE, BadLine, Refused, Site  # noqa: E402
from summerbugle.page import STEPS, page_of_script, together  # noqa: E402
from summerbugle.script import is_script  # noqa: E402


class Wrong(Exception):
    """What went wrong, in words."""


def said(words):
    sys.stderr.write("page: %s\n" % words)


def read():
    try:
        with open(0, "rb", closefd=False) as f:
            return f.read()
    except OSError as wrong:
        raise Wrong("the input cannot be read: %s" % wrong.strerror) from None


def page_of(data):
    """The page of a script or of an image."""
    if not data:
        raise Wrong("the input is empty")
    if is_script(data):
        count = data.count(b"\n") - 1
        if count > STEPS:
            said("%d calls, %d to a step" % (count, together(count)))
        return page_of_script(data)
    if len(data) > LONGEST_IMAGE:
        raise Wrong("no script, and longer than the longest image, %d bytes" % LONGEST_IMAGE)
    return Site.read(data).page()


def write(page):
    try:
        with open(1, "wb", closefd=False) as f:
            f.write(page.encode("utf-8"))
    except OSError as wrong:
        raise Wrong("the output cannot be written: %s" % wrong.strerror) from None


def main():
    try:
        if len(sys.argv) > 1:
            raise Wrong("the input is standard input: bin/page <FILE >page.html")
        write(page_of(read()))
    except BadLine as bad:
        said("script, %s" % bad)
    except Refused as refused:
        said("no script; image: refused by %s" % refused)
    except (Wrong, OSError) as wrong:
        said(wrong)
    except KeyboardInterrupt:
        said("stopped")
    else:
        return 0
    return 1


if __name__ == "__main__":
    sys.exit(main())

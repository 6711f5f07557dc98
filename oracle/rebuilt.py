"""Scripts of pseudo-random sites (document 02, W-203), with what crate test_scripts owes on each, worked out from the documents alone.
oracle/scripts.py writes and checks what is stored.

A site is the one of oracle/peeled.py, and what the replay program prints is worked out by oracle/scripts.py.
"""

from peeled import Site
from scripts import printed, replay

MASK = 2 ** 64 - 1
SITES = [(1, 1, 3, 1), (2, 2, 1, 5), (7, 7, 60, 3), (12, 12, 90, 4), (45, 43, 1200, 5), (100, 100, 120, 6), (512, 512, 150, 7)]


def after(x):
    """Marsaglia's xorshift."""
    x ^= x << 13 & MASK
    x ^= x >> 7
    return x ^ (x << 17 & MASK)


def wandered(n, m, calls, seed):
    """A site after so many calls, of which some are refused."""
    site, x = Site(n), seed
    for _ in range(calls):
        y = after(x)
        x = after(y)
        site.call(y % 4 != 0, (y >> 32) % m, (x >> 32) % m)
    return site


def links(site):
    return sorted((a, b) for a in range(site.n) for b in site.near[a] if a < b)


def script_of(site):
    """Line 1, then a line for each link, lower radio first, ascending by lower and then higher."""
    return "".join([f"radios {site.n}\n"] + [f"up {a} {b}\n" for a, b in links(site)])


def back(n, script, site):
    """The script on a host's own tables: what lines are refused by, and which tables are the site's."""
    other, refused = Site(n), 0
    for line in script.splitlines():
        word, *numbers = line.split()
        numbers = [int(x) for x in numbers]
        if word == "radios":
            refused += 0 if numbers == [n] else 2  # a clearing of tables of another length
        else:
            refused += other.call(True, *numbers)[0]
    return printed("back", refused, int(links(other) == links(site)), int(other.numbers == site.numbers), int(other.order == site.order))


def site_text(n, m, calls, seed):
    site = wandered(n, m, calls, seed)
    script = script_of(site)
    size = len(script)
    played = replay(script.encode())
    assert all(line.startswith("0 ") for line in played.splitlines()[:-2])
    assert printed("numbers", *site.numbers) in played
    return (printed("site", n) + printed("length", 0, size) + printed("write", 0, size, 0) + printed("write", 13, 0, 0)
            + printed("write", 0, size, 0) + script + played + back(n, script, site))


def pair():
    site = Site(3)
    site.call(True, 0, 1)
    return site


def refused_text():
    """Lengths and n as the program gives them; the buffer holds dots."""
    script = script_of(pair())
    size, room = len(script), 20
    out = []
    # the numbers of both calls, and the bytes lent
    for length, write, lent in [(1, 1, room), (1, 1, room), (2, 2, room), (2, 2, room), (2, 2, room), (2, 2, 0), (0, 13, 15), (3, 3, 15), (0, 0, room)]:
        out.append(printed("length", length, 0 if length else size))
        out.append(printed("write", write, 0 if write else size))
        out.append(("." * lent if write else script + "." * (room - size)) + "\n")
    return "".join(out)


def canary_text():
    """Another link; a clearing that is refused, so that the lines stand on tables that are no site's; a link twice."""
    other_link = back(3, "radios 3\nup 0 2\n", pair())
    twice = back(3, "radios 3\nup 0 1\nup 0 1\n", pair())
    unsound = printed("back", 2 + 3, 0, 0, 0)
    return other_link + unsound + twice


def made():
    """No file of data/, and what is printed."""
    return {}, "".join(site_text(*site) for site in SITES) + refused_text() + canary_text()

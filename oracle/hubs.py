"""Two hubs that take the same link calls in two arrangements (document 02, W-214), worked out from documents 01 and 02 alone.
oracle/answers.py writes and checks what is stored.

Links, numbers and order come from the site of oracle/peeled.py, call by call; shell tree and backbone from that of
oracle/trees.py, the staircase tree from oracle/kruskal.py, all three from the links in the end.

data/hubs has words of 16 bits, lower byte first: the count of cases; of each its name, of 16 bytes; n; then of each hub the count of its
calls and the calls, each 1 or 0 for up or down, and two radios. Of `one-more` the second hub has a call more. Of `refused` it has the same
calls and refuses one, whose link is then up there. Everywhere else no call is refused, and links, numbers, tree, backbone and staircase
tree are equal.
"""

import random

import kruskal
import peeled
import reference
import trees
import words

KEPT, NODES = 600, 513
EQUAL = ("links", "numbers", "tree", "backbone", "staircase", "order")


def digest(values):
    return words.digest(0, values)


def filled(entries, length):
    """A lent list with the entries in front of it."""
    return entries + [KEPT] * (length - len(entries))


def hub(n, calls):
    """What the hub's line says, by name."""
    site = peeled.Site(n)
    refusals = sum(site.call(*call)[0] for call in calls)
    links = sorted({(min(a, b), max(a, b)) for a in range(n) for b in site.near[a]})
    rows = [sum(1 << b for b in site.near[a]).to_bytes(64, "little") for a in range(n)]
    graph = trees.Site(n, links)
    assert graph.numbers == site.numbers
    nodes, names = graph.tree()
    columns = [x for i in range(3) for x in filled([node[i] for node in nodes], NODES)]
    radios, kept = graph.backbone(), kruskal.staircase(n, links, site.numbers)
    return {
        "calls": len(calls),
        "refusals": refusals,
        "links": digest(x for row in rows for x in row),
        "numbers": digest(site.numbers),
        "tree": digest([0, len(nodes)] + columns + filled(names, NODES)),
        "backbone": digest([0, len(radios)] + filled(radios, NODES)),
        "staircase": digest([0, len(kept)] + filled([v for link in kept for v in link], 2 * NODES)),
        "order": digest(site.order),
    }


# ---- histories

def ups(links):
    return [(True, a, b) for a, b in links]


def downs(links):
    return [(False, a, b) for a, b in links]


def shuffled(items, seed):
    items = list(items)
    random.Random(seed).shuffle(items)
    return items


def exchanged(calls):
    """The same calls with the other end named first."""
    return [(up, b, a) for up, a, b in calls]


def pair():
    return 4, ups([(0, 1), (2, 3)]), ups([(2, 3), (0, 1)])


def again():
    """Each link goes up and down, every second one up again: link by link, and round by round."""
    links = trees.random_links(24, 40, 24)
    one = [call for i, link in enumerate(links) for call in ups([link]) + downs([link]) + ups([link] * (i % 2))]
    other = ups(shuffled(links, 1)) + downs(shuffled(links, 2)) + ups(shuffled(links[1::2], 3))
    return 24, one, exchanged(other)


def arranged(n, links, gone):
    """Ups and then downs, each in two arrangements."""
    struck = shuffled(links, n)[:gone]
    return n, ups(links) + downs(struck), exchanged(ups(shuffled(links, 4)) + downs(shuffled(struck, 5)))


def limit():
    """All radios get 40 neighbours."""
    links = trees.clique(list(range(41)))
    return 41, ups(links), ups(reversed(links))


def ring():
    links = [(v, (v + 1) % 512) for v in range(512)]
    return 512, ups(links), exchanged(ups(links[::2] + links[1::2]))


def parts():
    """Four sites of every fourth radio, each with ups and downs of its own in their order: site by site, and interleaved."""
    histories = []
    for part in range(4):
        draw, there, calls = random.Random(part), set(), []
        for _ in range(150):
            a, b = sorted(draw.sample(range(40), 2))
            link = 4 * a + part, 4 * b + part
            calls.append((link not in there, *link))
            there ^= {link}
        histories.append(calls)
    turns = shuffled([part for part in range(4) for _ in range(150)], 6)
    rest = [iter(calls) for calls in histories]
    return 512, sum(histories, []), [next(rest[part]) for part in turns]


def one_more():
    """A path of four radios, and the same with a link more, which closes a triangle."""
    path = ups([(0, 1), (1, 2), (2, 3)])
    return 4, path, path + ups([(1, 3)])


def refused():
    """The first hub takes a link up and down again; the second refuses to take it down, since it is not up yet."""
    rest = ups([(1, 2), (0, 2), (3, 4), (2, 4)])
    return 5, rest + ups([(0, 1)]) + downs([(0, 1)]), rest + downs([(0, 1)]) + ups([(0, 1)])


SITES = {
    "one-radio": (1, [], []),
    "pair-4": pair(),
    "again-24": again(),
    "shuffled-40": arranged(40, trees.random_links(40, 150, 40), 0),
    "limit-41": limit(),
    "ups-downs-200": arranged(200, trees.random_links(200, 420, 200), 150),
    "ring-512": ring(),
    "parts-512": parts(),
    "sparse-512": arranged(512, trees.random_links(512, 500, 512), 60),
    "one-more": one_more(),
    "refused": refused(),
}
MUST_DIFFER = ("one-more", "refused")
SAME_ORDER = ("one-radio", "ring-512")


# ---- files

def counted(calls):
    """How often each call stands in a list, whichever end it names first."""
    return sorted((up, min(a, b), max(a, b)) for up, a, b in calls)


def known(name, one, other):
    """What is known beforehand."""
    equal = [x for x in EQUAL if one[x] == other[x]]
    if name in MUST_DIFFER:
        assert equal in ([], ["order"]), (name, equal)
        assert (one["refusals"], other["refusals"]) == (0, 6 if name == "refused" else 0)
    else:
        assert equal[:5] == list(EQUAL[:5]) and one["refusals"] == other["refusals"] == 0, (name, equal)
        assert ("order" in equal) == (name in SAME_ORDER), name


def known_pair():
    """Document 02's pair by `reference` too, which looks at all sets of radios: orders and images."""
    n, one, other = SITES["pair-4"]
    first, second = reference.play(n, one)[0], reference.play(n, other)[0]
    assert first.numbers == second.numbers == [1, 1, 1, 1] and first.links == second.links
    assert (first.order, second.order) == ([2, 3, 0, 1], [0, 1, 2, 3])
    assert (first.checks(), second.checks()) == ([34, 46, 66], [34, 62, 66])


def made():
    """data/hubs, and the lines that the program owes for it."""
    written, lines = {}, []
    known_pair()
    for name, (n, *histories) in SITES.items():
        assert (counted(histories[0]) == counted(histories[1])) == (name != "one-more")
        content = [n]
        for calls in histories:
            content += [len(calls)] + [x for up, a, b in calls for x in (int(up), a, b)]
        written[name] = words.little(content, 2)
        one, other = (hub(n, calls) for calls in histories)
        known(name, one, other)
        for line in (one, other):
            lines.append(name + "".join(f" {word} {x}" for word, x in line.items()) + "\n")
        lines.append(f"{name} equal:" + "".join(f" {word} {int(one[word] == other[word])}" for word in EQUAL) + "\n")
    return {"hubs": words.cases(written)}, "".join(lines)

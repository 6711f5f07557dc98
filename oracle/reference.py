"""A site as document 01 describes it, worked out in the plainest way.

Written from document 01 alone, and W-202 of document 02 for the backbone, to
be compared with the definitions and the engine; it shares nothing with them.
Nothing here is fast: a core number is looked for among all sets of radios, a
tree is made by comparing sets.
"""

from itertools import combinations

from questions import NEIGHBOURS, RADIOS, link_refusal

ROOT = 65535
SMALL = 12  # up to this many radios all sets of radios are looked at


def linked(links, a, b):
    return (min(a, b), max(a, b)) in links


def inside(links, v, members):
    """How many neighbours v has among the members."""
    return sum(1 for u in members if linked(links, u, v))


def numbers_by_sets(n, links):
    """Core numbers by their definition: the largest k of any set with v."""
    best = [0] * n
    for size in range(1, n + 1):
        for members in combinations(range(n), size):
            k = min(inside(links, v, members) for v in members)
            for v in members:
                best[v] = max(best[v], k)
    return best


def numbers_by_discarding(n, links):
    """The same for sites too large for all sets: the greatest group for k is
    what is left when members with fewer than k neighbours inside are thrown
    out until none is."""
    best = [0] * n
    members, k = set(range(n)), 0
    while members:
        poor = {v for v in members if inside(links, v, members) < k}
        if poor:
            members -= poor
            continue
        for v in members:
            best[v] = k
        k += 1
    return best


def core_numbers(n, links):
    if n > SMALL:
        return numbers_by_discarding(n, links)
    numbers = numbers_by_sets(n, links)
    assert numbers == numbers_by_discarding(n, links)
    return numbers


def lay_out(links, waiting, above, most):
    """The next is always the first that has at most `most` neighbours among
    the ones not yet laid out and the radios above."""
    waiting, laid = list(waiting), []
    while waiting:
        fits = [v for v in waiting
                if inside(links, v, waiting) + inside(links, v, above) <= most]
        laid.append(fits[0])
        waiting.remove(fits[0])
    return laid


# ---- tables as bytes

def marked(links, a, b):
    """Bit b of row a."""
    return links[64 * a + b // 8] >> b % 8 & 1 == 1


def sound(n, links, numbers, order):
    """Document 01: tables are sound when .., clause by clause."""
    place = {v: i for i, v in enumerate(order)}
    if sorted(order) != list(range(n)):
        return False
    near = [[b for b in range(RADIOS) if marked(links, a, b)] for a in range(n)]
    return (all(b < n and a in near[b] and a != b for a in range(n) for b in near[a])
            and all(len(row) <= NEIGHBOURS for row in near)
            and all(numbers[v] <= numbers[w] for v, w in zip(order, order[1:]))
            and all(sum(place[u] > place[v] for u in near[v]) <= numbers[v]
                    <= sum(numbers[u] >= numbers[v] for u in near[v]) for v in range(n)))


def with_bytes(content, puts):
    content = list(content)
    for at, x in puts:
        content[at] = x
    return content


def check_bytes(block):
    """The four check bytes that a block should have."""
    check = sum(x * (at + 1) for at, x in enumerate(block[:508]))
    return [check >> 8 * i & 255 for i in range(4)]


def block_refusal(image):
    """Questions 9 and 10: the number of the first no, 0 for none."""
    if not image or len(image) % 512:
        return 9
    blocks = [image[at:at + 512] for at in range(0, len(image), 512)]
    return 10 if any(check_bytes(block) != block[508:] for block in blocks) else 0


def pictured(n, image):
    """The site of n radios whose image it is, where there is one; every block passes its check."""
    blocks = [image[at:at + 512] for at in range(0, len(image), 512)]
    # the only site whose image it can be is the one that its entries tell
    two = lambda block, at: block[4 + at] + 256 * block[5 + at]
    orders, pairs = -(-n // 252), two(blocks[0], 2)
    if len(blocks) != 1 + orders + -(-pairs // 126):
        return None
    site = Site(n)
    site.order = [two(blocks[1 + j // 252], 2 * (j % 252)) for j in range(n)]
    for j in range(pairs):
        block, at = blocks[1 + orders + j // 126], 4 * (j % 126)
        site.links.add((two(block, at), two(block, at + 2)))
    if not all(a < b < n for a, b in site.links):
        return None
    site.numbers = core_numbers(n, site.links)
    return site if site.sound() and site.image() == image else None


def read(n, image):
    """Refusal number of reading an image for n radios, questions 9, 10, 15 and 11, and the site of an accepted one."""
    if block_refusal(image):
        return block_refusal(image), None
    # the only n that it can be the image of is the one that it says
    says = image[4] + 256 * image[5]
    site = pictured(says, image) if 1 <= says <= RADIOS else None
    if site is None:
        return 11, None
    return (0, site) if says == n else (15, None)


def reading(n, image):
    """The refusal number alone."""
    return read(n, image)[0]


class Site:
    def __init__(self, n):
        self.n, self.links = n, set()
        self.numbers, self.order = [0] * n, list(range(n))

    # ---- the questions of a link call, in turn

    def refusal(self, up, a, b):
        return link_refusal(self.n, up, a, b, lambda: linked(self.links, a, b), self.degree)

    def degree(self, v):
        return inside(self.links, v, range(self.n))

    # ---- link calls

    def call(self, up, a, b):
        """Refusal number, step, changed radios."""
        number = self.refusal(up, a, b)
        if number:
            return number, 0, []
        level = min(self.numbers[a], self.numbers[b])
        before = self.numbers
        if up:
            self.links.add((min(a, b), max(a, b)))
        else:
            self.links.remove((min(a, b), max(a, b)))
        after = core_numbers(self.n, self.links)
        changed = [v for v in range(self.n) if before[v] != after[v]]
        step = 0 if not changed else 1 if up else -1
        assert all(before[v] == level and after[v] == level + step for v in changed)
        self.order = (self.order_up if up else self.order_down)(level, before, after, changed)
        self.numbers = after
        assert self.sound()
        return 0, step, changed

    def order_up(self, level, before, after, changed):
        old = [v for v in self.order if before[v] == level]
        rest = [v for v in old if v not in changed]
        higher = [v for v in range(self.n) if after[v] > level]
        return ([v for v in self.order if before[v] < level]
                + lay_out(self.links, rest, higher, level)
                + [v for v in old if v in changed]
                + [v for v in self.order if before[v] > level])

    def order_down(self, level, before, after, changed):
        fallen = [v for v in self.order if v in changed]
        still = [v for v in range(self.n) if after[v] >= level]
        return ([v for v in self.order if before[v] < level]
                + lay_out(self.links, fallen, still, level - 1)
                + [v for v in self.order if before[v] == level and v not in changed]
                + [v for v in self.order if before[v] > level])

    def rows(self):
        """The links table."""
        table = [0] * (64 * self.n)
        for a, b in self.links:
            table[64 * a + b // 8] += 2 ** (b % 8)
            table[64 * b + a // 8] += 2 ** (a % 8)
        return table

    def sound(self):
        return sound(self.n, self.rows(), self.numbers, self.order)

    # ---- questions about a site

    def core(self, v, level):
        """Refusal number and the connected core of v at the level."""
        if not v < self.n:
            return 4, []
        if level > self.numbers[v]:
            return 8, []
        return 0, sorted(self.reach(v, level))

    def reach(self, v, level):
        found, look = {v}, [v]
        while look:
            at = look.pop()
            for u in range(self.n):
                if u not in found and self.numbers[u] >= level and linked(self.links, at, u):
                    found.add(u)
                    look.append(u)
        return found

    def backbone(self):
        """The radios whose number is the greatest in their own connected part, and not 0 (document 02, W-202)."""
        return [v for v in range(self.n)
                if self.numbers[v] > 0 and self.numbers[v] == max(self.numbers[w] for w in self.reach(v, 0))]

    def tree(self):
        """Node records (name, level, parent), and each radio's node name."""
        highest = {}
        for level in range(1, max(self.numbers) + 1):
            for v in range(self.n):
                if self.numbers[v] >= level:
                    highest[frozenset(self.reach(v, level))] = level
        shell = {s: [v for v in sorted(s) if self.numbers[v] == k] for s, k in highest.items()}
        nodes = []
        for s, k in highest.items():
            around = [t for t in highest if s < t]
            parent = shell[min(around, key=len)][0] if around else ROOT
            nodes.append((shell[s][0], k, parent))
        nodes.sort(key=lambda node: (node[1], node[0]))
        names = [ROOT] * self.n
        for s in highest:
            for v in shell[s]:
                names[v] = shell[s][0]
        return [(ROOT, 0, ROOT)] + nodes, names

    # ---- image

    def image(self):
        little = lambda x: [x % 256, x // 256]
        pairs = sorted(self.links)
        payloads = [(0, little(self.n) + little(len(pairs)))]
        for i in range(0, self.n, 252):
            payloads.append((1, [x for v in self.order[i:i + 252] for x in little(v)]))
        for i in range(0, len(pairs), 126):
            payloads.append((2, [x for a, b in pairs[i:i + 126] for x in little(a) + little(b)]))
        image = []
        for index, (kind, payload) in enumerate(payloads):
            block = [kind, 0] + little(index) + payload
            block += [0] * (508 - len(block))
            image += block + check_bytes(block)
        return image

    def checks(self):
        image = self.image()
        return [sum(image[at + 508 + i] << 8 * i for i in range(4))
                for at in range(0, len(image), 512)]

    # ---- what the replay program prints

    def closing_lines(self):
        return [" ".join(["numbers"] + [str(k) for k in self.numbers]) + "\n",
                " ".join(["order"] + [str(v) for v in self.order]) + "\n"]


def line_of(answer):
    number, step, changed = answer
    fields = [str(number), {1: "+1", -1: "-1", 0: "0"}[step]] + [str(v) for v in changed]
    return " ".join(fields) + "\n"


def play(n, calls):
    """A cleared site after the calls, and their answers."""
    site = Site(n)
    return site, [site.call(up, a, b) for up, a, b in calls]

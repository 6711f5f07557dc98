"""The lines that the program `images` owes, worked out from documents 01 and 02 alone.

`python3 oracle/images.py` writes crates/test_images/stdout; with --check it says
whether the stored file is what it would write. Writer, reader and numbers are
this file's own: an image is accepted when it is, byte for byte, the image
written of the site that its entries tell, and that site is sound by numbers
that are found by peeling.
"""

import sys
from pathlib import Path

RADIOS, NEIGHBOURS, ROW, BLOCK = 512, 40, 64, 512
MODULUS, BASE = 4294967291, 65599  # of the digest that the program prints
BYTE, ENTRY = 165, 42405  # the pattern that tables and buffers hold before a call
BUFFER = 45056  # the bytes of the program's buffer
OUT = Path(__file__).parent.parent / "crates/test_images/stdout"


def digest(h, values):
    for x in values:
        h = (h * BASE + x + 1) % MODULUS
    return h


# ---- sites

def peeled(n, pairs):
    """Core numbers: a radio with the fewest neighbours left goes next."""
    near = {v: set() for v in range(n)}
    for a, b in pairs:
        near[a].add(b)
        near[b].add(a)
    numbers, level = [0] * n, 0
    while near:
        v = min(near, key=lambda u: len(near[u]))
        level = max(level, len(near[v]))
        numbers[v] = level
        for u in near.pop(v):
            near[u].discard(v)
    return numbers


def rows(n, pairs):
    """The links table."""
    table = bytearray(ROW * n)
    for pair in pairs:
        for a, b in (pair, pair[::-1]):
            table[ROW * a + b // 8] |= 1 << b % 8
    return table


def is_site(n, pairs, order):
    """Whether the links are proper and the order is a k-order of them."""
    if not all(a < b < n for a, b in pairs) or sorted(order) != list(range(n)):
        return False
    numbers = peeled(n, pairs)
    place = {v: i for i, v in enumerate(order)}
    later, degree = [0] * n, [0] * n
    for a, b in pairs:
        later[min(a, b, key=place.get)] += 1
        degree[a] += 1
        degree[b] += 1
    return (max(degree) <= NEIGHBOURS
            and all(numbers[v] <= numbers[w] for v, w in zip(order, order[1:]))
            and all(later[v] <= numbers[v] for v in range(n)))


# ---- images

def little(x, count=2):
    return list(x.to_bytes(count, "little"))


def check(block):
    """The check that a block should have."""
    return sum(x * (at + 1) for at, x in enumerate(block[:508]))


def image_of(n, pairs, order):
    pairs = sorted(pairs)
    blocks = [(0, little(n) + little(len(pairs)))]
    blocks += [(1, [x for v in order[i:i + 252] for x in little(v)]) for i in range(0, n, 252)]
    blocks += [(2, [x for a, b in pairs[i:i + 126] for x in little(a) + little(b)])
               for i in range(0, len(pairs), 126)]
    image = []
    for index, (kind, payload) in enumerate(blocks):
        block = [kind, 0] + little(index) + payload + [0] * (504 - len(payload))
        image += block + little(check(block), 4)
    return image


def block_refusal(image):
    """Questions 9 and 10."""
    if not image or len(image) % BLOCK:
        return 9
    for at in range(0, len(image), BLOCK):
        block = image[at:at + BLOCK]
        if little(check(block), 4) != block[508:]:
            return 10
    return 0


def pictured(n, image):
    """Links, numbers and order of the site of n radios whose image it is, where there is one."""
    payload = [x for at in range(0, len(image), BLOCK) for x in image[at + 4:at + 508]]
    words = [a + 256 * b for a, b in zip(payload[::2], payload[1::2])]
    start, count = 252 * (1 + -(-n // 252)), words[1]
    order, ends = words[252:252 + n], words[start:start + 2 * count]
    pairs = list(zip(ends[::2], ends[1::2]))
    if not is_site(n, set(pairs), order) or image_of(n, set(pairs), order) != image:
        return None
    return rows(n, pairs), peeled(n, pairs), order


def source(image):
    """The refusal number of questions 9, 10 and 11; where it is 0, the n that the image says, and its tables."""
    number, n = block_refusal(image), sum(x << 8 * i for i, x in enumerate(image[4:6]))
    tables = pictured(n, image) if not number and 1 <= n <= RADIOS else None
    return number or (0 if tables else 11), n, tables


def read(n, lengths, image, told=None):
    """Refusal number of reading into tables of these lengths; of an accepted image also links, numbers and order."""
    if not 1 <= n <= RADIOS:
        return 1, None
    if lengths != (ROW * n, n, n):
        return 2, None
    number, says, tables = told or source(image)
    return (number, None) if number else (0, tables) if says == n else (15, None)


# document 01, M8: one radio, cleared: 1,024 bytes, checks 5 and 4
assert [len(image_of(1, [], [0]))] + [check(image_of(1, [], [0])[at:]) for at in (0, BLOCK)] == [1024, 5, 4]


# ---- lines

LINES = []


def line(name, *values):
    LINES.append(" ".join([name] + [str(int(x)) for x in values]) + "\n")


def tables_digest(h, tables):
    for table in tables:
        h = digest(h, table)
    return h


def read_line(n, lengths, image):
    number, tables = read(n, lengths, image)
    if number:
        tables = [BYTE] * lengths[0], [BYTE] * lengths[1], [ENTRY] * lengths[2]
    line("read", n, *lengths, len(image), number, number != 0, tables_digest(0, tables))


def refusal(n, links, numbers, order):
    """Questions 1 to 3. Sound tables have proper rows, core numbers and a k-order."""
    if not 1 <= n <= RADIOS:
        return 1
    if (len(links), len(numbers), len(order)) != (ROW * n, n, n):
        return 2
    pairs = [(a, b) for a in range(n) for b in range(a, 8 * ROW) if links[ROW * a + b // 8] >> b % 8 & 1]
    if not is_site(n, pairs, order) or links != rows(n, pairs) or numbers != peeled(n, pairs):
        return 3
    return 0


def refused_lines(n, links, numbers, order):
    """Nothing is written, whatever the buffer."""
    number = refusal(n, links, numbers, order)
    assert number
    for room in (3 * BLOCK, 0):
        line("write", room, number, 0, 0, True)


def write_line(image, room):
    """Bytes past the image, or all of them, are kept."""
    held = len(image) <= room
    written = image if held else []
    line("write", room, 0 if held else 9, len(written), digest(0, written), True)


def blocks_lines(image):
    """A reader's steps, two more than there are blocks; then the steps of the reader that holds the image."""
    number, count = block_refusal(image), len(image) // BLOCK
    at = given = ends = h = 0
    for _ in range(count + 2):
        if number:
            said, part = [number, 0, 0, 0, at], []
        elif at < count:
            start = BLOCK * at + 4
            part = image[start:start + 504]
            at += 1
            said = [0, 0, start, 504, at]
        else:
            said, part = [0, 1, 0, 0, at], []
            ends += 1
        given += len(part)
        h = digest(digest(h, said), part)
    line("blocks", at, number, given, ends, h)
    h = 0
    for at in range(count + 2):
        end = int(not number and at >= count)
        kept = number or end
        after = at if kept else at + 1
        h = digest(h, [0, number, end, after, after] + ([] if kept else image[BLOCK * at + 4:BLOCK * at + 508]))
    line("held", h)


def sizes_line(first, end, image):
    """The image read with these n into tables of n radios, and asked alone."""
    told = source(image)
    numbers = [read(n, (ROW * n, n, n), image, told)[0] for n in range(first, end)]
    assert {m for m in range(1, 9) if told[0] in (0, 11) and pictured(m, image)} <= {told[1]}
    line("sizes", first, end, len(image), told[1], *(numbers.count(x) for x in (0, 15, 11)),
         sum(x not in (0, 15, 11) for x in numbers), 0, digest(0, numbers))


def around_line(n, image):
    sizes_line(max(0, n - (100 if len(image) <= 4096 else 3)), n + 4, image)


def site_lines(n, pairs, order):
    assert is_site(n, pairs, order) and len(pairs) == len(set(pairs))
    lengths, image = (ROW * n, n, n), image_of(n, pairs, order)
    tables = rows(n, pairs), peeled(n, pairs), order
    line("site", n, len(pairs), tables_digest(0, tables))
    for room in (BUFFER, len(image), len(image) - 1, 0):
        write_line(image, room)
    for other in (image[:-1], image + [0], [], image + [0] * BLOCK):
        read_line(n, lengths, other)
    for size in (n - 1, n + 1, 0, 513, n):
        read_line(size, lengths, image)
    around_line(n, image)
    line("again", 1)
    blocks_lines(image)


# ---- the sites tried

def round_links(n, count):
    """Each radio to the one after it, then each to the one two after it, and so on."""
    ends = [(j % n, (j % n + j // n + 1) % n) for j in range(count)]
    return [(min(pair), max(pair)) for pair in ends]


def alone(n):
    site_lines(n, [], [(5 * i + 1) % n for i in range(n)])


def path(n, count):
    """The radios without links, then the path from its start."""
    site_lines(n, round_links(n, count), [(i + count + 1) % n for i in range(n)])


def ring(n, count):
    site_lines(n, round_links(n, count), [5 * i % n for i in range(n)])


def full(k):
    """Radio k + 1 has k neighbours; the last link, k to k + 2, is made to lead to it too."""
    n, star = k + 3, [(v, k + 1) for v in range(k)]
    order = [(i + k + 2) % n for i in range(n)]
    assert is_site(n, star + [(k, k + 2)], order)
    image = image_of(n, star + [(k, k + 1)], order)
    read_line(n, (ROW * n, n, n), image)
    around_line(n, image)


# ---- every byte of a small image changed

def swap(image, at):
    """The byte swapped with the next but one; past the image there are zeros."""
    pair = (image + [0, 0])[at:at + 3:2]
    image[at:at + 3:2] = pair[::-1][:len(image[at:at + 3:2])]


def put(make):
    def change(image, at):
        image[at] = make(image[at]) % 256
    return change


# by the number that the program gives each: below 256 what is added, 256 flipped, 257 swapped
CHANGES = {how: put(lambda x, how=how: x + how) for how in (1, 2, 254, 255)}
CHANGES[256] = put(lambda x: x ^ 255)
CHANGES[257] = swap


def mend(image, at):
    """Gives the block that has byte `at` its check."""
    start = at // BLOCK * BLOCK
    image[start + 508:start + BLOCK] = little(check(image[start:start + BLOCK]), 4)


def other_sizes(good):
    """The image as it is; with headers that say another n; with the first and the last entry of its order exchanged."""
    sizes_line(0, RADIOS + 2, good)
    for says in (0, 4, 6, 513, 65535):
        image = good[:4] + little(says) + good[6:]
        mend(image, 4)
        sizes_line(0, 9, image)
    image = list(good)
    image[516], image[524] = image[524], image[516]
    mend(image, 516)
    sizes_line(0, 9, image)


def changes_line(how, mended, n, good):
    counts, h = dict.fromkeys((0, 9, 10, 11), 0), 0  # no change makes an image of another size
    for at in range(len(good)):
        image = list(good)
        CHANGES[how](image, at)
        if mended:
            mend(image, at)
        number, tables = read(n, (ROW * n, n, n), image)
        counts[number] += 1
        h = digest(h, [at, number])
        if not number:
            h = tables_digest(h, tables)
    line("change", how, mended, counts[0], counts[10], counts[11], counts[9], 0, h)


def small_lines():
    pairs, order = [(0, 1), (0, 2), (1, 2), (2, 3), (3, 4)], [4, 3, 2, 0, 1]
    links, numbers, good = rows(5, pairs), peeled(5, pairs), image_of(5, pairs, order)
    for n, lengths in [
        (5, (320, 5, 5)), (4, (256, 4, 4)), (6, (384, 6, 6)),
        (5, (319, 5, 5)), (5, (321, 5, 5)), (5, (320, 4, 5)),
        (5, (320, 6, 5)), (5, (320, 5, 4)), (5, (320, 5, 6)),
    ]:
        read_line(n, lengths, good)
    blocks_lines(good)
    blocks_lines(good[:-1])
    assert refusal(5, links, numbers, order) == 0
    refused_lines(5, links, [2, 2, 2, 1, 2], order)
    refused_lines(5, links, numbers, [4, 3, 2, 0, 0])
    refused_lines(5, bytearray([1] * 320), numbers, order)
    refused_lines(5, links, [2, 2, 2, 1], order)
    refused_lines(0, links, [2, 2, 2, 1], order)
    bad = good[:600] + [77] + good[601:]
    for image, n in ((bad, 0), (bad[:-1], 513)):
        read_line(5, (320, 5, 5), image)
        read_line(4, (256, 4, 4), image)
        read_line(5, (319, 5, 5), image)
        read_line(n, (319, 5, 5), image)
        blocks_lines(image)
    for how in CHANGES:
        changes_line(how, False, 5, good)
        changes_line(how, True, 5, good)
    other_sizes(good)
    # three tables exchanged, found twice each; images that differ; a refusal that changed a table; another number alone
    line("canaries", 2 * 3 + 1 + 1 + 1)


def work_out():
    alone(1)
    alone(252)
    path(252, 126)
    path(252, 127)
    path(253, 127)
    ring(253, 253)
    alone(512)
    ring(512, 10240)
    path(200, 199)
    full(39)
    full(40)
    small_lines()
    return "".join(LINES)


def main():
    text = work_out()
    if "--check" in sys.argv:
        same = OUT.read_text() == text
        print("crates/test_images/stdout:", "as written by this program" if same else "DIFFERENT")
        sys.exit(not same)
    OUT.write_text(text)


if __name__ == "__main__":
    main()

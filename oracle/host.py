"""The files of calls that the program `test_hosts` plays as a host: words of 32 bits, lowest byte first. What the bytes of its buffer are at
first and how much of each table is in its digest; the count of calls; and for each its name, of 16 bytes, its words, entries of the fields and
changes of the heard table."""

import words

ENTRIES, PLACES, STORE = 514, 515, 352320  # the program's tables: radios, nodes; of its buffer all but one byte
BYTE, KEPT = 165, 600  # what they hold before they are written
KINDS = ["clear", "check", "link-up", "link-down", "number", "neighbours", "linked", "first", "core", "backbone", "tree",
         "image-write", "image-read", "image-block", "later-of", "sheet", "staircase", "ask-up", "ask-down", "commit-up", "commit-down",
         "spoil-links", "spoil-numbers", "spoil-order", "spoil-answer", "spoil-fields", "spoil-buffer", "copy-place",
         "mark-set", "mark-remove", "mark-return", "link-batch", "hear"]
WORDS = ["said", "n", "a", "b", "links", "numbers", "order", "answer", "fields", "heard", "room", "seen"]


def call(kind, entries=(), changes=(), **lent):
    """The words of a call; those that are not given are 0."""
    assert set(lent) <= set(WORDS)
    return [KINDS.index(kind), *(lent.get(word, 0) for word in WORDS), len(entries), len(changes), *entries, *changes]


def changes(before, after):
    """Places of the heard table and, in the lowest byte, the bits that are flipped there."""
    return [256 * at + (x ^ y) for at, (x, y) in enumerate(zip(before, after, strict=True)) if x != y]


def file(lines, calls, byte=BYTE, entries=ENTRIES, answer=0, fields=0, heard=0):
    """A call's name is the first word of its line; of what other hands do the line has no more than the name and the digest."""
    content = words.little([byte, 64 * entries, entries, answer, fields, heard, len(calls)])
    for line, call in zip(lines, calls, strict=True):
        said = line.split()[:-1]
        content += words.named(" ".join(said if "spoil" in KINDS[call[0]] or "copy" in KINDS[call[0]] else said[:1]), words.little(call))
    return content

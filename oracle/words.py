"""Files of words, lowest byte first, as the test programs read them, and the digest that they print."""

MODULUS, BASE = 4294967291, 65599


def digest(h, values):
    """The digest h with more values."""
    for x in values:
        h = (h * BASE + x + 1) % MODULUS
    return h


def little(words, size=4):
    return b"".join(x.to_bytes(size, "little") for x in words)


def named(name, content):
    """Content after its name, of 16 bytes."""
    letters = name.encode()
    assert len(letters) < 16
    return letters.ljust(16, b"\0") + content


def cases(written):
    """Contents in words of 16 bits, each after its name, all after their count."""
    return little([len(written)], 2) + b"".join(named(name, content) for name, content in written.items())

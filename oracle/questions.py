"""Document 01's questions of a link call, in turn."""

RADIOS, NEIGHBOURS = 512, 40


def link_refusal(n, up, a, b, linked, degree):
    """Questions 4 to 7: the number of the first no, 0 for none. `linked` and
    `degree` are asked only about radios below n."""
    if not (a < n and b < n):
        return 4
    if a == b:
        return 5
    if linked() == up:
        return 6
    if up and max(degree(a), degree(b)) >= NEIGHBOURS:
        return 7
    return 0

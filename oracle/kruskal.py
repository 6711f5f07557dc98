"""The staircase tree of a site, worked out from document 02, W-209, alone: links by weight falling, then lower radio, then higher
radio; one is kept when the kept ones do not yet join its ends. Parts are sets of radios, which are united."""


def staircase(n, links, numbers):
    """The kept links, in the order in which they are taken."""
    part, kept = [{v} for v in range(n)], []
    for a, b in sorted(links, key=lambda link: (-min(numbers[link[0]], numbers[link[1]]), *link)):
        if b not in part[a]:
            kept.append((a, b))
            part[a] |= part[b]
            for v in part[a]:
                part[v] = part[a]
    return kept

"""Pages to look at: one HTML file that shows a site, or a script's mesh call by call, drawn from the engine's own answers alone."""

from __future__ import annotations

import base64
import json
import sys
from array import array
from collections import Counter
from typing import Any, Iterable, Union

from .calls import ROOT, located
from .refusals import MEANINGS, Refused
from .script import Event, parsed
from .site import Change, Site

STEPS = 5000  # how many steps a page has at the most: of a longer script several calls are one step
FRAMES = 600  # how many steps have their backbone, shell tree and staircase tree: of more, some evenly spread and the last


def _text(data: bytes) -> str:
    return base64.b64encode(data).decode("ascii")


def _packed(values: Iterable[int]) -> str:
    """16-bit entries, little-endian, as text."""
    entries = array("H", values)
    if sys.byteorder == "big":
        entries.byteswap()
    return _text(entries.tobytes())


def _flat(links: Iterable[Any]) -> str:
    return _packed(end for link in links for end in link)


def _frame(site: Site) -> dict[str, Any]:
    """What the engine says of a site beside its numbers."""
    nodes = site.tree().nodes
    return {
        "backbone": _packed(site.backbone()),
        "nodes": nodes,
        "cores": [_packed(site.core(x.name, x.level)) for x in nodes if x.name != ROOT],
        "stairs": _flat(site.staircase()),
    }


def _played(site: Site, event: Event) -> Change:
    return (site.link_up if event.up else site.link_down)(event.a, event.b)


# a step: what was called, the links that it turned (up to down, down to up), the radios whose number changed, and by how much


def _step(site: Site, event: Event) -> list[Any]:
    """A call: up or down, its ends and its refusal number."""
    called = [int(event.up), event.a, event.b]
    try:
        change = _played(site, event)
    except Refused as refused:
        return [called + [refused.number], "", "", 0]
    return [called + [0], _packed(event[1:]), _packed(change.radios), change.step]


def _steps(site: Site, events: list[Event]) -> list[Any]:
    """Several calls together: how many they are, and how many of them were refused."""
    turned: set[tuple[int, int]] = set()
    moved: Counter[int] = Counter()
    refusals = 0
    for event in events:
        try:
            change = _played(site, event)
        except Refused:
            refusals += 1
            continue
        turned ^= {(min(event[1:]), max(event[1:]))}
        for v in change.radios:
            moved[v] += change.step
    changes = {v: by for v, by in sorted(moved.items()) if by}
    return [[len(events), refusals], _flat(sorted(turned)), _packed(changes), [*changes.values()]]


def together(count: int) -> int:
    """How many of so many calls are one step."""
    return max(1, -(-count // STEPS))


def _page(site: Site, events: list[Event], script: bool) -> str:
    """The page of a site and of the calls that are then made on it."""
    several = together(len(events))
    data = {"n": site.n, "links": _flat(site.link_list()), "before": _text(bytes(site.numbers)), "script": script, "calls": len(events),
            "together": several, "meanings": MEANINGS}
    groups = [events[at:at + several] for at in range(0, len(events), several)]
    every = max(1, -(-len(groups) // FRAMES))
    steps, frames = [], {0: _frame(site)}
    for at, group in enumerate(groups, 1):
        steps.append(_step(site, group[0]) if several == 1 else _steps(site, group))
        if at % every == 0 or at == len(groups):
            frames[at] = _frame(site)
    data.update(steps=steps, frames=frames, after=_text(bytes(site.numbers)))
    with open(located("page.html", "page"), encoding="utf-8") as f:
        return f.read().replace("/*DATA*/null", json.dumps(data, separators=(",", ":")))


def page_of_site(site: Site) -> str:
    """The page of a site as it is."""
    return _page(site, [], False)


def page_of_script(text: Union[str, bytes]) -> str:
    """The page of a script, from the cleared site on. A refused call is shown as such; a line of another form raises a BadLine."""
    n, events = parsed(text)
    return _page(Site(n), events, True)

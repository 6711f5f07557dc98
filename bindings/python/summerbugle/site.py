"""Sites and stores of named marks: a method for each call."""

from __future__ import annotations

import copy
import html
import re
import threading
from array import array
from operator import index
from typing import Any, Iterable, Iterator, NamedTuple, Optional, TypeVar, Union

from .calls import (LONGEST_IMAGE, NAME_BYTES, NOBODY, PAGE_LINE, PLACE_BYTES, RADIOS, ROW_BYTES, STORE_BYTES, _Node, call, entries,
                    entry)
from .refusals import Refusal, refused
from .script import parsed

T = TypeVar("T", bound="_Shared")


class Change(NamedTuple):
    """What a link call changes: the step, and the radios whose number changes by it, ascending."""

    step: int
    radios: list[int]


class Batch(NamedTuple):
    """How many links of a batch were done, and the refusal number of the next one, or 0."""

    done: int
    number: int


class Later(NamedTuple):
    """How many neighbours of a radio stand after it in the order, and the first of them."""

    count: int  # type: ignore[assignment]
    first: Optional[int]


class Pair(NamedTuple):
    """Two radios, the lower one first."""

    low: int
    high: int


class Node(NamedTuple):
    """A node of the shell tree."""

    name: int
    level: int
    parent: int


class Tree(NamedTuple):
    """The nodes of the shell tree, the root first, and the name of each radio's node."""

    nodes: list[Node]
    names: list[int]


def _taken(result: Any) -> Any:
    """The result of a call that was carried out."""
    number = result if isinstance(result, int) else result.number
    if number != 0:
        raise refused(number)
    return result


def _ends(link: Any) -> tuple[Any, Any]:
    try:
        a, b = link
    except (TypeError, ValueError):
        raise TypeError("a link is a pair of radios, not %r" % (link,)) from None
    return a, b


def _copied(table: Any) -> Any:
    view = memoryview(table)
    return bytearray(view) if view.itemsize == 1 else array("H", view.tobytes())


def row(table: Union[bytes, bytearray], a: int) -> list[int]:
    """The radios whose bits row a of a table has, ascending."""
    bits = int.from_bytes(table[ROW_BYTES * a:ROW_BYTES * (a + 1)], "little")
    return [b for b in range(bits.bit_length()) if bits >> b & 1]


class _Shared:
    """Tables whose calls take turns, by a lock; a copy, a pickled one too, has tables and a lock of its own."""

    _tables: tuple[str, ...]

    def __init__(self) -> None:
        self._lock = threading.RLock()

    def __getstate__(self) -> dict[str, Any]:
        with self._lock:
            return {**vars(self), **{name: _copied(getattr(self, name)) for name in self._tables}, "_lock": None}

    def __setstate__(self, state: dict[str, Any]) -> None:
        vars(self).update(state, _lock=threading.RLock())

    def __eq__(self, other: object) -> bool:
        """Whether all tables are the same."""
        if not isinstance(other, _Shared):
            return NotImplemented
        return self.__getstate__() == other.__getstate__()

    def copy(self: T) -> T:
        """One of its own with the same tables."""
        return copy.copy(self)


class Site(_Shared):
    """A site of n radios and its tables, cleared. Threads may share a site: its calls take turns."""

    n: int
    links: Any
    numbers: Any
    order: Any
    _tables = ("links", "numbers", "order")

    def __init__(self, n: int) -> None:
        super().__init__()
        self.n = index(n)
        self.links = bytearray(ROW_BYTES * self._room())
        self.numbers = bytearray(self._room())
        self.order = entries(self._room())
        self.clear()

    # other ways to make a site

    @classmethod
    def read(cls, image: Any, n: Optional[int] = None) -> Site:
        """The site that an image has; of n radios, or of as many as the image says."""
        if n is None:
            n = int.from_bytes(memoryview(image)[4:6], "little")
            n = n if 1 <= n <= RADIOS else 1
        site = cls(n)
        site.read_image(image)
        return site

    @classmethod
    def from_links(cls, n: int, links: Iterable[Any]) -> Site:
        """The site of n radios with these links, taken up in this order."""
        site = cls(n)
        done, number = site.link_batch(links)
        if number:
            raise refused(number, "link %d of the list" % done)
        return site

    @classmethod
    def from_script(cls, text: Union[str, bytes]) -> Site:
        """The site that a script of the replay program leaves. A line of another form raises a BadLine; no call may be refused."""
        n, events = parsed(text)
        site = cls(n)
        answer = site._answer()
        for at, (up, a, b) in enumerate(events, 2):
            reply = call("sb_link_up" if up else "sb_link_down", n, a, b, site.links, site.numbers, site.order, answer)
            if reply.number:
                raise refused(reply.number, "line %d" % at)
        return site

    @classmethod
    def from_networkx(cls, graph: Any) -> Site:
        """The site of a networkx graph, undirected, whose nodes are the radios 0 to n-1."""
        if graph.is_directed() or set(graph) != set(range(len(graph))):
            raise ValueError("an undirected graph of the nodes 0 to n-1 is asked for; networkx.convert_node_labels_to_integers gives others these numbers")
        return cls.from_links(len(graph), graph.edges())

    def __repr__(self) -> str:
        try:
            site = self.copy()
            return "<Site of %d radios, %d links, greatest number %d>" % (site.n, len(site.link_list()), max(site.numbers))
        except Exception as wrong:  # tables may hold anything
            return "<Site: %s>" % wrong

    def _room(self) -> int:
        """As many radios as tables are made for."""
        return min(max(self.n, 0), RADIOS)

    def _answer(self) -> array[int]:
        return entries(self._room())

    def _call(self, name: str, first: tuple[Any, ...] = (), last: tuple[Any, ...] = ()) -> Any:
        with self._lock:
            return _taken(call(name, self.n, *first, self.links, self.numbers, self.order, *last))

    # links

    def clear(self) -> None:
        """No links."""
        self._call("sb_clear")

    def check(self) -> bool:
        """Whether the tables are sound."""
        return self._call("sb_check").value == 1

    def _link(self, name: str, a: int, b: int) -> Change:
        answer = self._answer()
        reply = self._call(name, (a, b), (answer,))
        return Change(reply.step, list(answer[:reply.count]))

    def link_up(self, a: int, b: int) -> Change:
        """Takes a link up: the step, and the radios whose number changed."""
        return self._link("sb_link_up", a, b)

    def link_down(self, a: int, b: int) -> Change:
        """Takes a link down: the step, and the radios whose number changed."""
        return self._link("sb_link_down", a, b)

    def ask_up(self, a: int, b: int) -> Change:
        """What `link_up` would change now."""
        return self._link("sb_ask_up", a, b)

    def ask_down(self, a: int, b: int) -> Change:
        """What `link_down` would change now."""
        return self._link("sb_ask_down", a, b)

    def _commit(self, name: str, a: int, b: int, change: Change) -> Change:
        step, radios = change
        listed = array("H", [entry(v) for v in radios])
        reply = self._call(name, (a, b, step), (listed,))
        return Change(reply.step, list(listed))

    def commit_up(self, a: int, b: int, change: Change) -> Change:
        """`link_up`, where the change is exactly what asking would give now."""
        return self._commit("sb_commit_up", a, b, change)

    def commit_down(self, a: int, b: int, change: Change) -> Change:
        """`link_down`, where the change is exactly what asking would give now."""
        return self._commit("sb_commit_down", a, b, change)

    def link_batch(self, links: Iterable[Any]) -> Batch:
        """Takes links, pairs of radios, up one by one and stops at the first that is refused: how many were done, and that refusal's number,
        or 0."""
        flat = array("H", [entry(end) for link in links for end in _ends(link)])
        with self._lock:
            done = call("sb_link_batch", self.n, self.links, self.numbers, self.order, flat)
        if done.number in (Refusal.SIZE, Refusal.LENGTH, Refusal.UNSOUND):
            raise refused(done.number)
        return Batch(done.value, done.number)

    def hear(self, heard: Any) -> list[tuple[int, int]]:
        """Brings the site to the links that both ends hear, by a heard table in the shape of `links`: the one-sided pairs (a, b), of which
        a hears b and b does not hear a."""
        one_sided = bytearray(ROW_BYTES * self._room())
        self._call("sb_hear", (), (memoryview(heard).toreadonly(), one_sided))
        return [(a, b) for a in range(self._room()) for b in row(one_sided, a)]

    # questions about radios

    def number(self, v: int) -> int:
        """The core number of a radio."""
        return self._call("sb_number", (v,)).value

    def neighbours(self, v: int) -> int:
        """How many neighbours a radio has."""
        return self._call("sb_neighbours", (v,)).value

    def neighbours_of(self, v: int) -> list[int]:
        """The neighbours of a radio, ascending."""
        with self._lock:
            self.neighbours(v)
            return row(memoryview(self.links).tobytes(), index(v))

    def linked(self, a: int, b: int) -> bool:
        """Whether two radios are linked."""
        return self._call("sb_linked", (a, b)).value == 1

    def first(self, a: int, b: int) -> int:
        """Which of two radios stands first in the order."""
        return self._call("sb_first", (a, b)).value

    def later_of(self, v: int) -> Later:
        """How many neighbours of a radio stand after it in the order, and the first of them, or None."""
        later = self._call("sb_later_of", (v,))
        return Later(later.count, None if later.first == NOBODY else later.first)

    def lift(self, v: int) -> Pair:
        """The first pair of radios, by lower and then higher, whose link would be taken up now and would raise a radio's number."""
        pair = self._call("sb_lift", (v,))
        return Pair(pair.low, pair.high)

    # what hangs together

    def core(self, v: int, k: int) -> list[int]:
        """The connected core of a radio at a level: radios, ascending."""
        answer = self._answer()
        return list(answer[:self._call("sb_core", (v, k), (answer,)).value])

    def backbone(self) -> list[int]:
        """The radios with the greatest number of their own connected part, where that is not 0."""
        answer = self._answer()
        return list(answer[:self._call("sb_backbone", (), (answer,)).value])

    def tree(self) -> Tree:
        """The shell tree: its nodes, the root first, and the name of each radio's node."""
        answer = self._answer()
        nodes = (_Node * (len(answer) + 1))()
        count = self._call("sb_tree", (), (nodes, answer)).value
        return Tree([Node(x.name, x.level, x.parent) for x in nodes[:count]], list(answer))

    def staircase(self) -> list[tuple[int, int]]:
        """The staircase tree: its links in the order in which they are taken, lower radio first."""
        table = entries(2 * self._room())
        count = self._call("sb_staircase", (), (table,)).value
        return [(table[2 * i], table[2 * i + 1]) for i in range(count)]

    def link_list(self) -> list[Pair]:
        """The links, ascending by lower and then higher radio."""
        return [Pair(a, b) for _, a, b in parsed(self.script())[1]]

    def to_networkx(self) -> Any:
        """A networkx graph of the radios, each with its core number as `number`, and the links."""
        import networkx  # type: ignore[import]
        site, graph = self.copy(), networkx.Graph()
        graph.add_nodes_from((v, {"number": number}) for v, number in enumerate(site.numbers))
        graph.add_edges_from(site.link_list())
        return graph

    # pages and images

    def sheet(self) -> str:
        """The site sheet, as text."""
        page = bytearray(PAGE_LINE * ((self._room() + 7) // 8))
        return bytes(page[:self._call("sb_sheet", (), (page,)).value]).decode("ascii")

    def script(self) -> str:
        """The script of the replay program that rebuilds the site, as text."""
        with self._lock:
            text = bytearray(self._call("sb_script_length").value)
            self._call("sb_script_write", (), (text,))
        return text.decode("ascii")

    def image(self) -> bytes:
        """The site's image."""
        buffer = bytearray(LONGEST_IMAGE)
        return bytes(buffer[:self._call("sb_image_write", (), (buffer,)).value])

    def read_image(self, image: Any) -> None:
        """The tables of an image of a site of this size."""
        self._call("sb_image_read", (), (memoryview(image).toreadonly(),))

    def page(self) -> str:
        """A page to look at: one HTML file that shows the mesh, its numbers, backbone, shell tree and staircase tree."""
        from .page import page_of_site
        return page_of_site(self.copy())

    def _repr_html_(self) -> str:
        """The page in a frame, for a notebook."""
        return '<iframe style="width: 100%%; height: 560px; border: 0" srcdoc="%s"></iframe>' % html.escape(self.page())


class Marks(_Shared):
    """A store of named marks, empty or a copy of the one given. A name has 1 to 8 letters A to Z and digits. Threads may share it."""

    store: Any
    _tables = ("store",)

    def __init__(self, store: Any = None) -> None:
        super().__init__()
        self.store = bytearray(STORE_BYTES if store is None else memoryview(store))

    def _call(self, name: str, site: Site, mark: str) -> None:
        with self._lock:
            site._call(name, (), (padded(mark), self.store))

    def set(self, site: Site, name: str) -> None:
        """Marks the site's tables under a name; a mark of that name is replaced."""
        self._call("sb_mark_set", site, name)

    def remove(self, site: Site, name: str) -> None:
        """Removes a mark."""
        self._call("sb_mark_remove", site, name)

    def come_back(self, site: Site, name: str) -> None:
        """The site's tables as they were when the mark was set."""
        self._call("sb_mark_return", site, name)

    def names(self) -> list[str]:
        """The names of the marks, in rising order. Of the store only the names are looked at; every other call checks it whole."""
        with self._lock:
            store = memoryview(self.store).tobytes()
        if len(store) != STORE_BYTES:
            raise refused(Refusal.LENGTH)
        used = [name for name in (store[at:at + NAME_BYTES] for at in range(0, STORE_BYTES, PLACE_BYTES)) if any(name)]
        if not all(re.fullmatch(rb"[A-Z0-9]+ *", name) for name in used):
            raise refused(Refusal.MARK)
        return [name.decode("ascii").rstrip() for name in used]


def padded(name: str) -> bytes:
    """The bytes of a name, with spaces to its end."""
    if not isinstance(name, str):
        raise TypeError("a name is text, not %r" % (name,))
    return name.encode("ascii", "replace").ljust(NAME_BYTES)


def heard(n: int, pairs: Iterable[Any]) -> bytearray:
    """The table for `Site.hear` in which a hears b, for each pair (a, b), of a site of n radios. Refused by 1 and 14, as hearing is."""
    n = index(n)
    if not 1 <= n <= RADIOS:
        raise refused(Refusal.SIZE)
    table = bytearray(ROW_BYTES * n)
    for pair in pairs:
        a, b = map(index, _ends(pair))
        if a == b or not (0 <= a < n and 0 <= b < n):
            raise refused(Refusal.HEARD, "%d hears %d" % (a, b))
        table[ROW_BYTES * a + b // 8] |= 1 << b % 8
    return table


def blocks(image: Any) -> Iterator[bytes]:
    """The payload of each block of an image, in turn."""
    data = memoryview(image).tobytes()
    place = 0
    while True:
        step = _taken(call("sb_image_block", data, place))
        if step.end:
            return
        yield data[step.offset:step.offset + step.length]
        place = step.next

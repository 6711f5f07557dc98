"""The calls of include/summerbugle.h by their C names, over a shared object, and what a host owes them."""

from __future__ import annotations

import ctypes
import os
from array import array
from operator import index
from typing import Any, Optional

RADIOS = 512
NEIGHBOURS = 40
ROW_BYTES = 64
ROOT = 65535
NOBODY = 65535
BLOCK_BYTES = 512
PAGE_LINE = 65
LONGEST_IMAGE = 86 * BLOCK_BYTES
NAME_BYTES = 8
PLACE_BYTES = NAME_BYTES + LONGEST_IMAGE
STORE_BYTES = 8 * PLACE_BYTES


class _Value(ctypes.Structure):
    _fields_ = [("number", ctypes.c_uint32), ("value", ctypes.c_uint32)]


class _Reply(ctypes.Structure):
    _fields_ = [("number", ctypes.c_uint32), ("step", ctypes.c_int8), ("count", ctypes.c_uint32)]


class _Later(ctypes.Structure):
    _fields_ = [("number", ctypes.c_uint32), ("count", ctypes.c_uint32), ("first", ctypes.c_uint32)]


class _Pair(ctypes.Structure):
    _fields_ = [("number", ctypes.c_uint32), ("low", ctypes.c_uint32), ("high", ctypes.c_uint32)]


class _Node(ctypes.Structure):
    _fields_ = [("name", ctypes.c_uint16), ("level", ctypes.c_uint16), ("parent", ctypes.c_uint16)]


class _Block(ctypes.Structure):
    _fields_ = [("number", ctypes.c_uint32), ("end", ctypes.c_uint32), ("offset", ctypes.c_size_t), ("length", ctypes.c_size_t),
                ("next", ctypes.c_size_t)]


# a number: its C type, the least and the largest
_NUMBERS: dict[str, Any] = {"u32": (ctypes.c_uint32, 0, 2**32 - 1), "step": (ctypes.c_int8, -128, 127), "size": (ctypes.c_size_t, 0, 2**64 - 1)}

# a table, which goes as a pointer and a count: its elements
_ELEMENTS: dict[str, Any] = {"bytes": ctypes.c_uint8, "entries": ctypes.c_uint16, "nodes": _Node}

_READ = "bytes bytes entries"
_WRITTEN = "bytes* bytes* entries*"

# result and parameters of each call; the tables with a star are those that it writes
CALLS = {
    "sb_version": (ctypes.c_uint32, ""),
    "sb_clear": (ctypes.c_uint32, "u32 " + _WRITTEN),
    "sb_check": (_Value, "u32 " + _READ),
    "sb_link_up": (_Reply, "u32 u32 u32 " + _WRITTEN + " entries*"),
    "sb_link_down": (_Reply, "u32 u32 u32 " + _WRITTEN + " entries*"),
    "sb_ask_up": (_Reply, "u32 u32 u32 " + _READ + " entries*"),
    "sb_ask_down": (_Reply, "u32 u32 u32 " + _READ + " entries*"),
    "sb_commit_up": (_Reply, "u32 u32 u32 step " + _WRITTEN + " entries"),
    "sb_commit_down": (_Reply, "u32 u32 u32 step " + _WRITTEN + " entries"),
    "sb_link_batch": (_Value, "u32 " + _WRITTEN + " entries"),
    "sb_hear": (_Value, "u32 " + _WRITTEN + " bytes bytes*"),
    "sb_number": (_Value, "u32 u32 " + _READ),
    "sb_neighbours": (_Value, "u32 u32 " + _READ),
    "sb_linked": (_Value, "u32 u32 u32 " + _READ),
    "sb_first": (_Value, "u32 u32 u32 " + _READ),
    "sb_later_of": (_Later, "u32 u32 " + _READ),
    "sb_lift": (_Pair, "u32 u32 " + _READ),
    "sb_core": (_Value, "u32 u32 u32 " + _READ + " entries*"),
    "sb_backbone": (_Value, "u32 " + _READ + " entries*"),
    "sb_tree": (_Value, "u32 " + _READ + " nodes* entries*"),
    "sb_sheet": (_Value, "u32 " + _READ + " bytes*"),
    "sb_script_length": (_Value, "u32 " + _READ),
    "sb_script_write": (_Value, "u32 " + _READ + " bytes*"),
    "sb_staircase": (_Value, "u32 " + _READ + " entries*"),
    "sb_image_write": (_Value, "u32 " + _READ + " bytes*"),
    "sb_image_read": (ctypes.c_uint32, "u32 " + _WRITTEN + " bytes"),
    "sb_mark_set": (ctypes.c_uint32, "u32 " + _READ + " bytes bytes*"),
    "sb_mark_remove": (ctypes.c_uint32, "u32 " + _READ + " bytes bytes*"),
    "sb_mark_return": (ctypes.c_uint32, "u32 " + _WRITTEN + " bytes bytes"),
    "sb_image_block": (_Block, "bytes size"),
}


# ---- the shared object

_library: Optional[ctypes.CDLL] = None


def located(name: str, folder: str) -> str:
    """The path of a file that an installed package has beside this module, and the repository in a folder of its own."""
    here = os.path.dirname(os.path.abspath(__file__))
    beside = os.path.join(here, name)
    return beside if os.path.exists(beside) else os.path.normpath(os.path.join(here, "..", "..", "..", folder, name))


def _types(word: str) -> list[Any]:
    """The C types of a parameter."""
    if word in _NUMBERS:
        return [_NUMBERS[word][0]]
    return [ctypes.POINTER(_ELEMENTS[word.rstrip("*")]), ctypes.c_size_t]


def load(path: Optional[str] = None) -> ctypes.CDLL:
    """The shared object of this path; else the one that SUMMERBUGLE names, that the package has, or that bindings/python/build made."""
    global _library
    if path is None and _library is not None:
        return _library
    try:
        library = ctypes.CDLL(path or os.environ.get("SUMMERBUGLE") or located("libsummerbugle.so", "target/python"))
        for name, (result, parameters) in CALLS.items():
            function = getattr(library, name)
            function.restype = result
            function.argtypes = [kind for word in parameters.split() for kind in _types(word)]
    except (OSError, AttributeError) as wrong:
        raise OSError("the engine cannot be loaded: %s; run bindings/python/build, or let SUMMERBUGLE name a shared object" % wrong) from None
    _library = library
    return library


# ---- a call


def _number(word: str, value: Any) -> int:
    """A number as its C type has it. One that the type does not have goes as the type's largest, which names nothing: the call refuses it."""
    _, least, largest = _NUMBERS[word]
    whole = index(value)
    return whole if least <= whole <= largest else largest


def entry(value: Any) -> int:
    """A radio of a list, which has 16 bits; by the same rule."""
    whole = index(value)
    return whole if 0 <= whole <= NOBODY else NOBODY


def _lent(word: str, buffer: Any) -> tuple[Any, int, bool]:
    """A table as a C array, its count of elements, and whether the call writes it. A buffer that can be written is lent itself; one that
    cannot, as a copy that is only read."""
    element, written = _ELEMENTS[word.rstrip("*")], word.endswith("*")
    view = memoryview(buffer)
    size = ctypes.sizeof(element)
    if view.itemsize != size:
        raise TypeError("a table of elements of %d bytes is asked for, not of %d" % (size, view.itemsize))
    if written and view.readonly:
        raise TypeError("a table that the call writes is read-only: %s" % type(buffer).__name__)
    count = view.nbytes // size
    if count == 0:
        return (element * 1)(), 0, written
    kind = element * count
    return (kind.from_buffer_copy if view.readonly else kind.from_buffer)(view), count, written


def _see_apart(tables: list[tuple[Any, int, bool]]) -> None:
    """What the proofs assume and C cannot check: entries are aligned, and a table that the call writes overlaps no other."""
    spans = [(ctypes.addressof(table), count * ctypes.sizeof(table._type_), written) for table, count, written in tables if count]
    for i, (start, size, written) in enumerate(spans):
        for other, length, changed in spans[:i]:
            if (written or changed) and start < other + length and other < start + size:
                raise ValueError("a table that the call writes overlaps another")
    if any(ctypes.addressof(table) % ctypes.alignment(table) for table, _, _ in tables):
        raise ValueError("a table of 16-bit entries begins at an odd address")


def call(name: str, *values: Any) -> Any:
    """The C call of this name, with a buffer for each table, and what it came back with: a number or a struct. A refusal is not raised."""
    arguments: list[Any] = []
    tables = []
    words = CALLS[name][1].split()
    if len(words) != len(values):
        raise TypeError("%s takes %d values" % (name, len(words)))
    for word, value in zip(words, values):
        if word in _NUMBERS:
            arguments.append(_number(word, value))
        else:
            tables.append(_lent(word, value))
            arguments.extend(tables[-1][:2])
    _see_apart(tables)
    return getattr(load(), name)(*arguments)


def entries(count: int) -> array[int]:
    """An array of 16-bit entries, all 0."""
    return array("H", bytes(2 * count))

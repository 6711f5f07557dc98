"""The scripts of the replay program, as document 01 has them: `radios N`, and then lines `up A B` and `down A B`."""

from __future__ import annotations

import re
from typing import NamedTuple, Union

from .calls import RADIOS


class Event(NamedTuple):
    """A line of a script after the first."""

    up: bool
    a: int
    b: int


class BadLine(ValueError):
    """A line of another form: `line` counts from 1."""

    def __init__(self, line: int, why: str) -> None:
        super().__init__(line, why)
        self.line = line
        self.why = why

    def __str__(self) -> str:
        return "line %d: %s" % (self.line, self.why)


_NUMBER = rb"(0|[1-9][0-9]{0,4})"
_FIRST = re.compile(rb"radios " + _NUMBER)
_LATER = re.compile(rb"(up|down) " + _NUMBER + rb" " + _NUMBER)


def is_script(data: bytes) -> bool:
    """Whether an input is a script: it begins with the word `radios`. Any other is read as an image."""
    return data.startswith(b"radios")


def _bad(at: int, line: bytes) -> BadLine:
    return BadLine(at, "a carriage return stands here" if line.endswith(b"\r") else "no line of the language stands here")


def _size(line: bytes) -> int:
    found = _FIRST.fullmatch(line)
    if not found or not 1 <= int(found[1]) <= RADIOS:
        raise _bad(1, line)
    return int(found[1])


def _event(at: int, line: bytes) -> Event:
    found = _LATER.fullmatch(line)
    if not found or int(found[2]) > 65535 or int(found[3]) > 65535:
        raise _bad(at, line)
    return Event(found[1] == b"up", int(found[2]), int(found[3]))


def parsed(text: Union[str, bytes]) -> tuple[int, list[Event]]:
    """The count of radios and the events of a script. The first line of another form is told by a BadLine."""
    data = text.encode("ascii", "replace") if isinstance(text, str) else bytes(memoryview(text))
    *lines, rest = data.split(b"\n")
    if not data:
        raise BadLine(1, "the script is empty")
    n = _size(lines[0] if lines else rest)
    events = [_event(at, line) for at, line in enumerate(lines[1:], 2)]
    if rest:
        raise BadLine(len(lines) + 1, "the last line has no line feed")
    return n, events

"""The refusal numbers, what they mean, and an exception class for each."""

from __future__ import annotations

from enum import IntEnum


class Refusal(IntEnum):
    """The first question that got "no", as include/summerbugle.h names it; `meaning` says it in words."""

    meaning: str

    def __new__(cls, number: int, meaning: str = "") -> Refusal:
        refusal = int.__new__(cls, number)
        refusal._value_ = number
        refusal.meaning = meaning
        return refusal

    SIZE = 1, "n is not from 1 to 512"
    LENGTH = 2, "a table has another length"
    UNSOUND = 3, "the tables are not sound"
    RADIO = 4, "a radio named is not below n"
    SAME_ENDS = 5, "the ends of the link are the same radio"
    LINK_STATE = 6, "going up the link is up already, going down it is down"
    NO_ROOM = 7, "an end has 40 neighbours, or a radio would have more than 40 agreed links"
    LEVEL = 8, "the level is above the radio's number"
    IMAGE_SIZE = 9, "the buffer does not hold the image, or the length is 0 or no multiple of 512"
    IMAGE_CHECK = 10, "a block does not pass its check"
    IMAGE = 11, "the bytes are the image of no sound tables"
    PAGE = 12, "the page is shorter than 65 bytes a line"
    TEXT = 13, "the text buffer is shorter than the script"
    HEARD = 14, "a heard row marks its own radio or one at n or above"
    OTHER_SIZE = 15, "the bytes are the image of sound tables with another n"
    PROPOSAL = 16, "the list or the step is not exactly what asking would give now"
    MARK = 17, "a place of the store, or the name, breaks the rules"
    NO_MARK = 18, "there is no mark of this name"
    MARKS_FULL = 19, "a new name finds 8 marks"
    NO_LIFT = 20, "no link would raise the radio's number"


MEANINGS = {int(refusal): refusal.meaning for refusal in Refusal}


class Refused(Exception):
    """A call was refused, by the question `number`; `meaning` says it in words, and `where` which link or line it was, of a list."""

    def __init__(self, number: int, where: str = "") -> None:
        super().__init__(number, where)
        self.number = Refusal(number)
        self.meaning = self.number.meaning
        self.where = where

    def __str__(self) -> str:
        return "%s%d: %s" % (self.where and self.where + ": ", self.number, self.meaning)


class SizeRefused(Refused):
    pass


class LengthRefused(Refused):
    pass


class UnsoundRefused(Refused):
    pass


class RadioRefused(Refused):
    pass


class SameEndsRefused(Refused):
    pass


class LinkStateRefused(Refused):
    pass


class NoRoomRefused(Refused):
    pass


class LevelRefused(Refused):
    pass


class ImageSizeRefused(Refused):
    pass


class ImageCheckRefused(Refused):
    pass


class ImageRefused(Refused):
    pass


class PageRefused(Refused):
    pass


class TextRefused(Refused):
    pass


class HeardRefused(Refused):
    pass


class OtherSizeRefused(Refused):
    pass


class ProposalRefused(Refused):
    pass


class MarkRefused(Refused):
    pass


class NoMarkRefused(Refused):
    pass


class MarksFullRefused(Refused):
    pass


class NoLiftRefused(Refused):
    pass


# in the order of the numbers
CLASSES = dict(zip(Refusal, Refused.__subclasses__()))


def refused(number: int, where: str = "") -> Refused:
    """The exception of a refusal number."""
    return CLASSES[Refusal(number)](number, where)

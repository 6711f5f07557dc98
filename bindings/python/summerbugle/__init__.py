"""The link engine of the bolt-tension hubs for Python: every call of include/summerbugle.h, over a shared object.

    import summerbugle
    site = summerbugle.Site(4)          # cleared
    site.link_up(0, 1)                  # Change(step=1, radios=[0, 1])
    site.number(0)                      # 1

A site lends its tables to each call: `links` and `numbers` are bytearrays, `order` is an array of 16-bit entries. They may be looked at
and written at any time; every call checks them. A call that cannot be made changes nothing and raises

- `Refused`, which has the number of the question that got "no" and what it means, as the class of that refusal: `LinkStateRefused` is a
  `Refused`. No number is cut: one that is negative or too large is refused by the question that asks about it, 4 for a radio, 1 for n, 8
  for a level, 16 for a proposal;
- TypeError for what is no whole number, no pair or no table of the right elements, and for a table that the call writes and that is read-only;
- ValueError for a table that the call writes and that overlaps another.

The calls on a site, and on a store of marks, take turns, so threads may share them. `call` makes any call by its C name with buffers of
one's own, for which nobody keeps turns; it returns a refusal and does not raise it.

bindings/python/build links the shared object, target/python/libsummerbugle.so. SUMMERBUGLE names another one.
"""

from .calls import (BLOCK_BYTES, CALLS, LONGEST_IMAGE, NAME_BYTES, NEIGHBOURS, NOBODY, PAGE_LINE, PLACE_BYTES, RADIOS, ROOT, ROW_BYTES,
                    STORE_BYTES, call, entries, load)
from .refusals import (MEANINGS, HeardRefused, ImageCheckRefused, ImageRefused, ImageSizeRefused, LengthRefused, LevelRefused,
                       LinkStateRefused, MarkRefused, MarksFullRefused, NoLiftRefused, NoMarkRefused, NoRoomRefused, OtherSizeRefused,
                       PageRefused, ProposalRefused, RadioRefused, Refusal, Refused, SameEndsRefused, SizeRefused, TextRefused,
                       UnsoundRefused)
from .script import BadLine
from .site import Batch, Change, Later, Marks, Node, Pair, Site, Tree, blocks, heard, padded

__version__ = "1.0.0"

__all__ = [
    "BLOCK_BYTES", "BadLine", "Batch", "CALLS", "Change", "HeardRefused", "ImageCheckRefused", "ImageRefused",
    "ImageSizeRefused", "LONGEST_IMAGE", "Later", "LengthRefused", "LevelRefused", "LinkStateRefused", "MEANINGS",
    "MarkRefused", "Marks", "MarksFullRefused", "NAME_BYTES", "NEIGHBOURS", "NOBODY", "NoLiftRefused", "NoMarkRefused",
    "NoRoomRefused", "Node", "OtherSizeRefused", "PAGE_LINE", "PLACE_BYTES", "PageRefused", "Pair", "ProposalRefused",
    "RADIOS", "ROOT", "ROW_BYTES", "RadioRefused", "Refusal", "Refused", "STORE_BYTES", "SameEndsRefused", "Site",
    "SizeRefused", "TextRefused", "Tree", "UnsoundRefused", "blocks", "call", "entries", "heard", "load", "padded",
]

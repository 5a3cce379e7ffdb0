"""The classes of lines over a file: why one no longer fits, with the record that it is about."""
from __future__ import annotations

from typing import NamedTuple, Optional

from ..printed_rows import RECORD
from ..record import Record, differing
from .corrections import Line

FITS = "fits"  # it is done
THERE = "already there"  # an `add` that isn't done, of a record that the file has
IGNORED = "fits but for"  # it fits but for the columns that may differ
SO = "already so"  # the file has what the line asks for
CHANGED = "changed"  # the record has another name, score or strand, or other columns after the sixth
MOVED = "moved"  # the record is at another place
CONFLICT = "conflict"  # both changed one field, or two records fit equally: a person has to settle it
TAKEN = "taken out"  # a line above took the record
FOLLOWS = "follows"  # it fits as soon as a line above is mended
GONE = "gone"
BAD = "bad line"  # it is no correction of this file
DOABLE = {FITS, THERE, IGNORED, SO, CHANGED, MOVED, FOLLOWS}  # of lines that are done, mended or not, or needn't be


class Finding(NamedTuple):
    """What a line is about.

    kind:   one of the classes above
    found:  the record that is there; of a line that is `gone` one to look at
    tail:   its columns after the sixth
    mended: the line that fits, or nothing
    by:     the line of the script that it is about
    note:   what else is to be said
    unlike: the fields of a conflict
    """

    line: Line
    kind: str
    found: Optional[Record] = None
    mended: str = ""
    by: Optional[Line] = None
    note: str = ""
    tail: str = ""
    unlike: tuple[str, ...] = ()

    @property
    def asked(self) -> Optional[Record]:
        """The record that the line is about, as it has it."""
        return self.line.old or self.line.new

    @property
    def differing(self) -> list[str]:
        """The names of the columns by which the record there differs from it."""
        return [RECORD[column] for column in differing(self.asked or (), self.found or ())]

    @property
    def is_refused(self) -> bool:
        return self.kind not in (FITS, THERE, IGNORED)

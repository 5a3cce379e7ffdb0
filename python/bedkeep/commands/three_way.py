"""A three-way merge of one record: the one that a line names, what the line makes of it, and what another release made of it."""
from __future__ import annotations

from typing import Mapping, NamedTuple, Optional

from ..formats import fields, follow, record_of_fields, shifted, tail_of
from ..printed_rows import RECORD
from ..record import Record
from .corrections import Line

UNKNOWN = "\0"  # a field of a base whose columns after the sixth the line doesn't have


class Version(NamedTuple):
    """A record, and its columns after the sixth if they count, each after a TAB."""

    record: Record
    tail: Optional[str] = None

    @property
    def fields(self) -> dict[str, str]:
        return fields(self.record, self.tail) if self.tail else dict(zip(RECORD, self.record))

    @property
    def columns(self) -> list[str]:
        return [*self.record, *(self.tail or "").split("\t")[1:]]

    def __str__(self) -> str:
        return " ".join(self.columns)


class Merge(NamedTuple):
    """What came of a merge. unlike: the fields that both changed to different values; note: why else it is a conflict."""

    version: Optional[Version]
    unlike: tuple[str, ...] = ()
    note: str = ""


def line_over(line: Line, theirs: Version, lengths: Mapping[str, int], insist: bool = False) -> tuple[str, Merge]:
    """A line over the record that is there instead of its own, or nothing; and the merge, if the line puts a record in."""
    there = theirs if line.old_tail is not None else Version(theirs.record)
    if not line.new:
        return "\t".join([line.command, *there.columns]), Merge(None)
    merged = merge(Version(line.old or (), line.old_tail), Version(line.new, line.new_tail), theirs, lengths, insist)
    return "\t".join([line.command, *there.columns, *merged.version.columns]) if merged.version else "", merged


def merge(base: Version, mine: Version, theirs: Version, lengths: Mapping[str, int], insist: bool = False) -> Merge:
    """Takes each field that only one side changed from that side.

    If both ends of theirs moved by one distance, base and mine are moved along first, unless mine is at its place already. Blocks
    are one field. insist: whether a field that both changed is as in mine; else it is a conflict
    """
    by = int(theirs.record[1]) - int(base.record[1])
    moved = by == int(theirs.record[2]) - int(base.record[2]) and theirs.record[0] == base.record[0]
    if by and moved and mine.record[:3] != theirs.record[:3]:
        try:
            base, mine = _moved(base, by), _moved(mine, by)
        except ValueError as failure:
            return Merge(None, note=str(failure))
    if mine.tail is None:
        theirs = Version(theirs.record)
    old, new, there = base.fields, mine.fields, theirs.fields
    if mine.tail is not None and (set(new) != set(there) or base.tail is not None and set(old) != set(there)):
        return _merge_of_formats(base, mine, theirs, lengths)
    unlike = tuple(name for name, text in new.items() if len({old.get(name, UNKNOWN), text, there[name]}) == 3)
    if unlike and not insist:
        return Merge(None, unlike)
    merged = {name: there[name] if text == old.get(name, UNKNOWN) else text for name, text in new.items()}
    try:
        version = Version(record_of_fields(merged), tail_of(merged) if mine.tail else mine.tail)
    except ValueError as failure:
        return Merge(None, note=str(failure))
    return _checked(version, lengths)


def _merge_of_formats(base: Version, mine: Version, theirs: Version, lengths: Mapping[str, int]) -> Merge:
    """A merge of records whose columns after the sixth aren't the same fields: these columns are one field."""
    merged = merge(Version(base.record), Version(mine.record), Version(theirs.record), lengths)
    if not merged.version or base.tail != mine.tail and base.tail != theirs.tail and mine.tail != theirs.tail:
        return merged if not merged.version else Merge(None, ("columns from the seventh on",))
    tail = theirs if mine.tail == base.tail else mine
    followed = follow(tail.record, tail.tail or "", merged.version.record)
    return Merge(None, note=followed.fault) if followed.fault else Merge(Version(merged.version.record, followed.tail))


def _checked(merged: Version, lengths: Mapping[str, int]) -> Merge:
    """A merged record, unless it can't be one of the track."""
    start, end = int(merged.record[1]), int(merged.record[2])
    if not start < end <= lengths.get(merged.record[0], 0):
        return Merge(None, note="start and end of the mended record don't fit")
    return Merge(merged)


def _moved(version: Version, by: int) -> Version:
    record, tail = shifted(version.record, version.tail or "", by)
    return Version(record, None if version.tail is None else tail)

"""What two branches made of the records of one BED file.

Each branch's changes are those that `diff` has from the base. Changes of both sides that take one record, put one in that is the
same, or add two of one name that overlap, are a contest; each other change is one by itself. A contest is settled if one side alone
changed something, if both changed the same, or if each changed other fields of one record, by the rules of `replay`. Else it is a
conflict. A split or a join is one change.
"""
from __future__ import annotations

from collections import Counter, defaultdict
from itertools import zip_longest
from typing import Callable, Iterator, Mapping, NamedTuple, Optional, Sequence

from ..errors import Error
from ..pairs import Change, Groups, beyond, changes
from ..record import COMMON, NAMELESS, Record, name_of, overlap, split_row
from ..regions import absent
from ..script import Move
from .differences import Rows, differences
from .three_way import Version, merge

PAST = "end past the sequence's end"
LONGEST = 1 << 32  # more than a sequence can have
Versions = tuple[Sequence[str], Sequence[str], Sequence[str]]  # the rows that the base, ours and theirs have
Links = Iterator[tuple[int, int]]  # the places of a change of ours and one of theirs


class Contest(NamedTuple):
    """The rows that a contest is about. settled: what becomes of them, or None for a conflict; why: it is one"""

    versions: Versions
    settled: Optional[Sequence[str]]
    why: str = ""

    def __str__(self) -> str:
        base, ours, theirs = (", ".join(row.replace("\t", " ") for row in rows) for rows in self.versions)
        before = f"{base}: " if base else ""
        return f"{before}ours has {ours or 'no such record'}, theirs {theirs or 'no such record'}" + (f": {self.why}" if self.why else "")


def contests_of(base: Rows, ours: Rows, theirs: Rows, lengths: Optional[Mapping[str, int]] = None) -> list[Contest]:
    """What became of all records that a branch changed. lengths: of the sequences, if ends are to be looked at."""
    widths = {rows.path: rows.width for rows in (base, ours, theirs) if rows.width}
    if len(set(widths.values())) > 1:
        raise Error(" and ".join(f"{path} has {width} columns" for path, width in widths.items()))
    mine, yours = (list(changes(*differences(base, branch))) for branch in (ours, theirs))
    return [_contest(*sides, lengths) for sides in _groups(mine, yours)]


def moves(old: Sequence[str], new: Sequence[str]) -> Iterator[Move]:
    """What makes some rows others, of which those that are among both stay."""
    yield from zip_longest(beyond(old, new), beyond(new, old))


def _groups(mine: Sequence[Change], yours: Sequence[Change]) -> Iterator[tuple[list[Change], list[Change]]]:
    """The changes of both sides, those together that are of one contest."""
    groups: Groups[int] = Groups()
    for one, other in _links(mine, yours):
        groups.join(len(mine) + other, one)
    sides: dict[int, tuple[list[Change], list[Change]]] = defaultdict(lambda: ([], []))
    for at, change in enumerate([*mine, *yours]):
        sides[groups.first(at)][at >= len(mine)].append(change)
    yield from sides.values()


def _links(mine: Sequence[Change], yours: Sequence[Change]) -> Links:
    """Which changes are of one contest."""
    yield from _same(mine, yours, lambda change: change.gone)
    put = list(_same(mine, yours, lambda change: change.come))
    yield from put
    named: dict[tuple[str, str], list[tuple[Record, int]]] = defaultdict(list)
    for at, record in _additions(mine, {one for one, _ in put}):
        named[record[0], name_of(record)].append((record, at))
    for at, record in _additions(yours, {other for _, other in put}):
        near = named.get((record[0], name_of(record)), ())
        yield from ((one, at) for other, one in near if len(near) <= COMMON and overlap(other, record))


def _same(mine: Sequence[Change], yours: Sequence[Change], rows: Callable[[Change], Sequence[str]]) -> Links:
    """The changes that have a row in common, copy by copy."""
    places: dict[str, list[int]] = defaultdict(list)
    for at, change in enumerate(mine):
        for row in rows(change):
            places[row].append(at)
    for at, change in enumerate(yours):
        for row in rows(change):
            if places.get(row):
                yield places[row].pop(), at


def _additions(side: Sequence[Change], known: set[int]) -> Iterator[tuple[int, Record]]:
    """The changes that add one record with a name, but those that are known, and the records."""
    for at, change in enumerate(side):
        if not change.gone and at not in known:
            record = split_row(change.come[0])[0]
            if name_of(record) not in NAMELESS:
                yield at, record


def _contest(mine: Sequence[Change], yours: Sequence[Change], lengths: Optional[Mapping[str, int]]) -> Contest:
    gone = [Counter(row for change in side for row in change.gone) for side in (mine, yours)]
    come = [Counter(row for change in side for row in change.come) for side in (mine, yours)]
    before = gone[0] | gone[1]
    ours, theirs = (list((before - taken + put).elements()) for taken, put in zip(gone, come))
    versions = list(before.elements()), ours, theirs
    if not yours or sorted(ours) == sorted(theirs):
        return Contest(versions, ours)
    faults = [fault for row in come[1] - come[0] for fault in [_fault(row, lengths)] if fault]
    if faults:
        return _conflict(versions, faults[0])
    if not mine:
        return Contest(versions, theirs)
    return _by_fields(versions, lengths) if all(len(rows) == 1 for rows in versions) else _conflict(versions)


def _conflict(versions: Versions, why: str = "") -> Contest:
    """A contest that isn't settled, its rows by their places."""
    base, ours, theirs = (sorted(rows, key=lambda row: (row.partition("\t")[0], *map(int, row.split("\t")[1:3]))) for rows in versions)
    return Contest((base, ours, theirs), None, why)


def _by_fields(versions: Versions, lengths: Optional[Mapping[str, int]]) -> Contest:
    """The contest over one record that both changed."""
    base, ours, theirs = (Version(record, tail or None) for rows in versions for record, tail in [split_row(rows[0])])
    if not _is_same(base.record, ours.record) or not _is_same(base.record, theirs.record):
        return _conflict(versions)
    merged = merge(base, theirs, ours, {base.record[0]: LONGEST} if lengths is None else lengths)
    if not merged.version:
        return _conflict(versions, merged.note or f"both changed {' and '.join(merged.unlike)}")
    return Contest(versions, ["\t".join(merged.version.columns)])


def _is_same(old: Record, new: Record) -> bool:
    """Whether a record is surely what another one became: it has its name and overlaps it, or without a name it has its place."""
    if name_of(old) in NAMELESS and name_of(new) in NAMELESS:
        return old[:3] == new[:3] or len(old) > 4 and old[3:] == new[3:] and overlap(old, new)
    return name_of(old) == name_of(new) and overlap(old, new)


def _fault(row: str, lengths: Optional[Mapping[str, int]]) -> str:
    """Why a row can't be one of a track over these lengths."""
    record = split_row(row)[0]
    if lengths is None:
        return ""
    if record[0] not in lengths:
        return absent(record[0], lengths)
    return PAST if int(record[2]) > lengths[record[0]] else ""

"""Merges BED files as git's merge drivers do: records one by one, and all else as git merges texts.

- What git merges without a conflict is left as git has it, byte for byte, if no record is lost or doubled by that.
- Else what is settled of both sides' changes (see `contests`) is carried out on the base, on ours and on theirs, each in its own
  order, so that only conflicts, comments and the order of records are left for git to merge. A conflict about order alone is
  settled as ours has it.
- If git would lose or double a record even then, as it may if both sides sorted the file, the order is that of one side, with
  conflicts instead of the records in question; or all of the file is a conflict, if both sides changed its comments besides.

Line ends, and whether the last line has one, are those of the side that changed them, and of ours if both did. A file that is no
BED file is merged as text.
"""
from __future__ import annotations

import os
import tempfile
from bisect import bisect_left
from collections import Counter, defaultdict
from functools import cached_property
from itertools import chain
from typing import Callable, Iterable, Iterator, Mapping, NamedTuple, Optional, Sequence

from ..bgzf import ENDINGS, Blocks
from ..encoding import Path, encoded
from ..errors import Error
from ..files import whole
from ..placement import Looks, write_placed
from ..record import Record, split_row
from ..regions import Order, Region
from .contests import LONGEST, Contest, contests_of, moves
from .differences import Rows
from .git_texts import BASE, NAMES, OURS, THEIRS, File, Part, Style, is_row, lines_of_copy, row_of, rows_of, why_as_text

TEXT = "conflict: both changed these lines"
ORDER = "the order of records is that of {}"


class Merged(NamedTuple):
    """What came of a merge.

    text: of the file; is_packed: whether gzip packed ours; conflicts: a sentence for each, with the number of its line
    notes: what else is to be said
    """

    text: bytes
    is_packed: bool
    conflicts: Sequence[str]
    notes: Sequence[str]

    def write(self, path: str) -> None:
        """Writes the file, packed if ours is, whole or not at all."""
        with whole(path) as file:
            if self.is_packed and not path.endswith(ENDINGS):  # as the names of git's own copies
                blocks = Blocks(file)
                blocks.write(self.text)
                blocks.finish()
            else:
                file.write(self.text)


def merge(base: Path, ours: Path, theirs: Path, lengths: Optional[Mapping[str, int]] = None, style: Style = Style()) -> Merged:
    """Merges two versions of a BED file, either of which gzip may have packed. No file is changed.

    lengths: of the sequences; if they are given, a record that theirs puts past an end is a conflict
    """
    with tempfile.TemporaryDirectory(prefix="bedkeep-") as folder:
        files = [File(given, os.path.join(folder, name)) for given, name in zip((base, ours, theirs), NAMES)]
        notes: list[str] = []
        try:
            by_records = Merge(files, lengths, style, folder)
            parts, contests = by_records.parts(notes), by_records.open
        except (Error, ValueError) as failure:
            notes = [f"merged as text: {why_as_text(failure, files)}"]
            parts, contests = style.merged([file.path for file in files]), []
        return Merged(text_of(parts, files), files[OURS].is_packed, list(said_of(parts, contests)), notes)


class Merge:
    """A merge by records. open: what is in conflict"""

    def __init__(self, files: Sequence[File], lengths: Optional[Mapping[str, int]], style: Style, folder: str) -> None:
        self._files, self._style, self._folder = files, style, folder
        base, ours, theirs = (Rows(file.path, folder) for file in files)
        self._contests = contests_of(base, ours, theirs, lengths)
        self.open = [contest for contest in self._contests if contest.settled is None]
        self._rows = Counter(rows_of(files[BASE].lines()))
        self._starts = Starts(self._rows)
        put = (row for contest in self._contests for rows in contest.versions for row in rows)
        names = dict.fromkeys(row.partition("\t")[0] for row in chain(rows_of(files[OURS].lines()), put))
        self._order = Order({**(lengths or {}), **{name: LONGEST for name in names if name not in (lengths or {})}})

    def parts(self, notes: list[str]) -> list[Part]:
        """The merged file. notes: gets what is to be said of its order"""
        plain = self._style.merged([file.path for file in self._files])
        if not self.open and len(plain) == 1 and self._has(plain, own=True):
            return plain
        for own in (True, False) if self.open else (True,):  # whether each side has its own version of what is in conflict
            marked = self._style.merged([self._laid_out(side, own) for side in (BASE, OURS, THEIRS)])
            parts = [part.ordered() for part in marked]
            if self._has(marked, own) and all(self._is_open(part, own) for part in parts):
                notes += [ORDER.format(NAMES[OURS])] if parts != marked else []
                return parts if own else self._with_conflicts(line for part in parts for line in part.lines)
        others = [[line for line in file.lines() if not is_row(line)] for file in self._files]
        for side, other in (OURS, THEIRS), (THEIRS, OURS):
            if others[other] in (others[BASE], others[side]):
                notes.append(ORDER.format(NAMES[side]))
                return self._with_conflicts(lines_of_copy(self._laid_out(side, own=False)))
        base, ours, theirs = (lines_of_copy(self._laid_out(side, own=True)) for side in (BASE, OURS, THEIRS))
        return [self._style.conflict((base, ours, theirs))]

    def _target(self, contest: Contest, side: int, own: bool) -> Sequence[str]:
        """What a side has of a contest afterwards: of a conflict its own version, or all sides ours, or theirs if ours has none."""
        if contest.settled is not None:
            return contest.settled
        return contest.versions[side] if own else contest.versions[OURS] or contest.versions[THEIRS]

    def _changes(self, side: int, own: bool) -> Counter[str]:
        """How many more or fewer copies of records a side has afterwards than the base."""
        copies: Counter[str] = Counter()
        for contest in self._contests:
            copies.subtract(contest.versions[BASE])
            copies.update(self._target(contest, side, own))
        return copies

    def _has(self, parts: Sequence[Part], own: bool) -> bool:
        """Whether each side of a merged text has its records."""
        missing = self._rows.copy()
        for part in parts:
            missing.subtract(rows_of(() if part.sides else part.lines))
        for side in OURS, THEIRS:
            changes = self._changes(side, own)
            changes.subtract(rows_of(line for part in parts if part.sides for line in part.sides[side]))
            if any(count + changes[row] for row, count in missing.items()) or any(changes[row] for row in changes if row not in missing):
                return False
        return True

    def _is_open(self, part: Part, own: bool) -> bool:
        """Whether lines are no conflict, or one about comments or about records that are in conflict."""
        if not part.sides or not own:
            return not part.sides
        ours, theirs = (Counter(rows_of(lines)) for lines in part.sides[OURS:])
        return self._known.issuperset([*(ours - theirs), *(theirs - ours)])

    @cached_property
    def _known(self) -> set[str]:
        """The rows of ours and theirs that are in conflict."""
        return {row for contest in self.open for rows in contest.versions[OURS:] for row in rows}

    def _laid_out(self, side: int, own: bool) -> str:
        """The path of a side's file with its records as they are afterwards."""
        path = os.path.join(self._folder, f"{NAMES[side]}-{own}")
        changed = (move for contest in self._contests for move in moves(contest.versions[side], self._target(contest, side, own)))
        with open(path, "wb") as file:
            write_placed(self._files[side].path, changed, Looks(self._starts.with_changes(self._changes(side, own)), self._order), file.write)
        return path

    def _with_conflicts(self, lines: Iterable[str]) -> list[Part]:
        """The lines with conflicts instead of the records that all sides have for them."""
        left: dict[str, list[Contest]] = defaultdict(list)
        for contest in self.open:
            for row in self._target(contest, OURS, own=False):
                left[row].append(contest)
        shown: set[int] = set()
        parts = [Part([])]
        for line in lines:
            waiting = left.get(row_of(line)) if is_row(line) else None
            if not waiting:
                parts[-1].lines.append(line)
                continue
            contest = waiting.pop()
            if id(contest) not in shown:
                shown.add(id(contest))
                parts += [self._style.conflict(contest.versions), Part([])]
        return parts


class Starts:
    """The records of a file, found by their starts."""

    def __init__(self, rows: Mapping[str, int]) -> None:
        self._rows = rows

    def with_changes(self, changes: Mapping[str, int]) -> Callable[[Iterable[Region]], Counter[Record]]:
        """What gives the copies of records that begin within regions, once rows have so many copies more."""
        others = Starts(changes)

        def within(regions: Iterable[Region]) -> Counter[Record]:
            listed = set(regions)
            found = self._within(listed)
            found.update(others._within(listed))
            return found

        return within

    def _within(self, regions: Iterable[Region]) -> Counter[Record]:
        found: Counter[Record] = Counter()
        for sequence, first, last in regions:
            places = self._places.get(sequence, [])
            for _, record in places[bisect_left(places, (first,)):bisect_left(places, (last,))]:
                found[record] = self._copies[record]
        return found

    @cached_property
    def _copies(self) -> Counter[Record]:
        copies: Counter[Record] = Counter()
        for row, count in self._rows.items():
            copies[split_row(row)[0]] += count
        return copies

    @cached_property
    def _places(self) -> dict[str, list[tuple[int, Record]]]:
        places: dict[str, list[tuple[int, Record]]] = defaultdict(list)
        for record in self._copies:
            places[record[0]].append((int(record[1]), record))
        for listed in places.values():
            listed.sort()
        return places


def said_of(parts: Sequence[Part], contests: Sequence[Contest]) -> Iterator[str]:
    """A sentence for each conflict, and one for each that isn't about records."""
    found: list[tuple[int, set[str]]] = []
    number = 1
    for part in parts:
        if part.sides:
            found.append((number, set(rows_of(part.lines))))
        number += len(part.lines)
    for contest in contests:
        rows = {*contest.versions[OURS], *contest.versions[THEIRS]}
        at = next(number for number, inside in found if not rows.isdisjoint(inside))
        yield f"line {at}: conflict: {contest}"
    known = {row for contest in contests for rows in contest.versions for row in rows}
    yield from (f"line {number}: {TEXT}" for number, inside in found if known.isdisjoint(inside))


def text_of(parts: Iterable[Part], files: Sequence[File]) -> bytes:
    """The text of the merged file."""
    base, ours, theirs = files
    lines = [encoded(line) for part in parts for line in part.lines]
    end = theirs.end if ours.end == base.end else ours.end
    is_ended = theirs.is_ended if ours.is_ended == base.is_ended else ours.is_ended
    return end.join(lines) + (end if lines and is_ended else b"")

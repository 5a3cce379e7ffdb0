"""The track in the order of its file: a line that no edit is about stays as and where it is, and a correction is one line.

- Of equal lines of the file as many stay as the track has such records now, the last ones.
- A record that came of such a line by `replace` is put where the line was, with the line's end.
- Any other record is added below the line of the greatest one that isn't after it in the track; if there is none, above the
  first record's line, or in a file without a record at its end. It ends as the first line of the file does.

So it depends on the file and on the lines that were done alone. Records are texts here, with all their columns.
"""
from __future__ import annotations

import io
import os
from bisect import bisect_right
from collections import Counter, defaultdict
from collections.abc import Mapping
from typing import BinaryIO, Callable, Iterable, Iterator, NamedTuple, Optional

from .encoding import Path, decoded, encoded
from .errors import Error
from .files import line_text
from .forms import BED, Form, is_header
from .record import Record, split_row
from .regions import Order, Region
from .script import Move

PIECE = 1 << 16  # bytes of lines that are looked through at once
STRETCH = 1 << 20  # bytes that are copied at once
FEW = 12  # places that are looked for in the text of many lines
REACH = 1 << 12  # how far before a record the one before it is looked for at first


class Copy:
    """A copy of a record that the script took or put. origin: the record of its line in the file; record: what it is now."""

    def __init__(self, origin: Optional[str]) -> None:
        self.origin = origin
        self.record: Optional[str] = None


class Followed:
    """The copies that moves take and put. Of equal ones the one that was put last is taken, and an `add` gives back the last removed.

    copies: of each move the one that it is about; taken: of lines of the file, by their records, in the order in which they were
    taken; put: what is a record now, in the order in which it was put
    """

    def __init__(self, moves: Iterable[Move]) -> None:
        self.copies: list[Copy] = []
        self.taken: dict[str, list[Copy]] = defaultdict(list)
        self.put: dict[str, list[Copy]] = defaultdict(list)
        removed: dict[Optional[str], list[Copy]] = defaultdict(list)
        known: set[Copy] = set()
        for old, new in moves:
            there = removed[new] if old is None else self.put[old]
            copy = there.pop() if there else Copy(old)
            if old is not None and copy not in known:
                self.taken[old].append(copy)
            known.add(copy)
            self.copies.append(copy)
            copy.record = new
            if new is not None:
                self.put[new].append(copy)
            elif old is not None:
                removed[old].append(copy)


class Plan:
    """What becomes of lines of the file, and what is added.

    lines: of records whose first lines don't stay: what is put where each of these was, None for nothing
    added: records that have no line in the file
    """

    def __init__(self, moves: Iterable[Move]) -> None:
        self._followed = Followed(moves)
        taken = self._followed.taken
        counts = {record: self._count_as_lines(record) for record in taken}
        self.lines: dict[str, list[Optional[str]]] = {}
        adrift: set[Copy] = set()
        for record, count in counts.items():
            claims = [copy for copy in taken[record] if copy.record != record]
            without = set(sorted(reversed(claims), key=lambda copy: copy.record is not None)[:count])
            adrift |= without
            if len(claims) > count:
                self.lines[record] = [copy.record for copy in claims if copy not in without]
        self.added = [copy.record for copy in dict.fromkeys(self._followed.copies)
                      if copy.record is not None and (copy.origin is None or copy in adrift)]

    def _count_as_lines(self, record: str) -> int:
        """Counts copies that came from elsewhere as lines of the file that stayed, if it lost some, and returns how many."""
        others = sorted((copy for copy in self._followed.put[record] if copy.origin != record), key=lambda copy: copy.origin is not None)
        count = min(len(others), sum(copy.record != record for copy in self._followed.taken[record]))
        for copy in others[:count]:
            copy.record = None
        return count


class Looks(NamedTuple):
    """How a session is asked for the copies around regions, and its order."""

    around: Callable[[Iterable[Region]], Counter[Record]]
    order: Order


class Found(NamedTuple):
    """A line of the file: at which byte it begins, its bytes, those at its end, its record with all columns, and its text."""

    begin: int
    size: int
    end: bytes
    row: str
    text: str


class Change(NamedTuple):
    """At which byte the file changes, how many bytes are left out there, and what is written there."""

    begin: int
    size: int
    text: bytes


def write_placed(path: Path, moves: Iterable[Move], looks: Looks, take: Callable[[bytes], object], form: Form = BED) -> None:
    """Hands on a file with what the moves of a script change, some bytes at a time."""
    plan = Plan(moves)
    changes = Placement(path, plan, looks, form).changes() if plan.lines or plan.added else []
    with open(path, "rb") as file:
        place = 0
        for change in changes:
            _copy(file, take, change.begin - place)
            take(change.text)
            place = change.begin + change.size
            file.seek(place)
        _copy(file, take, os.path.getsize(path) - place)


def _copy(file: BinaryIO, take: Callable[[bytes], object], size: int) -> None:
    while size and (piece := file.read(min(size, STRETCH))):
        take(piece)
        size -= len(piece)


class Placement:
    """Finds the places of a plan in the file."""

    def __init__(self, path: Path, plan: Plan, looks: Looks, form: Form) -> None:
        self._path, self._plan, self._looks, self._form = path, plan, looks, form
        self._added = [(split_row(row)[0], row) for row in plan.added]
        self._names: Optional[set[str]] = None
        with open(path, "rb") as file:
            self._line_end = b"\r\n" if file.readline().endswith(b"\r\n") else b"\n"

    def changes(self) -> list[Change]:
        """What changes in the file, in its order."""
        before = self._before()
        wanted = {split_row(row)[0] for row in self._plan.lines}.union(record for record in before.values() if record)
        found = self._find(wanted)
        changes = []
        changed: set[int] = set()
        last: dict[Record, Found] = {}  # the last line of each record, as the file will be
        for row, records in self._plan.lines.items():
            lines = [line for line in found[split_row(row)[0]] if line.row == row]
            if len(lines) < len(records):
                raise Error(f"{os.fspath(self._path)} has fewer lines than the session read: {row!r}")
            for line, new in zip(lines, records):
                changed.add(line.begin)
                changes.append(Change(line.begin, line.size, b"" if new is None else encoded(self._form.line(new, line.text)) + line.end))
                if new is not None:
                    _keep_last(last, split_row(new)[0], line)
        for record in wanted:
            for line in found[record]:
                if line.begin not in changed:
                    _keep_last(last, record, line)
        return sorted([*changes, *self._additions(before, last)], key=lambda change: (change.begin, change.size))

    def _additions(self, before: Mapping[Record, Optional[Record]], last: Mapping[Record, Found]) -> Iterator[Change]:
        """The added records, those of a place in track order."""
        texts: dict[Optional[Record], list[bytes]] = defaultdict(list)
        for record, row in sorted(self._added, key=lambda one: (self._looks.order.key(one[0]), one[1])):
            texts[before[record]].append(encoded(self._form.line(row)) + self._line_end)
        for record_before, added in texts.items():
            if record_before is None:
                place, ended = self._first()
            else:
                line = last[record_before]
                place, ended = line.begin + line.size, line.end.endswith(b"\n")
            yield Change(place, 0, b"".join(added if ended else [self._line_end, *added]))

    def _first(self) -> tuple[int, bool]:
        """Where the first record's line begins, or the file's end, and whether a line has ended there."""
        begin, ended = 0, True
        for line, row in _lines(self._path):
            if not is_header(row) or self._form.is_end(row):
                break
            begin, ended = begin + len(line), line.endswith(b"\n")
        return begin, ended

    def _before(self) -> dict[Record, Optional[Record]]:
        """For each added record the greatest one with a line that isn't after it in the track, or None if there is none."""
        order, found = self._looks.order, dict[Record, Optional[Record]]()
        added = Counter(record for record, _ in self._added)
        windows = {record: (record[0], int(record[1]) - REACH, int(record[1]) + 1) for record in added}
        while windows:
            around = self._looks.around(windows.values())
            listed = sorted((record for record, copies in around.items() if copies > added[record]), key=order.key)
            keys = [order.key(record) for record in listed]
            for record, (sequence, start, end) in list(windows.items()):
                place = bisect_right(keys, order.key(record))
                if place and listed[place - 1][0] == sequence and int(listed[place - 1][1]) >= start:
                    found[record] = listed[place - 1]
                    del windows[record]
                elif start > 0:
                    windows[record] = (sequence, end - 16 * (end - start), end)
                else:
                    earlier = order.before(sequence, self._sequences())
                    if earlier is None:
                        found[record] = None
                        del windows[record]
                    else:
                        end = order.lengths[earlier]
                        windows[record] = (earlier, end - REACH, end)
        return found

    def _sequences(self) -> set[str]:
        """The sequences that have a record with a line, and maybe others."""
        if self._names is None:
            rows = self._plan.lines.values()
            with open(self._path, "rb") as file:
                names = {line.partition(b"\t")[0] for line in file}
            self._names = {decoded(name) for name in names}.union(
                row.partition("\t")[0] for listed in rows for row in listed if row)
        return self._names

    def _find(self, wanted: set[Record]) -> dict[Record, list[Found]]:
        """The lines of each record, by its first six columns."""
        found: dict[Record, list[Found]] = defaultdict(list)
        first = self._form.first
        for begin, line in self._lines({(encoded(record[0]), str(int(record[1]) + first).encode()) for record in wanted}):
            text = line_text(line)
            record, tail = split_row(self._form.row(text))
            if record in wanted:
                found[record].append(Found(begin, len(line), line[len(line.rstrip(b"\r\n")):], "\t".join(record) + tail, text))
        return found

    def _lines(self, places: set[tuple[bytes, bytes]]) -> Iterator[tuple[int, bytes]]:
        """The lines that have one of some sequences and starts, and where they begin."""
        begin, end, at = 0, self._form.size(self._path), self._form.place
        with open(self._path, "rb") as file:
            while piece := file.read(min(PIECE, end - begin)) + file.readline() if begin < end else b"":
                if len(places) > FEW or any(start + b"\t" in piece for _, start in places):
                    place = begin
                    for line in io.BytesIO(piece):
                        columns = line.split(b"\t", at + 1)
                        if len(columns) > at + 1 and (columns[0], columns[at].lstrip(b"0") or b"0") in places and place < end:
                            yield place, line
                        place += len(line)
                begin += len(piece)


def _keep_last(last: dict[Record, Found], record: Record, line: Found) -> None:
    if record not in last or last[record].begin < line.begin:
        last[record] = line


def _lines(path: Path) -> Iterator[tuple[bytes, str]]:
    """The lines of a file, and their texts without their ends."""
    with open(path, "rb") as file:
        for line in file:
            yield line, line_text(line)

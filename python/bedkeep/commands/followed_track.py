"""The records near the lines of a script, followed line by line without the program, and what is known of the lines above.

`near_lines` asks a session for them before any line is carried out, so that of a large file few are held.
"""
from __future__ import annotations

from collections import Counter, defaultdict
from functools import cached_property
from typing import Any, Callable, Iterable, Iterator, Mapping, NamedTuple, Optional

from ..changes import Copies
from ..formats import faults_of, format_of
from ..record import Record, overlap
from ..regions import Region
from ..session import Session
from .corrections import Line
from .three_way import Version

STRETCH = 14  # records around a place are looked for by stretches of 2 to the power of this many bases
Undo = list[Callable[[], object]]  # what takes back what was done, the last one first


class Held(NamedTuple):
    """A copy of a record: its columns after the sixth, and the number of the line that put it there, or 0 for one of the file."""

    tail: str
    line: int


class Track:
    """The copies of records, found by place. undo: gets what takes each change of them back

    Copies with different columns after the sixth are taken in the order of a session: those of the file in its order, then those
    that were added, by their text.
    """

    def __init__(self) -> None:
        self._file: dict[Record, list[str]] = defaultdict(list)  # the columns after the sixth of the copies of the file
        self._copies: dict[Record, list[Held]] = defaultdict(list)
        self._stretches: dict[tuple[str, int], dict[Record, None]] = defaultdict(dict)
        self.undo: Undo = []

    def hold(self, record: Record, tail: str) -> None:
        """Takes a copy of the file in."""
        self._file[record].append(tail)
        self._put(record, self.count(record), Held(tail, 0))

    def has(self, record: Record, tail: Optional[str] = None) -> bool:
        """Whether a copy is there, with these columns after the sixth if they are given."""
        return any(True for _ in self._of(record, tail))

    def first(self, record: Record, tail: Optional[str] = None) -> str:
        """The columns after the sixth of the copy that `take` takes."""
        return next(self._of(record, tail)).tail

    def of_file(self, record: Record, tail: Optional[str] = None) -> Optional[Held]:
        """The first copy of the file that is there."""
        return next((held for held in self._of(record, tail) if not held.line), None)

    def count(self, record: Record) -> int:
        return len(self._copies.get(record, ()))

    def all_of_file(self, record: Record) -> list[str]:
        """The different columns after the sixth of the copies of the file, in their order."""
        return list(dict.fromkeys(held.tail for held in self._of(record, None) if not held.line))

    def take(self, record: Record, tail: Optional[str] = None) -> str:
        """Takes out the copy that was there first, and returns its columns after the sixth."""
        held = next(self._of(record, tail))
        place = self._copies[record].index(held)
        del self._copies[record][place]
        self.undo.append(lambda: self._put(record, place, held))
        return held.tail

    def put(self, record: Record, tail: str, line: Line) -> None:
        place = self.count(record)
        self._put(record, place, Held(tail, line.number))
        self.undo.append(lambda: self._copies[record].pop(place))

    def around(self, record: Record) -> Iterator[Record]:
        """The records that overlap one."""
        near = dict.fromkeys(other for stretch in _stretches(record) for other in self._stretches.get(stretch, ()))
        return (other for other in near if self._copies[other] and overlap(record, other))

    @cached_property
    def format(self) -> Optional[str]:
        return next((format_of(record, tails[0]) for record, tails in self._file.items()), None)

    @cached_property
    def faults(self) -> frozenset[str]:
        """The kinds of what can't hold in the file already."""
        rows = ((record, tail) for record, tails in self._file.items() for tail in tails)
        return frozenset(fault.kind for row in rows for fault in faults_of(*row))

    def _of(self, record: Record, tail: Optional[str]) -> Iterator[Held]:
        return (held for held in self._ordered(record) if tail is None or held.tail == tail)

    def _ordered(self, record: Record) -> list[Held]:
        """The copies in the order in which they are taken."""
        held = self._copies.get(record, [])
        if len(held) < 2 or len({one.tail for one in held}) == 1:
            return held
        left = sorted(held, key=lambda one: (one.tail, one.line))
        gone = Counter(self._file[record]) - Counter(one.tail for one in held)
        ordered = []
        for tail in self._file[record]:
            if gone[tail]:
                gone[tail] -= 1
            else:
                ordered.append(left.pop(next(place for place, one in enumerate(left) if one.tail == tail)))
        return ordered + left

    def _put(self, record: Record, place: int, held: Held) -> None:
        is_new = record not in self._copies
        self._copies[record].insert(place, held)
        if is_new:
            for stretch in _stretches(record):
                self._stretches[stretch][record] = None


def _stretches(record: Record) -> Iterator[tuple[str, int]]:
    return ((record[0], number) for number in range(int(record[1]) >> STRETCH, (int(record[2]) - 1 >> STRETCH) + 1))


class Memory:
    """What lines below need to know of those above.

    undo:    gets what takes each change back
    takers:  the line that took a record, by the record as the line has it
    makers:  the line that put a record in
    heirs:   what a line put in instead of its new record, or what is there instead of it
    pending: the new records of lines that aren't settled
    copies:  of records that lines put in and took out
    lengths: of the sequences
    """

    def __init__(self, lengths: Mapping[str, int], undo: Undo) -> None:
        self.takers: dict[Record, Line] = {}
        self.makers: dict[Record, Line] = {}
        self.heirs: dict[Record, Version] = {}
        self.pending: dict[Record, Line] = {}
        self.copies = Copies()
        self.lengths = dict(lengths)
        self._undo = undo

    def set(self, where: dict[Any, Any], key: object, value: object) -> None:
        before = where.get(key)
        self._undo.append(lambda: where.pop(key) if before is None else where.update({key: before}))
        where[key] = value

    def move(self, record: Record, copies: int) -> None:
        self.copies.do((record, copies))
        self._undo.append(lambda: self.copies.undo((record, copies)))


def near_lines(session: Session, lines: Iterable[Line]) -> Track:
    """The records of a session that overlap one that a line names."""
    track = Track()
    is_wide = session.columns() > session.width
    for record, copies in session.around(list(regions_of(lines))).items():
        for tail in session.tails(record) if is_wide else [""] * copies:
            track.hold(record, tail)
    return track


def regions_of(lines: Iterable[Line]) -> Iterator[Region]:
    """The intervals that lines name; of two that overlap what has both."""
    for line in lines:
        named = line.records()
        if len(named) > 1 and overlap(*named):
            yield named[0][0], min(int(one[1]) for one in named), max(int(one[2]) for one in named)
        else:
            yield from ((one[0], int(one[1]), int(one[2])) for one in named)

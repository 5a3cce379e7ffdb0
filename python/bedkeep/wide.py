"""BED files of more than six columns: the program takes the first six of each record, and its tail, the others, goes along as text.

A line of a script has records of six columns, or of all of them. One of all columns is the record that has all of them. One of six
is the first in the file that has these; a `replace` by six leaves its tail, which follows by the rules of its format.
"""
from __future__ import annotations

from collections import Counter, defaultdict
from functools import cached_property
from itertools import chain, islice, repeat
from typing import Iterable, Iterator, NamedTuple, Optional, Sequence

from .formats import BED12, DIGITS, NARROW, default_tail, faults_of, follow, format_of, names_of, worse
from .forms import BED, Form
from .record import WIDEST, Record, split_row

ABSENT = "no such record"
SAMPLE = 10_000  # records of a file that show its format and what doesn't hold in it


class Cut(NamedTuple):
    """The fields of a line with records of at most six columns, and the tails that were taken off."""

    fields: list[str]
    old_tail: Optional[str] = None
    new_tail: Optional[str] = None


def cut(command: str, fields: list[str], width: int) -> Cut:
    """Takes the tails off the fields of an edit of a file with so many columns. Fields of another number stay as they are."""
    count = len(fields)
    if width <= WIDEST:
        return Cut(fields)
    if not command.startswith("replace"):
        if count != width:
            return Cut(fields)
        tail = _tail(fields)
        return Cut(fields[:WIDEST], None, tail) if command.startswith("add") else Cut(fields[:WIDEST], tail)
    if count not in (WIDEST + width, 2 * width):
        return Cut(fields)
    half = width if count == 2 * width or _gives_old(fields, width) else WIDEST
    old, new = fields[:half], fields[half:]
    return Cut(old[:WIDEST] + new[:WIDEST], _tail(old) if len(old) > WIDEST else None, _tail(new) if len(new) > WIDEST else None)


def _gives_old(fields: Sequence[str], width: int) -> bool:
    """Whether of six columns and all columns the old record has all: what is read so looks like a record, and isn't one otherwise.

    If both or none of them do, the name of the sequence says it."""
    first, last = fields[width:], fields[WIDEST:]
    return _is_record(first) if _is_record(first) != _is_record(last) else first[0] == fields[0] != last[0]


def _is_record(fields: Sequence[str]) -> bool:
    return bool(DIGITS.fullmatch(fields[1]) and DIGITS.fullmatch(fields[2])) and fields[5] in ("+", "-", ".")


def _tail(columns: Sequence[str]) -> str:
    return "\t" + "\t".join(columns[WIDEST:])


class Unfit(Exception):
    """An edit that isn't done for the columns after the sixth.

    reason: why, in words; hint: lines about it
    offer:  the records of a `replace` that would fit, the old one and the new one, with all their columns; or none
    """

    def __init__(self, reason: str, hint: Sequence[str] = (), offer: Sequence[str] = ()) -> None:
        super().__init__(reason)
        self.reason, self.hint, self.offer = reason, tuple(hint), tuple(offer)


class Step(NamedTuple):
    """What an edit does: the record that it takes with its tail, the one that it puts with its tail, and what no longer holds."""

    old: Optional[Record]
    old_tail: str
    new: Optional[Record]
    new_tail: str
    warning: str = ""

    @property
    def old_row(self) -> Optional[str]:
        """The record that it takes as a line of a BED file."""
        return None if self.old is None else "\t".join(self.old) + self.old_tail

    @property
    def new_row(self) -> Optional[str]:
        """The record that it puts as a line of a BED file."""
        return None if self.new is None else "\t".join(self.new) + self.new_tail


class Tails:
    """The tails of a file's records, followed edit by edit.

    They depend on which records were taken and put, and not on the order: whoever takes a record out and puts it in again has what
    was there before. Of copies those of the file come first, in its order, then those that were added, in that of their text. Of
    copies of the file that are all the same the last ones are left.
    """

    def __init__(self, width: int, rows: Iterable[str], form: Form = BED) -> None:
        self.width, self._form = width, form
        self._file: dict[Record, list[str]] = defaultdict(list)
        self._net: dict[Record, Counter[str]] = {}  # tails that were put, less those that were taken
        for row in rows:
            record, tail = split_row(row)
            self._file[record].append(tail)

    def of(self, record: Record) -> list[str]:
        """The tails of the copies of a record, in the order in which they would be taken."""
        tails = self._file.get(record, [])
        net = self._net.get(record)
        if not net:
            return tails
        gone = -net
        left = []
        for tail in tails:
            if gone[tail] > 0:
                gone[tail] -= 1
            else:
                left.append(tail)
        return left + sorted((+net).elements())

    def plan(self, old: Optional[Record], new: Optional[Record], old_tail: Optional[str], new_tail: Optional[str],
             leave: bool = False) -> Optional[Step]:
        """What an edit will do, or None if its record isn't there. Raises Unfit.

        leave: whether what can't hold is only a warning, and columns that can't follow are left as they are
        """
        step = self._plan(old, new, old_tail, new_tail, leave)
        fault = self._form.fault(step.new_row, old is None) if step and step.new_row else ""
        if fault:
            raise Unfit(fault)
        return step

    def _plan(self, old: Optional[Record], new: Optional[Record], old_tail: Optional[str], new_tail: Optional[str],
              leave: bool) -> Optional[Step]:
        taken = ""
        if old:
            tails = self.of(old)
            if not tails:
                return None
            taken = tails[0] if old_tail is None else old_tail
            if taken not in tails:
                raise Unfit(ABSENT, [_unlike(old, taken, tails)])
        if not new:
            return Step(old, taken, None, "")
        if old and new_tail is None:
            return self._follow(old, taken, new, leave)
        put = default_tail(new, self.width, self.format) if new_tail is None else new_tail
        spoiled = ", ".join(self._spoiled(old, taken, new, put))
        if spoiled and not leave:
            followed = follow(old, taken, new) if old else None
            raise Unfit(spoiled, (), _offer(old, taken, "\t".join(new) + followed.tail) if old and followed and not followed.fault else ())
        return Step(old, taken, new, put, spoiled)

    def do(self, step: Step) -> None:
        for record, tail, copies in (step.old, step.old_tail, -1), (step.new, step.new_tail, 1):
            if record:
                net = self._net.setdefault(record, Counter())
                net[tail] += copies
                if not net[tail]:
                    del net[tail]
                if not net:
                    del self._net[record]

    def undo(self, step: Step) -> None:
        self.do(Step(step.new, step.new_tail, step.old, step.old_tail))

    def _follow(self, old: Record, tail: str, new: Record, leave: bool) -> Step:
        followed = follow(old, tail, new)
        if followed.fault and "score" in self._kinds:
            followed = follow(old, tail, new, ("score",))
        if followed.fault and not leave:
            raise Unfit(followed.fault, (), _offer(old, tail, "\t".join(followed.offer)) if followed.offer else ())
        return Step(old, tail, new, followed.tail, followed.fault)

    def _spoiled(self, old: Optional[Record], taken: str, new: Record, put: str) -> list[str]:
        """What can't hold of a record that a line gives with its tail, if it doesn't come back and the file kept to that before."""
        net = self._net.get(new)
        if net and net[put] < 0:
            return []
        if self._is_strict and format_of(new, put) != self.format:
            return [f"the columns from the seventh on are not those of {self.format}"]
        if old:
            return worse(old, taken, new, put, self._kinds)
        return [fault.text for fault in faults_of(new, put) if fault.kind not in self._kinds]

    @cached_property
    def format(self) -> Optional[str]:
        """The format of the file's first record, or None if it has none."""
        return next((format_of(record, tails[0]) for record, tails in self._file.items() if tails), None)

    @cached_property
    def _kinds(self) -> frozenset[str]:
        """The kinds of faults that the file had before the edits."""
        return frozenset(fault.kind for record, tail in self._sample() for fault in faults_of(record, tail))

    @cached_property
    def _is_strict(self) -> bool:
        """Whether all records of the file have a format that can't be mistaken."""
        return self.format in (BED12, NARROW) and all(format_of(*row) == self.format for row in self._sample())

    def _sample(self) -> Iterator[tuple[Record, str]]:
        return islice(chain.from_iterable(zip(repeat(record), tails) for record, tails in self._file.items()), SAMPLE)


def _offer(old: Record, tail: str, new: str) -> Sequence[str]:
    return "\t".join(old) + tail, new


def _unlike(record: Record, tail: str, tails: Sequence[str]) -> str:
    """By which columns the copies of a record differ from one that isn't there: those of the copy that is most like it."""
    mine, *others = [text.split("\t")[1:] for text in (tail, *tails)]
    theirs = min(others, key=lambda other: sum(one != two for one, two in zip(mine, other)))
    names = names_of(format_of(record, tails[0]), len(theirs))
    return "the record is there with " + ", ".join(f"{name} {two} instead of {one}"
                                                   for name, one, two in zip(names, mine, theirs) if one != two)


class Joiner:
    """Puts the tails to the records of a track, one after another in its order."""

    def __init__(self, tails: Tails) -> None:
        self._tails = tails
        self._before, self._copy = "", 0
        self._of_record: list[str] = []

    def join(self, row: str) -> str:
        """The row with its tail; of copies each has its own."""
        if row == self._before:
            self._copy += 1
        else:
            self._before, self._copy = row, 0
            self._of_record = self._tails.of(tuple(row.split("\t")))
        return row + self._of_record[self._copy]

"""Records as the page draws them, the places that a line names, and the stretches around these."""
from __future__ import annotations

import re
from typing import Iterable, Iterator, NamedTuple, Optional, Sequence

from ..changes import halves
from ..commands.corrections import Line
from ..record import Record
from ..script import EDITS

LEAST = 40  # bases on either side of what a picture is about
FAR = 4  # places that are further apart than so many times their own length have a picture each


class Interval(NamedTuple):
    """A record; those of one sequence compare as in track order."""

    sequence: str
    start: int
    end: int
    rest: tuple[str, ...] = ()

    @property
    def name(self) -> str:
        return self.rest[0] if self.rest else ""

    @property
    def strand(self) -> str:
        return self.rest[2] if len(self.rest) > 2 else "."

    @property
    def length(self) -> int:
        return self.end - self.start


class Stretch(NamedTuple):
    """A stretch of a sequence, which a picture shows."""

    sequence: str
    low: int
    high: int

    def touches(self, interval: Interval) -> bool:
        return interval.sequence == self.sequence and interval.end >= self.low and interval.start <= self.high


def interval_of(columns: Sequence[str]) -> Optional[Interval]:
    """The record of these columns, or None if its bounds are no numbers. The program may refuse it for something else."""
    if len(columns) < 3 or not all(re.fullmatch("[0-9]{1,10}", column) for column in columns[1:3]):
        return None
    return Interval(columns[0], int(columns[1]), int(columns[2]), tuple(columns[3:6]))


def of_record(record: Optional[Record]) -> Optional[Interval]:
    return interval_of(record) if record else None


def asked(line: Line) -> tuple[Optional[Interval], Optional[Interval]]:
    """The record that a line takes out and the one that it puts in, also of a bad line if they can be read."""
    if line.is_edit or line.command not in EDITS:
        return of_record(line.old), of_record(line.new)
    old, new = halves(line.command, line.narrow)
    return interval_of(old), interval_of(new)


def sequence_of(line: Line) -> str:
    """The sequence that a line names first, or nothing."""
    return line.fields[0] if line.fields and line.command in EDITS | {"resize"} else ""


def stretches_of(intervals: Iterable[Interval]) -> Iterator[Stretch]:
    """The stretches that show these intervals: one for all that are near each other."""
    group: list[Interval] = []
    for interval in sorted(intervals):
        end = max((other.end for other in group), default=0)
        reach = FAR * max(LEAST, interval.length, *(other.length for other in group))
        if group and (interval.sequence != group[0].sequence or interval.start > end + reach):
            yield _around(group)
            group = []
        group.append(interval)
    if group:
        yield _around(group)


def _around(group: list[Interval]) -> Stretch:
    low, high = min(interval.start for interval in group), max(interval.end for interval in group)
    margin = max((high - low) * 3 // 4, LEAST)
    return Stretch(group[0].sequence, max(0, low - margin), high + margin)


def blocks_of(intervals: Iterable[Interval], distance: int) -> list[tuple[int, int]]:
    """The blocks of merge over records of one sequence in track order."""
    blocks: list[tuple[int, int]] = []
    for interval in intervals:
        if blocks and interval.start <= blocks[-1][1] + distance:
            blocks[-1] = blocks[-1][0], max(blocks[-1][1], interval.end)
        else:
            blocks.append((interval.start, interval.end))
    return blocks

"""Regions of sequences, from 0 and without their ends, and what is said of one that isn't there."""
from __future__ import annotations

import re
from bisect import bisect_left, bisect_right
from collections import defaultdict
from collections.abc import Mapping
from typing import Any, Collection, Iterable, Iterator, Optional

from .encoding import encoded
from .record import Record

Region = tuple[str, int, int]
MITOCHONDRION = {"m", "mt"}
PLACE = re.compile(r"(.+):([\d,]+)-([\d,]+)")


class Regions:
    """Regions, those that touch joined, as far as they are on their sequences. lengths: of these"""

    def __init__(self, regions: Iterable[Region], lengths: Mapping[str, int]) -> None:
        intervals: dict[str, list[tuple[int, int]]] = defaultdict(list)
        for sequence, start, end in regions:
            first, last = max(start, 0), min(end, lengths.get(sequence, 0))
            if first < last:
                intervals[sequence].append((first, last))
        self._joined = {sequence: _joined(listed) for sequence, listed in intervals.items()}

    def __iter__(self) -> Iterator[Region]:
        for sequence, (starts, ends) in self._joined.items():
            for start, end in zip(starts, ends):
                yield sequence, start, end

    def overlapping(self, record: Record) -> int:
        """How many of them a record overlaps that is on one of their sequences."""
        starts, ends = self._joined[record[0]]
        return bisect_left(starts, int(record[2])) - bisect_right(ends, int(record[1]))


class Order:
    """The order of a track: by sequence, in the order of the lengths, by start and end, then by the bytes of other columns."""

    def __init__(self, lengths: Mapping[str, int]) -> None:
        self.lengths = lengths
        self._names = list(lengths)
        self._ranks = {sequence: rank for rank, sequence in enumerate(self._names)}

    def key(self, record: Record) -> tuple[Any, ...]:
        """What sorts records."""
        return (self._ranks[record[0]], int(record[1]), int(record[2]), *map(encoded, record[3:]))

    def before(self, sequence: str, among: Collection[str]) -> Optional[str]:
        """The last sequence before this one that is among some."""
        return next((name for name in reversed(self._names[:self._ranks[sequence]]) if name in among), None)


def _joined(intervals: list[tuple[int, int]]) -> tuple[list[int], list[int]]:
    """The starts and the ends of the intervals, those that overlap or are book-ended joined."""
    starts: list[int] = []
    ends: list[int] = []
    for start, end in sorted(intervals):
        if ends and start <= ends[-1]:
            ends[-1] = max(ends[-1], end)
        else:
            starts.append(start)
            ends.append(end)
    return starts, ends


def same_sequence(one: str, other: str) -> bool:
    """Whether two names of sequences are hardly those of two: but for `chr` and case, and chrM is MT."""
    cores = {name.lower().removeprefix("chr") for name in (one, other)}
    return len(cores) == 1 or cores == MITOCHONDRION


def absent(sequence: str, lengths: Mapping[str, int]) -> str:
    """What is said of a sequence that the genome lacks."""
    place = PLACE.fullmatch(sequence)
    if place and place[1] in lengths:
        start, end = (int(number.replace(",", "") or 0) for number in place.groups()[1:])
        return f"the genome has no {sequence}: a place is three arguments, {place[1]!r}, {start}, {end}"
    alike = next((name for name in lengths if same_sequence(name, sequence)), None)
    return f"the genome has no {sequence}" + (f", and has {alike}" if alike else "")

"""About how many records are where, by equal parts of each sequence: all are counted once, and an edit changes two numbers."""
from __future__ import annotations

from array import array
from collections import Counter
from itertools import repeat
from operator import rshift
from typing import Iterable

from ..printed_rows import by_sequence
from ..session import Session
from .prompt_edits import Move

MOST_PARTS = 1 << 16  # of all sequences


class Parts:
    """How many records start and end in each part of a sequence."""

    def __init__(self, length: int, shift: int) -> None:
        self._shift = shift
        self.total = 0
        self._starts = array("l", bytes(8 * ((length >> shift) + 2)))
        self._ends = array("l", self._starts)

    def change(self, starts: Iterable[int], ends: Iterable[int], count: int) -> None:
        """Counts records that came, or -1 if they went."""
        for parts, positions in (self._starts, starts), (self._ends, ends):
            found = Counter(map(rshift, positions, repeat(self._shift)))
            for at, more in found.items():
                if at >= len(parts):  # of a longer sequence, by `resize`
                    parts.extend([0] * (at + 1 - len(parts)))
                parts[at] += count * more
        self.total += count * sum(found.values())

    def near(self, start: int, end: int) -> int:
        """At least as many records as overlap a region."""
        return sum(self._starts[:(end >> self._shift) + 1]) - sum(self._ends[:start >> self._shift])

    def bins(self, start: int, end: int, count: int) -> tuple[list[int], list[int]]:
        """How many records start in each of so many bins of a region, and how many are there, about."""
        first = start >> self._shift
        depth = sum(self._starts[:first]) - sum(self._ends[:first])
        edges = [(start + (end - start) * number // count) >> self._shift for number in range(count)]
        edges.append(max(end - 1 >> self._shift, 0) + 1)
        starts, depths = [], []
        for low, high in zip(edges, edges[1:]):
            begun = sum(self._starts[low:high])
            starts.append(begun)
            depths.append(depth + begun)
            depth += begun - sum(self._ends[low:high])
        return starts, depths


class Counts:
    """The parts of all sequences of a session, over its records."""

    def __init__(self, session: Session) -> None:
        lengths = session.lengths
        self._shift = max(sum(lengths.values()) // MOST_PARTS, 0).bit_length()
        self._parts = {name: Parts(length, self._shift) for name, length in lengths.items()}
        session.stream("records", self._take)

    def of(self, sequence: str) -> Parts:
        return self._parts[sequence]

    def follow(self, moves: Iterable[Move]) -> None:
        """Counts what lines took out and put in."""
        for second, old, new in moves:
            for record, count in (old, -1), (new, 1):
                if record and not second:
                    self.of(record[0]).change([int(record[1])], [int(record[2])], count)

    @property
    def step(self) -> int:
        return 1 << self._shift

    def _take(self, lines: bytes) -> None:
        for name, rows in by_sequence(lines):
            columns, width = b"\t".join(rows).split(b"\t"), rows[0].count(b"\t") + 1
            self.of(name).change(map(int, columns[1::width]), map(int, columns[2::width]), 1)

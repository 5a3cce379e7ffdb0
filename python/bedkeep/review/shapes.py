"""The exons and the coding part of records, from their columns after the sixth."""
from __future__ import annotations

from typing import Iterator, NamedTuple, Optional

from ..formats import BED12, BED8, BED9, faults_of, format_of
from ..record import WIDEST, Record
from .intervals import Interval


class Shape(NamedTuple):
    """Starts and ends of the blocks of a record, and of its thick part, which has a length of 0 if there is none."""

    blocks: tuple[tuple[int, int], ...]
    thick: tuple[int, int]

    def parts(self) -> Iterator[tuple[int, int, bool]]:
        """The parts of the blocks: start, end, and whether it is thick."""
        low, high = self.thick
        for start, end in self.blocks:
            parts = (start, min(end, low), False), (max(start, low), min(end, high), True), (max(start, high), end, False)
            for begin, stop, is_thick in parts:
                if begin < stop:
                    yield begin, stop, is_thick


def shape_of(interval: Interval, tail: str) -> Optional[Shape]:
    """The shape of a record with these columns after the sixth, or None if it is a plain box or they can't hold."""
    record = record_of_interval(interval)
    kind = format_of(record, tail) if len(record) == WIDEST else ""
    if kind not in (BED8, BED9, BED12) or faults_of(record, tail):
        return None
    columns = tail.split("\t")[1:]
    blocks = [(interval.start, interval.end)]
    if kind == BED12:
        sizes, starts = ([int(text) for text in column.split(",") if text] for column in columns[4:6])
        blocks = [(interval.start + start, interval.start + start + size) for start, size in zip(starts, sizes)]
    thick = int(columns[0]), int(columns[1])
    return None if len(blocks) == 1 and thick == blocks[0] else Shape(tuple(blocks), thick)


def record_of_interval(interval: Interval) -> Record:
    return (interval.sequence, str(interval.start), str(interval.end), *interval.rest)

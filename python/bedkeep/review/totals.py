"""What all records of a track come to, as a session prints them."""
from __future__ import annotations

import copy
from collections import Counter
from typing import Iterable, Mapping, Optional

from ..printed_rows import by_sequence
from ..regions import Region
from ..session import Session

BINS = 240  # of the overview of a sequence


class Totals:
    """The records and the blocks of each sequence, and the bases that these cover.

    distance: of the blocks; lengths: of the sequences whose density is shown
    """

    def __init__(self, session: Session, distance: int, lengths: Mapping[str, int]) -> None:
        self.records: Counter[str] = Counter()
        self.blocks: Counter[str] = Counter()
        self.covered: Counter[str] = Counter()
        self._distance, self._lengths = distance, lengths
        self._bins: dict[str, list[int]] = {}
        self._read(session)

    def after(self, session: Session, changed: Iterable[str]) -> Totals:
        """The totals after edits, which changed some sequences alone."""
        totals = copy.deepcopy(self)
        for name in changed:
            for counted in totals.records, totals.blocks, totals.covered:
                del counted[name]
            totals._bins.pop(name, None)
            if session.lengths.get(name):
                totals._read(session, (name, 0, session.lengths[name]))
        return totals

    def density(self, name: str) -> list[int]:
        """How many records begin in each of the equal parts of a sequence."""
        return self._bins.get(name, [0] * BINS)

    def _read(self, session: Session, region: Optional[Region] = None) -> None:
        session.stream("records", self._take_records, region)
        session.stream(f"merge -d {self._distance}", self._take_blocks, region)
        session.stream("merge -d 0", self._take_covered, region)

    def _take_records(self, lines: bytes) -> None:
        for name, rows in by_sequence(lines):
            self.records[name] += len(rows)
            if self._lengths.get(name):
                self._add_to_bins(self._bins.setdefault(name, [0] * BINS), rows, self._lengths[name])

    def _add_to_bins(self, bins: list[int], rows: list[bytes], length: int) -> None:
        """Counts rows in their order, those of a part of the sequence at once."""
        first, last = (min(((int(row.split(b"\t", 2)[1]) + 1) * BINS - 1) // length, BINS - 1) for row in (rows[0], rows[-1]))
        if first == last:
            bins[first] += len(rows)
        else:
            self._add_to_bins(bins, rows[:len(rows) // 2], length)
            self._add_to_bins(bins, rows[len(rows) // 2:], length)

    def _take_blocks(self, lines: bytes) -> None:
        for name, rows in by_sequence(lines):
            self.blocks[name] += len(rows)

    def _take_covered(self, lines: bytes) -> None:
        for name, rows in by_sequence(lines):
            columns = b"\t".join(rows).split(b"\t")
            self.covered[name] += sum(map(int, columns[2::3])) - sum(map(int, columns[1::3]))

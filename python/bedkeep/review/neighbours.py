"""The records of a track near the corrections, as a session has them at each line."""
from __future__ import annotations

from typing import Iterable, Optional

from ..commands.corrections import Line
from ..errors import Error
from ..printed_rows import Row
from ..record import WIDEST, Record
from ..script import of_track
from ..session import Session
from .intervals import Interval, Stretch, blocks_of
from .shapes import record_of_interval

REACH = 1000  # how far from a stretch the records left and right of it are looked for at first
Beside = tuple[Optional[Interval], Optional[Interval]]


class Differs(Error):
    """The program does otherwise with a line than it did before, or the blocks of a picture aren't its blocks."""


class Neighbours:
    """A track to look at while it is edited line by line. What was edited is carried out with the next look."""

    def __init__(self, session: Session) -> None:
        self._session = session
        self._waiting: list[str] = []

    def edit(self, line: Line) -> None:
        """Takes a line that was done; of the second file as one of its track."""
        self._waiting.append(of_track(line.sent))

    def carry_out(self) -> None:
        """Carries out the lines that wait. Differs if one is refused."""
        if self._waiting and self._session.edit(self._waiting):
            raise Differs("lines that were done are refused without the others")
        self._waiting.clear()

    def within(self, stretch: Stretch, margin: int = 0) -> list[Interval]:
        """The records that overlap or touch a stretch, or are so near to it."""
        return [Interval(row[0], row[1], row[2], tuple(row[3:])) for row in self._show("records", stretch, margin)]

    def beside(self, stretch: Stretch) -> Beside:
        """The last record that ends before a stretch, and the first one that begins after it."""
        sequence, low, high = stretch
        before: list[Interval] = []
        after: list[Interval] = []
        reach = REACH
        while not before and reach < REACH + 16 * low:
            before = [one for one in self.within(Stretch(sequence, low - reach, low - 1)) if one.end < low]
            reach *= 16
        reach = REACH
        while not after and reach < REACH + 16 * (self._session.lengths.get(sequence, 0) - high):
            after = [one for one in self.within(Stretch(sequence, high + 1, high + reach)) if one.start > high]
            reach *= 16
        return max(before, key=lambda one: one.end) if before else None, min(after, default=None)

    def blocks(self, stretch: Stretch, distance: int) -> int:
        """How many blocks touch a stretch. Differs if the pictures draw others."""
        count = len(self._show(f"merge -d {distance}", stretch, distance))
        if count != len(blocks_of(self.within(stretch, distance), distance)):
            raise Differs(f"the blocks of {stretch.sequence} from {stretch.low} to {stretch.high} aren't those that the program printed")
        return count

    def copies(self, records: Iterable[Record]) -> dict[Record, int]:
        """How many copies there are of some records."""
        listed = list(records)
        there = self._session.around((one[0], int(one[1]), int(one[2])) for one in listed)
        return {record: there[record] for record in listed}

    def tails(self, intervals: Iterable[Interval]) -> dict[Interval, str]:
        """The columns after the sixth of those records that have any; of copies those of the first one."""
        if self._session.columns() <= WIDEST:
            return {}
        listed = {one: self._session.tails(record_of_interval(one)) for one in intervals}
        return {one: tails[0] for one, tails in listed.items() if tails}

    def _show(self, words: str, stretch: Stretch, margin: int) -> list[Row]:
        """The rows of a view that overlap or touch a stretch, or are so near to it."""
        self.carry_out()
        low = max(stretch.low - margin - 1, 0)
        high = min(stretch.high + margin + 1, self._session.lengths.get(stretch.sequence, 0))
        return self._session.show(words, stretch.sequence, low, high) if low < high else []

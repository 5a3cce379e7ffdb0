"""What edits changed, counted line by line, so that a question about it costs the same after any number of them."""
from __future__ import annotations

from collections.abc import Mapping
from typing import Sequence

from .record import Record, record_of

Step = tuple[Record, int]  # copies of a record that a line puts in: 1, or -1 if it takes one out


def halves(command: str, fields: Sequence[str]) -> tuple[Sequence[str], Sequence[str]]:
    """The columns of the record that an edit takes out, and of the one that it puts in. They are empty for none."""
    kind = command.removesuffix("b")
    half = {"add": 0, "remove": len(fields), "replace": len(fields) // 2}.get(kind)
    return (fields[:half], fields[half:]) if half is not None else ((), ())


class Copies:
    """How many more or fewer copies of each record a file has by its edits.

    added: how many records it has more than before, or below 0 fewer
    """

    def __init__(self) -> None:
        self.added = 0
        # Of each record after each step the copies that were put in less those taken out, and the most so far.
        self._steps: dict[Record, list[tuple[int, int]]] = {}

    def net(self, record: Record) -> int:
        """The copies that were put in, less those that were taken out."""
        return self._last(record)[0]

    def taken(self, record: Record) -> int:
        """How many copies were taken out and haven't come back."""
        net, most = self._last(record)
        return most - net

    def do(self, step: Step) -> None:
        record, copies = step
        self.added += copies
        net, most = self._last(record)
        self._steps.setdefault(record, []).append((net + copies, max(net + copies, most)))

    def undo(self, step: Step) -> None:
        """Takes the last step of a record back."""
        record, copies = step
        self.added -= copies
        self._steps[record].pop()
        if not self._steps[record]:
            del self._steps[record]

    def _last(self, record: Record) -> tuple[int, int]:
        return self._steps[record][-1] if record in self._steps else (0, 0)


class Changes:
    """The copies that edits added to the track and to the second file, and the lengths that they corrected.

    lengths: of each sequence now
    """

    def __init__(self, lengths: Mapping[str, int]) -> None:
        self.track, self.second = Copies(), Copies()
        self.lengths = dict(lengths)
        self._given = lengths
        self._resized: dict[str, list[int]] = {}  # the lengths that a sequence got, one after another

    def do(self, command: str, fields: Sequence[str]) -> None:
        """Counts a line that was done."""
        if command == "resize":
            self.lengths[fields[0]] = int(fields[1])
            self._resized.setdefault(fields[0], []).append(int(fields[1]))
        for step in _steps(command, fields):
            self._copies(command).do(step)

    def undo(self, command: str, fields: Sequence[str]) -> None:
        if command == "resize":
            self.lengths[fields[0]] = self.length_before(fields[0])
            self._resized[fields[0]].pop()
        for step in reversed(_steps(command, fields)):
            self._copies(command).undo(step)

    def length_before(self, sequence: str, later: int = 0) -> int:
        """The length of a sequence before its last `resize`, or before the one that so many later ones follow."""
        lengths = self._resized[sequence]
        return lengths[-2 - later] if len(lengths) > 1 + later else self._given[sequence]

    def _copies(self, command: str) -> Copies:
        return self.second if command.endswith("b") else self.track


def _steps(command: str, fields: Sequence[str]) -> list[Step]:
    """What a line does to copies of records, in this order."""
    return [(record_of(columns), copies) for columns, copies in zip(halves(command, fields), (-1, 1)) if columns]

"""The script that makes one BED file of another: python3 -m bedkeep diff OLD NEW

A record that moved or changed is a `replace`: both files have its name, its place, or one end of it if it has no name. One that was
split, or others that were joined, are a paragraph of lines that are done together. Others are `remove` and `add`. Additions come last,
so that none overlaps what is about to go.
"""
from __future__ import annotations

import argparse
import os
import sys
import tempfile
from bisect import bisect_left, bisect_right
from collections import Counter, defaultdict
from typing import Iterator, Sequence

from ..encoding import Path, encoded
from ..errors import Error
from ..pairs import Change, changes
from ..record import NAMELESS, name_of, split_row
from .differences import Rows, differences
from .loading import loading

DESCRIPTION = """Prints the script of corrections that makes NEW of OLD: `replace` if a record moved or changed, else `remove` and
`add`; a split or a join is a paragraph of lines that are done together."""


class Difference:
    """What makes the second file of the first. changes: in their order; copies: the number of additions that need `--copies`"""

    def __init__(self, old: str, new: str) -> None:
        with tempfile.TemporaryDirectory(prefix="bedkeep-") as folder:
            before, after = Rows(old, folder), Rows(new, folder)
            if before.width and after.width and before.width != after.width:
                wide, narrow = (before, after) if before.width > after.width else (after, before)
                raise Error(f"{old} has {before.width} columns, and {new} {after.width}: "
                            f"compare {narrow.path} with what `cut -f1-{narrow.width} {wide.path}` prints")
            gone, come = differences(before, after)
            self.changes: list[Change] = list(changes(gone, come))
            added = [row for change in self.changes for row in change.added()]
            self.copies = _copies(added, come, after) if added else 0

    def script(self) -> Iterator[str]:
        """The lines in paragraphs, an empty line before each: one for each split and join, with its reason, and others in between.

        So the script can be appended to another one: no line takes a reason that is there.
        """
        together = None
        for change in self.changes:
            if change.reason or together is not False:
                yield ""
            if change.reason:
                yield f"# together: {change.reason}"
            yield from change.lines()
            together = bool(change.reason)


def diff(old: Path, new: Path) -> list[str]:
    r"""The lines of the script that makes the new BED file of the old one, with empty lines between paragraphs.

    Parameters
    ----------
    old, new : path
        The BED files, which may be packed by gzip.

    Raises
    ------
    Error, OSError, ValueError
        A file can't be used, or one has more columns than the other.

    Examples
    --------
    >>> bedkeep.diff("genes.bed", "next.bed")
    ['', 'replace\tchr1\t300\t400\tgeneB\tchr1\t320\t400\tgeneB']
    """
    return list(Difference(os.fspath(old), os.fspath(new)).script())


def _copies(added: Sequence[str], come: Sequence[str], after: Rows) -> int:
    """How many additions `apply` leaves out: those of a record that is there, or that overlap one of their name in both files.

    come: the rows that only the new file has
    """
    counts, left, found = Counter(added), Counter(come), Counter[str]()
    named: dict[tuple[str, str], list[str]] = defaultdict(list)  # the additions by name and sequence
    for row in counts:
        record = split_row(row)[0]
        if name_of(record) not in NAMELESS:
            named[name_of(record), record[0]].append(row)
    spans = {key: Spans(rows) for key, rows in named.items()}
    crowded: set[str] = set()
    for row in after.named({name_of(split_row(row)[0]) for row in counts}):
        record = split_row(row)[0]
        found[row] += row in counts
        left[row] -= 1
        if left[row] < 0 and (name_of(record), record[0]) in spans:
            crowded.update(spans[name_of(record), record[0]].take(int(record[1]), int(record[2])))
    return sum(count if row in crowded else min(count, found[row] - 1) for row, count in counts.items())


class Spans:
    """Rows by where they begin and end."""

    def __init__(self, rows: Sequence[str]) -> None:
        bounds = [(int(record[1]), int(record[2]), row) for row in rows for record in [split_row(row)[0]]]
        self._rows = sorted(bounds)
        self._ends = sorted(end for _, end, _ in bounds)

    def take(self, start: int, end: int) -> Iterator[str]:
        """Takes those out that overlap an interval."""
        at = bisect_left(self._rows, (end,))
        left = at - bisect_right(self._ends, start)
        while left:
            at -= 1
            if self._rows[at][1] > start:
                _, last, row = self._rows.pop(at)
                del self._ends[bisect_left(self._ends, last)]
                left -= 1
                yield row


def options(parser: argparse.ArgumentParser) -> None:
    parser.description = DESCRIPTION
    parser.epilog = "A file may be packed by gzip; - is standard input."
    parser.add_argument("old", metavar="OLD")
    parser.add_argument("new", metavar="NEW")


def run(given: argparse.Namespace) -> int:
    if [given.old, given.new] == ["-", "-"]:
        raise Error("only one file can be standard input")
    with loading(given.new):
        difference = Difference(given.old, given.new)
    sys.stdout.buffer.writelines(encoded(f"{line}\n") for line in difference.script())
    sys.stdout.flush()
    if difference.copies:
        lines = "1 line adds" if difference.copies == 1 else f"{difference.copies} lines add"
        print(f"{lines} a copy, or a record over another one of its name: `apply --copies` carries these out", file=sys.stderr)
    return 0

"""Versions of a file that git hands over, and texts as git merges them, with its markers around conflicts."""
from __future__ import annotations

import filecmp
import os
import subprocess
from itertools import chain
from typing import Iterable, Iterator, NamedTuple, Optional, Sequence

from ..encoding import Path, decoded
from ..errors import Ended, Error
from ..files import is_plain, read_bytes
from ..forms import is_header
from ..record import NARROWEST, split_row

BASE, OURS, THEIRS = range(3)
NAMES = "base", "ours", "theirs"
CRLF = b"\r\n"
MOST = 127  # conflicts that the status of git merge-file counts
Sides = tuple[Sequence[str], Sequence[str], Sequence[str]]  # what the base, ours and theirs have


class File:
    """A version of the file, as a plain copy that has LF at the end of each line.

    path: of the copy; text: of the file, unpacked; end: what its lines end with; is_ended: whether the last one does
    is_packed: whether it is packed by gzip
    """

    def __init__(self, given: Path, path: str) -> None:
        self.path, self.is_packed = path, os.path.isfile(given) and not is_plain(given)
        self.text = read_bytes(given)
        self.end = CRLF if 0 < self.text.count(b"\n") == self.text.count(CRLF) else b"\n"
        self.is_ended = not self.text or self.text.endswith(b"\n")
        with open(path, "wb") as copy:
            copy.write(self.text.replace(self.end, b"\n") + b"\n" * (not self.is_ended))

    def lines(self) -> list[str]:
        return lines_of_copy(self.path)


def why_as_text(failure: Exception, files: Iterable[File]) -> str:
    """Why files can't be taken for BED files, by their names alone."""
    why = failure.message if isinstance(failure, Ended) else str(failure)
    for file in files:
        why = why.replace(file.path, os.path.basename(file.path))
    return why


class Part(NamedTuple):
    """Lines of a merged text: a conflict, or what is between two. lines: with the markers; sides: of a conflict"""

    lines: list[str]
    sides: Optional[Sides] = None

    def side(self, at: int) -> Sequence[str]:
        """The lines as one side has them."""
        return self.sides[at] if self.sides else self.lines

    def ordered(self) -> Part:
        """The lines as ours has them, if theirs has the same records in another order, and the same lines without one; else itself."""
        if not self.sides:
            return self
        ours, theirs = (([line for line in side if not is_row(line)], sorted(rows_of(side))) for side in self.sides[OURS:])
        return Part(list(self.sides[OURS])) if ours == theirs else self


class Style(NamedTuple):
    """How conflicts are marked. size: of the markers; kind: merge, diff3 or zdiff3, as in merge.conflictStyle of git"""

    size: int = 7
    kind: str = "merge"

    def conflict(self, sides: Sides) -> Part:
        begin, middle, other, end = self._markers
        shown = [middle, *sides[BASE]] if self.kind != "merge" else []
        return Part([begin, *sides[OURS], *shown, other, *sides[THEIRS], end], sides)

    def merged(self, paths: Sequence[str]) -> list[Part]:
        """What git makes of three files: the base, ours and theirs. Error if it can't merge them."""
        for one, other, wanted in (OURS, THEIRS, OURS), (BASE, THEIRS, OURS), (BASE, OURS, THEIRS):
            if filecmp.cmp(paths[one], paths[other], shallow=False):
                return [Part(lines_of_copy(paths[wanted]))]
        kind = [] if self.kind == "merge" else [f"--{self.kind}"]
        order = OURS, BASE, THEIRS
        labels = chain.from_iterable(("-L", NAMES[at]) for at in order)
        words = ["git", "merge-file", "-p", "-q", f"--marker-size={self.size}", *kind, *labels, *(paths[at] for at in order)]
        run = subprocess.run(words, capture_output=True, check=False)
        if not 0 <= run.returncode <= MOST:
            raise Error(decoded(run.stderr).strip() or "git merge-file failed")
        return list(self._parts(decoded(run.stdout).split("\n")[:-1]))

    @property
    def _markers(self) -> tuple[str, str, str, str]:
        return f"{'<' * self.size} ours", f"{'|' * self.size} base", "=" * self.size, f"{'>' * self.size} theirs"

    def _parts(self, lines: Iterable[str]) -> Iterator[Part]:
        begin, middle, other, end = self._markers
        between: list[str] = []
        sides: Optional[tuple[list[str], list[str], list[str]]] = None
        side = OURS
        for line in lines:
            if line == begin:
                yield Part(between)
                between, sides, side = [], ([], [], []), OURS
            elif sides and line in (middle, other):
                side = BASE if line == middle else THEIRS
            elif sides and line == end:
                yield self.conflict(sides)
                sides = None
            else:
                (sides[side] if sides else between).append(line)
        yield Part(between)


def lines_of_copy(path: str) -> list[str]:
    """The lines of a copy, without LF."""
    with open(path, "rb") as file:
        return decoded(file.read()).split("\n")[:-1]


def is_row(line: str) -> bool:
    """Whether a line has a record."""
    return line.count("\t") >= NARROWEST - 1 and not is_header(line)


def rows_of(lines: Iterable[str]) -> Iterator[str]:
    """The rows of lines that have a record."""
    return map(row_of, filter(is_row, lines))


def row_of(line: str) -> str:
    """A line with its numbers as the program prints them."""
    columns = line.split("\t", NARROWEST)
    if len(columns) >= NARROWEST and columns[1][:1] != "0" != columns[2][:1]:
        return line.removesuffix("\r")
    record, tail = split_row(line.removesuffix("\r"))
    return "\t".join(record) + tail

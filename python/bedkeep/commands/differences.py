"""The records that one BED file has and another hasn't.

Lines are compared in order, over what was put in or taken out, so that two versions of a file cost little more than their reading.
Those that aren't found so are held, and counted.
"""
from __future__ import annotations

import os
import tempfile
from contextlib import suppress
from itertools import islice, repeat
from operator import itemgetter
from typing import Iterator, NoReturn

from ..bed import Bed
from ..encoding import decoded, encoded
from ..errors import Error, NotFound
from ..files import line_text, opened, plain
from ..forms import BED, form_of, is_header
from ..pairs import beyond
from ..record import NARROWEST, WIDEST, split_row
from .input_files import refuse_damaged

AT_ONCE = 4096  # lines
AHEAD = 64  # lines in which the place is looked for where two files go on alike
ALIKE = 3  # lines that have to be alike there
LONGEST = 4_000_000_000  # bases that a sequence can have
NO_RECORD = frozenset(b"#tb\r\n")  # with what a line begins that may be none
Lines = list[bytes]


class Rows:
    """The lines of a BED file that have a record, or the rows of GFF3 or GTF, which can be read several times.

    path: as it was given; width: of the first record, or 0
    """

    def __init__(self, path: str, folder: str) -> None:
        self.path, self._file = path, path if os.path.isfile(path) else plain(path, folder)
        self._form = form_of(self._file)
        self.width = 0
        first = _text(next((chunk[0] for chunk in self._chunks() if chunk), b""))
        if first:
            self.row(first)
            self.width = first.count(b"\t") + 1

    def chunks(self) -> Iterator[Lines]:
        """The lines with their ends, many at a time. Error if one has another number of columns than the first one."""
        number = 0
        for chunk in self._chunks():
            counts = list(map(bytes.count, chunk, repeat(b"\t")))
            if counts.count(self.width - 1) < len(counts):
                wrong = next((at for at, count in enumerate(counts) if count != self.width - 1), 0)
                raise Error(f"{self.path}: record {number + wrong + 1}: wrong number of columns")
            number += len(chunk)
            if chunk:
                yield chunk

    def named(self, names: set[str]) -> Iterator[str]:
        """The rows whose record has one of these names, as the program prints their numbers; all rows if records have no name."""
        wanted = {encoded(name) for name in names}
        for line in (line for chunk in self._chunks() for line in chunk):
            columns = line.split(b"\t", WIDEST)
            if len(columns) == NARROWEST or columns[NARROWEST].rstrip(b"\r\n") in wanted:
                yield self.row(_text(line))

    def row(self, line: bytes) -> str:
        """A line with its numbers as the program prints them. Error if it is no record."""
        columns = line.split(b"\t", NARROWEST)
        if len(columns) < NARROWEST or not all(map(bytes.isdigit, columns[1:NARROWEST])):
            self._refuse()
        record, tail = split_row(decoded(line))
        return "\t".join(record) + tail

    def _refuse(self) -> NoReturn:
        """Raises what the program says of the first line that is no record, and of what the file looks like."""
        with tempfile.TemporaryDirectory(prefix="bedkeep-") as folder, suppress(NotFound):
            bed = Bed(self._file, self.path, folder, 0)
            refuse_damaged({row.split("\t")[0]: LONGEST for row in bed.rows()}, bed.narrow, self.path)
        raise Error(f"{self.path}: it is no BED file")

    def _chunks(self) -> Iterator[Lines]:
        with opened(self._file) as file:
            lines = file if self._form is BED else self._rows_of(map(line_text, file))
            for chunk in iter(lambda: list(islice(lines, AT_ONCE)), []):
                if self._form is BED and not NO_RECORD.isdisjoint(map(itemgetter(0), chunk)):
                    chunk = [line for line in chunk if not is_header(decoded(_text(line)))]
                yield chunk

    def _rows_of(self, lines: Iterator[str]) -> Iterator[bytes]:
        """The rows of the lines of another form."""
        try:
            yield from (encoded(row) for row in self._form.rows(lines) if row)
        except ValueError as failure:
            raise Error(f"{self.path}: {failure}") from None


def differences(old: Rows, new: Rows) -> tuple[list[str], list[str]]:
    """The lines that the first file has more often, and those that the second one has, with numbers as the program prints them."""
    gone: list[str] = []
    come: list[str] = []
    for mine, theirs in _unlike(old.chunks(), new.chunks()):
        gone += map(old.row, mine)
        come += map(new.row, theirs)
    return beyond(gone, come), beyond(come, gone)


def _unlike(old: Iterator[Lines], new: Iterator[Lines]) -> Iterator[tuple[Lines, Lines]]:
    """The lines of both files, without those that were found in both."""
    mine: Lines = next(old, [])
    theirs: Lines = next(new, [])
    while mine or theirs:
        both = min(len(mine), len(theirs))
        if mine[:both] != theirs[:both]:
            both = next(at for at in range(both) if mine[at] != theirs[at])
        del mine[:both], theirs[:both]
        if len(mine) <= AHEAD:
            mine += next(old, [])
        if len(theirs) <= AHEAD:
            theirs += next(new, [])
        if mine[:1] != theirs[:1]:
            first, second = _until_alike(mine, theirs)
            yield [_text(line) for line in mine[:first]], [_text(line) for line in theirs[:second]]
            del mine[:first], theirs[:second]


def _until_alike(mine: Lines, theirs: Lines) -> tuple[int, int]:
    """How many lines of each are before the first place where both go on alike; else so many as were looked at."""
    places = {line: at for at, line in reversed(list(enumerate(theirs[:AHEAD])))}
    for at, line in enumerate(mine[:AHEAD]):
        other = places.get(line, -1)
        if other >= 0 and mine[at:at + ALIKE] == theirs[other:other + ALIKE]:
            return at, other
    return AHEAD, AHEAD


def _text(line: bytes) -> bytes:
    """A line without its end."""
    line = line[:-1] if line.endswith(b"\n") else line
    return line[:-1] if line.endswith(b"\r") else line

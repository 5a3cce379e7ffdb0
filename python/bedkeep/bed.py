"""BED files of any width from 3.

`Bed` makes a file of at most six columns of one, for the program; line by line, so that its messages name the right one.
"""
from __future__ import annotations

import os
from typing import Iterator, Optional

from .encoding import Path, encoded
from .errors import Error
from .files import line_text, lines_of, opened, plain
from .forms import GFF, WIDTH_OF_GFF, form_of, is_header
from .record import NARROWEST, WIDEST


class Bed:
    """A BED file, or one of GFF3 or GTF as the rows that it is.

    source:  the path of the same file, unpacked
    narrow:  that of a file with the first six columns of its rows, which the program can read; or the same if it is no BED file, so
             that the program says what it is
    width:   of its first row; of a file without one what is given, such as that of a record that is added
    name:    what messages call it
    """

    def __init__(self, path: str, name: str, folder: str, width: int) -> None:
        self.name = name
        self.source = plain(path, folder)
        self.form = form_of(self.source)
        first = [] if self.form is GFF else next(self.rows(), "").split("\t")
        self.width = WIDTH_OF_GFF if self.form is GFF else len(first) if first != [""] else width
        is_bed = all(text.isascii() and text.isdigit() for text in first[1:NARROWEST])
        self.narrow = self._cut(folder) if self.is_wide and is_bed else self.source

    @property
    def is_wide(self) -> bool:
        return self.width > WIDEST

    def rows(self) -> Iterator[str]:
        """The rows of all records."""
        return filter(None, self.form.rows(lines_of(self.source)))

    def _cut(self, folder: str) -> str:
        target = os.path.join(folder, f"narrow-{len(os.listdir(folder))}")
        try:
            with open(target, "wb") as file:
                for number, row in enumerate(self.form.rows(lines_of(self.source)), 1):
                    columns = row.split("\t")
                    if row and len(columns) != self.width:
                        raise ValueError(f"line {number}: wrong number of columns")
                    file.write(encoded("\t".join(columns[:WIDEST]) + "\n"))
        except ValueError as failure:
            raise Error(f"{self.name}: {failure}") from None
        return target


def width_of(bed: Path) -> Optional[int]:
    """How many columns the rows of a file have, or None if it has none or is no regular file."""
    if not os.path.isfile(bed):
        return None
    if form_of(bed) is GFF:
        return WIDTH_OF_GFF
    with opened(bed) as file:
        return next((line.count(b"\t") + 1 for line in file if not is_header(line_text(line))), None)


def lengths_of(genome: str) -> dict[str, int]:
    """The sequences of a genome file that the program took, with their lengths, in their order."""
    rows = (line.split("\t") for line in lines_of(genome) if line and line[0] != "#")
    return {row[0]: int(row[1]) for row in rows if row != ["chrom", "size"]}

"""The forms of files: which lines have a record, how such a line is a row of BED, and how a row that was edited is a line again.

BED is the form whose lines are their rows. GFF3 and GTF count from 1 and include the end; their rows have ten columns: those of BED6,
and after these source, type, phase and attributes. The name of a row is that which the record has for itself among its attributes,
as the file has it, with its escapes: in GFF3 its ID, else its Name; in GTF the identifier of its type, which is gene_id for a gene,
transcript_id for a transcript, exon_id for an exon. It is `.` if there is none.
"""
from __future__ import annotations

import os
from typing import Callable, Iterable, Iterator

from .encoding import Path, decoded, encoded
from .files import lines_of, line_text
from .formats import DIGITS, name_of_attributes
from .record import WIDEST

VERSION = "##gff-version"
FASTA = "##FASTA"
COLUMNS = 9  # of GFF
PLACES = (0, 6, 7, 1, 2, 4, 5, 8, 9)  # of the columns of GFF in a row
TYPELESS = ("", ".")


def is_header(line: str) -> bool:
    """Whether a line of a BED file is no record."""
    return not line or line[0] == "#" or line in ("track", "browser") or line.startswith(("track ", "browser "))


class Form:
    """BED. place: of the column that has the start; first: how the first base of a sequence is counted"""

    place, first = 1, 0

    def is_end(self, line: str) -> bool:
        """Whether no record is in this line and after it."""
        return False

    def row(self, line: str) -> str:
        """The row of a line that has a record. ValueError if it can't be one."""
        return line

    def line(self, row: str, old: str = "") -> str:
        """The line of a row. old: the line that it comes from; its columns that aren't edited stay as they are."""
        return row

    def printer(self, path: Path) -> Callable[[bytes], bytes]:
        """What makes lines of whole rows; those of a file that no edit is about are its own."""
        return bytes

    def fault(self, row: str, is_new: bool) -> str:
        """Why a row can't be a line, or nothing. is_new: whether it comes from no line"""
        return ""

    def rows(self, lines: Iterable[str]) -> Iterator[str]:
        """For each line its row, or an empty text. ValueError with the number of a line that can't be one."""
        for number, line in enumerate(lines, 1):
            if not line or line[0] in "#tb" and is_header(line):
                if self.is_end(line):
                    return
                yield ""
                continue
            if self.is_end(line):
                return
            try:
                yield self.row(line)
            except ValueError as failure:
                raise ValueError(f"line {number}: {failure}") from None

    def size(self, path: Path) -> int:
        """At which byte of a file the lines end that may have records."""
        return os.path.getsize(path)


class Gff(Form):
    """GFF3 and GTF."""

    place, first = 3, 1

    def is_end(self, line: str) -> bool:
        return line.startswith((FASTA, ">"))

    def row(self, line: str) -> str:
        columns = line.split("\t")
        if len(columns) != COLUMNS:
            raise ValueError(f"a line of GFF has {COLUMNS} columns, and not {len(columns)}")
        sequence, source, kind, start, end, score, strand, phase, attributes = columns
        for name, text in ("start", start), ("end", end):
            if not DIGITS.fullmatch(text):
                raise ValueError(f"{name} is a number in GFF, and not {text!r}")
        if not 0 < int(start) <= int(end):
            raise ValueError(f"a start is at least 1 in GFF, and not above its end: {start} and {end}")
        if strand not in ("+", "-", ".", "?"):
            raise ValueError(f"a strand is + or -, . or ? in GFF, and not {strand!r}")
        name = name_of_attributes(kind, attributes)
        return "\t".join([sequence, str(int(start) - 1), str(int(end)), name, score, strand.replace("?", "."), source, kind, phase,
                          attributes])

    def line(self, row: str, old: str = "") -> str:
        columns = row.split("\t")
        columns[1] = str(int(columns[1]) + 1)
        made = [columns[place] for place in PLACES]
        if old:
            before, texts = self.row(old).split("\t"), old.split("\t")
            before[1] = str(int(before[1]) + 1)
            made = [text if columns[place] == before[place] else new for place, text, new in zip(PLACES, texts, made)]
        return "\t".join(made)

    def printer(self, path: Path) -> Callable[[bytes], bytes]:
        own = {row: line for line, row in zip(lines_of(path), self.rows(lines_of(path))) if row and self.line(row) != line}
        return lambda rows: b"".join(encoded(f"{own.get(row) or self.line(row)}\n") for row in decoded(rows).split("\n")[:-1])

    def fault(self, row: str, is_new: bool) -> str:
        columns = row.split("\t")
        name, kind, attributes = columns[3], columns[WIDEST + 1], columns[-1]
        if is_new and kind in TYPELESS:
            return f"a record of GFF has a type: all {len(columns)} columns are written"
        known = name_of_attributes(kind, attributes)
        return f"the name {name} is not that of the attributes, which is {known}" if name != known else ""

    def size(self, path: Path) -> int:
        size = 0
        with open(path, "rb") as file:
            for line in file:
                if line[:1] in b"#>" and self.is_end(line_text(line)):
                    break
                size += len(line)
        return size


BED, GFF = Form(), Gff()
WIDTH_OF_GFF = len(PLACES) + 1


def form_of(path: Path) -> Form:
    """The form of a file, by what it has: GFF begins with its version, or its first record has source and type, then two numbers."""
    for line in lines_of(path):
        if line.startswith(VERSION):
            return GFF
        if not is_header(line):
            columns = line.split("\t")
            numbers = columns[3:5] if len(columns) >= COLUMNS - 1 else []
            return GFF if len(numbers) == 2 and all(map(DIGITS.fullmatch, numbers)) and not DIGITS.fullmatch(columns[1]) else BED
    return BED


def headers_of(path: Path, form: Form = BED) -> tuple[bytes, bytes]:
    """The header and comment lines of a file, and what comes after the lines that may have records."""
    headers, size = [], form.size(path)
    with open(path, "rb") as file:
        for line in file:
            size -= len(line)
            if size < 0:
                break
            if line[:1] in b"#tb" and is_header(line_text(line)):
                headers.append(line_text(line))
        file.seek(form.size(path))
        rest = file.read()
    return encoded("".join(f"{line}\n" for line in headers)), rest

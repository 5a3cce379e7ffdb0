"""Rows as tuples with names and integers, made from what the program prints."""
from __future__ import annotations

from collections import namedtuple
from functools import lru_cache
from itertools import groupby
from typing import TYPE_CHECKING, Any, Callable, Iterable, Iterator, Optional, Sequence

from .encoding import decoded, encoded

RECORD = ("chromosome", "start", "end", "name", "score", "strand")
INTEGERS = {"start", "end", "second_start", "second_end", "block", "position", "depth", "hits", "count"}


class Row(tuple[Any, ...]):
    """A row of a view: a tuple whose columns are attributes too.

    Intervals have `chromosome`, `start` (from 0) and `end` (not included), and records also `name`, `score` and `strand` if
    their file has them. What a view adds: `block` of cluster; `depth` of genomecov, whose `-d` has `position` (from 1)
    instead of start and end; `hits` of `intersect -c`; `second_chromosome`, `second_start` .. of `intersect -wb`; `bases` of
    getfasta; of merge `count_4`, `collapse_4` and so on, by operation and column. Positions and numbers are integers; `sum`,
    `min` and `max` are None if the program prints `.` for them. All else is text, scores too.

    Examples
    --------
    >>> row = session.view("merge -c 4 -o count")[0]
    >>> row
    Row(chromosome='chr1', start=100, end=200, count_4=1)
    >>> row.end - row.start
    100
    """

    __slots__ = ()
    if TYPE_CHECKING:
        _fields: tuple[str, ...]
        chromosome: str
        start: int
        end: int

        def __getattr__(self, name: str) -> Any: ...

    def __reduce__(self) -> tuple[Any, ...]:
        return row_of, (self._fields, tuple(self))


@lru_cache(maxsize=None)
def _row_class(fields: tuple[str, ...]) -> type[Row]:
    named = namedtuple("Row", fields, rename=True)  # type: ignore[misc]
    return type("Row", (Row, named), {"__slots__": ()})


def distinct(fields: tuple[str, ...]) -> tuple[str, ...]:
    """The names that rows with these columns have: each once."""
    return _row_class(fields)._fields


def row_of(fields: tuple[str, ...], columns: Iterable[Any]) -> Row:
    """A row with these names."""
    return tuple.__new__(_row_class(fields), columns)


def is_integer(field: str) -> bool:
    """Whether a column holds whole numbers alone."""
    return field in INTEGERS or field.startswith("count_")


def is_number(field: str) -> bool:
    """Whether a column holds whole numbers, and None if the program prints `.`."""
    return field.startswith(("sum_", "min_", "max_"))


def shows_second(words: Sequence[str]) -> bool:
    """Whether the rows of a view have the columns of a record of the second file."""
    return "-wb" in words


def count_of(words: Sequence[str], width: int, second: int) -> int:
    """How many columns the rows of a view have over a track of that width, and a second file of that."""
    kind, options = words[0], words[1:]
    if kind == "genomecov":
        return 3 if "-d" in options else 4
    if kind in ("merge", "complement", "getfasta"):
        return 3
    return width + (kind == "cluster" or "-c" in options) + (second if shows_second(options) else 0)


def fields_of(words: Sequence[str], columns: int, width: Optional[int]) -> tuple[str, ...]:
    """The names of the columns of a view's rows that have so many, over a track of that width."""
    kind, options = words[0], words[1:]
    if kind == "getfasta":
        return RECORD[:3] + (("strand", "bases") if "-s" in options else ("bases",))
    if kind == "merge":
        return RECORD[:3] + tuple(_results(options))
    if kind == "cluster":
        return RECORD[:columns - 1] + ("block",)
    if kind == "genomecov":
        return ("chromosome", "position", "depth") if "-d" in options else RECORD[:3] + ("depth",)
    if kind == "intersect" and "-c" in options:
        return RECORD[:columns - 1] + ("hits",)
    if kind == "intersect" and shows_second(options):
        if width is None:
            return RECORD[:3] + tuple(f"column_{number}" for number in range(4, columns + 1))
        return RECORD[:width] + tuple(f"second_{field}" for field in RECORD[:columns - width])
    return RECORD[:columns] + tuple(f"column_{number}" for number in range(len(RECORD) + 1, columns + 1))


def _results(options: Sequence[str]) -> Iterator[str]:
    """The names of the columns that -c and -o of merge add, in the order of their pairs."""
    if "-c" not in options:
        return
    columns = [int(column) for column in options[options.index("-c") + 1].split(",")]
    operations = options[options.index("-o") + 1].split(",") if "-o" in options else ["sum"]
    pairs = max(len(columns), len(operations))
    for number in range(pairs):
        yield f"{operations[number % len(operations)]}_{columns[number % len(columns)]}"


def _number(text: str) -> Optional[int]:
    return None if text == "." else int(text)


def _bases(line: str, stranded: bool) -> list[Any]:
    """The columns of a line of `getfasta -tab`: NAME:START-END, with -s also (STRAND), TAB, bases."""
    head, _, bases = line.partition("\t")
    chromosome, _, place = head.rpartition(":")
    strand = [place[-2]] if stranded else []
    start, _, end = (place[:-3] if stranded else place).partition("-")
    return [chromosome, int(start), int(end), *strand, bases]


class Lines:
    """Cuts what comes in pieces into whole lines. A line may be longer than any number of pieces."""

    def __init__(self) -> None:
        self._begun: list[bytes] = []

    def whole(self, piece: bytes) -> bytes:
        """The lines that this piece ends."""
        end = piece.rfind(b"\n") + 1
        if not end:
            self._begun.append(piece)
            return b""
        lines = b"".join([*self._begun, piece[:end]])
        self._begun = [piece[end:]]
        return lines


class Reader:
    """Makes rows of the lines of a view."""

    def __init__(self, words: Sequence[str], width: Optional[int]) -> None:
        self._words = words
        self._width = width
        self._row: Optional[type[Row]] = None
        self._split: Callable[[str], list[Any]] = lambda line: line.split("\t")
        self._converted: list[tuple[int, Callable[[str], Any]]] = []  # the columns that become something else than text

    def rows(self, lines: bytes) -> Iterator[Row]:
        """The rows of whole lines."""
        if not lines:
            return
        listed = decoded(lines[:-1]).split("\n")
        row, split, converted = self._row or self._begin(listed[0]), self._split, self._converted
        for line in listed:
            columns = split(line)
            for place, convert in converted:
                columns[place] = convert(columns[place])
            yield tuple.__new__(row, columns)

    def _begin(self, line: str) -> type[Row]:
        """Finds out how lines become rows, by the first one."""
        fields = fields_of(self._words, line.count("\t") + 1, self._width)
        if self._words[0] == "getfasta":
            self._split = lambda line: _bases(line, "-s" in self._words)
        else:
            self._converted += [(place, int) for place, field in enumerate(fields) if is_integer(field)]
            self._converted += [(place, _number) for place, field in enumerate(fields) if is_number(field)]
        self._row = _row_class(fields)
        return self._row


def by_sequence(lines: bytes) -> Iterator[tuple[str, list[bytes]]]:
    """The rows of whole lines of a view, those of one sequence after those of another."""
    rows = lines.split(b"\n")[:-1]
    if rows and _sequence(rows[0]) == _sequence(rows[-1]):
        yield decoded(_sequence(rows[0])), rows
    else:
        yield from ((decoded(name), list(group)) for name, group in groupby(rows, _sequence))


def _sequence(row: bytes) -> bytes:
    return row.partition(b"\t")[0]


def lines_with(lines: bytes, part: str) -> Iterator[str]:
    """Those of whole lines that have a text in them, in any case. If it isn't ASCII, they are all lines."""
    if not part.isascii():
        yield from decoded(lines).split("\n")[:-1]
        return
    searched, sought = lines.lower(), encoded(part.lower())
    place = searched.find(sought)
    while 0 <= place < len(lines):
        end = lines.find(b"\n", place) + 1
        yield decoded(lines[lines.rfind(b"\n", 0, place) + 1:end - 1])
        place = searched.find(sought, end)

"""What a track and a genome can be given as. `thing_of` decides what a given thing is.

A track is the path of a BED file, packed by gzip or not; a DataFrame of pandas, or a PyRanges; a table of polars or of Arrow; a
BedTool of pybedtools; or rows: any iterable of tuples, lists, dicts, or what a session or another run yields. The columns of tables,
dicts and named tuples are found by their names, those of other rows by their places. Positions count from 0, and ends aren't included.

A genome is the path of a file of sequences and lengths, packed or not; a dict of them; or pairs; or a table with a column `length`,
`size` or `end`.
"""
from __future__ import annotations

import csv
import importlib
import os
import re
from collections.abc import Mapping
from functools import lru_cache
from typing import Any, Iterable, NamedTuple, Optional, Protocol, Sequence, Union

from .encoding import Path
from .printed_rows import RECORD
from .record import NARROWEST, WIDEST
from .script import text_of

MEANT = {"chrom": 0, "stop": 2, **{name: place for place, name in enumerate(RECORD)}}
LENGTHS = {"chrom": 0, "chromosome": 0, "end": 1, "size": 1, "length": 1}
FURTHER = re.compile("column_([0-9]+)")  # the names of columns after the sixth
SCORE = RECORD.index("score")


class Frame(Protocol):
    """A table with named columns, such as a DataFrame of pandas or of polars."""

    @property
    def columns(self) -> Any: ...

    def __len__(self) -> int: ...


class Ranges(Protocol):
    """What has a DataFrame, as PyRanges do."""

    @property
    def df(self) -> Any: ...


class Stream(Protocol):
    """A table that gives its columns to others, as those of Arrow do."""

    def __arrow_c_stream__(self, requested_schema: Any = None) -> Any: ...


class Tool(Protocol):
    """A BedTool of pybedtools."""

    @property
    def fn(self) -> Any: ...


RowLike = Union[tuple[Any, ...], list[Any], Mapping[str, Any]]
Track = Union[Path, Frame, Ranges, Stream, Tool, Iterable[RowLike]]
Genome = Union[Path, Mapping[str, Union[int, tuple[int, int]]], Frame, Ranges, Stream, Tool, Iterable[RowLike]]


class Text(NamedTuple):
    """The text of what is no file, and what messages call it."""

    name: str
    text: str


def thing_of(given: Any) -> Any:
    """What a given thing is: the path of a file, a DataFrame of pandas, a Mapping of lengths, or an iterator of rows.

    TypeError if it is none of these.
    """
    if isinstance(given, (str, os.PathLike)):
        return path_of(given)
    if is_frame(given) or isinstance(given, Mapping):
        return given
    if hasattr(given, "iter_rows"):
        return given.iter_rows(named=True)
    if hasattr(given, "df"):
        return thing_of(given.df() if callable(given.df) else given.df)
    if isinstance(getattr(given, "fn", None), str):  # a BedTool over a file; any other one gives Intervals
        return given.fn
    if hasattr(given, "items"):  # a Series of pandas
        return dict(given.items())
    if hasattr(given, "__arrow_c_stream__"):
        return iter((given if hasattr(given, "to_pylist") else importlib.import_module("pyarrow").table(given)).to_pylist())
    if isinstance(given, Iterable) and not isinstance(given, (bytes, bytearray)):
        return iter(given)
    raise TypeError(f"a path, a table or rows are taken here, and not {given!r}")


def path_of(given: Path) -> str:
    path = os.fspath(given) if isinstance(given, (str, os.PathLike)) else given
    if not isinstance(path, str):
        raise TypeError(f"a path is text, and not {given!r}")
    return path


def track_of(given: Track) -> Union[str, Text]:
    """The path of a BED file, or the text of a track that is given otherwise."""
    thing = thing_of(given)
    if isinstance(thing, str):
        return thing
    if isinstance(thing, Mapping):
        raise TypeError(f"a track is a path, a table or rows, and not {given!r}")
    if is_frame(thing):
        return Text("table", _without_comments(_frame_text(thing)) if len(thing.columns) else "")  # PyRanges without a record have none
    return Text("rows", _without_comments("".join([_line(number, row) for number, row in enumerate(thing, 1)])))


def genome_of(given: Genome) -> Union[str, Text]:
    """The path of a genome file, or the text of lengths that are given otherwise."""
    thing = thing_of(given)
    if isinstance(thing, str):
        return thing
    rows = thing.items() if isinstance(thing, Mapping) else thing.to_dict("records") if is_frame(thing) else thing
    return Text("genome", "".join(_length_line(number, row) for number, row in enumerate(rows, 1)))


def is_frame(given: object) -> bool:
    """Whether it is a DataFrame of pandas."""
    return hasattr(given, "columns") and hasattr(given, "iloc")


def places_of(names: Iterable[Any], meant: Mapping[str, int], needed: int, what: str) -> list[Optional[Any]]:
    """The names of columns in their order, None for one that is missing before another. needed: how many have to be there

    ValueError if one of these is missing, or one is there twice.
    """
    found: dict[int, Any] = {}
    for name in names:
        place = meant.get(name.lower()) if isinstance(name, str) else None
        if place is not None:
            if place in found:
                raise ValueError(f"{what} has both {found[place]!r} and {name!r}")
            found[place] = name
    called = {place: name for name, place in meant.items()}
    missing = [called[place] for place in range(needed) if place not in found]
    if missing:
        raise ValueError(f"{what} has no {' and no '.join(missing)}")
    if len(found) == WIDEST:  # of a record of more columns
        further = {int(match[1]) - 1: name for name in names if isinstance(name, str) for match in [FURTHER.fullmatch(name)] if match}
        found.update((place, further[place]) for place in range(WIDEST, WIDEST + len(further)) if place in further)
    return [found.get(place) for place in range(max(found) + 1)]


def _frame_text(frame: Any) -> str:
    """The records of a DataFrame as a BED file. What is missing is `.`, and so are name and score if only a later column is there."""
    pandas = importlib.import_module("pandas")
    found = places_of(frame.columns, MEANT, NARROWEST, "the table")
    columns = {place: "." if label is None else _column(place, frame[label]) for place, label in enumerate(found)}
    try:
        text: str = pandas.DataFrame(columns, index=frame.index).to_csv(
            sep="\t", header=False, index=False, na_rep=".", quoting=csv.QUOTE_NONE)
    except csv.Error:
        raise ValueError("a TAB or the end of a line in a column of the table") from None
    return text


def _without_comments(text: str) -> str:
    """The text of records, of which none is left out as a comment."""
    place = 0 if text.startswith("#") else text.find("\n#")
    if place >= 0:
        raise ValueError(f"row {text.count(chr(10), 0, place + 1) + 1}: a line that begins with # is a comment")
    return text


@lru_cache(maxsize=64)
def _places(names: tuple[Any, ...]) -> Sequence[Optional[int]]:
    """At which places of a row the columns of its record are, by the names of all columns."""
    return [None if name is None else names.index(name) for name in places_of(names, MEANT, NARROWEST, "it")]


def _values(number: int, row: Any) -> Sequence[Any]:
    """The columns of a row: by their names if it has names."""
    if type(row) is tuple or type(row) is list:
        return row
    if isinstance(row, Mapping):
        names, values = tuple(row), tuple(row.values())
    else:
        names, values = getattr(row, "_fields", ()), getattr(row, "fields", row)  # an Interval of pybedtools has its columns there
        if not isinstance(values, (tuple, list)):
            raise TypeError(f"row {number} is its columns, and not {row!r}")
        if not names:
            return values
    try:
        places = _places(names)
    except ValueError as failure:
        raise ValueError(f"row {number}: {failure}: {row!r}") from None
    return [None if place is None else values[place] for place in places]


def _line(number: int, row: Any) -> str:
    """The line of a row of a track."""
    values = _values(number, row)
    if len(values) < NARROWEST:
        raise ValueError(f"row {number} has too few columns, chromosome, start and end are needed: {row!r}")
    line = "\t".join([value if type(value) is str else str(value) if type(value) is int else _text(number, place, value)
                      for place, value in enumerate(values)])
    if line.count("\t") >= len(values) or "\n" in line or "\r" in line:
        raise ValueError(f"row {number}: a TAB or the end of a line in a column: {row!r}")
    return line + "\n"


def _text(number: int, place: int, value: object) -> str:
    if place >= NARROWEST and (value is None or isinstance(value, float) and value != value):
        return "."
    try:
        return score_of(value) if place >= SCORE else text_of(value)
    except TypeError:
        name = RECORD[place] if place < WIDEST else f"column {place + 1}"
        kind = "a whole number" if place in (1, 2) else "text"
        raise TypeError(f"row {number}: {name} is {kind}, and not {value!r}") from None


def _length_line(number: int, row: Any) -> str:
    """The line of a genome file for a sequence and its length. pybedtools has the pair of 0 and the length."""
    named = row if isinstance(row, Mapping) else dict(zip(row._fields, row)) if hasattr(row, "_fields") else None
    pair = row if named is None else [named[name] for name in places_of(named, LENGTHS, 2, f"row {number}")]
    if not isinstance(pair, (tuple, list)) or len(pair) != 2:
        raise TypeError(f"row {number} of a genome is a sequence and its length, and not {row!r}")
    name, length = pair
    if isinstance(length, tuple) and len(length) == 2 and length[0] == 0:
        length = length[1]
    try:
        return f"{text_of(name)}\t{text_of(length)}\n"
    except TypeError:
        raise TypeError(f"row {number} of a genome is a sequence and its length, and not {pair!r}") from None


def _column(place: int, values: Any) -> Any:
    """Values of a column. pandas makes floats of whole numbers if one is missing; they are written without a fraction."""
    if values.dtype.kind != "f":
        return values
    if place >= SCORE:
        return values.map(score_of, na_action="ignore")
    if not (values == values.round()).all():
        number, value = next((number, value) for number, value in enumerate(values, 1) if not float(value).is_integer())
        raise ValueError(f"row {number}: {RECORD[place]} is a whole number, and not {value}")
    return values.astype("int64")


def score_of(value: object) -> str:
    """A score as text: text, a whole number, or one with a fraction."""
    if not isinstance(value, float):
        return text_of(value)
    if value != value:
        raise TypeError("a score is text or a number, and not nan")
    return str(int(value)) if value.is_integer() else repr(float(value))

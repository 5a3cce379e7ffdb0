"""Tables of pandas, which has to be installed for them: of rows, and the edits that make one of another."""
# mypy: disable-error-code="import"
from __future__ import annotations

import csv
import importlib
import io
from typing import TYPE_CHECKING, Any, Callable, Iterable, Optional, Sequence

from .given import Text, Track, track_of
from .pairs import beyond, changes
from .printed_rows import RECORD, Reader, Row, count_of, distinct, fields_of, is_integer, is_number
from .record import NARROWEST

if TYPE_CHECKING:
    from pandas import DataFrame

NAMES = {
    "bedkeep": RECORD,
    "bioframe": ("chrom", "start", "end", "name", "score", "strand"),
    "pyranges": ("Chromosome", "Start", "End", "Name", "Score", "Strand"),
}
SUFFIX = {"bioframe": "_", "pyranges": "_b"}  # of the columns of a second record
SECOND = "second_"


def to_frame(rows: Iterable[Row], names: str = "bedkeep") -> DataFrame:
    """The rows as a DataFrame of pandas, which has to be installed.

    Parameters
    ----------
    rows : iterable of Row
        Rows of a run, or a list of rows.
    names : str, optional
        What the columns of a record are called, as in the rows ("bedkeep"), in bioframe or in pyranges.

    Examples
    --------
    >>> bedkeep.to_frame(bedkeep.merge("sizes", "genes.bed"), names="pyranges")["End"].tolist()
    [200, 400]
    """
    made: Optional[Callable[[str], DataFrame]] = getattr(rows, "to_frame", None)
    if made:
        return made(names)
    listed = list(rows)
    return frame_of_rows(listed, listed[0]._fields if listed else (), names)


def frame_of_rows(rows: Sequence[Row], fields: Sequence[str], names: str) -> DataFrame:
    """A DataFrame of rows with these columns."""
    frame: DataFrame = importlib.import_module("pandas").DataFrame.from_records(rows, columns=renamed(fields, names))
    return frame


def frame_of_text(text: bytes, words: Sequence[str], width: Optional[int], second: Optional[int], names: str) -> DataFrame:
    """A DataFrame of the rows that a view printed, read by pandas, so that no object is made for each row.

    width, second: how many columns the records of the track have, and those of the second file, if that is known
    """
    if text:
        fields = fields_of(words, text[:text.index(b"\n")].count(b"\t") + 1, width)
    else:
        fields = fields_of(words, count_of(words, width or NARROWEST, second or NARROWEST), width or NARROWEST)
    called = renamed(fields, names)
    pandas = importlib.import_module("pandas")
    frame: DataFrame
    if not text:
        frame = pandas.DataFrame({
            name: pandas.Series(dtype="Int64" if is_number(field) else "int64" if is_integer(field) else object)
            for name, field in zip(called, fields)})
        return frame
    if words[0] == "getfasta":
        return frame_of_rows(list(Reader(words, None).rows(text)), fields, names)
    table = pandas.read_csv(
        io.BytesIO(text), sep="\t", header=None, names=called, na_filter=False, quoting=csv.QUOTE_NONE, lineterminator="\n",
        skip_blank_lines=False, encoding_errors="surrogateescape",
        dtype={name: "int64" if is_integer(field) else object for name, field in zip(called, fields)})
    for name, field in zip(called, fields):
        if is_number(field):
            table[name] = _numbers(pandas, table[name])
    frame = table
    return frame


def _numbers(pandas: Any, column: Any) -> Any:
    """A column of numbers, of which the program prints some as `.`; those that pandas can't hold stay what Python has."""
    numbers = [None if text == "." else int(text) for text in column]
    large = any(number is not None and number.bit_length() > 63 for number in numbers)
    return pandas.Series(numbers, dtype=object) if large else pandas.array(numbers, dtype="Int64")


def renamed(fields: Sequence[str], names: str) -> list[str]:
    """The columns under the names of another library."""
    if names not in NAMES:
        raise ValueError(f"names is one of {', '.join(NAMES)}, and not {names!r}")
    called = dict(zip(RECORD, NAMES[names]))
    if names in SUFFIX:
        called.update({SECOND + field: called[field] + SUFFIX[names] for field in RECORD})
    return [called.get(field, field) for field in distinct(tuple(fields))]


def edits(old: Track, new: Track) -> list[str]:
    r"""The lines of a script that make the second table of the first one: `replace` if a record has its name or its place in both.

    What makes one file of another is `diff`.

    Parameters
    ----------
    old, new : Track
        Tables with the columns of a record, or rows: start counts from 0, and end is not included.

    Raises
    ------
    ValueError
        A table lacks a column, or one has more columns of a record than the other.

    Examples
    --------
    >>> old = session.to_frame()
    >>> bedkeep.edits(old, old.assign(end=[250, 400]))
    ['replace\tchr1\t100\t200\tgeneA\tchr1\t100\t250\tgeneA']
    """
    before, after = _lines(old), _lines(new)
    widths = {len(lines[0].split("\t")) for lines in (before, after) if lines}
    if len(widths) > 1:
        raise ValueError("the records of the tables have {} and {} columns".format(*sorted(widths)))
    return [line for change in changes(beyond(before, after), beyond(after, before)) for line in change.lines()]


def _lines(table: Track) -> list[str]:
    """The records of a table or of rows, as lines."""
    given = track_of(table)
    if not isinstance(given, Text):
        raise TypeError(f"tables or rows are taken here, and not {given!r}")
    return given.text.split("\n")[:-1]

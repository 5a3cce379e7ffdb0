"""What is said of a line, in parts: the page renders them as HTML, the prompt as text, and the desk has them as JSON."""
from __future__ import annotations

import re
from itertools import zip_longest
from typing import Any, Mapping, NamedTuple, Optional, Sequence

from ..commands.corrections import Line
from ..record import Record

TEXT, BOLD, CODE, LINK, RECORDS, LINE = "text", "bold", "code", "link", "records", "line"
MARKED = re.compile(r"(\*[^*]+\*|`[^`]+`)")


class Part(NamedTuple):
    """A part of a note.

    kind:   of a text; or link, to the line of that number; records, below each other; line, one of a script that fits
    rows:   records with their titles
    """

    kind: str
    text: str
    number: int = 0
    rows: tuple[tuple[str, Record], ...] = ()


Note = tuple[Part, ...]


def said(text: str) -> Note:
    """A note of a text with *bold* and `code`. What comes out of files is put in by `plain`."""
    kinds = {"*": BOLD, "`": CODE}
    return tuple(Part(kinds[piece[0]], piece[1:-1]) if MARKED.fullmatch(piece) else Part(TEXT, piece)
                 for piece in MARKED.split(text) if piece)


def plain(text: str) -> Note:
    """A note of a text as it is."""
    return (Part(TEXT, text),)


def link(line: Line) -> Part:
    return Part(LINK, f"line {line.place}", line.number)


def beside(*rows: tuple[str, Optional[Record]]) -> Part:
    """Records below each other, each after its title, but for those that there aren't."""
    return Part(RECORDS, "", rows=tuple((title, record) for title, record in rows if record))


class Column(NamedTuple):
    """A column of records that are below each other: how wide it is, and whether they differ in it."""

    width: int
    differs: bool


def columns_of(rows: Sequence[tuple[str, Record]]) -> list[Column]:
    listed = zip_longest(*(record for _, record in rows), fillvalue="")
    return [Column(max(map(len, column)), len(set(column)) > 1) for column in listed]


def as_json(note: Note) -> list[dict[str, Any]]:
    """A note as lists and dicts. Each record says of each column whether it differs."""
    return [_json(part) for part in note]


def _json(part: Part) -> dict[str, Any]:
    answer: dict[str, Any] = {"kind": part.kind, "text": part.text}
    if part.kind == LINK:
        answer["number"] = part.number
    if part.kind == RECORDS:
        differs = [column.differs for column in columns_of(part.rows)]
        answer["rows"] = [{"title": title, "columns": list(record), "differs": differs[:len(record)]} for title, record in part.rows]
    return answer


def as_text(note: Sequence[Mapping[str, Any]]) -> str:
    """A note of `as_json` for a terminal."""
    return "".join(map(_text, note))


def _text(part: Mapping[str, Any]) -> str:
    if part["kind"] == RECORDS:
        return ", ".join(f"{row['title']}: {' '.join(row['columns'])}" for row in part["rows"])
    return f"`{part['text']}`" if part["kind"] == CODE else str(part["text"]).replace("\t", " ")

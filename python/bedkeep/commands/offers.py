"""Lines that may be meant instead of one whose fields are at fault. Nothing here asks a program: `explain` tries them."""
from __future__ import annotations

import re
from difflib import get_close_matches
from typing import Any, Callable, Iterator, Mapping, NamedTuple, Optional, Sequence

from ..record import NARROWEST, WIDEST, Record
from ..regions import same_sequence
from ..script import EDITS
from .corrections import Line
from .places import read_place

STRANDS = {"1": "+", "plus": "+", "forward": "+", "-1": "-", "minus": "-", "reverse": "-"}
DEFAULTS = (".", "0", ".")  # of a name, a score and a strand
COMMANDS = {"delete": "remove", "del": "remove", "rm": "remove", "insert": "add"}
BETWEEN_DIGITS = re.compile("[,_ ']")
Lengths = Mapping[str, int]


class Offer(NamedTuple):
    """Lines of a script that would fit. Several are done together. record: the one that is there, if they are over that"""

    lines: tuple[str, ...]
    note: str = ""
    record: Optional[Record] = None

    def as_json(self) -> dict[str, Any]:
        return {"lines": list(self.lines), "note": self.note, "record": list(self.record) if self.record else None}


def meant(line: Line, lengths: Lengths) -> Iterator[Offer]:
    """What a line may mean that is refused for a field. lengths: of the genome at that line"""
    make = MAKERS.get(line.refusal)
    return make(line, lengths) if make else iter(())


def begins(line: Line) -> list[int]:
    """At which of its fields the record of a line begins, or its two."""
    second = len(line.fields) // 2 if bool(line.old_tail) == bool(line.new_tail) else WIDEST if line.new_tail else line.width
    return [0, second] if line.command.startswith("replace") else [0]


def with_fields(line: Line, fields: Sequence[str], note: str = "") -> Iterator[Offer]:
    """The line with other fields, if these are others."""
    if list(fields) != line.fields:
        yield Offer(("\t".join([line.command, *fields]),), note)


def _other_sequence(line: Line, lengths: Lengths) -> Iterator[Offer]:
    """With the name that the genome has, which has `chr` or not, or another case."""
    fields = [*line.fields]
    for at in begins(line):
        if at < len(fields) and fields[at] not in lengths:
            fields[at] = next((name for name in lengths if same_sequence(name, fields[at])), fields[at])
    return with_fields(line, fields, "as the genome file calls it")


def _other_number(line: Line, _: Lengths) -> Iterator[Offer]:
    """With the digits of a number alone."""
    places = [1] if line.command == "resize" else [at + column for at in begins(line) for column in (1, 2)]
    fields = [BETWEEN_DIGITS.sub("", field) if at in places else field for at, field in enumerate(line.fields)]
    return with_fields(line, fields)


def _exchanged(line: Line, _: Lengths) -> Iterator[Offer]:
    """With start and end exchanged that are the wrong way round."""
    fields = [*line.fields]
    for at, _name, start, end in _places(line):
        if start > end:
            fields[at + 1:at + 3] = [fields[at + 2], fields[at + 1]]
    return with_fields(line, fields)


def _ending_earlier(line: Line, lengths: Lengths) -> Iterator[Offer]:
    """With ends that are the sequence's, or after a line that makes the sequence longer."""
    fields, longest = [*line.fields], dict[str, int]()
    for at, name, start, end in _places(line):
        if end > lengths.get(name, end):
            longest[name] = max(end, longest.get(name, 0))
            fields[at + 2] = str(max(lengths[name], start))
    names = " and ".join(longest)
    yield from with_fields(line, fields, f"to the end of {names}")
    if longest:
        yield Offer((*(f"resize\t{name}\t{end}" for name, end in longest.items()), line.text), f"{names} is longer by now")


def _places(line: Line) -> Iterator[tuple[int, str, int, int]]:
    """At which of its fields a record of a line begins, with its place."""
    for at in begins(line):
        name, *bounds = line.fields[at:at + NARROWEST]
        if len(bounds) == 2 and all(bound.isascii() and bound.isdigit() for bound in bounds):
            yield at, name, int(bounds[0]), int(bounds[1])


def _of_column(line: Line, _: Lengths) -> Iterator[Offer]:
    """With a name, a score or a strand that there can be."""
    fields = [*line.fields]
    for at in begins(line):
        for column, default in enumerate(DEFAULTS, at + NARROWEST):
            if column < len(fields) and not fields[column]:
                fields[column] = default
        strand = at + WIDEST - 1
        if strand < len(fields) and fields[strand] not in ("+", "-", "."):
            fields[strand] = STRANDS.get(fields[strand].lower(), ".")
    return with_fields(line, fields)


def _other_command(line: Line, _: Lengths) -> Iterator[Offer]:
    """With TABs for spaces, or with a command that there is."""
    if "\t" not in line.text and len(line.text.split()) > NARROWEST:
        yield Offer(("\t".join(line.text.split()),))
    elif line.command not in {*EDITS, "resize"}:
        given = line.command.lower()
        known = COMMANDS.get(given) or next(iter(get_close_matches(given, sorted({*EDITS, "resize"}), 1)), "")
        if known:
            yield Offer(("\t".join([known, *line.fields]),))


def _other_columns(line: Line, lengths: Lengths) -> Iterator[Offer]:
    """With three columns for a place; with the columns that are missing, or without those that are too many."""
    fields: list[str] = []
    for field in line.fields:
        fields += columns_of(field, lengths)
    narrow = min(line.width or WIDEST, WIDEST)
    if line.command.startswith("add") and NARROWEST <= len(fields) != line.width:
        fields = [*fields[:narrow], *DEFAULTS[len(fields) - NARROWEST:narrow - NARROWEST]]
    return with_fields(line, fields)


def columns_of(field: str, lengths: Lengths) -> list[str]:
    """The columns of a place, or the field as it is."""
    try:
        place = read_place(field if ":" in field and field not in lengths else "", lengths)
    except ValueError:
        return [field]
    return [place.sequence, str(place.start), str(place.end)]


MAKERS: dict[str, Callable[[Line, Lengths], Iterator[Offer]]] = {
    "unknown sequence": _other_sequence, "start is not a number": _other_number, "end is not a number": _other_number,
    "start not below end": _exchanged, "end past the sequence's end": _ending_earlier, "bad name": _of_column,
    "bad score": _of_column, "bad strand": _of_column, "no such command or wrong fields": _other_command,
    "wrong number of columns": _other_columns,
}

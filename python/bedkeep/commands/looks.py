"""What the prompt shows: the records at a place, of a name or near one, and the rows of a view there."""
from __future__ import annotations

from typing import Iterable, Sequence

from ..printed_rows import Row
from ..session import Session
from .drawn_regions import with_tails
from .references import References, Unclear, references

VIEWS = {"merge", "cluster", "complement", "genomecov", "intersect", "subtract", "getfasta", "records"}
VALUES = {"merge": {"-d", "-c", "-o"}, "cluster": {"-d"}}  # options of a view that have a value
MOST_ROWS = 40
NEAR = 5


def options_and_rest(fields: Sequence[str]) -> tuple[list[str], list[str]]:
    """A view with its options, and the other fields of its line: names and places."""
    options: list[str] = [fields[0]]
    rest: list[str] = []
    at = 1
    while at < len(fields):
        count = 2 if fields[at] in VALUES.get(fields[0], ()) else 1
        (options if fields[at].startswith("-") else rest).extend(fields[at:at + count])
        at += count
    return options, rest


class Looks:
    """Prints what is asked for of a session. Each answer begins with what a place or a name was taken for."""

    def __init__(self, session: Session, found: References) -> None:
        self._session, self._references = session, found

    def show(self, text: str) -> None:
        """The records that overlap a place, or the one record of a name, or all of several of that name."""
        try:
            place = self._references.place_of(text)
        except Unclear as unclear:
            if not unclear.rows:
                raise
            found = self._references.meant(text)
            self.print_found(found.said, found.rows)
        else:
            self.print_found(place.said, self._session.region(*place[:3]), "no record is there")

    def find(self, text: str) -> None:
        """The records of a name, then those of it in any case, then those with it in their names; or those at a place."""
        named = self._references.named(text)
        for found in named:
            self.print_found(found.said, found.rows)
        if not named:
            self.show(text)

    def near(self, text: str) -> None:
        """The records of a sequence that are nearest to a place, or to the record of a name."""
        place = self._references.place_of(text)
        self.print_found(f"near {place.said}", self._session.near(*place[:3], NEAR), f"{place.sequence} has no record")

    def view(self, fields: Sequence[str]) -> None:
        """The rows of a view, or those that overlap the place after its options."""
        options, rest = options_and_rest(fields)
        places = references(rest)
        if not places:
            rows = self._session.view(" ".join(options))
            _print(map(_text, rows[:MOST_ROWS]), len(rows))
            return
        if len(places) > 1:
            raise ValueError(f"{options[0]} has its options after it, and one place or name: {' '.join(rest)}")
        place = self._references.place_of(places[0])
        rows = self._session.show(" ".join(options), *place[:3])
        print(f"{place.said}:" if rows else f"{place.said}: no row is there")
        _print(map(_text, rows[:MOST_ROWS]), len(rows))

    def print_found(self, said: str, rows: Sequence[Row], none: str = "") -> None:
        """Prints records below what was looked for."""
        print(f"{said}:" if rows else f"{said}: {none}")
        self.print_records(rows)

    def print_records(self, rows: Sequence[Row]) -> None:
        """Prints records with all their columns."""
        _print(with_tails(self._session, list(map(_text, rows[:MOST_ROWS]))), len(rows))


def _text(row: Row) -> str:
    return "\t".join("." if column is None else str(column) for column in row)


def _print(first: Iterable[str], count: int) -> None:
    """Prints the first rows of so many."""
    for row in first:
        print(row)
    if count > MOST_ROWS:
        print(f".. and {count - MOST_ROWS} more rows")

"""The records that somebody means: by a name, by a name in any case, by a part of it, or by a place."""
from __future__ import annotations

from typing import NamedTuple, Sequence

from ..printed_rows import Row
from ..record import NARROWEST
from ..session import Session
from .places import NUMBER, NoPlace, Place, read_place

NEAREST = 3


class Found(NamedTuple):
    """The records that a text means, what it was taken for, such as `named geneA`, and whether that is all that it says."""

    rows: list[Row]
    said: str
    is_exact: bool = True


class Unclear(ValueError):
    """Not one record is meant. rows: those that may be; text: what is unclear, if one of them is meant"""

    def __init__(self, message: str, rows: Sequence[Row] = (), text: str = "") -> None:
        super().__init__(message)
        self.rows, self.text = list(rows), text


def references(fields: Sequence[str]) -> list[str]:
    """Fields as names and places. A place such as chr1 100 200 is three fields, all else is one."""
    found = []
    at = 0
    while at < len(fields):
        count = 3 if len(fields) > at + 2 and all(map(NUMBER.fullmatch, fields[at + 1:at + 3])) else 1
        found.append(" ".join(fields[at:at + count]))
        at += count
    return found


class References:
    """Looks for records of a session."""

    def __init__(self, session: Session) -> None:
        self._session = session
        self._has_names = session.width > NARROWEST

    def place(self, text: str) -> Place:
        """The place that a text means over the genome as it is now. Raises as `read_place` does."""
        return read_place(text, self._session.lengths)

    def named(self, text: str) -> list[Found]:
        """The records of that name, those of it in any case, and those with it in their names; only the kinds that there are."""
        return [*self._exactly_named(text), *self._like(text)]

    def meant(self, text: str) -> Found:
        """The records of the name; else of exactly the place; else of the name in any case; else with it in their names.

        Unclear if there are none.
        """
        exact = self._exactly_named(text)
        if exact:
            return exact[0]
        try:
            place = self.place(text)
        except NoPlace as no_place:
            for found in self._like(text):
                return found
            raise Unclear(f"no record has {text} in its name, and {no_place}" if text else str(no_place)) from None
        rows = self._at(place)
        if rows:
            return Found(rows, f"at {place.said}")
        for found in self._like(text):
            return found
        raise self._beside(text, place)

    def exact(self, text: str) -> Found:
        """The records of the whole name, or of exactly the place. Unclear if there are none, with those that are like it."""
        found = self.meant(text)
        if not found.is_exact:
            raise Unclear(f"no record is named {text}; {found.said}:", found.rows, text)
        return found

    def one(self, text: str, exact: bool = False) -> Found:
        """The one record that is meant, with what the text was taken for. Unclear if there is none, or more that differ.

        exact: whether a name has to be whole, and in its own case
        """
        found = self.exact(text) if exact else self.meant(text)
        rows = list(dict.fromkeys(found.rows))
        if len(rows) > 1:
            raise Unclear(f"{len(rows)} records are {found.said}: give the place of one, or all its columns", rows, text)
        return found._replace(rows=rows)

    def place_of(self, text: str) -> Place:
        """The place that a text is, or that of the one record that is meant."""
        try:
            return self.place(text)
        except NoPlace:
            found = self.one(text)
        row = found.rows[0]
        return Place(row.chromosome, row.start, row.end, f"{found.said}, at {' '.join(map(str, row[:3]))}, from 0")

    def _exactly_named(self, text: str) -> list[Found]:
        rows = self._session.find(text) if text and self._has_names else []
        return [Found(rows, f"named {text}")] if rows else []

    def _like(self, text: str) -> list[Found]:
        """The records of a name in any case, and those with it in their names, without those of just that name."""
        folded = text.casefold()
        others = [row for row in self._session.search(text) if row.name != text] if text and self._has_names else []
        kinds = (Found([row for row in others if row.name.casefold() == folded], f"named {text} in any case", False),
                 Found([row for row in others if row.name.casefold() != folded], f"with {text} in the name", False))
        return [found for found in kinds if found.rows]

    def _at(self, place: Place) -> list[Row]:
        return [] if place.is_cut else [row for row in self._session.region(*place[:3]) if row[1:3] == place[1:3]]

    def _beside(self, text: str, place: Place) -> Unclear:
        """What is there if the place is counted from 0, or near it."""
        if ":" in text and place.end - place.start > 1:
            rows = self._at(place._replace(start=place.start + 1))
            if rows:
                return Unclear(f"no record is at {place.said}; from 0 one is, {' '.join(map(str, rows[0][:3]))}:", rows, text)
        near = self._session.near(*place[:3], NEAREST)
        return Unclear(f"no record is at {place.said}{'; near it:' if near else ''}", near)

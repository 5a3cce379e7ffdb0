"""Why lines were refused, in sentences, and lines that fit instead.

    for explained in explain(lines, session, lengths, attempt):  # of lines that a Carrier judged
        explained.says, explained.offers

No line is offered over a record that has another name and another place. With `attempt` each offer was tried, and fits.
"""
from __future__ import annotations

from typing import Any, Callable, Iterator, Mapping, NamedTuple, Optional, Sequence

from ..errors import without_fields
from ..printed_rows import RECORD
from ..record import NAMELESS, NARROWEST, WIDEST, Record, name_of, overlap, record_of
from ..review.intervals import of_record
from ..review.notes import difference, what_to_do
from ..review.parts import Note, as_json, beside, plain
from ..session import UNDONE, Session
from .corrections import ABSENT, Line
from .offers import Offer, columns_of, meant, with_fields
from .three_way import Version, line_over

MOST_LINES, MOST_OFFERS, DEEP = 3, 5, 2
Attempt = Callable[[Sequence[str]], Sequence[Line]]


class Explained(NamedTuple):
    """A refused line, what is to be said of it, and lines that fit; of a line among several, with the others."""

    line: Line
    says: list[Note]
    offers: list[Offer]

    def as_json(self) -> dict[str, Any]:
        return {"text": self.line.text, "reason": self.line.refusal, "message": self.line.message,
                "says": list(map(as_json, self.says)), "offers": [offer.as_json() for offer in self.offers]}


def explain(lines: Sequence[Line], session: Session, lengths: Mapping[str, int], attempt: Optional[Attempt] = None,
            second: Optional[Session] = None) -> list[Explained]:
    """Why the first lines of some were refused that were judged.

    lengths: at these lines; attempt: judges other lines, and leaves nothing of them; second: over the second file as its track
    """
    explainer = Explainer(session, lengths, attempt, second)
    return [Explained(line, list(explainer.says(line)), list(explainer.offers(lines, line))) for line in wrong_of(lines)[:MOST_LINES]]


def wrong_of(lines: Sequence[Line]) -> list[Line]:
    """The refused lines, without those that are well beside one that isn't."""
    return [line for line in lines if line.refusal and not line.refusal.startswith(UNDONE)]


class Explainer:
    """Says why a line was refused, and looks for lines that fit. Its parameters are those of `explain`."""

    def __init__(self, session: Session, lengths: Mapping[str, int], attempt: Optional[Attempt], second: Optional[Session]) -> None:
        self._first, self._second, self._lengths, self._attempt = session, second, lengths, attempt
        self._found: dict[str, list[Record]] = {}

    def says(self, line: Line) -> Iterator[Note]:
        hints = without_fields(line.hints) if line.refusal != ABSENT or line.offers else []
        session = self._of(line)
        if session and line.refusal == "wrong number of columns":
            hints = [columns_needed(line.command, RECORD[:session.width], session.columns())]
        yield from map(plain, hints)
        if not hints:
            yield from what_to_do(line, self._lengths)
        if line.there:
            yield (beside(("asked", line.new), ("there", line.there)),)
        elif line.old and line.refusal == ABSENT:
            near = self._near(line)
            if not any(_may_be(line.old, record) for record in near):
                yield from (plain(f"near: {' '.join(record)}") for record in near)

    def offers(self, lines: Sequence[Line], line: Line, deep: int = DEEP) -> Iterator[Offer]:
        """The first lines that fit, for all of some lines of which one is refused."""
        found: dict[tuple[str, ...], Offer] = {}
        for offer in self._offers(line):
            whole = [text for one in lines for text in (offer.lines if one is line else (one.text,))]
            for fitting in self._fitting(offer._replace(lines=tuple(whole)), deep):
                found.setdefault(fitting.lines, fitting)
            if len(found) >= MOST_OFFERS:
                break
        return iter([*found.values()][:MOST_OFFERS])

    def _fitting(self, offer: Offer, deep: int) -> Iterator[Offer]:
        """An offer if it fits; else what is offered instead of it."""
        lines = self._attempt(offer.lines) if self._attempt else []
        wrong = wrong_of(lines)
        if all(line.is_done for line in lines):
            yield offer
        elif wrong and deep:
            for other in self.offers(lines, wrong[0], deep - 1):
                yield Offer(other.lines, ", ".join(filter(None, [offer.note, other.note])), other.record or offer.record)

    def _offers(self, line: Line) -> Iterator[Offer]:
        """What may be meant by a line, whether or not it fits."""
        yield from (Offer((text,), record=line.there) for text in line.offers)
        yield from meant(line, self._lengths)
        session = self._of(line)
        if session and line.refusal == ABSENT and line.old:
            for record in self._near(line):
                yield from self._over(line, line.old, record, session)
        elif session and line.refusal == "wrong number of columns" and not line.command.startswith("add"):
            yield from self._at_place(line, session)
        elif line.refusal == "records past the new end":
            rows = self._first.region(line.fields[0], int(line.fields[1]) - 1)
            if rows:
                yield from with_fields(line, [line.fields[0], str(max(row.end for row in rows))], "where its last record ends")

    def _of(self, line: Line) -> Optional[Session]:
        """The session whose track the line is about, if there is one."""
        return self._second if line.is_second else self._first

    def _near(self, line: Line) -> list[Record]:
        """The records nearest to the one that a line names, and those of its name if these are elsewhere."""
        if line.text not in self._found:
            self._found[line.text] = self._near_or_named(self._of(line), line.old or ())
        return self._found[line.text]

    def _near_or_named(self, session: Optional[Session], old: Record) -> list[Record]:
        rows = session.near(old[0], int(old[1]), int(old[2])) if session else []
        records = [record_of(list(map(str, row))) for row in rows]
        name = name_of(old)
        if session and name not in NAMELESS and all(name_of(record) != name for record in records):
            records += [record_of(list(map(str, row))) for row in session.find(name)[:MOST_LINES]]
        return records

    def _over(self, line: Line, old: Record, record: Record, session: Session) -> Iterator[Offer]:
        """The line over a record that is near: what it leaves alone is as it is there."""
        if not _may_be(old, record):
            return
        tail = session.tails(record)[0] if session.columns() > WIDEST else None
        text, merged = line_over(line, Version(record, tail), self._lengths, insist=True)
        mine, theirs = of_record(old), of_record(record)
        if text and mine and theirs and (not merged.version or merged.version.record != record or merged.version.tail not in (None, tail)):
            note = difference(mine, theirs)
            yield Offer((text,), note[0].lower() + note[1:-1], record)

    def _at_place(self, line: Line, session: Session) -> Iterator[Offer]:
        """The line with the columns of the record at its place that it lacks."""
        fields = [column for field in line.fields for column in columns_of(field, self._lengths)]
        half = len(fields) // 2 if line.command.startswith("replace") else len(fields)
        if half < NARROWEST or len(fields) % half or fields[0] not in self._lengths or not all(map(str.isdigit, fields[1:3])):
            return
        for row in session.region(fields[0], int(fields[1]), int(fields[2])) if int(fields[1]) < int(fields[2]) else ():
            columns = list(map(str, row))
            if columns[:half] == fields[:half][:len(columns)]:
                new = [*fields[half:], *columns[half:]] if half < len(fields) else []
                yield from with_fields(line, [*columns, *new])


def _may_be(one: Record, other: Record) -> bool:
    """Whether a record may be meant by another: it has its name, or its place; without a name it overlaps it."""
    if one[:3] == other[:3]:
        return True
    mine, theirs = name_of(one), name_of(other)
    return overlap(one, other) if {mine, theirs} & NAMELESS else mine == theirs


def columns_needed(command: str, names: Sequence[str], width: int) -> str:
    """How many columns an edit has. names: of those that the program has; width: of the file, which may have more"""
    more = f" or {width}" if width > WIDEST else ""
    if command.startswith("replace"):
        return f"replace has {len(names)}{more} columns of the old record, and then {len(names)}{more} of the new one: {', '.join(names)}"
    return f"{len(names)} columns are needed: {', '.join(names)}{f', or all {width}' if more else ''}"

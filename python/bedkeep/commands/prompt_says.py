"""What the prompt prints of the core's answers: what lines change, what came of them, or why they are refused and what fits."""
from __future__ import annotations

from typing import Any, Iterable, Mapping, NamedTuple, Sequence

from ..review.parts import as_text
from .references import Unclear, references
from .drawn_regions import RECORDS

INDENT = "   "
MOST_ROWS, MOST_LINES, MOST_PLACES, MOST_ENTRIES = 3, 3, 5, 40
Answer = Mapping[str, Any]


class Offered(NamedTuple):
    """What a number takes: something typed, or lines of a script with what they do together."""

    texts: Sequence[str]
    title: str = ""
    is_typed: bool = False


class Says:
    """Prints. offered: what a number takes, from 1"""

    def __init__(self) -> None:
        self.offered: list[Offered] = []

    def offer(self, texts: Sequence[str], note: str = "", is_typed: bool = False) -> None:
        """Prints something that a number takes."""
        self.offered.append(Offered(texts, note, is_typed))
        said = "; ".join(texts).replace("\t", " ")
        print(f"{INDENT}{len(self.offered)} takes: {said}{f' ({note})' if note else ''}")

    def refused(self, answer: Answer, texts: Sequence[str]) -> None:
        """Why lines are refused, and what fits."""
        for one in answer["refused"]:
            where = f" in {one['text']}".replace("\t", " ") if len(texts) > 1 else ""
            print(f"refused: {one['reason']}{where}")
            indented(as_text(note) for note in one["says"])
            for offer in one["offers"]:
                self.offer(offer["lines"], offer["note"])

    def unclear(self, unclear: Unclear, fields: Sequence[str]) -> None:
        """What is offered of a line that doesn't say which record it means."""
        places = dict.fromkeys(row[:3] for row in unclear.rows)
        if not unclear.text or len(places) < len(unclear.rows) or len(places) > MOST_PLACES or any(" " in field for field in fields):
            return
        for place in places:
            words = [fields[0]]
            for meant in references(fields[1:]):
                words += map(str, place) if meant == unclear.text else [meant]
            if len(words) > 1 + len(references(fields[1:])):
                self.offer([" ".join(words)], is_typed=True)

    def there(self, answer: Answer) -> None:
        for record in answer["there"]:
            print("already there, so nothing is done:", *record)


def would(answer: Answer, is_wide: bool) -> None:
    """Prints which rows of the views change. is_wide: whether columns follow that weren't typed"""
    for change in answer["changes"]:
        if change["view"] != RECORDS or is_wide:
            print(f"{INDENT}{change['view']}: {_rows(change['went'])} -> {_rows(change['came'])}")


def _rows(rows: Sequence[str]) -> str:
    shown = [row.replace("\t", " ") for row in rows[:MOST_ROWS]]
    more = [f"{len(rows) - MOST_ROWS} more"] if len(rows) > MOST_ROWS else []
    return ", ".join(shown + more) or "nothing"


def done(answer: Answer) -> None:
    """Prints that a correction was done, and what doesn't hold then."""
    count = len(answer["entry"]["lines"])
    together = f": {count} lines together" if count > 1 else ""
    print(f"done{together}", *(f"but {warning}" for warning in answer["warnings"]), sep=", ")


def undone(entry: Answer) -> None:
    for text in entry["lines"][:MOST_LINES]:
        print("undone:", *text.split("\t"))
    if len(entry["lines"]) > MOST_LINES:
        print(f".. and {len(entry['lines']) - MOST_LINES} more lines")


def history(entries: Iterable[Answer], searched: str) -> None:
    """Prints the last corrections with their numbers, or of those that have a text in them."""
    rows = [row for row in map(_entry, entries) if searched.casefold() in row.casefold()]
    if len(rows) > MOST_ENTRIES:
        print(f"{len(rows) - MOST_ENTRIES} more, and then:")
    print("\n".join(rows[-MOST_ENTRIES:]) or "no corrections")


def _entry(entry: Answer) -> str:
    first = entry["lines"][0].replace("\t", " ") if entry["lines"] else ""
    more = f" and {len(entry['lines']) - 1} more" if len(entry["lines"]) > 1 else ""
    reason = f" # {entry['reason']}" if entry["reason"] else ""
    return f"{entry['number']}: {entry['verdict']}: {first}{more}{reason}"


def indented(texts: Iterable[str]) -> None:
    for text in texts:
        print(f"{INDENT}{text}")

"""What the page says of a line: what it changes, why it was refused, and what may be meant."""
from __future__ import annotations

from typing import Iterator, Mapping

from ..commands.causes import BAD, CHANGED, CONFLICT, FOLLOWS, GONE, IGNORED, MOVED, SO, TAKEN, Finding
from ..commands.corrections import Line
from ..commands.offers import meant
from ..printed_rows import RECORD
from .intervals import Interval, asked, of_record
from .markup import counted, number
from .parts import LINE, Note, Part, beside, link, plain, said

SENTENCES = {
    CHANGED: "*Changed*: the record at this place differs.",
    MOVED: "*Moved*: the record is at another place.",
    IGNORED: "It fits but for one column.",
    SO: "*Already so*: the track has what the line asks for, and the line can go.",
    TAKEN: "*Taken out* by a line above.",
    FOLLOWS: "*Follows* a line above: it fits once that is mended.",
    CONFLICT: "*Conflict*: the file and the line changed the same, and a person has to decide.",
    GONE: "*Gone*: the track has no record that it may have become.",
    BAD: "*Bad line*.",
}
WHAT_TO_DO = {
    "start is not a number": "A position has 1 to 10 digits.",
    "end is not a number": "A position has 1 to 10 digits.",
    "end past the sequence's end": "If the sequence is longer by now, `resize` it first.",
    "no such command or wrong fields": "Fields are separated by one TAB.",
    "track is full": "A file has at most 100,000,000 records.",
    "no second file": "Give it with `-b`.",
    "records past the new end": "Correct these records first.",
}


def difference(old: Interval, new: Interval) -> str:
    """In what two records differ, as a sentence."""
    parts = []
    if old.sequence != new.sequence:
        parts.append(f"from {old.sequence} to {new.sequence}")
    for what, a, b in ("start", old.start, new.start), ("end", old.end, new.end):
        if a != b:
            parts.append(f"{what} {counted(abs(a - b), 'base')} {'later' if b > a else 'earlier'}")
    for what, before, after in zip(RECORD[3:], old.rest, new.rest):
        if before != after:
            parts.append(f"{what} {before} → {after}")
    text = ", ".join(parts) or "no column changes"
    return f"{text[0].upper()}{text[1:]}."


def of_there(line: Line) -> Iterator[Note]:
    """An `add` that isn't done, with the record that is there."""
    yield (*said("*Already there*: nothing is done, `--copies` adds a copy."), beside(("asked", line.new), ("there", line.there)))


def of_refused(line: Line, finding: Finding, lengths: Mapping[str, int]) -> Iterator[Note]:
    """The class of a refused line, what differs, and the line that fits."""
    yield _of_class(line, finding)
    if finding.kind == CONFLICT and finding.found and not line.there:
        yield (beside(("was", line.old), ("asked", line.new), ("there", finding.found)),)
    record, found = of_record(finding.asked), of_record(finding.found)
    if record and found and record != found and finding.kind in (CHANGED, MOVED, IGNORED, GONE):
        yield plain(difference(record, found))
    yield from what_to_do(line, lengths)
    if finding.mended:
        yield (*said("Mended: "), Part(LINE, finding.mended))
    offers = [*line.offers, *(offer.lines[0] for offer in meant(line, lengths) if len(offer.lines) == 1)]
    for offer in dict.fromkeys(offers if not finding.mended else ()):
        yield (*said("Perhaps: "), Part(LINE, offer))


def _of_class(line: Line, finding: Finding) -> Note:
    """Why a line doesn't fit."""
    if finding.kind == SO and not finding.found:
        return said("*Already so*, or mistyped: the track has no record like it.")
    if line.there:
        return (*said("*There with other columns*: the file has a record of its name."), beside(("asked", line.new), ("there", line.there)))
    by: Note = (*plain(" ("), link(finding.by), *plain(")")) if finding.by else ()
    note = plain(f" {finding.note[0].upper()}{finding.note[1:]}.") if finding.note else ()
    return (*(said(SENTENCES[finding.kind]) if finding.kind in SENTENCES else plain(finding.kind)), *by, *note)


def what_to_do(line: Line, lengths: Mapping[str, int]) -> Iterator[Note]:
    """What is to be done about a line whose records or fields are at fault."""
    if line.refusal in WHAT_TO_DO:
        yield said(WHAT_TO_DO[line.refusal])
    if line.refusal == "end past the sequence's end":
        yield from _past(line, lengths)


def _past(line: Line, lengths: Mapping[str, int]) -> Iterator[Note]:
    for interval in asked(line):
        length = lengths.get(interval.sequence) if interval else None
        if interval and length is not None and interval.end > length:
            yield plain(f"{interval.sequence} ends at {number(length)}, {counted(interval.end - length, 'base')} before.")

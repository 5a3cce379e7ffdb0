"""Has a session carry out lines of corrections so that none does what nobody asked for.

    carrier = Carrier(session)         # one with wide=True
    carrier.carry(read_lines(["corrections"]))

Then each line has its verdict. An `add` of a record that is there isn't done, and the lines of a group are done whole or not at
all. Many lines cost few exchanges with the program: they are sent by batches, within which no line changes what is known of an
`add` below it.
"""
from __future__ import annotations

from collections import Counter, defaultdict, deque
from itertools import groupby
from typing import Iterator, NamedTuple, Optional, Protocol, Sequence

from ..changes import Copies
from ..errors import Refused
from ..formats import fields, follow
from ..record import NAMELESS, Record, distance, name_of, overlap
from ..session import UNDONE, Session
from .corrections import Line

DIFFERS = "there with other columns"
MOST = 64  # records of one name that a batch touches


class Editing(Protocol):
    """What carries out lines as a session does, and takes the last ones back."""

    def edit(self, lines: list[str]) -> list[Refused]: ...

    def undo(self) -> str: ...

    def warnings(self) -> list[tuple[str, str]]: ...


class Carrier:
    """Carries out lines over a session, and gives each its verdict.

    session: one with wide=True; copies: whether an `add` of a record that is there puts a copy of it in
    """

    def __init__(self, session: Session, copies: bool = False) -> None:
        self._session, self._copies = session, copies

    def carry(self, lines: Sequence[Line], by: Optional[Editing] = None) -> None:
        """Carries out lines, those of a group whole or not at all. Their reasons become comments of the session's script.

        Afterwards each has `refusal`, `message`, `hints` and `offers`, or `warning`, or `there`, or was simply done.
        by: what carries them out instead of the session
        """
        for batch in self._batches([line for line in lines if line.is_run]):
            self._carry(batch, by or self._session)

    def _batches(self, lines: Sequence[Line]) -> Iterator[list[Line]]:
        """The lines by batches, none of which ends within a group."""
        width, second = self._session.columns(), self._session.columns(second=True)
        for line in lines:
            line.cut(second if line.is_second else width)
        if self._copies or not any(line.command.startswith("add") for line in lines):
            if lines:
                yield list(lines)
            return
        batch = Batch()
        for _, unit in groupby(lines, key=lambda line: line.group or line):
            together = list(unit)
            if any(batch.touches(line) for line in together):
                yield batch.lines
                batch = Batch()
            batch.add(together)
        if batch.lines:
            yield batch.lines

    def _carry(self, batch: Sequence[Line], by: Editing) -> None:
        """Sends a batch, and takes the verdicts."""
        kept = {} if self._copies else Look(self._session, batch).kept()
        out = {id(line.group) for line in batch if line.group and line.number in kept and not kept[line.number].is_same}
        warned = len(by.warnings())
        refusals: dict[int, Refused] = {}
        for group, lines in groupby(batch, key=lambda line: id(line.group) in out and line.group):
            sent = [line for line in lines if line.number not in kept]
            refused = self._send(sent, by)
            if group and sent and not refused:
                by.undo()
            refusals.update(refused)
        warnings = deque(by.warnings()[warned:])
        for line in batch:
            why = refusals.get(line.number)
            line.judge(why.reason if why else "", why.hint if why else ())
            if line.number in kept:
                kept[line.number].judge(line)
            elif not why and warnings and warnings[0][0] == line.text:
                line.warning = warnings.popleft()[1]
        for line in batch:
            self._judge_by_group(line)

    def _send(self, lines: Sequence[Line], by: Editing) -> dict[int, Refused]:
        """Has lines carried out below their reasons, and returns the refusals by the lines' numbers."""
        texts, places = with_reasons(lines)
        return {places[refused.number].number: refused for refused in by.edit(texts)}

    def _judge_by_group(self, line: Line) -> None:
        """Refuses a line of whose group another one is refused."""
        refused = [one for one in (line.group.lines if line.group else ()) if one.refusal and not one.refusal.startswith(UNDONE)]
        if refused and line not in refused and not line.there:
            file = "" if refused[0].file == line.file else f" of {refused[0].file}"
            line.refuse(f"{UNDONE} {refused[0].place}{file} is refused")


def with_reasons(lines: Sequence[Line]) -> tuple[list[str], dict[int, Line]]:
    """The text of lines for a session, each paragraph below its reason, and the lines by their numbers in it."""
    texts: list[str] = []
    places: dict[int, Line] = {}
    last = None
    for line in lines:
        if not last or (last.above, last.group) != (line.above, line.group):
            texts += line.above or ([""] if texts else [])
        texts.append(line.sent)
        places[len(texts)] = last = line
    return texts, places


class Batch:
    """Lines that are sent at once, and which records they touch."""

    def __init__(self) -> None:
        self.lines: list[Line] = []
        self._records: set[tuple[bool, Record]] = set()
        self._named: dict[tuple[bool, str, str], list[Record]] = defaultdict(list)

    def add(self, lines: Sequence[Line]) -> None:
        self.lines += lines
        for line in lines:
            for record in line.records():
                self._records.add((line.is_second, record))
                if name_of(record) not in NAMELESS:
                    self._named[line.is_second, record[0], name_of(record)].append(record)

    def touches(self, line: Line) -> bool:
        """Whether its lines may change what is known of the record that another one adds: of itself, or of one that it may be."""
        old, record = line.asked()
        if old or not record:
            return False
        same = self._named.get((line.is_second, record[0], name_of(record)), ())
        return ((line.is_second, record) in self._records or len(same) > MOST
                or any(overlap(record, other) for other in same))


class Kept(NamedTuple):
    """A record that is there, for which an `add` isn't done. unlike: the columns that differ; offer: the line that changes it."""

    record: Record
    unlike: Sequence[str]
    offer: str

    @property
    def is_same(self) -> bool:
        return not self.unlike

    def judge(self, line: Line) -> None:
        line.there = self.record
        if self.unlike:
            line.refuse(DIFFERS, f"there with another {' and '.join(self.unlike)}: {' '.join(self.record)}")
            line.offers = (self.offer,)


class Above:
    """What the lines above in a group do to records, which isn't done yet. copies: by whether they are of the second file"""

    def __init__(self, session: Session) -> None:
        self._session = session
        self.copies = {False: Copies(), True: Copies()}
        self._tails: dict[tuple[bool, Record], list[str]] = {}

    def follow(self, line: Line) -> None:
        """Goes by a line."""
        (old, new), second, tail = line.asked(), line.is_second, ""
        if old:
            tails = self.tails(second, old)
            tail = tails[0] if line.old_tail is None and tails else line.old_tail or ""
            if tail in tails:
                tails.remove(tail)
            self.copies[second].do((old, -1))
        if new:
            put = follow(old, tail, new).tail if old and tail else ""
            self.tails(second, new).append(put if line.new_tail is None else line.new_tail)
            self.copies[second].do((new, 1))

    def taken(self, second: bool, record: Record) -> int:
        """The copies of a record that were taken out and haven't come back, also by lines that are done."""
        copies = self.copies[second]
        return max(self._session.taken(record, second) - copies.net(record), copies.taken(record))

    def tails(self, second: bool, record: Record) -> list[str]:
        """The columns after the sixth of the copies that are there then."""
        if (second, record) not in self._tails:
            self._tails[second, record] = list(self._session.tails(record, second))
        return self._tails[second, record]


class Look:
    """What a session has of the records that the lines of a batch add."""

    def __init__(self, session: Session, lines: Sequence[Line]) -> None:
        self._session, self._lines = session, lines
        self._above = Above(session)
        adds = [new for line in lines for old, new in [line.asked()] if new and not old]
        self._there = session.around((one[0], int(one[1]), int(one[2])) for one in adds) if adds else Counter()
        self._named: dict[tuple[str, str], list[Record]] = defaultdict(list)
        for record in self._there:
            if name_of(record) not in NAMELESS:
                self._named[record[0], name_of(record)].append(record)

    def kept(self) -> dict[int, Kept]:
        """By the numbers of the lines that add what is there: what that is."""
        kept = {}
        for group, lines in groupby(self._lines, key=lambda line: line.group):
            self._above = Above(self._session)
            for line in lines:
                old, new = line.asked()
                there = self._find(line, new) if new and not old else None
                if there:
                    kept[line.number] = there
                elif group:
                    self._above.follow(line)
        return kept

    def _find(self, line: Line, record: Record) -> Optional[Kept]:
        """What is there of the record of an `add`. One that a line above took out may come back."""
        copies = self._copies(line, record)
        if (copies or not line.is_second) and self._above.taken(line.is_second, record) > 0:
            return None
        if copies and (line.new_tail is None or line.new_tail in self._above.tails(line.is_second, record)):
            return Kept(record, (), "")
        if line.is_second:
            return None
        beside = self._named.get((record[0], name_of(record)), ())
        others = [(distance(one, record), one) for one in beside if overlap(one, record) and self._is_of_file(one)]
        return self._unlike(line, record, min(others)[1]) if others else None

    def _copies(self, line: Line, record: Record) -> int:
        """How many copies of a record are there; of the second file whether one is."""
        there = self._session.has_second(record) if line.is_second else self._there[record]
        return max(there + self._above.copies[line.is_second].net(record), 0)

    def _is_of_file(self, record: Record) -> bool:
        """Whether the track has a copy of the file, and no line above took one that hasn't come back."""
        return self._there[record] > max(self._session.net(record), 0) and self._above.taken(False, record) <= 0

    def _unlike(self, line: Line, record: Record, other: Record) -> Kept:
        """A record of the file by which an `add` with other columns isn't done."""
        tail = line.new_tail or ""
        theirs = (self._above.tails(False, other) or [""])[0] if tail else ""
        mine, there = fields(record, tail), fields(other, theirs)
        unlike = [name for name, text in mine.items() if there.get(name) != text]
        return Kept(other, unlike, "replace\t" + "\t".join(other) + theirs + "\t" + "\t".join(record) + tail)

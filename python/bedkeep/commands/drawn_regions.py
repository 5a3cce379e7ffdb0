"""What is drawn of a region: the rows of all views, the second file, the bases; or counts, if there is too much."""
from __future__ import annotations

from collections import Counter
from typing import Any, Iterable, Mapping, Optional, Sequence

from ..changes import halves
from ..encoding import Path
from ..errors import Error, Refused
from ..formats import DIGITS
from ..program import MOST
from ..record import WIDEST, record_of
from ..regions import Region
from ..script import of_track
from ..session import Seen, Session
from .corrections import Line
from .counts import Counts

MOST_RECORDS = 1500  # whose rows are asked for
MOST_DRAWN = 500  # each by itself
MOST_BASES = 400
BINS = 400
MOST_CHANGED = 200  # rows of a view that an edit is said to have changed
RECORDS = "records"


class Sight:
    """Carries out lines for a `Carrier`, and sees what changes. keep: whether they stay"""

    def __init__(self, session: Session, region: Optional[Region], keep: bool) -> None:
        self._session, self._region, self._keep = session, region, keep
        self._warnings: list[tuple[str, str]] = []
        self.seen: Optional[Seen] = None

    def edit(self, lines: list[str]) -> list[Refused]:
        self.seen = self._session.edit_seen(lines, self._region, self._keep)
        if not self._keep:
            self._warnings = self.seen.warnings
        return self.seen.refused

    def undo(self) -> str:
        self.seen = None
        return self._session.undo() if self._keep else ""

    def warnings(self) -> list[tuple[str, str]]:
        return [*self._session.warnings(), *self._warnings]


class Mirror:
    """The second file as the track of a session of its own, since no view prints its records."""

    def __init__(self, genome: Path, second: Path, wide: bool) -> None:
        self.session = Session(genome, second, wide=wide, limit=MOST)
        self.session.open(RECORDS, RECORDS)

    def edit(self, line: str) -> None:
        """Follows a line that the session accepted of which this is the second file."""
        if (of_track(line) != line or line.startswith("resize\t")) and self.session.edit([of_track(line)]):
            raise Error("an edit of the second file was refused over it alone")

    def rows(self, region: Region) -> str:
        return joined(self.session, self.session.show_all(*region)[RECORDS])


class Bases:
    """The bases of any region, as getfasta has them: a session over no record, to which the region is added and taken out again."""

    def __init__(self, genome: Path, fasta: Path) -> None:
        self.session = Session(genome, "/dev/null", fasta=fasta)
        self.session.open("bases", "getfasta -tab")

    def edit(self, line: str) -> None:
        """Follows a `resize`."""
        if line.startswith("resize\t"):
            self.session.edit([line])

    def of(self, region: Region) -> str:
        sequence, start, end = region
        seen = self.session.edit_seen([f"add\t{sequence}\t{start}\t{end}"], region, keep=False)
        return "".join(row.rpartition("\t")[2] for row in seen.after.get("getfasta -tab", "").split("\n"))


class Regions:
    """Draws regions of a session. beside: the sessions of the second file and of the bases, if there are such files"""

    def __init__(self, session: Session, counts: Counts, mirror: Optional[Mirror], bases: Optional[Bases]) -> None:
        self._session, self._counts, self._mirror, self._bases = session, counts, mirror, bases

    def drawn(self, region: Region, margin: int, length: int) -> dict[str, Any]:
        """A region as the page draws it, with a margin to move about in if there isn't too much in it."""
        sequence = region[0]
        low, high = (max(0, min(place, length)) for place in region[1:])
        parts = self._counts.of(sequence)
        drawn = {"sequence": sequence, "start": low, "end": high, "length": length}
        if low >= high or self._near((sequence, low, high)) > MOST_DRAWN:
            starts, depths = parts.bins(low, high, BINS) if low < high else ([], [])
            return {**drawn, "mode": "counts", "starts": starts, "depths": depths, "near": parts.near(low, high)}
        wide = max(0, low - margin), min(length, high + margin)
        if parts.near(*wide) <= MOST_RECORDS:
            low, high = wide
        views = self._session.show_all(sequence, low, high)
        views[RECORDS] = joined(self._session, views[RECORDS])
        drawn.update(start=low, end=high, mode="rows", views=views)
        if self._mirror:
            drawn["second"] = self._mirror.rows((sequence, low, high))
        if self._bases and high - low <= MOST_BASES:
            drawn["bases"] = self._bases.of((sequence, low, high))
        return drawn

    def _near(self, region: Region) -> int:
        """How many records there are, exactly if the parts are too long to say it."""
        sequence, start, end = region
        near = self._counts.of(sequence).near(start, end)
        return near if near <= MOST_DRAWN or end - start > 4 * self._counts.step else len(self._session.region(*region))


def places_of(lines: Iterable[Line], lengths: Mapping[str, int]) -> list[Region]:
    """The places that lines are about: those of their records, or the end of a sequence."""
    found = []
    for line in lines:
        found += [(record[0], int(record[1]), int(record[2])) for record in line.records()]
        if line.command == "resize" and len(line.fields) == 2 and DIGITS.fullmatch(line.fields[1]) and lengths.get(line.fields[0]):
            end = max(min(int(line.fields[1]), lengths[line.fields[0]]), 1)
            found.append((line.fields[0], end - 1, end))
    return found


def around(places: Sequence[Region], lengths: Mapping[str, int]) -> Optional[Region]:
    """The region in which an edit of places of one sequence is seen."""
    if len({place[0] for place in places}) != 1 or places[0][0] not in lengths:
        return None
    low = max(0, min(place[1] for place in places) - 1)
    high = min(lengths[places[0][0]], max(place[2] for place in places) + 1)
    return (places[0][0], low, high) if low < high else None


def changes(seen: Optional[Seen]) -> list[dict[str, Any]]:
    """Which rows of each view went and which came; of `records` with all their columns."""
    found = [_change(words, seen.before[words].split("\n")[:-1], seen.after[words].split("\n")[:-1])
             for words in seen.before if words != RECORDS] if seen else []
    went, came = moved(seen.inverse if seen else ())
    return [change for change in [_change(RECORDS, went, came), *found] if change["went"] or change["came"]]


def moved(inverse: Iterable[str]) -> tuple[list[str], list[str]]:
    """The rows of the track that went and those that came, by the lines that take it back."""
    went: list[str] = []
    came: list[str] = []
    for line in inverse:
        command, *fields = line.split("\t")
        if command in ("add", "remove", "replace"):
            for rows, columns in zip((came, went), halves(command, fields)):
                rows += ["\t".join(columns)] if columns else []
    return went[::-1], came[::-1]


def _change(words: str, before: Sequence[str], after: Sequence[str]) -> dict[str, Any]:
    old, new = Counter(before), Counter(after)
    went, came = list((old - new).elements()), list((new - old).elements())
    return {"view": words, "before": len(before), "after": len(after), "went": went[:MOST_CHANGED], "came": came[:MOST_CHANGED],
            "more": max(0, len(went) - MOST_CHANGED) + max(0, len(came) - MOST_CHANGED)}


def joined(session: Session, rows: str) -> str:
    """Rows of records with all their columns."""
    if session.columns() <= WIDEST:
        return rows
    return "".join(f"{row}\n" for row in with_tails(session, rows.split("\n")[:-1]))


def with_tails(session: Session, rows: Sequence[str]) -> list[str]:
    """Each row of a record with its columns from the seventh on; of copies each has its own."""
    copies: Counter[str] = Counter()
    found = []
    for row in rows:
        tails = session.tails(record_of(row.split("\t")))
        found.append(row + (tails[copies[row]] if copies[row] < len(tails) else ""))
        copies[row] += 1
    return found

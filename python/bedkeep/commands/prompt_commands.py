"""The commands of the prompt that make lines of a script: set, remove by a name, merge, split, shift and rename."""
from __future__ import annotations

import re
from typing import NamedTuple, NoReturn, Sequence

from .. import formats
from ..printed_rows import RECORD, Row
from ..record import NARROWEST, WIDEST, Record, record_of, split_row, strand_of
from ..script import line_of
from ..session import Session
from .places import NUMBER, NoPlace
from .references import References, Unclear, references
from .three_way import Version

DISTANCE = re.compile(r"[-+]?\d[\d,]*", re.ASCII)
USAGES = {"set": "set COLUMN RECORD VALUE, such as set end geneA 250 or set end chr1:101-200 250",
          "split": "split RECORD AT, such as split geneA 150",
          "shift": "shift REGION BY, such as shift chr1:101-200 10 or shift chr1 -5",
          "rename": "rename OLD NEW, such as rename geneA geneX"}


class Proposal(NamedTuple):
    """Lines that are to be carried out, together if they are more than one, and what is said of them before."""

    lines: list[str]
    said: list[str]


class Commands:
    """Makes the lines of each command. ValueError, with a sentence for the one who typed it, if they can't be made."""

    def __init__(self, session: Session, found: References) -> None:
        self._session, self._references = session, found

    @property
    def names(self) -> tuple[str, ...]:
        return RECORD[:self._session.width]

    def of(self, command: str, fields: Sequence[str]) -> Proposal:
        """The lines of one of USAGES with the fields after it. Its records are a name or a place each."""
        column = 1 if command == "set" else 0
        meant = references(fields[column:-1])
        if len(meant) != 1 or len(fields) < 2:
            raise ValueError(USAGES[command])
        if command == "set":
            return self.set(fields[0], meant[0], fields[-1])
        maker = {"split": self.split, "shift": self.shift, "rename": self.rename}[command]
        return maker(meant[0], fields[-1])

    def made(self, what: str, records: Sequence[Sequence[str]], value: str = "") -> Proposal:
        """The lines of a command over records, each given with all its columns.

        what: split (value: the base where the second one begins), join, boundary (of two neighbours, value: the base), shift (by how
        many bases), remove, or `set COLUMN` (value)
        """
        wholes = [Version(*split_row("\t".join(columns))) for columns in records]
        command, _, column = what.partition(" ")
        if not wholes or command in ("join", "boundary") and len(wholes) != 2 or command == "split" and len(wholes) > 1:
            raise ValueError(f"{command} is of {'two records' if command in ('join', 'boundary') else 'one record'}")
        if command == "split":
            return self._split(wholes[0], "", value)
        if command == "join":
            return self._merge(*((one, "first") for one in wholes))
        if command == "boundary":
            first, second = sorted(wholes, key=lambda one: (int(one.record[1]), int(one.record[2])))
            return self._boundary(first, second, value)
        if command == "shift":
            return Proposal(self._shift(wholes, value), [])
        if command == "set":
            return Proposal([line for one in wholes for line in self._set(one, column, value)] or _nothing(), [])
        if command == "remove":
            return Proposal([_line("remove", *one.columns) for one in wholes], [])
        raise ValueError(f"no such command: {what}")

    def set(self, column: str, text: str, value: str) -> Proposal:
        """`set COLUMN RECORD VALUE`: another value of one column."""
        old, said = self._one(text)
        lines = self._set(old, column, value)
        if not lines:
            raise ValueError(f"{said}: {old}\nnothing changes")
        return Proposal(lines, [f"{said}: {old}"])

    def remove(self, text: str) -> Proposal:
        """`remove RECORD`: the one of that whole name, or of exactly that place."""
        found = self._references.one(text, exact=True)
        old = self._whole(found.rows[0])
        return Proposal([_line("remove", *old.columns)], [f"{found.said}: {old}"])

    def merge(self, one: str, other: str) -> Proposal:
        """`merge A B`: one record from the first start to the last end, with the name and the score of A."""
        return self._merge(self._one(one), self._one(other))

    def _merge(self, one: tuple[Version, str], other: tuple[Version, str]) -> Proposal:
        (first, first_said), (second, second_said) = one, other
        joined = _joined(first, second)
        kept = [f"{name} {mine} is kept, and {theirs} isn't" for name, mine, theirs in _lost(first, second, joined)]
        return Proposal([_line("replace", *first.columns, *joined.columns), _line("remove", *second.columns)],
                        [f"{first_said}: {first}", f"{second_said}: {second}", f"one record: {joined}", *kept])

    def split(self, text: str, at: str) -> Proposal:
        """`split A AT`: two records, of which the first one ends where the second one begins."""
        return self._split(*self._one(text), at)

    def _split(self, old: Version, said: str, at: str) -> Proposal:
        start, end = int(old.record[1]), int(old.record[2])
        if not NUMBER.fullmatch(at) or not start < int(at.replace(",", "")) < end:
            raise ValueError(f"{said}: {old}\n{at} isn't between {start} and {end}")
        at = at.replace(",", "")
        parts = [self._part(old, 1, old.record[1], at), self._part(old, 2, at, old.record[2])]
        return Proposal([_line("replace", *old.columns, *parts[0].columns), _line("add", *parts[1].columns)],
                        [f"{said}: {old}", *(f"part {number}: {part}" for number, part in enumerate(parts, 1))])

    def shift(self, text: str, by: str) -> Proposal:
        """`shift REGION BY`: all records that are wholly within a place, or those of a name, so many bases further."""
        rows, said = self._within(text)
        if not rows:
            raise ValueError(said[0])
        return Proposal(self._shift([Version(record_of(list(map(str, row))), "") for row in rows], by), said)

    def _shift(self, wholes: Sequence[Version], by: str) -> list[str]:
        """The lines that move records in their order by a distance."""
        if not DISTANCE.fullmatch(by):
            raise ValueError(USAGES["shift"])
        distance = int(by.replace(",", ""))
        if not distance:
            _nothing()
        lines = []
        for whole in wholes if distance < 0 else reversed(wholes):  # so that none comes to be where another one still is
            if int(whole.record[1]) + distance < 0:
                raise ValueError(f"{' '.join(whole.record)} would begin at {int(whole.record[1]) + distance}")
            moved = Version(*formats.shifted(whole.record, whole.tail or "", distance))
            lines.append(_line("replace", *whole.columns, *moved.columns))
        return lines

    def _set(self, old: Version, column: str, value: str) -> list[str]:
        """The line that gives a record another value of a column, unless nothing changes."""
        new = self._with(old, column, value)
        if new == old:
            return []
        if new.tail == old.tail or column in self.names:
            return [_line("replace", *old.record, *new.record)]
        return [_line("replace", *old.columns, *new.columns)]

    def _boundary(self, first: Version, second: Version, at: str) -> Proposal:
        """The lines that have one record end, and the next one begin, at a base."""
        if first.record[0] != second.record[0] or not NUMBER.fullmatch(at):
            raise ValueError(f"{at} is no common end of {first} and {second}")
        return Proposal([*self._set(first, "end", at), *self._set(second, "start", at)] or _nothing(), [])

    def rename(self, old: str, new: str) -> Proposal:
        """`rename OLD NEW`: all records of that whole name, or of that place."""
        found = self._references.exact(old)
        if old == new:
            _nothing()
        records = [record_of(list(map(str, row))) for row in found.rows]
        return Proposal([_line("replace", *record, *record[:3], new, *record[4:]) for record in records],
                        [f"{found.said}: {_count(len(records))}"])

    def _within(self, text: str) -> tuple[list[Row], list[str]]:
        """The records that are wholly within a place, or those of a name, and what is said of that."""
        try:
            place = self._references.place(text)
        except NoPlace:
            found = self._references.exact(text)
            return found.rows, [f"{found.said}: {_count(len(found.rows))}"]
        overlapping = self._session.region(*place[:3])
        rows = [row for row in overlapping if place.start <= row.start and row.end <= place.end]
        left = len(overlapping) - len(rows)
        is_one = len(rows) == 1
        said = [f"{place.said}: {_count(len(rows))} {'is' if is_one else 'are'} wholly within"]
        return rows, said + ([f"{left} more {'overlaps it, and stays' if left == 1 else 'overlap it, and stay'}"] if left else [])

    def _one(self, text: str) -> tuple[Version, str]:
        """The one record that is meant, and what the text was taken for."""
        found = self._references.one(text)
        return self._whole(found.rows[0]), found.said

    def _whole(self, row: Row) -> Version:
        """A record with its tail. Unclear if it has copies with other tails."""
        record = record_of(list(map(str, row)))
        tails = self._session.tails(record) if self._session.columns() > WIDEST else [""]
        if len(set(tails)) > 1:
            raise Unclear(f"{len(tails)} records differ from column 7 on alone: give all columns of one", [row] * len(tails))
        return Version(record, tails[0])

    def _with(self, old: Version, column: str, value: str) -> Version:
        """A record with another value of one column."""
        if column in self.names:
            if column in ("start", "end") and NUMBER.fullmatch(value):
                value = value.replace(",", "")
            at = self.names.index(column)
            return Version(record_of([*old.record[:at], value, *old.record[at + 1:]]), old.tail)
        named = [*self.names, *(name for name in old.fields if name not in RECORD)]
        if column not in named:
            raise ValueError(f"{column} is no column of this file; the columns are {', '.join(named)}")
        return Version(*formats.with_field(old.record, old.tail or "", column, value))

    def _part(self, old: Version, number: int, start: str, end: str) -> Version:
        """A part of a record, with the blocks and the rest of its tail that are in it."""
        name = [f"{old.record[3]}.{number}" if old.record[3] != "." else "."] if len(old.record) > NARROWEST else []
        record = (old.record[0], start, end, *name, *old.record[4:])
        if not old.tail:
            return Version(record, "")
        followed = formats.follow(old.record, old.tail, record)
        if followed.fault and not followed.offer:
            raise ValueError(f"{old}\n{followed.fault}")
        if followed.offer:
            return Version(*split_row("\t".join(followed.offer)))
        return Version(record, followed.tail)


def _joined(first: Version, second: Version) -> Version:
    """One record of two, with the blocks of both. What isn't a place is as in the first one."""
    one, other = first.record, second.record
    if first == second:
        raise ValueError(f"both are {first}")
    if one[0] != other[0]:
        raise ValueError(f"they are on two sequences, {one[0]} and {other[0]}")
    if {strand_of(one), strand_of(other)} == {"+", "-"}:
        raise ValueError("they are on two strands: set the strand of one first, if that is meant")
    start, end = min(int(one[1]), int(other[1])), max(int(one[2]), int(other[2]))
    strand = [other[5] if one[5] == "." else one[5]] if len(one) == WIDEST else []
    record = (one[0], str(start), str(end), *one[3:5], *strand)
    return Version(record, _joined_tail(first, second, record) if first.tail else "")


def _joined_tail(first: Version, second: Version, record: Record) -> str:
    """The tail of the first of two records, for the record that both become: with the blocks of both, and both coding parts."""
    named, others = first.fields, second.fields
    named.update(zip(RECORD, record))
    if "blocks" in named and "blocks" in others:
        blocks = sorted([*_blocks(first, named["blocks"]), *_blocks(second, others["blocks"])])
        named["blocks"] = _gaps(blocks) + "," * named["blocks"].endswith(",")
    if "thickStart" in named and "thickStart" in others:
        thick = [(int(one["thickStart"]), int(one["thickEnd"])) for one in (named, others)]
        coding = [(start, end) for start, end in thick if start < end]
        if coding:
            named["thickStart"], named["thickEnd"] = str(min(coding)[0]), str(max(end for _, end in coding))
        elif thick[0][0]:
            named["thickStart"] = named["thickEnd"] = record[1]
    return formats.tail_of(named)


def _blocks(whole: Version, gaps: str) -> list[tuple[int, int]]:
    """The blocks of a record, by the gaps between them."""
    if " " in gaps:
        raise ValueError(f"the blocks of {whole} can't hold")
    places = [int(place) for gap in gaps.split(",") if gap for place in gap.split("-")]
    bounds = [int(whole.record[1]), *places, int(whole.record[2])]
    return list(zip(bounds[::2], bounds[1::2]))


def _gaps(blocks: Sequence[tuple[int, int]]) -> str:
    """The gaps between blocks that are sorted, and that may overlap."""
    gaps = []
    reached = blocks[0][1]
    for start, end in blocks:
        if start > reached:
            gaps.append(f"{reached}-{start}")
        reached = max(reached, end)
    return ",".join(gaps)


def _lost(first: Version, second: Version, joined: Version) -> list[tuple[str, str, str]]:
    """The columns that two records have differently and that aren't places, with the value that is kept and the other one."""
    kept, lost = joined.fields, second.fields
    places = {"chromosome", "start", "end", "strand", "thickStart", "thickEnd", "blocks"}
    return [(name, kept[name], lost.get(name, "")) for name in kept if name not in places and kept[name] != lost.get(name, "")]


def _nothing() -> NoReturn:
    raise ValueError("nothing changes")


def _count(records: int) -> str:
    return f"{records} record{'' if records == 1 else 's'}"


def _line(*fields: str) -> str:
    return line_of(*fields).rstrip("\n")

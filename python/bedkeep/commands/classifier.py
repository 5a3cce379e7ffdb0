"""Finds the class of each line of a script over a file.

`Classifier` goes through the lines a second time, after the program's verdicts, over the track as it is once the lines above are
mended; so a chain of corrections (X to Y, then Y to Z) can be mended whole. A line whose record isn't there is merged with the
record that another release made of it (see `three_way`): the one of the same name that overlaps it, of several the nearest. A record
without a name has to be at the same place, or to have the other columns.
"""
from __future__ import annotations

from collections import defaultdict, deque
from itertools import groupby
from typing import Any, Callable, Collection, Iterator, Mapping, Optional, Sequence

from ..formats import default_tail, follow, worse
from ..printed_rows import RECORD
from ..record import NAMELESS, WIDEST, Record, differing, distance, name_of, strand_of
from ..session import UNDONE
from .carry import DIFFERS
from .causes import BAD, CHANGED, CONFLICT, DOABLE, FITS, FOLLOWS, GONE, IGNORED, MOVED, SO, TAKEN, THERE, Finding
from .corrections import ABSENT, Line
from .followed_track import Memory, Track
from .three_way import Version, line_over

NAME = RECORD.index("name")


class Classifier:
    """Says what each line is about. sides: of the track, and of the second file if there is one."""

    def __init__(self, track: Side, second: Optional[Side] = None) -> None:
        self._track, self._second = track, second
        self._sides = [track, second] if second else [track]

    def look(self, lines: Sequence[Line]) -> Iterator[Finding]:
        """Says what each line is about, and carries it out, mended if it can be; the lines of a group all or none."""
        for group, together in groupby(lines, key=lambda line: line.group):
            if group:
                yield from self._look_together(list(together))
            else:
                yield from map(self._look, together)

    def _look(self, line: Line) -> Finding:
        if line.command == "resize":
            return [side.look(line) for side in self._sides][0]
        return (self._second if line.is_second and self._second else self._track).look(line)

    def _look_together(self, lines: Sequence[Line]) -> list[Finding]:
        """The findings of a group's lines. If one can't be mended the others stay out too."""
        marks = [side.mark() for side in self._sides]
        findings = [self._look(line) for line in lines]
        wrong = next((finding for finding in findings if finding.kind not in DOABLE), None)
        if not wrong:
            return findings
        for side, mark in zip(self._sides, marks):
            side.back_to(mark, [line for line in lines if line.is_second == (side is self._second)])
        note = f"{UNDONE} {wrong.line.place} isn't"
        return [Finding(finding.line, CONFLICT, finding.found, by=wrong.line, note=note, tail=finding.tail)
                if finding.kind in (FITS, IGNORED, CHANGED, MOVED, FOLLOWS) else finding for finding in findings]


class Side:
    """Goes through the lines of one file's track, in their order.

    track: the records near the lines; lines: all edits of this file; lengths: of the genome file; ignore: the columns that may
    differ; copies: whether an `add` of a record that is there is done; leave_blocks: whether a line is done that leaves columns
    after the sixth which can't hold
    """

    def __init__(self, track: Track, lines: Sequence[Line], lengths: Mapping[str, int], ignore: Collection[int] = (),
                 copies: bool = False, leave_blocks: bool = False) -> None:
        self._track, self._ignore, self._copies, self._leave_blocks = track, set(ignore), copies, leave_blocks
        self._known = Memory(lengths, track.undo)
        self._next: dict[Record, deque[Line]] = defaultdict(deque)
        self._names: dict[Record, dict[int, set[Optional[str]]]] = defaultdict(dict)  # which lines name a record, with which tail
        for line in lines:
            if line.old:
                self._next[line.old].append(line)
            for record, tail in (line.old, line.old_tail), (line.new, line.new_tail):
                if record:
                    self._names[record].setdefault(line.number, set()).add(tail)

    def mark(self) -> int:
        """A point to go back to."""
        return len(self._track.undo)

    def back_to(self, mark: int, lines: Sequence[Line]) -> None:
        """Takes back what was done since then, of lines that aren't settled."""
        while len(self._track.undo) > mark:
            self._track.undo.pop()()
        for line in lines:
            if line.new:
                self._known.set(self._known.pending, line.new, line)

    def look(self, line: Line) -> Finding:
        """Says what a line is about, and carries it out, mended if it can be."""
        if line.command == "resize" and not line.refusal:
            self._known.set(self._known.lengths, line.fields[0], int(line.fields[1]))
            return Finding(line, FITS)
        if line.old:
            self._next[line.old].popleft()
        if not line.is_edit or line.refusal and line.refusal not in (ABSENT, DIFFERS) and not line.refusal.startswith(UNDONE):
            return Finding(line, BAD, note=line.message)
        finding = self._find(line)
        self._carry_out(finding)
        return finding

    def _find(self, line: Line) -> Finding:
        old = line.old
        if old is None:
            return self._find_added(line)
        if self._track.has(old, line.old_tail):
            return self._fitting(line)
        heir = self._known.heirs.get(old)
        if heir and heir.record and self._track.has(*heir):
            return self._merged(line, heir)._replace(by=self._known.makers.get(heir.record))
        if old in self._known.pending:
            return Finding(line, CONFLICT, by=self._known.pending[old], note="its record would come of a line that isn't settled")
        if old in self._known.takers and not self._beside(line):
            return Finding(line, TAKEN, by=self._known.takers[old])
        for version in self._outcomes(line):
            held = self._track.of_file(*version)
            if held:
                return Finding(line, SO, version.record, tail=held.tail)
        return self._candidate(line)

    def _find_added(self, line: Line) -> Finding:
        new = line.new
        assert new
        if self._copies or self._known.copies.taken(new):
            return Finding(line, FOLLOWS if line.refusal else FITS)
        if self._track.has(new, line.new_tail):
            return Finding(line, THERE, new)
        for version in self._outcomes(line):
            if self._track.of_file(*version):
                return Finding(line, THERE, version.record)
        beside = [one for one in self._track.around(new) if name_of(one) == name_of(new) and name_of(one) not in NAMELESS
                  and not self._known.copies.taken(one) and self._track.count(one) > max(self._known.copies.net(one), 0)]
        if line.is_second or not beside:
            return Finding(line, FOLLOWS if line.refusal else FITS)
        nearest = min((distance(one, new), one) for one in beside)[1]
        tail = self._track.first(nearest)
        mine, theirs = Version(new, line.new_tail).fields, Version(nearest, tail).fields
        unlike = tuple(name for name, text in mine.items() if theirs.get(name) != text)
        return Finding(line, CONFLICT, nearest, note="the file has one of its name there", tail=tail, unlike=unlike)

    def _fitting(self, line: Line) -> Finding:
        """The finding of a line whose record is there, now that lines above are mended."""
        if not line.refusal:
            return Finding(line, FITS)
        old = line.old or ()
        tail = self._track.first(old, line.old_tail)
        fault = self._fault(Version(old, tail), Version(line.new, line.new_tail)) if line.new else ""
        return Finding(line, CONFLICT if fault else FOLLOWS, old, by=self._known.makers.get(old), note=fault, tail=tail)

    def _outcomes(self, line: Line) -> Iterator[Version]:
        """The new record, and what lines below make of it."""
        record, tail, after = line.new, line.new_tail, line.number
        while record:
            yield Version(record, tail)
            later = next((other for other in self._next.get(record, ()) if other.number > after), None)
            if later is None:
                return
            record, tail, after = later.new, later.new_tail, later.number

    def _candidate(self, line: Line) -> Finding:
        """The finding over the record that another release made of the line's; of two that fit equally none is taken."""
        agreeing = [version for version in self._beside(line) if self._is_ignored(line, version)]
        if len(agreeing) == 1:
            return self._merged(line, agreeing[0])
        best = _least(self._likely(line), lambda version: self._far(line, version))
        if len(best) > 1:
            return Finding(line, CONFLICT, min(best).record, note=f"{len(best)} records fit equally", tail=min(best).tail or "")
        if best:
            return self._merged(line, best[0])
        here = min(self._beside(line), key=lambda version: (self._far(line, version), version), default=None)
        if line.new:
            return Finding(line, GONE, here.record if here else None)
        note = "another record is at its place" if here else "no record like it is there"
        return Finding(line, SO, here.record if here else None, note=note)

    def _likely(self, line: Line) -> list[Version]:
        """The records that the line's may have become: of its name; without a name at its place, or with its other columns."""
        old = line.old or ()
        if name_of(old) not in NAMELESS:
            return [version for version in self._free(line) if name_of(version.record) == name_of(old)]
        if not line.new:
            return []
        return [version for version in self._free(line)
                if version.record[:3] == old[:3] or len(old) > 4 and version.record[3:] == old[3:]]

    def _is_ignored(self, line: Line, version: Version) -> bool:
        """Whether a record at the line's place differs in columns alone that may differ. A name counts if it is removed."""
        unlike = set(differing(line.old or (), version.record))
        return bool(unlike) and unlike <= self._ignore - (set() if line.new else {NAME})

    def _beside(self, line: Line) -> list[Version]:
        return [version for version in self._free(line) if version.record[:3] == (line.old or ())[:3]]

    def _free(self, line: Line) -> list[Version]:
        """The records of the file that overlap the line's, and that no other line names."""
        found = []
        for record in self._track.around(line.old or ()):
            tails = self._track.all_of_file(record)
            for tail in tails if line.old_tail is not None else tails[:1]:
                if not self._is_named(record, tail, line):
                    found.append(Version(record, tail))
        return found

    def _is_named(self, record: Record, tail: str, line: Line) -> bool:
        """Whether another line names a record."""
        return any(number != line.number and (None in tails or tail in tails or line.old_tail is None)
                   for number, tails in self._names.get(record, {}).items())

    def _far(self, line: Line, version: Version) -> tuple[bool, int, int]:
        """How far a record is from the line's: for two that may be meant."""
        old = line.old or ()
        mine, theirs = Version(old, line.old_tail).fields, version.fields
        unlike = sum(theirs.get(name) != text for name, text in mine.items())
        return strand_of(version.record) != strand_of(old), distance(version.record, old), unlike

    def _merged(self, line: Line, theirs: Version) -> Finding:
        """The line over the record that is there: what the correction leaves alone is as it is there."""
        old, new = line.old or (), line.new
        found, tail = theirs.record, theirs.tail or ""
        unlike = set(differing(old, found))
        kind = IGNORED if unlike and unlike <= self._ignore else MOVED if old[:3] != found[:3] else CHANGED
        mended, merged = line_over(line, Version(found, tail), self._known.lengths)
        if not new:
            return Finding(line, kind, found, mended, tail=tail)
        if not merged.version:
            return Finding(line, CONFLICT, found, note=merged.note, tail=tail, unlike=merged.unlike)
        if merged.version.record == found and merged.version.tail in (None, tail):
            self._known.set(self._known.heirs, new, Version(found, tail))
            return Finding(line, SO, found, note="it has what the correction changes", tail=tail)
        fault = self._fault(theirs, merged.version)
        if fault:
            return Finding(line, CONFLICT, found, note=fault, tail=tail)
        return Finding(line, kind, found, mended, tail=tail)

    def _fault(self, old: Version, new: Version) -> str:
        """Why the columns after the sixth can't hold, or can't follow if the line doesn't have them."""
        if self._leave_blocks or not old.tail:
            return ""
        if new.tail is None:
            return follow(old.record, old.tail, new.record, self._track.faults).fault
        return ", ".join(worse(old.record, old.tail, new.record, new.tail, self._track.faults))

    def _carry_out(self, finding: Finding) -> None:
        """Changes the track, and keeps what lines below need to know."""
        line, known = finding.line, self._known
        if finding.kind == CONFLICT and line.new:
            known.set(known.pending, line.new, line)
        if not finding.mended and finding.kind not in (FITS, FOLLOWS):
            return
        done = line.again(finding.mended) if finding.mended else line
        old, new = done.asked()
        taken = ""
        if old:
            taken = self._track.take(old, done.old_tail)
            known.move(old, -1)
            known.set(known.takers, line.old or (), line)
            if known.heirs.get(line.old or ()) == (old, taken):
                known.set(known.heirs, line.old or (), Version(()))
        if new:
            tail = self._tail(done, old, taken, new)
            self._track.put(new, tail, line)
            known.move(new, 1)
            known.set(known.makers, new, line)
            known.set(known.heirs, line.new or (), Version(new, tail))

    def _tail(self, line: Line, old: Optional[Record], taken: str, new: Record) -> str:
        """The columns after the sixth of a record that a line puts in."""
        if line.new_tail is not None:
            return line.new_tail
        if old:
            return follow(old, taken, new).tail if taken else ""
        return default_tail(new, line.width, self._track.format) if line.width > WIDEST else ""


def _least(versions: list[Version], key: Callable[[Version], Any]) -> list[Version]:
    """All for which the key is least."""
    keys = [key(version) for version in versions]
    first = min(keys, default=None)
    return [version for version, value in zip(versions, keys) if value == first]

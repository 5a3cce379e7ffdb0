"""Goes through the lines of the corrections, one after another, and sees what each changes."""
from __future__ import annotations

from collections import Counter
from typing import Collection, Mapping, NamedTuple, Sequence

from ..commands.causes import Finding
from ..commands.corrections import Line
from ..session import Session
from .figures import Scene, Seen, figures, pictured
from .intervals import FAR, Interval, Stretch, asked
from .markup import counted, number
from .neighbours import Neighbours
from .notes import difference, of_refused, of_there
from .parts import Note, link, plain, said


class Reviewed(NamedTuple):
    """What the page shows of a line. figures: HTML"""

    line: Line
    finding: Finding
    notes: list[Note]
    figures: str
    is_copy: bool


class Reviewer:
    """The tracks before the next line, and which line put each of their records there.

    sessions: over the track, and over the second file if there is one, by whether it is that; lines: all that are looked at;
    lengths: of the genome file; distance: of the blocks; shown: the numbers of the lines that have pictures
    """

    def __init__(self, sessions: Mapping[bool, Session], lines: Sequence[Line], lengths: Mapping[str, int], distance: int,
                 shown: Collection[int]) -> None:
        self._tracks = {second: Neighbours(session) for second, session in sessions.items()}
        self._lengths, self._distance, self._shown = dict(lengths), distance, shown
        self._copies = {second: Counter(track.copies(line.new for line in lines if line.new and line.is_second == second))
                        for second, track in self._tracks.items()}
        self._makers: dict[tuple[bool, Interval], Line] = {}

    def look(self, finding: Finding) -> Reviewed:
        """Says what is to be seen of a line, and carries it out if the program did."""
        line, track = finding.line, self._tracks.get(finding.line.is_second)
        is_shown = bool(track) and line.number in self._shown
        looks = [self._look_at(line, stretch) for stretch in pictured(line, finding, self._lengths)] if is_shown else []
        tails = self._tails(line, looks)
        is_copy = bool(line.is_done and line.new and self._copies[line.is_second][line.new] > 0)
        if line.refusal:
            notes = list(of_refused(line, finding, self._lengths))
        elif line.there:
            notes = list(of_there(line))
        else:
            notes = self._carry_out(line, is_shown)
            looks = [look._replace(after=self._within(line, look.stretch)) for look in looks]
            tails = {**tails, **self._tails(line, looks)}
        if is_copy:
            notes.append(said("*A copy*: the track has this record already."))
        pictures = figures(line, finding, Scene(self._lengths, self._distance, line.is_second, tails), looks)
        if line.command == "resize" and line.is_done:
            self._lengths[line.fields[0]] = int(line.fields[1])
        return Reviewed(line, finding, notes, pictures, is_copy)

    def end(self) -> None:
        """Carries out all lines that weren't looked at since."""
        for track in self._tracks.values():
            track.carry_out()

    def _look_at(self, line: Line, stretch: Stretch) -> Seen:
        """What is at a stretch before a line."""
        other = self._tracks.get(not line.is_second)
        return Seen(stretch, self._within(line, stretch), [], self._tracks[line.is_second].beside(stretch),
                    other.within(stretch) if other else [])

    def _within(self, line: Line, stretch: Stretch) -> list[Interval]:
        return self._tracks[line.is_second].within(stretch, self._distance)

    def _tails(self, line: Line, looks: Sequence[Seen]) -> dict[Interval, str]:
        """The columns after the sixth of records that are there, and of those that a line has with theirs."""
        if not looks:
            return {}
        tails = self._tracks[line.is_second].tails(one for look in looks for one in (*look.before, *look.after))
        given = zip(asked(line), (line.old_tail, line.new_tail))
        return {**tails, **{record: tail for record, tail in given if record and tail}}

    def _carry_out(self, line: Line, is_shown: bool) -> list[Note]:
        """Changes the track, and says what came of it."""
        if line.command == "resize":
            for track in self._tracks.values():
                track.edit(line)
            return [plain(self._resized(line))]
        old, new = asked(line)
        before = self._blocks(line) if is_shown else 0
        self._tracks[line.is_second].edit(line)
        after = self._blocks(line) if is_shown else 0
        notes: list[Note] = []
        if old:
            maker = self._makers.get((line.is_second, old))
            notes += [(*plain("The record was put in by "), link(maker), *plain("."))] if maker else []
        if new:
            self._makers[line.is_second, new] = line
        for record, copies in (line.old, -1), (line.new, 1):
            if record:
                self._copies[line.is_second][record] += copies
        if old and new:
            notes.append(plain(difference(old, new)))
        if before and after and before != after:
            notes.append(plain(f"{counted(before, 'block')} {'becomes' if before == 1 else 'become'} {number(after)}."))
        return notes

    def _resized(self, line: Line) -> str:
        old, new = self._lengths[line.fields[0]], int(line.fields[1])
        change = f"{counted(abs(new - old), 'base')} {'more' if new > old else 'fewer'}"
        return f"{line.fields[0]}: {number(old)} → {number(new)}, {change}."

    def _blocks(self, line: Line) -> int:
        """How many blocks touch what the line names, or 0 if that is far apart, or of the second file."""
        places = [interval for interval in asked(line) if interval]
        if line.is_second or len({interval.sequence for interval in places}) > 1:
            return 0
        low, high = min(interval.start for interval in places), max(interval.end for interval in places)
        if high - low > FAR * max(interval.length for interval in places):
            return 0
        return self._tracks[False].blocks(Stretch(places[0].sequence, low, high), self._distance)

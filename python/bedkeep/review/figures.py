"""Which pictures a line has: the stretches around what it names, before and after it, or as it is if it was refused."""
from __future__ import annotations

from collections import Counter
from typing import Iterator, Mapping, NamedTuple, Optional, Sequence

from ..commands.causes import Finding
from ..commands.corrections import Line
from .drawing import Picture
from .intervals import Interval, Stretch, asked, blocks_of, interval_of, of_record, stretches_of
from .markup import counted, number
from .neighbours import Beside
from .shapes import Shape, shape_of

CLOSE = 25  # a change that is so many times smaller than its picture has a second one
END = 200  # bases on either side of a sequence's end, in the pictures of `resize`


class Seen(NamedTuple):
    """What is at a stretch: the records of the track, also a little further, before and after a line; and the other file's."""

    stretch: Stretch
    before: list[Interval]
    after: list[Interval]
    beside: Beside  # the records left and right of it
    other: list[Interval]

    def near(self, stretch: Stretch, distance: int) -> Seen:
        """The same of a part of the stretch."""
        wide = Stretch(stretch.sequence, stretch.low - distance, stretch.high + distance)
        return self._replace(stretch=stretch, before=list(filter(wide.touches, self.before)), after=list(filter(wide.touches, self.after)))


class Scene(NamedTuple):
    """What all pictures of a line share: the lengths before it, and the columns after the sixth of records."""

    lengths: Mapping[str, int]
    distance: int  # of the blocks
    is_second: bool  # whether the track is the second file's, which has no blocks
    tails: Mapping[Interval, str]

    def picture(self, stretch: Stretch, length: Optional[int] = None) -> Picture:
        """An empty picture. length: of the sequence, if it isn't what it was before"""
        return Picture(stretch, self.lengths.get(stretch.sequence) if length is None else length, self._shape)

    def blocks(self, intervals: list[Interval]) -> list[tuple[int, int]]:
        return [] if self.is_second else blocks_of(intervals, self.distance)

    def marks(self, intervals: list[Interval], about: Optional[Interval], mark: str) -> dict[Interval, list[str]]:
        """A mark for one copy of the record that a line is about; the second file's records have one each."""
        marks = _of_second(intervals) if self.is_second else {}
        if about:
            marks[about] = [*marks.get(about, []), mark]
        return marks

    def _shape(self, interval: Interval) -> Optional[Shape]:
        """The exons of a record."""
        return shape_of(interval, self.tails[interval]) if interval in self.tails else None


def pictured(line: Line, finding: Finding, lengths: Mapping[str, int]) -> list[Stretch]:
    """The stretches of a line's pictures, over the lengths before it."""
    if line.command == "resize":
        ends = [lengths.get(line.fields[0]), _length(line)] if line.fields else []
        shown = [Interval(line.fields[0], max(0, end - END), end + END) for end in ends if end is not None]
        return list(stretches_of(shown)) if len(shown) == 2 else []
    found = of_record(line.there or finding.found) if not line.is_done else None
    shown = [interval for interval in (*asked(line), found) if interval]
    return list(stretches_of(interval for interval in shown if interval.sequence in lengths and interval.start < interval.end))


def _length(line: Line) -> Optional[int]:
    """The new length that a `resize` names."""
    columns = interval_of([line.fields[0], "0", *line.fields[1:2]])
    return columns.end if columns else None


def figures(line: Line, finding: Finding, scene: Scene, looks: Sequence[Seen]) -> str:
    """All pictures of a line."""
    if line.command == "resize":
        return "".join(_resized(line, scene, seen) for seen in looks)
    if not line.is_done:
        return "".join(_refused(line, finding, scene, seen) for seen in looks)
    return "".join(_done(line, scene, seen) + "".join(_close(line, scene, seen)) for seen in looks)


def _figure(picture: Picture, line: Line, scene: Scene, seen: Seen) -> str:
    """A picture with the other file's records below."""
    if seen.other:
        marks = {} if scene.is_second else _of_second(seen.other)
        picture.lane("track" if scene.is_second else "second", seen.other, marks)
    return f"<figure>{picture.svg(_title(line), seen.beside)}</figure>"


def _of_second(intervals: list[Interval]) -> dict[Interval, list[str]]:
    return {interval: ["second"] * count for interval, count in Counter(intervals).items()}


def _title(line: Line) -> str:
    return f"line {line.place}: {' '.join([line.command, *line.fields[:3]])}"


def _done(line: Line, scene: Scene, seen: Seen, close: str = "") -> str:
    old, new = asked(line)
    picture = scene.picture(seen.stretch)
    for title, intervals, marked, mark in ("before", seen.before, old, "removed"), ("after", seen.after, new, "added"):
        shown = list(filter(seen.stretch.touches, intervals))
        picture.lane(title, shown, scene.marks(shown, marked, mark), scene.blocks(intervals), not close)
    if close:
        return f"<figure class=close><figcaption>{close}</figcaption>{picture.svg(close)}</figure>"
    return _figure(picture, line, scene, seen)


def _close(line: Line, scene: Scene, seen: Seen) -> Iterator[str]:
    """Pictures from near of a start or an end that moved by little."""
    (old, new), stretch = asked(line), seen.stretch
    if not old or not new or old.sequence != new.sequence:
        return
    for what, a, b in ("start", old.start, new.start), ("end", old.end, new.end):
        moved = abs(a - b)
        if 0 < moved * CLOSE < stretch.high - stretch.low and stretch.low <= a <= stretch.high:
            near = Stretch(stretch.sequence, max(0, min(a, b) - 5 * moved), max(a, b) + 5 * moved)
            yield _done(line, scene, seen.near(near, scene.distance), f"close to the {what}: {number(a)} → {number(b)}, {counted(moved, 'base')}")


def _refused(line: Line, finding: Finding, scene: Scene, seen: Seen) -> str:
    (old, new), stretch = asked(line), seen.stretch
    found, mended = of_record(line.there or finding.found), mended_record(finding)
    picture = scene.picture(stretch)
    near = list(filter(stretch.touches, seen.before))
    wanted = {interval: [mark] for interval, mark in ((old, "asked"), (new, "wished"))
              if interval and stretch.touches(interval)}
    if wanted:
        picture.lane("refused" if line.refusal else "asked", list(wanted), wanted)
    picture.lane("as it is", near, scene.marks(near, found, "meant"), scene.blocks(seen.before))
    if mended and stretch.touches(mended):
        picture.lane("mended", [mended], {mended: ["added"]})
    return _figure(picture, line, scene, seen)


def mended_record(finding: Finding) -> Optional[Interval]:
    """The record that the mended line puts in."""
    fields = finding.mended.split("\t")[1:]
    return interval_of(fields[len(fields) // 2:]) if finding.mended and finding.line.new else None


def _resized(line: Line, scene: Scene, seen: Seen) -> str:
    stretch = seen.stretch
    name, old, new = stretch.sequence, scene.lengths[stretch.sequence], _length(line) or 0
    before, after = Interval(name, 0, old, ("before",)), Interval(name, 0, new, ("refused" if line.refusal else "after",))
    picture = scene.picture(stretch, old if line.refusal else new)
    picture.lane("length", [before, after], {after: ["asked" if line.refusal else "added"]})
    near = list(filter(stretch.touches, seen.before))
    past = {interval: ["meant"] * count for interval, count in Counter(near).items() if interval.end > new}
    picture.lane("track", near, past, scene.blocks(seen.before))
    return _figure(picture, line, scene, seen)

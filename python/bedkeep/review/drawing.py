"""Pictures of a stretch of a sequence: lanes of records and blocks, above an axis."""
from __future__ import annotations

from typing import Callable, Iterator, Mapping, NamedTuple, Optional, Sequence

from .intervals import Interval, Stretch
from .markup import bases, escaped, number, shortened
from .shapes import Shape

WIDTH, LEFT, RIGHT = 900, 62, 8
ROW, BOX, THIN = 17, 13, 7
MOST_ROWS, MOST_BOXES = 6, 10  # of a lane
NARROW = 2  # between blocks that are drawn as one
LETTER = 6.2  # the width of a character

PLAIN = ("", "second")  # the marks of records that a line isn't about
Marks = Mapping[Interval, Sequence[str]]  # classes for copies of a record, one for each copy


class Box(NamedTuple):
    """A record at its place in a lane."""

    interval: Interval
    row: int
    low: float
    high: float
    name: str
    mark: str
    tip: str
    shape: Optional[Shape] = None

    @property
    def holds_name(self) -> bool:
        return not self.shape and self.high - self.low >= LETTER * len(self.name) + 14


class Picture:
    """An SVG, made lane by lane from its top.

    length: of the sequence, whose end is drawn if it is here; shape: says the blocks of a record that is no plain box
    """

    def __init__(self, stretch: Stretch, length: Optional[int], shape: Callable[[Interval], Optional[Shape]] = lambda _: None) -> None:
        self._stretch, self._length, self._shape = stretch, length, shape
        self._parts: list[str] = []
        self._top = 4.0

    def _x(self, position: int) -> float:
        _, low, high = self._stretch
        inside = min(max(position, low), high)
        return LEFT + (inside - low) * (WIDTH - LEFT - RIGHT) / (high - low)

    def lane(self, title: str, intervals: Sequence[Interval], marks: Marks, blocks: Sequence[tuple[int, int]] = (),
             named: bool = True) -> None:
        """Records in rows in which they don't overlap, and the blocks that they make."""
        boxes = list(self._packed(intervals, marks, named))
        left = len(intervals) - len(boxes)
        height = (1 + max((box.row for box in boxes), default=0)) * ROW + (18 if left else 6)
        self._parts.append(f'<text class=lane x=0 y={self._top + 15:g}>{title}</text>')
        self._parts += self._blocks(blocks, height)
        self._parts += (self._box(box) for box in sorted(boxes, key=lambda box: box.mark not in PLAIN))
        if left:
            self._parts.append(f'<text class="far edge" x={WIDTH - RIGHT - 2} y={self._top + height - 3:g}>'
                               f'+ {number(left)} more here</text>')
        self._top += height + 5

    def _packed(self, intervals: Sequence[Interval], marks: Marks, named: bool) -> Iterator[Box]:
        """A place for each record as far as there is room, those with a mark first."""
        rows: list[list[tuple[float, float]]] = []
        left = {interval: list(classes) for interval, classes in marks.items()}
        plain = {interval for interval in intervals if marks.get(interval, PLAIN)[-1] in PLAIN}
        middle = self._stretch.low + self._stretch.high
        nearest = sorted(intervals, key=lambda interval: (interval in plain, abs(interval.start + interval.end - middle)))
        for interval in sorted(nearest[:MOST_BOXES], key=lambda interval: (interval in plain, interval)):
            box = self._placed(interval, named, left.get(interval, []))
            low, high = box.low, box.high
            reach = high if box.holds_name or not box.name else high + LETTER * len(box.name) + (14 if box.shape else 4)
            if reach > WIDTH:
                box, reach = box._replace(name=""), high
            row = next((at for at, taken in enumerate(rows) if all(reach + 2 < a or low > b + 2 for a, b in taken)), len(rows))
            if row == MOST_ROWS:
                continue
            if row == len(rows):
                rows.append([])
            rows[row].append((low, reach))
            yield box._replace(row=row)

    def _placed(self, interval: Interval, named: bool, classes: list[str]) -> Box:
        """A record in the first row, with the next of its classes."""
        low = self._x(interval.start)
        tip = " ".join([f"{interval.start}–{interval.end}", *interval.rest])
        return Box(interval, 0, low, max(self._x(interval.end), low + 2), shortened(interval.name) if named else "",
                   classes.pop() if classes else "", tip if named else "", self._shape(interval))

    def _blocks(self, blocks: Sequence[tuple[int, int]], height: float) -> Iterator[str]:
        """The blocks. Those between which no gap would be seen are drawn as one."""
        drawn: list[tuple[float, float, str]] = []
        for start, end in blocks:
            if end >= self._stretch.low and start <= self._stretch.high:
                low, high = self._x(start), self._x(end)
                if drawn and low - drawn[-1][1] < NARROW:
                    drawn[-1] = drawn[-1][0], high, "blocks"
                else:
                    drawn.append((low, high, f"block {number(start)}–{number(end)}"))
        for low, high, tip in drawn:
            width = max(high - low, 2) + 2
            yield (f'<rect class=block x={low - 1:.0f} y={self._top:g} width={width:.0f} height={height:g} rx=3>'
                   f"<title>{tip}</title></rect>")

    def _box(self, box: Box) -> str:
        top, name = self._top + 3 + box.row * ROW, ""
        if box.name:
            x, where = (box.low + 5, "in") if box.holds_name else (box.high + (8 if box.shape else 3), "out")
            name = f'<text class={where} x={x:.0f} y={top + 10:g}>{escaped(box.name)}</text>'
        mark = f'"r {box.mark}"' if box.mark else "r"
        tip = f"<title>{escaped(box.tip)}</title>" if box.tip else ""
        outline = self._blocked(box, box.shape, top) if box.shape else _outline(box.low, box.high, top, box.interval.strand)
        return f'<g class={mark}>{tip}<path d="{outline}"/>{name}</g>'

    def _blocked(self, box: Box, shape: Shape, top: float) -> str:
        """The blocks of a record on a line along its strand, the thick part higher than the others."""
        middle = top + BOX / 2
        tip = {"+": f"M{box.high:.0f} {middle - 4:g}l5 4l-5 4z", "-": f"M{box.low:.0f} {middle - 4:g}l-5 4l5 4z"}
        paths = [f"M{box.low:.0f} {middle - 0.7:g}h{max(box.high - box.low, 2):.0f}v1.4H{box.low:.0f}z", tip.get(box.interval.strand, "")]
        for start, end, is_thick in shape.parts():
            if end > self._stretch.low and start < self._stretch.high:
                low, height = self._x(start), BOX if is_thick else THIN
                width = max(self._x(end) - low, 1.5)
                paths.append(f"M{low:.1f} {middle - height / 2:g}h{width:.1f}v{height}h-{width:.1f}z")
        return "".join(paths)

    def svg(self, title: str, beside: tuple[Optional[Interval], Optional[Interval]] = (None, None)) -> str:
        """The whole picture, with its axis; beside: the records left and right of it."""
        grid, ticks = self._axis()
        height = self._top + 16
        far = self._far(beside, height + 8)
        height += 12 if far else 0
        return (f'<svg viewBox="0 0 {WIDTH} {height:g}" role=img aria-label="{escaped(title)}">'
                f'{grid}{self._end()}{"".join(self._parts)}{ticks}{far}</svg>')

    def _axis(self) -> tuple[str, str]:
        _, low, high = self._stretch
        step = next(step for power in range(11) for step in (10 ** power, 2 * 10 ** power, 5 * 10 ** power)
                    if (high - low) / step <= 7 or power == 10)
        lines, ticks = [], []
        for position in range(-(-low // step) * step, high + 1, step):
            x = self._x(position)
            lines.append(f"M{x:.0f} 2V{self._top:g}")
            edge = " edge" if x > WIDTH - 60 else ""
            ticks.append(f'<text class="tick{edge}" x={x:.0f} y={self._top + 11:g}>{number(position)}</text>')
        return f'<path class=grid d="{"".join(lines)}"/>', "".join(ticks)

    def _end(self) -> str:
        """The end of the sequence, and what is past it."""
        if self._length is None or not self._length < self._stretch.high:
            return ""
        x = self._x(self._length)
        return (f'<rect class=beyond x={x:.0f} y=0 width={WIDTH - RIGHT - x:.0f} height={self._top:g}>'
                f'<title>past the end</title></rect><path class=end d="M{x:.0f} 0V{self._top:g}"/>')

    def _far(self, beside: tuple[Optional[Interval], Optional[Interval]], y: float) -> str:
        before, after = beside
        texts = []
        if before and before.end < self._stretch.low:
            text = f"◂ {shortened(before.name)} {bases(self._stretch.low - before.end)} away"
            texts.append(f'<text class=far x={LEFT} y={y:g}>{escaped(text)}</text>')
        if after and after.start > self._stretch.high:
            text = f"{shortened(after.name)} {bases(after.start - self._stretch.high)} away ▸"
            texts.append(f'<text class="far edge" x={WIDTH - RIGHT} y={y:g}>{escaped(text)}</text>')
        return "".join(texts)


def _outline(low: float, high: float, top: float, strand: str) -> str:
    """A box that points to where its strand leads."""
    width = max(high - low, 2.0)
    tip = 5 if strand in ("+", "-") and width > 8 else 0
    x, side = (low + tip, -tip) if strand == "-" else (low, tip)
    body = f"M{x:.0f} {top:g}h{width - tip:.0f}"
    if strand == "-":
        return f"{body}v{BOX}h-{width - tip:.0f}l{side} -6.5z"
    return f"{body}l{side} 6.5l-{tip} 6.5h-{width - tip:.0f}z" if tip else f"{body}v{BOX}h-{width:.0f}z"

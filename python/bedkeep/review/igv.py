"""Files for the browser IGV: the corrections as a track in colours, and a session with a region for each refused line."""
from __future__ import annotations

import os
import re
from typing import Iterator, Sequence
from xml.sax.saxutils import quoteattr

from ..commands.corrections import Line
from .intervals import asked
from .markup import CONTROL

DONE, REFUSED, THERE = "26,127,75", "179,38,30", "168,100,0"


def colour_rows(lines: Sequence[Line], order: dict[str, int]) -> Iterator[str]:
    """BED9: where each line is, its verdict as the name, and green or red. order: of the sequences, by their lengths' file"""
    rows = []
    for line in lines:
        for name, start, end in _places(line):
            if name in order:
                colour = REFUSED if line.refusal else THERE if line.there else DONE
                rows.append((order[name], start, end, line.number,
                             f"{name}\t{start}\t{end}\t{_label(line)}\t0\t.\t{start}\t{end}\t{colour}"))
    yield 'track name="corrections" description="corrections, done in green, refused in red, already there in amber" itemRgb="On"'
    yield from (row[-1] for row in sorted(rows))


def _label(line: Line) -> str:
    refusal = f", {line.refusal}" if line.refusal else ", already there" if line.there else ""
    return CONTROL.sub("_", f"line {line.place}: {line.command}{refusal}").replace("\t", " ")


def _places(line: Line) -> list[tuple[str, int, int]]:
    """The interval that a line is about, or its two if they are on two sequences. None has a length of 0."""
    places: dict[str, tuple[int, int]] = {}
    for interval in asked(line):
        if interval:
            low, high = places.get(interval.sequence, (interval.start, interval.end))
            places[interval.sequence] = min(low, interval.start, interval.end), max(high, interval.start, interval.end)
    return [(name, low, max(high, low + 1)) for name, (low, high) in places.items()]


def session_rows(lines: Sequence[Line], tracks: Sequence[str], genome: str, folder: str) -> Iterator[str]:
    """The lines of a session file in a folder, with a region for each refused line."""
    regions = [(line, place) for line in lines if line.refusal for place in _places(line)[:1]]
    locus = _locus(regions[0][1]) if regions else "All"
    named = [_printable(os.path.relpath(track, folder)) for track in tracks]
    yield '<?xml version="1.0" encoding="UTF-8"?>'
    yield f"<Session genome={quoteattr(_printable(genome))} locus={quoteattr(_printable(locus))} version=\"8\">"
    yield "<Resources>"
    yield from (f'<Resource path={quoteattr(name)} type="bed"/>' for name in named)
    yield "</Resources>"
    for place, name in enumerate(named):
        yield (f'<Panel name="Panel{place}"><Track id={quoteattr(name)} name={quoteattr(os.path.basename(name))} '
               'displayMode="EXPANDED"/></Panel>')
    yield "<Regions>"
    for line, (name, start, end) in regions:
        yield (f'<Region chromosome={quoteattr(_printable(name))} start="{start}" end="{end}" '
               f"description={quoteattr(_printable(_label(line)))}/>")
    yield "</Regions>"
    yield "</Session>"


def _locus(place: tuple[str, int, int]) -> str:
    name, start, end = place
    margin = max(end - start, 100)
    return f"{name}:{max(1, start - margin)}-{end + margin}"


def _printable(text: str) -> str:
    """A text without what XML can't have."""
    return re.sub("[\ufffe\uffff]", "\ufffd", CONTROL.sub("\ufffd", text))

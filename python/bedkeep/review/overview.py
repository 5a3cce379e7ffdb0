"""The table of the sequences: how dense each is, which corrections are on it, and what these changed."""
from __future__ import annotations

from typing import Iterable, Mapping, Sequence

from ..commands.corrections import Line
from .intervals import asked, sequence_of
from .markup import counted, escaped, number
from .totals import BINS, Totals

SHOWN = 40  # sequences without a correction in the table, the longest ones
WIDTH = 420
HEAD = ("<thead><tr><th>sequence</th><th>records and corrections</th><th>done</th><th>refused</th><th colspan=2>records</th>"
        "<th colspan=2>blocks</th><th colspan=2>bases covered</th></tr></thead>")


def shown_lengths(lines: Iterable[Line], lengths: Mapping[str, int]) -> dict[str, int]:
    """The sequences of the table with their lengths, in the order of the genome file."""
    touched = {sequence_of(line) for line in lines if line.is_run}
    shown = touched.union(sorted(lengths.keys() - touched, key=lambda name: (-lengths[name], name))[:SHOWN])
    return {name: length for name, length in lengths.items() if name in shown}


def overview(lines: Sequence[Line], lengths: Mapping[str, int], before: Totals, after: Totals) -> str:
    """The table. lines: those that are run; lengths: of all sequences"""
    of_name: dict[str, list[Line]] = {}
    for line in lines:
        of_name.setdefault(sequence_of(line), []).append(line)
    shown = {name: length for name, length in shown_lengths(lines, lengths).items() if name in of_name or after.records[name]}
    longest = max(shown.values(), default=0) or 1
    rows = "".join(_row(name, of_name.get(name, []), length, WIDTH * length / longest, before, after)
                   for name, length in shown.items())
    notes = []
    if len(shown) < len(lengths):
        notes.append(f"{counted(len(lengths) - len(shown), 'more sequence')} without a correction.")
    lost = sum(len(listed) for name, listed in of_name.items() if name not in lengths)
    if lost:
        notes.append(f"{counted(lost, 'refused line')} of no sequence of the genome file.")
    return f"<div class=scroll><table>{HEAD}<tbody>{rows}</tbody></table></div><p class=quiet>{' '.join(notes)}</p>"


def _row(name: str, lines: Sequence[Line], length: int, width: float, before: Totals, after: Totals) -> str:
    done, refused = sum(line.is_done for line in lines), sum(bool(line.refusal) for line in lines)
    counts = "".join(_change(old[name], new[name]) for old, new in
                     ((before.records, after.records), (before.blocks, after.blocks), (before.covered, after.covered)))
    picture = _picture(lines, length, max(width, 3), after.density(name))
    return (f'<tr data-sequence="{escaped(name)}"><th>{escaped(name)}</th><td class=picture>{picture}</td>'
            f"<td>{number(done) if lines else ''}</td><td class=no>{number(refused) if refused else ''}</td>"
            f"{counts}</tr>\n")


def _picture(lines: Sequence[Line], length: int, width: float, density: Sequence[int]) -> str:
    most = max(density) or 1
    bars = "".join(f"M{place * width / BINS:.1f} 26v-{1 + count / most * 15:.1f}"
                   for place, count in enumerate(density) if count)
    marks = {"yes": "", "no": ""}
    for x, kind in sorted({(round(_position(line, length) * width, 1), "no" if line.refusal else "yes") for line in lines}):
        marks[kind] += f"M{x:g} 10l-4 -8h8z"
    paths = "".join(f'<path class={kind} d="{path}"/>' for kind, path in marks.items() if path)
    return (f'<svg viewBox="-5 0 440 32" width=440 height=32><rect class=sequence y=26 width="{width:.1f}" height=4 rx="2"/>'
            f'<path class=bars stroke-width={max(width / BINS, 0.8):.2f} d="{bars}"/>{paths}</svg>')


def _position(line: Line, length: int) -> float:
    """Where a line is on its sequence, from 0 to a little more than 1."""
    place = next((interval.start for interval in asked(line) if interval), length)
    return min(place / max(length, 1), 1.02)


def _change(before: int, after: int) -> str:
    if before == after:
        return f"<td>{number(after)}</td><td></td>"
    return f'<td>{number(after)}</td><td class={"up" if after > before else "down"}>{after - before:+,}</td>'

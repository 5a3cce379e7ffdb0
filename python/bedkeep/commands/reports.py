"""What a replay prints: each line that isn't simply done with the records that it is about, or a table."""
from __future__ import annotations

from collections import Counter
from typing import Iterable, Iterator, Sequence

from .causes import CONFLICT, FITS, FOLLOWS, TAKEN, THERE, Finding
from .three_way import Version

TITLES = ("file", "line", "class", "by", "differs", "asked", "there", "mended", "note")
Columns = Sequence[str]


def report(findings: Iterable[Finding]) -> Iterator[str]:
    """The lines that don't simply fit, each with its records and a mark below each column that differs; then the counts."""
    counts: Counter[str] = Counter()
    for finding in findings:
        counts[finding.kind] += 1
        yield from of_line(finding)
    yield ", ".join(f"{count} {kind}" for kind, count in counts.items()) or "no corrections"


def of_line(finding: Finding) -> Iterator[str]:
    """What is printed of one line, which is nothing if it simply fits."""
    line = finding.line
    if finding.kind == FITS:
        if line.warning:
            yield f"{line.file}: line {line.place}: done, but {line.warning}"
        return
    notes = "; ".join(_notes(finding))
    yield f"{line.file}: line {line.place}: {finding.kind}{_by(finding)}{f' ({notes})' if notes else ''}"
    if finding.asked:
        yield from _beside(list(_rows(finding)))
    else:
        yield f"    {line.text}"
    if finding.mended:
        yield f"    mended  {finding.mended}"
    for offer in line.offers:
        yield f"    fits    {offer}"


def table(findings: Iterable[Finding]) -> Iterator[str]:
    """A heading and a row for each line that doesn't simply fit. Records and the mended line have spaces for TABs."""
    yield "\t".join(TITLES)
    for finding in findings:
        line = finding.line
        if finding.kind != FITS or line.warning:
            yield "\t".join([line.file, str(line.place), finding.kind, str(finding.by.place) if finding.by else "",
                             ",".join(finding.differing), " ".join(finding.asked or ()), " ".join(finding.found or ()),
                             finding.mended.replace("\t", " "), "; ".join(_notes(finding))])


def _notes(finding: Finding) -> Iterator[str]:
    if finding.unlike:
        yield f"both changed {' and '.join(finding.unlike)}" if finding.line.old else f"another {' and '.join(finding.unlike)}"
    yield from (note for note in (finding.note, finding.line.warning) if note)


def _by(finding: Finding) -> str:
    """The line of the script that took the record, or that has to be mended first."""
    by = finding.by
    if not by or finding.kind not in (TAKEN, FOLLOWS):
        return ""
    file = "" if by.file == finding.line.file else f" of {by.file}"
    return f" by line {by.place}{file}" if finding.kind == TAKEN else f" line {by.place}{file}"


def _rows(finding: Finding) -> Iterator[tuple[str, Columns]]:
    """The records that are shown of a line, with what they are called."""
    line, found = finding.line, finding.found
    is_wide = line.old_tail is not None or line.new_tail is not None
    if finding.kind == CONFLICT and line.old and line.new:
        yield "base", Version(line.old, line.old_tail).columns
        yield "mine", Version(line.new, line.new_tail).columns
    else:
        yield "asked", Version(finding.asked or (), line.old_tail if line.old else line.new_tail).columns
    if found and (finding.kind != THERE or found != finding.asked):
        yield "theirs" if finding.kind == CONFLICT else "there", Version(found, finding.tail if is_wide else None).columns


def _beside(rows: Sequence[tuple[str, Columns]]) -> Iterator[str]:
    """Records, column below column, and marks where the last one differs from another."""
    count = max(len(columns) for _, columns in rows)
    cells = [[*columns, *[""] * (count - len(columns))] for _, columns in rows]
    widths = [max(map(len, column)) for column in zip(*cells)]
    for (title, _), columns in zip(rows, cells):
        yield f"    {title:8}" + "  ".join(column.ljust(width) for column, width in zip(columns, widths)).rstrip()
    marks = [("^" if len(set(column) - {""}) > 1 else " ") * width for column, width in zip(zip(*cells), widths)]
    if any("^" in mark for mark in marks):
        yield " " * 12 + "  ".join(marks).rstrip()

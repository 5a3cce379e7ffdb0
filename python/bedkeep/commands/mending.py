"""The script again, with lines that fit: what `replay --mend` writes.

A line that is mended comes below `# was: LINE`. One that is already so, or there, is left as `# dropped: LINE`. One in conflict
is commented out below `# conflict: ..`, and so are all lines of its group. Reasons and signatures stay where they are, and none
becomes that of another line.
"""
from __future__ import annotations

from typing import Iterator, Sequence

from .causes import BAD, CONFLICT, DOABLE, GONE, SO, TAKEN, THERE, Finding
from .corrections import Line, rewritten
from .three_way import Version


def mended(lines: Sequence[Line], findings: Sequence[Finding]) -> Iterator[str]:
    """The lines of the scripts again. findings: of those that are run."""
    out = {id(finding.line.group) for finding in findings if finding.line.group and finding.kind not in DOABLE}
    return rewritten(lines, {finding.line.number: written(finding, bool(finding.line.group) and id(finding.line.group) in out)
                             for finding in findings})


def written(finding: Finding, is_out: bool) -> tuple[list[str], bool]:
    """What is written for a line, and whether the line is left out. is_out: whether its group stays out."""
    text = finding.line.text
    if finding.kind in (SO, THERE):
        return [f"# dropped: {text}"], True
    if finding.kind == CONFLICT or is_out:
        return [*(f"# conflict: {row}" for row in of_conflict(finding)), f"# {text}"], True
    return ([f"# was: {text}", finding.mended] if finding.mended else [text]), False


def of_conflict(finding: Finding) -> Iterator[str]:
    """The three records of a conflict, with the fields that differ; or why else the line is left out."""
    line = finding.line
    if finding.kind in (GONE, BAD, TAKEN) or finding.by:
        yield finding.note or finding.kind
        return
    if finding.note:
        yield finding.note
    if line.old:
        yield _row("base", Version(line.old, line.old_tail), finding.unlike)
    if line.new:
        yield _row("mine", Version(line.new, line.new_tail), finding.unlike)
    if finding.found:
        is_wide = line.old_tail is not None or line.new_tail is not None
        yield _row("theirs", Version(finding.found, finding.tail if is_wide else None), finding.unlike)


def _row(title: str, version: Version, unlike: Sequence[str]) -> str:
    said = ", ".join(f"{name} {version.fields[name]}" for name in unlike if name in version.fields)
    return f"{title} {version}" + (f" ({said})" if said else "")

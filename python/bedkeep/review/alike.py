"""Which lines share a card: those that are done together, and many that make the same change for the same reason."""
from __future__ import annotations

from collections import Counter
from typing import Hashable, Iterator, NamedTuple, Sequence

from ..commands.causes import Finding
from ..commands.corrections import Line
from ..formats import follow
from ..printed_rows import RECORD
from ..record import Record
from .markup import number

SAME = 20  # more lines that make the same change are one card
MANY = 500  # more lines that add or remove records for one reason are one too
SHOWN = 3  # lines of a card of many that have pictures


class Unit(NamedTuple):
    """The lines of a card. together: whether they are done whole or not at all; title: what they have in common, of several

    kind: the class of what two scripts make of one record
    """

    findings: Sequence[Finding]
    together: bool = False
    title: str = ""
    kind: str = ""

    @property
    def is_long(self) -> bool:
        """Whether only the first lines are shown, and all are listed."""
        return len(self.findings) > SAME

    @property
    def shown(self) -> Sequence[Finding]:
        return self.findings[:SHOWN] if self.is_long else self.findings


def units_of(findings: Sequence[Finding]) -> Iterator[Unit]:
    """The cards, in the order of their first lines."""
    kinds = [_kind(finding) for finding in findings]
    counts = Counter(kinds)
    units: dict[tuple[bool, Hashable], list[Finding]] = {}
    for finding, kind in zip(findings, kinds):
        line = finding.line
        shared = counts[kind] > (SAME if line.old and line.new else MANY)
        key: Hashable = id(line.group) if line.group else kind if shared else line.number
        units.setdefault((bool(line.group), key), []).append(finding)
    for (together, _), listed in units.items():
        yield Unit(listed, together, _title(listed) if len(listed) > 1 else "")


def _kind(finding: Finding) -> Hashable:
    """What is the same for lines that may share a card: the verdict, the reason and the change."""
    line = finding.line
    return (line.command, line.refusal, finding.kind, bool(line.warning), line.comments, _change(line))


def _change(line: Line) -> Hashable:
    """What a line does to a record, without saying to which one."""
    if not line.old or not line.new:
        return None if line.is_edit else line.number
    old, new = line.old, line.new
    followed = line.new_tail is None or line.new_tail == follow(old, line.old_tail or "", new).tail
    return (None if old[0] == new[0] else old[0], None if old[0] == new[0] else new[0], _moves(old, new), _renamed(old, new),
            *(put for was, put in zip(old[4:], new[4:]) if was != put), None if followed else line.new_tail)


def _moves(old: Record, new: Record) -> tuple[int, int]:
    """By how much start and end become more."""
    return int(new[1]) - int(old[1]), int(new[2]) - int(old[2])


def _renamed(old: Record, new: Record) -> tuple[str, str]:
    """What of the name becomes what: the part between what stays of its front and of its end."""
    if old[3:4] == new[3:4]:
        return "", ""
    was, put = old[3], new[3]
    front = next((at for at, (a, b) in enumerate(zip(was, put)) if a != b), min(len(was), len(put)))
    back = next((at for at, (a, b) in enumerate(zip(was[front:][::-1], put[front:][::-1])) if a != b),
                min(len(was), len(put)) - front)
    return was[front:len(was) - back], put[front:len(put) - back]


def _title(findings: Sequence[Finding]) -> str:
    """What several lines have in common, or how many these are."""
    count = number(len(findings))
    first = findings[0].line
    if len({(finding.line.command, _change(finding.line)) for finding in findings}) > 1 or not first.is_edit:
        return f"{count} lines"
    if not first.old or not first.new:
        return f"{count} records {'added' if first.new else 'removed'}"
    return f"{count} records {_words(first.old, first.new)}"


def _words(old: Record, new: Record) -> str:
    """What a line does to its record, so that it is true of all lines that make the same change."""
    (start, end), (was, put) = _moves(old, new), _renamed(old, new)
    parts = [f"moved from {old[0]} to {new[0]}"] if old[0] != new[0] else []
    if start == end != 0:
        parts.append(f"shifted by {start:,}")
    else:
        parts += [f"with the {what} {abs(by):,} bases {'later' if by > 0 else 'earlier'}"
                  for what, by in (("start", start), ("end", end)) if by]
    if was or put:
        parts.append(f"renamed by {put!r}" if not was else f"renamed from {was!r} to {put!r}")
    parts += [f"with {what} {b}" for what, a, b in zip(RECORD[4:], old[4:], new[4:]) if a != b]
    return ", ".join(parts) or "with other columns after the sixth"

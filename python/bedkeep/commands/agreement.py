"""What two scripts make of the records of one track, compared by what comes of each record and not by how it was written.

What comes of a record of the file is another record, or none; and records are added. Equal records are copies, and it doesn't matter
which is which: if a script replaces one, and makes its equal of another, nothing came of it. Two scripts do

- *alike* if the same comes of a record. So they do if one has a `replace` and the other `remove` and `add`, or if both take the same
  records out and put the same in, but as other pairs
- *otherwise* if something else comes of it by each, or if they add different records that have a name, a place or an end in common
- and what one of them alone does is *only A* or *only B*

So all is alike if, and only if, both corrected tracks have the same records, and all sequences the same lengths.
"""
from __future__ import annotations

from collections import Counter, defaultdict
from itertools import chain, groupby, zip_longest
from typing import Any, Iterable, Iterator, Mapping, NamedTuple, Optional, Sequence

from ..pairs import Groups, changes
from ..placement import Copy, Followed
from ..record import record_of
from ..regions import Order
from ..script import comments_of
from ..session import Session
from .corrections import Line
from .journal import paragraph

ALIKE, OTHERWISE, ONLY_A, ONLY_B = "alike", "otherwise", "only A", "only B"
REMOVED = "removed"
TITLES = ("class", "record", "A", "B", "reason of A", "reason of B")


class Fate:
    """What comes of a copy of a record: old is the record in the file, and new what it is by the lines; None if there is none.

    The records are lines of a BED file, or a sequence and its length.
    """

    def __init__(self, old: Optional[str], new: Optional[str], lines: Iterable[Line]) -> None:
        self.old, self.new = old, new
        self.lines = sorted(lines, key=lambda line: line.number)

    @property
    def is_length(self) -> bool:
        return (self.old or self.new or "").count("\t") == 1

    @property
    def reasons(self) -> list[str]:
        return list(dict.fromkeys(comment for line in self.lines for comment in line.comments if comment))

    @property
    def edit(self) -> str:
        """The line of a script that does it."""
        if self.is_length:
            return f"resize\t{self.new}"
        command = "add" if not self.old else "replace" if self.new else "remove"
        return "\t".join(text for text in (command, self.old, self.new) if text)


class Compared(NamedTuple):
    """What each of two scripts makes of a record. kind: its class; one, other: by A and by B, or None"""

    kind: str
    one: Optional[Fate]
    other: Optional[Fate]

    @property
    def fates(self) -> list[Fate]:
        return [fate for fate in (self.one, self.other) if fate]

    @property
    def lines(self) -> list[Line]:
        return [line for fate in self.fates for line in fate.lines]

    @property
    def columns(self) -> list[str]:
        """Its row of the table, with spaces for TABs."""
        both = (self.one, self.other)
        made = [fate.new or REMOVED if fate else "" for fate in both]
        reasons = ["; ".join(fate.reasons) if fate else "" for fate in both]
        return [text.replace("\t", " ") for text in (self.kind, self.fates[0].old or "", *made, *reasons)]


def fates_of(session: Session, lines: Iterable[Line], lengths: Mapping[str, int]) -> list[Fate]:
    """What comes of records, and of lengths, by lines that a session carried out. lengths: before them"""
    done = [line for line in lines if line.is_done]
    resized: dict[str, list[Line]] = defaultdict(list)
    for line in done:
        if line.command == "resize":
            resized[line.fields[0]].append(line)
    of: dict[Copy, list[Line]] = defaultdict(list)
    for line, copy in zip((line for line in done if line.is_edit and not line.is_second), Followed(session.moves()).copies):
        of[copy].append(line)
    return _joined([*(Fate(f"{name}\t{lengths[name]}", f"{name}\t{session.length(name)}", listed) for name, listed in resized.items()),
                    *(Fate(copy.origin, copy.record, listed) for copy, listed in of.items())])


def _joined(fates: Iterable[Fate]) -> list[Fate]:
    """The fates, two joined if one takes what the other puts, and without those of which nothing comes."""
    takes: dict[Optional[str], list[Fate]] = defaultdict(list)
    puts: dict[Optional[str], list[Fate]] = defaultdict(list)
    left: dict[Fate, None] = {}
    for fate in fates:
        while fate.old != fate.new:
            before = _pop(puts[fate.old], left) if fate.old else None
            after = _pop(takes[fate.new], left) if fate.new and not before else None
            if before:
                fate = Fate(before.old, fate.new, [*before.lines, *fate.lines])
            elif after:
                fate = Fate(fate.old, after.new, [*fate.lines, *after.lines])
            else:
                takes[fate.old].append(fate)
                puts[fate.new].append(fate)
                left[fate] = None
                break
    return list(left)


def _pop(fates: list[Fate], left: dict[Fate, None]) -> Optional[Fate]:
    """Takes the last of some fates out that is left."""
    while fates:
        fate = fates.pop()
        if fate in left:
            del left[fate]
            return fate
    return None


def compared(ones: Sequence[Fate], others: Sequence[Fate], lengths: Mapping[str, int]) -> list[Compared]:
    """What both make of each record, in the order of the track."""
    order = Order(lengths)

    def place(fate: Fate) -> tuple[Any, ...]:
        columns = (fate.old or fate.new or "").split("\t")
        return order.key((columns[0], "-1", "-1") if fate.is_length else record_of(columns)), fate.old or "", fate.new or ""

    left = [sorted(fates, key=place) for fates in (ones, others)]
    rows = list(_equal(*left))
    known = {fate for row in rows for fate in row.fates}
    added: tuple[list[Fate], list[Fate]] = ([], [])
    for part in _connected(*([fate for fate in fates if fate not in known] for fates in left)):
        if _net(part[0]) == _net(part[1]):
            rows += _together(*part)
            continue
        rows += _by_record(*part)
        for fates, more in zip(added, part):
            fates += [fate for fate in more if not fate.old]
    rows += _added(*(sorted(fates, key=place) for fates in added))
    return sorted(rows, key=lambda row: place(row.fates[0]))


def _equal(ones: Sequence[Fate], others: Sequence[Fate]) -> Iterator[Compared]:
    """Equal fates of equal records."""
    same: dict[tuple[Optional[str], Optional[str]], list[Fate]] = defaultdict(list)
    for fate in reversed(others):
        same[fate.old, fate.new].append(fate)
    for fate in ones:
        if same[fate.old, fate.new]:
            yield Compared(ALIKE, fate, same[fate.old, fate.new].pop())


def _connected(ones: Sequence[Fate], others: Sequence[Fate]) -> Iterable[tuple[list[Fate], list[Fate]]]:
    """The fates of records of which one became another by either script, together."""
    groups: Groups[str] = Groups()
    for fate in chain(ones, others):
        if fate.old and fate.new:
            groups.join(fate.old, fate.new)
    parts: dict[str, tuple[list[Fate], list[Fate]]] = {}
    for side, fates in enumerate((ones, others)):
        for fate in fates:
            parts.setdefault(groups.first(fate.old or fate.new or ""), ([], []))[side].append(fate)
    return parts.values()


def _net(fates: Iterable[Fate]) -> Counter[str]:
    """The copies of records that are put in less those that are taken out, if there are any."""
    net: Counter[str] = Counter()
    for fate in fates:
        net.update({record: 1 for record in [fate.new] if record})
        net.subtract({record: 1 for record in [fate.old] if record})
    return Counter({record: copies for record, copies in net.items() if copies})


def _together(ones: Sequence[Fate], others: Sequence[Fate]) -> Iterator[Compared]:
    """Fates that are alike together: the other script's are those that are about the same records, or all."""
    for one in ones:
        near = [fate for fate in others if fate.old and fate.old == one.old or fate.new and fate.new == one.new]
        yield Compared(ALIKE, one, Fate(one.old, one.new, (line for fate in near or others for line in fate.lines)))


def _by_record(ones: Sequence[Fate], others: Sequence[Fate]) -> Iterator[Compared]:
    """What both make of each record of the file, copy by copy."""
    for old in dict.fromkeys(fate.old for fate in (*ones, *others) if fate.old):
        for one, other in zip_longest(*([fate for fate in fates if fate.old == old] for fates in (ones, others))):
            yield Compared(_kind(one, other), one, other)


def _added(ones: Sequence[Fate], others: Sequence[Fate]) -> Iterator[Compared]:
    """Records that one script adds and the other doesn't, those paired of which one may be meant by the other."""
    of = [_by_new(ones), _by_new(others)]
    for change in changes(*([fate.new or "" for fate in fates] for fates in (ones, others))):
        for rows in zip_longest(change.gone, change.come):
            one, other = (fates[row].pop() if row else None for fates, row in zip(of, rows))
            yield Compared(_kind(one, other), one, other)


def _by_new(fates: Iterable[Fate]) -> dict[str, list[Fate]]:
    of: dict[str, list[Fate]] = defaultdict(list)
    for fate in fates:
        of[fate.new or ""].append(fate)
    return of


def _kind(one: Optional[Fate], other: Optional[Fate]) -> str:
    return OTHERWISE if one and other else ONLY_A if one else ONLY_B


def script_of(rows: Iterable[Compared]) -> list[str]:
    """The lines of a script of what is alike, each below the reasons of both: greater lengths, records, additions, lesser lengths."""
    lines: list[str] = []
    alike = sorted((row for row in rows if row.kind == ALIKE), key=_turn)
    for reasons, together in groupby(alike, lambda row: list(dict.fromkeys(reason for fate in row.fates for reason in fate.reasons))):
        lines += paragraph(lines[-1] if lines else "", [row.fates[0].edit for row in together], comments_of(reasons))
    return lines


def _turn(row: Compared) -> int:
    """When a line is done: what it takes or needs is there then."""
    fate = row.fates[0]
    if fate.is_length and fate.old and fate.new:
        old, new = (int(text.split("\t")[1]) for text in (fate.old, fate.new))
        return 0 if old < new else 3
    return 1 if fate.old else 2

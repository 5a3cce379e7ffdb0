"""The paragraphs of a script that no longer fit a file, each of which somebody has to decide about.

A decision is written into the script that is kept now, so that nothing else has to be kept: a marker as `replay --mend` writes it,
`# was: LINE` above the line that is taken instead, or `# dropped: LINE` alone. One that was taken back is `# reopened, was: LINE`.
"""
from __future__ import annotations

import re
from collections import Counter
from itertools import groupby
from typing import Any, Iterable, Iterator, Mapping, Optional, Sequence

from ..encoding import Path
from ..record import Record
from ..session import UNDONE
from .causes import BAD, CONFLICT, DOABLE, FITS, FOLLOWS, GONE, SO, THERE, Finding
from .corrections import Line
from .input_files import Inputs
from .journal import paragraph
from .offers import Offer, meant
from .replay import replay_inputs
from .three_way import Version, line_over

DECISION = re.compile(r"# (was|dropped|reopened, was): (.*)", re.DOTALL)
WAS, DROPPED, REOPENED = "was", "dropped", "reopened, was"
OPEN, TAKEN, OTHER, DECIDED = "open", "taken", "other", "decided"


def marker(kind: str, text: str) -> str:
    """The comment that says which line was decided about."""
    return f"# {kind}: {text}"


def kind_of(text: str) -> str:
    """Which decision a line of a script says, or nothing."""
    found = DECISION.fullmatch(text)
    return found[1] if found else ""


def decided(lines: Iterable[str]) -> Counter[str]:
    """The lines that these lines of a script have decisions about, each as often as they have one."""
    texts: Counter[str] = Counter()
    for line in lines:
        found = DECISION.fullmatch(line)
        if found:
            texts[found[2]] += -1 if found[1] == REOPENED else 1
    return texts


class Item:
    """A line that needs a decision, or the lines of a paragraph that are done together.

    state: open, taken (as offered), other, dropped, or decided before; entry: the number of the correction that has the decision
    lengths: of the genome file
    """

    def __init__(self, findings: Sequence[Finding], lengths: Mapping[str, int]) -> None:
        self.findings, self.lines, self._lengths = list(findings), [finding.line for finding in findings], lengths
        self.number = self.lines[0].number
        self.state = OPEN
        self.entry: Optional[int] = None

    @property
    def offered(self) -> list[str]:
        """The lines to take, if there are some that fit: mended, or as they are once a line above is mended."""
        if any(finding.kind not in DOABLE for finding in self.findings):
            return []
        return [finding.mended or finding.line.text for finding in self.findings
                if finding.mended or finding.kind not in (SO, THERE)]

    @property
    def is_needless(self) -> bool:
        """Whether the file has what its lines ask for, so that they can be left out."""
        return all(finding.kind in (SO, THERE) for finding in self.findings)

    @property
    def offers(self) -> list[Offer]:
        """Other lines that may be taken: what both changed as the line has it, a record that is gone as a new one, what is meant."""
        if len(self.findings) == 1 and self.findings[0].kind == BAD:
            return list(meant(self.lines[0], self._lengths))
        lines = [_insisting(finding, self._lengths) for finding in self.findings if finding.kind not in (SO, THERE)]
        if self.offered or not lines or not all(lines):
            return []
        is_gone = any(finding.kind == GONE for finding in self.findings)
        return [Offer(tuple(lines), "as a new record" if is_gone else "as the line has it", self.findings[0].found)]

    @property
    def place(self) -> Optional[tuple[str, int, int]]:
        """Where its first record is, or should be."""
        records: list[Record] = [record for finding in self.findings for record in (finding.found, finding.asked) if record]
        return next(((record[0], int(record[1]), int(record[2])) for record in records), None)

    def markers(self, kind: str) -> list[str]:
        """What says in the script that it is decided about."""
        return [marker(kind, line.text) for line in self.lines]

    def as_json(self) -> dict[str, Any]:
        return {"number": self.number, "state": self.state, "entry": self.entry, "reason": " ".join(self.lines[0].comments),
                "place": self.place, "kind": next(finding.kind for finding in self.findings if finding.is_refused),
                "offered": self.offered, "offers": [offer.as_json() for offer in self.offers],
                "lines": [_as_json(finding) for finding in self.findings]}


def _insisting(finding: Finding, lengths: Mapping[str, int]) -> str:
    """A line over the record that is there, which changes what it asks for; or nothing."""
    line, found, is_undone = finding.line, finding.found, finding.note.startswith(UNDONE)
    if finding.mended or finding.kind in (FITS, FOLLOWS) or is_undone and not found:
        return finding.mended or line.text
    if finding.kind == GONE and line.new:
        return "\t".join([f"add{'b' * line.is_second}", *line.new]) + (line.new_tail or "")
    if finding.kind != CONFLICT or not found or finding.by and not is_undone:
        return ""
    return line_over(line, Version(found, finding.tail), lengths, insist=True)[0] if line.old else next(iter(line.offers), "")


def _as_json(finding: Finding) -> dict[str, Any]:
    line = finding.line
    return {"number": line.number, "file": line.file, "at": line.place, "text": line.text, "kind": finding.kind,
            "message": line.message, "asked": finding.asked, "new": line.new, "found": finding.found, "tail": finding.tail,
            "mended": finding.mended, "note": finding.note, "unlike": finding.unlike or finding.differing,
            "by": finding.by.place if finding.by else None}


class Worklist:
    """The lines of scripts over a file: those that fit, and those that need a decision.

    items: the latter, by their numbers; count: of all paragraphs
    """

    def __init__(self, genome: Path, bed: Path, scripts: Sequence[Path], second: Optional[Path] = None, copies: bool = False,
                 leave_blocks: bool = False) -> None:
        with Inputs(genome, bed, scripts, second) as inputs:
            findings, lengths = replay_inputs(inputs, (), copies, leave_blocks).findings, inputs.lengths
        self._units = [Item(list(unit), lengths) for _, unit in groupby(findings, key=lambda one: one.line.group or one.line)]
        self.items = {unit.number: unit for unit in self._units if any(finding.is_refused for finding in unit.findings)}
        self.count = len(self._units)

    def open_items(self) -> list[Item]:
        return [item for item in self.items.values() if item.state == OPEN]

    def settle(self, lines: Iterable[str]) -> None:
        """Takes the decisions that a script has already."""
        texts = decided(lines)
        for item in self.items.values():
            needed = Counter(line.text for line in item.lines)
            if all(texts[text] >= count for text, count in needed.items()):
                texts -= needed
                item.state = DECIDED

    def fitting(self) -> Iterator[str]:
        """The lines of a script that has only what fits, below the reasons."""
        lines = [finding.line for unit in self._units if unit.number not in self.items for finding in unit.findings
                 if finding.line.is_done]
        above = ""
        for (comments, _), listed in groupby(lines, key=_paragraph):
            for above in paragraph(above, [line.text for line in listed], comments):
                yield above

    def as_json(self) -> dict[str, Any]:
        return {"count": self.count, "open": len(self.open_items()), "refused": len(self.items),
                "items": [item.as_json() for item in self.items.values()]}


def _paragraph(line: Line) -> tuple[tuple[str, ...], int]:
    """What the lines of a paragraph share."""
    return line.above, id(line.group)

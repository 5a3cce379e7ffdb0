"""What the program did with the lines: their verdicts, and the tracks before and after all of them."""
from __future__ import annotations

import subprocess
from contextlib import ExitStack
from typing import Collection, Optional, Sequence

from ..commands.authors import blame
from ..commands.input_files import Inputs
from ..commands.replay import replay_inputs
from ..program import find
from .alike import units_of
from .cards import Card
from .overview import shown_lengths
from .page import Contents
from .reviewer import Reviewer
from .totals import Totals


def review(inputs: Inputs, distance: int, sums: Sequence[tuple[str, str]], copies: bool = False, leave_blocks: bool = False,
           shown: Optional[Collection[int]] = None) -> Contents:
    """All that the page shows. Differs if the program does otherwise with the lines that it did at first.

    shown: the numbers of the lines that have pictures, if not those of all cards have them
    """
    lengths = inputs.lengths
    findings = replay_inputs(inputs, copies=copies, leave_blocks=leave_blocks).findings
    lines = [finding.line for finding in findings]
    blame(inputs.lines)
    units = list(units_of(findings))
    pictured = {finding.line.number for unit in units for finding in unit.shown} if shown is None else shown
    with ExitStack() as stack:
        sessions = {False: stack.enter_context(inputs.session(leave_blocks=True))}
        if inputs.second:
            sessions[True] = stack.enter_context(inputs.second_session())
        before = Totals(sessions[False], distance, shown_lengths(lines, lengths))
        reviewer = Reviewer(sessions, lines, lengths, distance, pictured)
        reviewed = {finding.line.number: reviewer.look(finding) for finding in findings}
        reviewer.end()
        changed = {record[0] for line in lines if line.is_done for record in line.records()}
        after = before.after(sessions[False], changed)
    scripts = list(dict.fromkeys(line.file for line in inputs.lines))
    cards = [Card(unit, [reviewed[finding.line.number] for finding in unit.findings]) for unit in units]
    return Contents(scripts, inputs.given[1], sums, _version(), inputs.lines, cards, lengths, before, after, distance,
                    bool(inputs.second))


def _version() -> str:
    run = subprocess.run([find(None), "--version"], stdout=subprocess.PIPE, check=False)
    return " ".join(run.stdout.decode("utf-8", "replace").split("\n")[:2]).strip()

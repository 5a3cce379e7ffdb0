"""Corrections over another release: the class of each line, the record that it is about, and the line that fits.

    replayed = replay("sizes", "release.bed", ["corrections"])
    for finding in replayed.findings: ...   # one for each line that is no comment, no empty line and no line of a view
    for line in replayed.mended(): ...      # the script again

The program judges all lines. Those whose record isn't there are merged with what the release made of it, as `classifier` says.
"""
from __future__ import annotations

import argparse
import os
import sys
from contextlib import ExitStack
from typing import Iterator, Optional, Sequence, Union

from ..encoding import Path, encoded
from ..errors import Error
from ..files import whole
from ..printed_rows import RECORD
from ..record import COMMON, NAMELESS, Record, distance, name_of, overlap
from ..session import Session
from .causes import CONFLICT, GONE, SO, Finding
from .classifier import Classifier, Side
from .corrections import Line
from .followed_track import near_lines
from .input_files import Inputs
from .mending import mended
from .options import add_options, write_refused
from .reports import report, table


class Replayed:
    """What came of a replay. lines: all of the scripts; findings: one for each correction, in their order."""

    def __init__(self, lines: Sequence[Line], findings: Sequence[Finding]) -> None:
        self.lines, self.findings = lines, findings

    @property
    def is_refused(self) -> bool:
        return any(finding.is_refused for finding in self.findings)

    def mended(self) -> Iterator[str]:
        """The lines of the scripts again: mended, or if they can't be, as they were or as a comment. See `mending`."""
        return mended(self.lines, self.findings)


def replay(genome: Path, bed: Path, corrections: Union[Path, Sequence[Path]], second: Optional[Path] = None,
           ignore: Union[str, Sequence[str]] = (), copies: bool = False, leave_blocks: bool = False) -> Replayed:
    """Replays scripts of corrections over a BED file, which may be another release than the one they were made for.

    No file is changed. A line that doesn't fit raises nothing, and has its finding.

    Parameters
    ----------
    genome, bed : path
        The genome file and the BED file.
    corrections : path, or sequence of paths
        The scripts: positions count from 0, and ends are not included.
    second : path, optional
        The second file.
    ignore : str or sequence of str, optional
        Which of `name`, `score` and `strand` may differ.
    copies : bool, optional
        Whether an `add` of a record that is there puts a copy in.
    leave_blocks : bool, optional
        Whether a line is done after which columns from the seventh on can't hold.

    Returns
    -------
    Replayed
        Its `findings`, one for each correction, and the script again by `mended()`.

    Raises
    ------
    Error, OSError, ValueError
        A file can't be used.

    Examples
    --------
    >>> replayed = bedkeep.replay("sizes", "genes.bed", "corrections")
    >>> [finding.kind for finding in replayed.findings]
    ['fits', 'moved']
    """
    with Inputs(genome, bed, corrections, second) as inputs:
        return replay_inputs(inputs, [ignore] if isinstance(ignore, str) else ignore, copies, leave_blocks)


def replay_inputs(inputs: Inputs, ignore: Sequence[str] = (), copies: bool = False, leave_blocks: bool = False) -> Replayed:
    """The same for inputs that are open. Their lines have their verdicts afterwards."""
    runs = [line for line in inputs.lines if line.is_run]
    columns = [_column(name) for name in ignore]
    with ExitStack() as stack:
        sessions = {False: stack.enter_context(inputs.session(leave_blocks))}
        if inputs.second and any(line.is_second for line in runs):
            sessions[True] = stack.enter_context(inputs.second_session())
        of = {second: [line for line in runs if line.is_second == second] for second in sessions}
        tracks = {second: near_lines(session, of[second]) for second, session in sessions.items()}
        inputs.carry(sessions[False], copies)
        sides = {second: Side(track, [line for line in of[second] if line.is_edit], inputs.lengths, columns, copies, leave_blocks)
                 for second, track in tracks.items()}
        findings = list(Classifier(sides[False], sides.get(True)).look(runs))
        for second, session in sessions.items():
            findings = _with_others(findings, session, second)
    return Replayed(inputs.lines, findings)


def _column(name: str) -> int:
    """The place of a column that may differ."""
    if name not in RECORD[3:]:
        raise ValueError(f"name, score or strand may differ, and not {name}")
    return RECORD.index(name)


def _with_others(findings: Sequence[Finding], session: Session, second: bool) -> list[Finding]:
    """The findings, those of records that are gone with a record of the name elsewhere, to look at."""
    lost = {finding.line.number: name_of(finding.line.old) for finding in findings
            if finding.kind in (GONE, SO) and finding.line.is_second == second and finding.line.old and not finding.mended
            and not finding.by and (finding.kind == GONE or not finding.line.new) and name_of(finding.line.old) not in NAMELESS}
    if not lost:
        return list(findings)
    listed = session.named(set(lost.values()))
    named = {record for finding in findings for record in (finding.line.old, finding.line.new)}
    return [_with_other(finding, [record for record in listed[lost[finding.line.number]] if record not in named])
            if finding.line.number in lost else finding for finding in findings]


def _with_other(finding: Finding, records: Sequence[Record]) -> Finding:
    """The finding with the nearest of the records of its name elsewhere. One that moved as a whole is a conflict."""
    old = finding.line.old or ()
    others = [record for record in records if not overlap(record, old)]
    if not 0 < len(records) <= COMMON or not others:
        return finding
    other = min(others, key=lambda record: (record[0] != old[0], distance(record, old), record))
    by = int(other[1]) - int(old[1])
    if finding.kind == GONE and other[0] == old[0] and by == int(other[2]) - int(old[2]):
        note = f"one of its name is {abs(by)} bases away, and doesn't overlap it"
        return finding._replace(kind=CONFLICT, found=other, note=note)
    note = f"one of its name is at {' '.join(other[:3])}"
    return finding._replace(note=f"{finding.note}; {note}" if finding.note else note)


def options(parser: argparse.ArgumentParser) -> None:
    parser.description = "Says of each line that no longer fits why, with the record that it is about."
    add_options(parser)
    parser.add_argument("--ignore", choices=RECORD[3:], metavar="COLUMN", action="append", default=[],
                        help="name, score or strand: it may differ; for several columns give it several times")
    parser.add_argument("--mend", metavar="FILE", help="""writes the script again with lines that fit, and never over a
        file. What only the release or only the correction changed is taken from it; what both changed is left as a conflict,
        commented out. Nothing is mended to a record that has another name, or that doesn't overlap""")
    parser.add_argument("--tsv", action="store_true", help="prints a table")


def run(given: argparse.Namespace) -> int:
    """Prints what each line is about, and returns the status: 1 if lines don't fit that no file lists."""
    if "-" in (given.mend, given.refused):
        raise Error(f"{'--mend' if given.mend == '-' else '--refused'} needs a file, since the report is on standard output")
    if given.mend and os.path.lexists(given.mend):
        raise Error(f"{given.mend} is there already")
    with Inputs(given.genome, given.bed, given.corrections, given.second) as inputs:
        replayed = replay_inputs(inputs, given.ignore, given.copies, given.leave_blocks)
        write_refused(given.refused, inputs)
    if given.mend:
        with whole(given.mend, new=True) as file:
            file.writelines(encoded(f"{line}\n") for line in replayed.mended())
    rows = table(replayed.findings) if given.tsv else report(replayed.findings)
    sys.stdout.buffer.writelines(encoded(f"{row}\n") for row in rows)
    sys.stdout.flush()
    return 1 if replayed.is_refused and not given.refused else 0

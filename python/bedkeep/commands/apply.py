"""The corrected track: python3 -m bedkeep apply GENOME BED CORRECTIONS.. -o FILE"""
from __future__ import annotations

import argparse
import sys
from typing import NamedTuple, Optional, Sequence, Union

from ..encoding import Path
from ..errors import Error, Refused
from .input_files import Inputs
from .options import add_options, messages, write_refused

DESCRIPTION = """Writes the corrected track. Each line of BED that no correction is about stays where it is, byte for byte; a
replacement comes where the old record was, and an addition after the record that it follows in the order of GENOME."""


class Applied(NamedTuple):
    """What came of corrections.

    Attributes
    ----------
    refused : list of Refused
        The lines that were refused, each with its number in its file.
    messages : list of str
        Of these lines, and of those that are there already or were done with a warning, as the command prints them.
    is_written : bool
        Whether the track was written.

    Examples
    --------
    >>> applied = bedkeep.apply("sizes", "genes.bed", "corrections", "corrected.bed")
    >>> print(applied.messages[0])
    corrections: line 3: no such record: chr1 300 401 geneB
    """

    refused: list[Refused]
    messages: list[str]
    is_written: bool


def apply(genome: Path, bed: Path, corrections: Union[Path, Sequence[Path]], output: Path, second: Optional[Path] = None,
          sorted: bool = False, strict: bool = False, copies: bool = False, leave_blocks: bool = False,
          refused: Optional[Path] = None) -> Applied:
    """Writes the track that scripts of corrections make of a BED file, which isn't changed.

    Each line that no correction is about stays where it is, byte for byte. A line that is refused raises nothing.

    Parameters
    ----------
    genome, bed : path
        The genome file and the BED file.
    corrections : path, or sequence of paths
        The scripts: positions count from 0, and ends are not included.
    output : path
        Where to.
    second : path, optional
        The second file.
    sorted : bool, optional
        Writes the headers, then all records in the order of the genome.
    strict : bool, optional
        Writes nothing if there is a message.
    copies : bool, optional
        Whether an `add` of a record that is there puts a copy in.
    leave_blocks : bool, optional
        Whether a line is done after which columns from the seventh on can't hold.
    refused : path, optional
        A file for the messages of the refused lines.

    Raises
    ------
    Error, OSError, ValueError
        A file can't be used. Nothing is written then.

    Examples
    --------
    >>> applied = bedkeep.apply("sizes", "genes.bed", "corrections", "corrected.bed")
    >>> [(one.number, one.reason) for one in applied.refused]
    [(3, 'no such record')]
    >>> with open("corrected.bed") as file:
    ...     print(file.read(), end="")
    chr1  100  250  geneA
    chr1  300  400  geneB
    """
    if output == refused == "-":
        raise Error("only one file can be standard output")
    with Inputs(genome, bed, corrections, second) as inputs, inputs.session(leave_blocks) as session:
        lines = inputs.carry(session, copies)
        said = list(messages(inputs.lines))
        is_written = not (strict and said)
        if is_written:
            inputs.save(session, output, sorted)
        write_refused(refused, inputs)
    return Applied([Refused(line.refusal, line.place, line.text, line.hints) for line in lines], said, is_written)


def options(parser: argparse.ArgumentParser) -> None:
    parser.description = DESCRIPTION
    add_options(parser)
    parser.add_argument("-o", dest="output", metavar="FILE", default="-",
                        help="where to; it is written whole or not at all, and never over an input")
    parser.add_argument("--sorted", action="store_true", help="writes the headers, then all records in the order of GENOME")
    parser.add_argument("--strict", action="store_true", help="writes nothing if a line is refused, or done with a warning")


def run(given: argparse.Namespace) -> int:
    """Writes the corrected track, and returns the status: 1 if lines were refused that no file lists, or nothing was written."""
    applied = apply(given.genome, given.bed, given.corrections, given.output, given.second, given.sorted, given.strict,
                    given.copies, given.leave_blocks, given.refused)
    for message in applied.messages:
        print(message, file=sys.stderr)
    if not applied.is_written:
        print("nothing is written", file=sys.stderr)
    return 1 if applied.refused and not given.refused or not applied.is_written else 0

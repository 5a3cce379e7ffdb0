"""Corrections for another assembly: python3 -m bedkeep lift CHAIN SCRIPT -o FILE

Each record that a line names is lifted by a chain file, as liftOver takes it:

- The ends of a record are its first and its last base, and each comes to the base that a block pairs it with. On a chain of strand -
  the last base comes first, and the strands + and - are exchanged. Name, score and other text stay as they are.
- A chain has a record whole if both ends are in its blocks, and of all its bases 95 in 100, or the part that --min-match gives. So
  the length may change by what is in gaps. liftOver puts such a record at the same place; it also lifts one of which an end is in a
  gap, and cuts that off, which here is for a person to decide.
- If several chains have it whole, the one of the best score lifts it, of one score the first in the file; liftOver calls it
  duplicated. Both records of a `replace` on one sequence are lifted by one chain, the best that has both whole.
- Else it is *deleted* if no base is in a block, *split* if the ends, or the two records, are in different chains, or *partly deleted*.
- Columns from the seventh on go along if they name a place: thickStart, thickEnd, each block and the summit, by the same rules.

What isn't lifted stays as a comment, below another that says why, and so do all lines of its group. `show` and `showall` have a
region, which is lifted as a record is. The length of a `resize` is that of its assembly, so it isn't lifted. Other lines of views,
comments and empty lines stay as they are; so does a line that is no correction, which is refused as before.
"""
from __future__ import annotations

import argparse
import sys
from fractions import Fraction
from typing import NamedTuple, Optional, Sequence

from ..chains import LEAST, Chains, Unlifted
from ..encoding import Path, encoded
from ..errors import Error
from ..files import refuse_inputs, whole
from ..record import NARROWEST, WIDEST
from ..script import EDITS, VIEWS
from .corrections import Line, is_record, read_lines, rewritten

DESCRIPTION = """Writes a script of corrections for another assembly: each record is lifted by CHAIN if both ends are in blocks of one
chain, and a line that isn't lifted stays as a comment with the reason. `replay` over the new release decides the rest."""
STRANDS = {"+", "-", "."}
SHOWS = {"show": 4, "showall": 3}  # the numbers of their fields, of which the last three are a region
Columns = Sequence[str]


class Lifted(NamedTuple):
    """A script for another assembly. lines: of it; left: how many lines aren't lifted; messages: on these and those that changed"""

    lines: list[str]
    left: int
    messages: list[str]


def lift(chain: Path, script: Path, least: Fraction = LEAST) -> Lifted:
    """Lifts a script by a chain file, as said above. No file is changed. Error if one can't be used. least: as --min-match"""
    lines = read_lines([script])
    records = {line.number: records_of(line) for line in lines}
    chains = Chains(chain, {record[0] for listed in records.values() for record in listed}, least)
    lifted: dict[int, list[list[str]]] = {}
    why: dict[int, str] = {}
    for line in lines:
        if line.is_run or line.command in SHOWS:
            try:
                lifted[line.number] = _lifted(line, records[line.number], chains)
            except Unlifted as failure:
                why[line.number] = str(failure)
    wrong = {id(line.group): line for line in reversed(lines) if line.group and line.is_run and line.number in why}
    for line in lines:
        if id(line.group) in wrong and line.is_run:
            why.setdefault(line.number, f"line {wrong[id(line.group)].place} of its group isn't")
    written = {line.number: _written(line, lifted.get(line.number), why.get(line.number)) for line in lines
               if line.number in lifted or _is_left_out(line) and line.number in why}
    messages = [message for line in lines for message in _messages(line, records[line.number], lifted, why.get(line.number))]
    return Lifted(list(rewritten(lines, written)), len(why), messages)


def records_of(line: Line) -> list[Columns]:
    """The records that a line names with all their columns, whose number isn't known; or the region of a view."""
    fields = line.fields
    if line.command.startswith("replace"):
        count = len(fields)
        for half in dict.fromkeys(([count // 2] if count % 2 == 0 else []) + ([WIDEST, count - WIDEST] if count > 2 * WIDEST else [])):
            if _is_sound(fields[:half]) and _is_sound(fields[half:]):
                return [fields[:half], fields[half:]]
        return []
    if line.command in SHOWS:
        fields = fields[-NARROWEST:] if len(fields) == SHOWS[line.command] else []
    return [fields] if line.command in {*EDITS, *SHOWS} and _is_sound(fields) else []


def _is_sound(columns: Columns) -> bool:
    return is_record(columns) and (len(columns) < WIDEST or columns[WIDEST - 1] in STRANDS)


def _lifted(line: Line, records: Sequence[Columns], chains: Chains) -> list[list[str]]:
    if records:
        return chains.lift(records)
    if line.command == "resize":
        raise Unlifted("a length is that of its assembly")
    raise Unlifted("no record can be read in it" if _is_left_out(line) else "it is no correction, and stays as it is")


def _is_left_out(line: Line) -> bool:
    """Whether a line that isn't lifted is written as a comment, since it would be one of the new assembly otherwise."""
    return line.command in {*EDITS, *VIEWS, "resize"} and bool(line.fields)


def _written(line: Line, records: Optional[Sequence[Columns]], why: Optional[str]) -> tuple[list[str], bool]:
    """What is written for a line, and whether that leaves it out."""
    if why or records is None:
        return [f"# not lifted: {why}", f"# {line.text}"], True
    before = line.fields[:len(line.fields) - NARROWEST] if line.command in SHOWS else []
    return ["\t".join([line.command, *before, *(column for record in records for column in record)])], False


def _messages(line: Line, records: Sequence[Columns], lifted: dict[int, list[list[str]]], why: Optional[str]) -> list[str]:
    """Why a line isn't lifted, or by how much a record of it changed its length."""
    place = f"{line.file}: line {line.place}: "
    if why:
        return [f"{place}not lifted: {why}"]
    lengths = [(record, _length(new) - _length(record)) for record, new in zip(records, lifted.get(line.number, ()))]
    return [f"{place}lifted, but {abs(by)} base{'s' * (abs(by) > 1)} {'longer' if by > 0 else 'shorter'}: {' '.join(record[:WIDEST])}"
            for record, by in lengths if by]


def _length(record: Columns) -> int:
    return int(record[2]) - int(record[1])


def _part(text: str) -> Fraction:
    """The value of --min-match."""
    try:
        part = Fraction(text)
    except (ValueError, ZeroDivisionError):
        part = Fraction(0)
    if not 0 < part <= 1:
        raise argparse.ArgumentTypeError(f"it is above 0 and at most 1, and not {text}")
    return part


def options(parser: argparse.ArgumentParser) -> None:
    parser.description = DESCRIPTION
    parser.epilog = """A file may be packed by gzip; - is standard input. On standard error are the lines that aren't lifted, for which
        the status is 1, and those whose records change their length."""
    parser.add_argument("chain", metavar="CHAIN", help="a chain file from the old assembly to the new one, as liftOver takes it")
    parser.add_argument("script", metavar="SCRIPT", help="corrections over the old assembly")
    parser.add_argument("-o", dest="output", metavar="FILE", default="-",
                        help="where to; it is written whole or not at all, and never over an input")
    parser.add_argument("--min-match", metavar="R", type=_part, default=LEAST,
                        help="what part of a record's bases has to be in blocks of the chain; 0.95 as in liftOver")


def run(given: argparse.Namespace) -> int:
    """Writes the script, and returns the status: 1 if a line isn't lifted."""
    if [given.chain, given.script] == ["-", "-"]:
        raise Error("only one file can be standard input")
    refuse_inputs(given.output, [given.chain, given.script])
    lifted = lift(given.chain, given.script, given.min_match)
    with whole(given.output) as file:
        file.writelines(encoded(f"{line}\n") for line in lifted.lines)
    for message in lifted.messages:
        print(message, file=sys.stderr)
    return 1 if lifted.left else 0

"""The options that apply, replay and review share, and what they say of lines."""
from __future__ import annotations

import argparse
from typing import Iterator, Optional, Sequence

from ..encoding import Path, encoded
from ..files import refuse_inputs, whole
from .corrections import Line
from .input_files import Inputs


EPILOG = """A file may be packed by gzip; - is standard input. A line of six columns over a BED file of more leaves the others,
and has those follow that begin or end where the record does. GFF3 and GTF are taken as BED of ten columns: start - 1, end, name, score,
strand, then source, type, phase and attributes. The name is the record's own: ID, else Name, of GFF3, and in GTF what is called as
the type is, such as exon_id. On standard error a message is FILE: line N: and why the line was
refused, or `done, but` and what doesn't hold, or `already there:`. The last two are warnings, and the status is 1 only for the first.
With --refused it is 0 for these too, once FILE has their messages."""


def add_options(parser: argparse.ArgumentParser) -> None:
    parser.epilog = EPILOG
    parser.add_argument("genome", metavar="GENOME", help="the genome file")
    parser.add_argument("bed", metavar="BED", help="the BED file that is corrected, and not changed")
    parser.add_argument("corrections", metavar="CORRECTIONS", nargs="+", help="scripts, read as one")
    parser.add_argument("-b", dest="second", metavar="SECOND", help="the second file")
    add_judging(parser)
    parser.add_argument("--refused", metavar="FILE", help="writes the messages of the refused lines there too; then they are no failure")


def add_judging(parser: argparse.ArgumentParser) -> None:
    """Adds the options that say which lines are done."""
    parser.add_argument("--copies", action="store_true", help="has `add` put in a copy of a record that is there already")
    parser.add_argument("--leave-blocks", action="store_true",
                        help="does a line after which columns from the seventh on can't hold, such as blocks, with a warning")


def add_editing(parser: argparse.ArgumentParser, no_script: str = "") -> None:
    """Adds the options that `curate` and `desk` share. no_script: what is so without --script"""
    parser.add_argument("genome", metavar="GENOME", help="the genome file")
    parser.add_argument("bed", metavar="BED", help="the BED file that is corrected, and not changed")
    parser.add_argument("-b", dest="second", metavar="SECOND", help="the second file, for intersect and subtract")
    parser.add_argument("--fasta", metavar="FASTA", help="the bases, for getfasta")
    parser.add_argument("--script", metavar="FILE", help="is carried out if it is there; each accepted line is appended at once" + no_script)
    parser.add_argument("--replay", metavar="OLD", action="append", default=[], help="a script for an earlier release: what fits "
                        "begins the new script, and each other line needs a decision")
    parser.add_argument("--sign", metavar="NAME", help="has a line with NAME and the time begin each accepted paragraph of the script")
    parser.add_argument("--view", metavar="'merge -d 10'", action="append", help="a view to see, instead of the usual ones")
    add_judging(parser)


def views_of(given: argparse.Namespace) -> list[str]:
    """The views that `curate` and `desk` look at: those that were asked for, or the usual ones."""
    usual = ["merge", "genomecov -bg", *(["intersect", "subtract"] if given.second else [])]
    return usual if given.view is None else list(given.view)


def messages(lines: Sequence[Line]) -> Iterator[str]:
    """Why lines were refused, with the lines that would fit, and what is to be said of others."""
    for line in lines:
        before = f"{line.file}: line {line.place}: "
        if line.refusal:
            offers = (offer.replace("\t", " ") for offer in line.offers)
            yield "\n".join([before + line.message, *(f"  this would fit: {offer}" for offer in offers)])
        elif line.there:
            yield f"{before}already there: {' '.join(line.there)}"
        elif line.warning:
            yield f"{before}done, but {line.warning}"


def write_refused(path: Optional[Path], inputs: Inputs) -> None:
    """Writes why lines were refused, whole, also if none was."""
    if path is None:
        return
    refuse_inputs(path, inputs.given)
    with whole(path) as file:
        file.writelines(encoded(f"{message}\n") for message in messages([line for line in inputs.lines if line.refusal]))

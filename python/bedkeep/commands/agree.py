"""Two scripts over one track: python3 -m bedkeep agree GENOME BED A B

`agreement` has the rules. Each script is carried out by itself.
"""
from __future__ import annotations

import argparse
import sys
from collections import Counter
from typing import Iterator, NamedTuple, Sequence

from ..encoding import encoded
from ..errors import Error
from ..files import refuse_inputs, whole
from ..review.rest import write_rest
from .agreement import ALIKE, ONLY_A, ONLY_B, OTHERWISE, TITLES, Compared, compared, fates_of, script_of
from .carry import Carrier
from .corrections import read_text
from .input_files import Inputs
from .options import add_judging, messages

DESCRIPTION = """Compares two scripts by what comes of each record, and prints a table: `alike`, however it was written, `otherwise`,
`only A` and `only B`, with the reasons of both. The status is 0 if all is alike, and no line is refused."""


class Agreement(NamedTuple):
    """What two scripts make of one track. rows: of each record that either changes; messages: on lines that aren't simply done"""

    rows: Sequence[Compared]
    messages: Sequence[str]
    is_refused: bool

    @property
    def rest(self) -> list[Compared]:
        """What isn't alike."""
        return [row for row in self.rows if row.kind != ALIKE]


def agree(inputs: Inputs, copies: bool = False, leave_blocks: bool = False) -> Agreement:
    """Compares the two scripts of some inputs, whose lines have their verdicts afterwards. copies, leave_blocks: as for `apply`"""
    lengths, made = inputs.lengths, []
    for lines in inputs.scripts:
        with inputs.session(leave_blocks) as session:
            Carrier(session, copies).carry(lines)
            made.append(fates_of(session, lines, lengths))
    said = messages(inputs.lines)
    return Agreement(compared(made[0], made[1], lengths), list(said), any(line.refusal for line in inputs.lines))


def options(parser: argparse.ArgumentParser) -> None:
    parser.description = DESCRIPTION
    parser.epilog = """A file may be packed by gzip; - is standard input. In the table a record has spaces for TABs; it is empty for one
        that is added, and so is what a script leaves alone. On standard error are messages, as of `apply`, and the counts."""
    parser.add_argument("genome", metavar="GENOME", help="the genome file")
    parser.add_argument("bed", metavar="BED", help="the BED file that both scripts are for, and that isn't changed")
    parser.add_argument("one", metavar="A", help="a script")
    parser.add_argument("other", metavar="B", help="another script")
    parser.add_argument("--both", metavar="FILE", help="writes a script of what is alike, with the reasons of both")
    parser.add_argument("--page", metavar="FILE", help="writes a page of the rest, as `review` has it")
    add_judging(parser)


def run(given: argparse.Namespace) -> int:
    """Prints the table, and returns the status: 1 if not all is alike."""
    if "-" in (given.both, given.page):
        raise Error("--both and --page need a file, since the table is on standard output")
    with Inputs(given.genome, given.bed, [given.one, given.other]) as inputs:
        for path in (given.both, given.page):
            if path:
                refuse_inputs(path, inputs.given)
        agreed = agree(inputs, given.copies, given.leave_blocks)
        both = script_of(agreed.rows)
        if given.both:
            with whole(given.both) as file:
                file.writelines(encoded(f"{line}\n") for line in both)
        lines = inputs.with_lines(read_text("".join(f"{line}\n" for line in both), given.both or ""))
        undone = list(_undone(lines, given.copies, given.leave_blocks)) if given.both else []
        if given.page:
            rest = [(row.kind, row.lines) for row in agreed.rest]
            write_rest(inputs, rest, lines.lines, given.page, given.copies, given.leave_blocks)
    sys.stdout.buffer.writelines(encoded("\t".join(row) + "\n") for row in (TITLES, *(row.columns for row in agreed.rows)))
    sys.stdout.flush()
    counts = Counter(row.kind for row in agreed.rows)
    said = ", ".join(f"{counts[kind]} {kind}" for kind in (ALIKE, OTHERWISE, ONLY_A, ONLY_B))
    print(*agreed.messages, *undone, said, sep="\n", file=sys.stderr)
    return 1 if agreed.rest or agreed.is_refused else 0


def _undone(inputs: Inputs, copies: bool, leave_blocks: bool) -> Iterator[str]:
    """Messages on lines of what is alike that can't be done by themselves, such as an `add` beside a record that each moves elsewhere."""
    with inputs.session(leave_blocks) as session:
        inputs.carry(session, copies)
    for line in inputs.lines:
        if line.refusal or line.there:
            hint = "; `apply --copies` does it" if line.there else ""
            yield f"{line.file}: line {line.place}: {line.message or 'already there'}{hint}"

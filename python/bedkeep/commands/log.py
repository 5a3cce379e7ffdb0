"""What became of each record that accepted lines changed, by which lines, why, by whom and when: python3 -m bedkeep log

    for entry in log("sizes", "genes.bed", "corrections"):
        print(entry.now, entry.was, [line.comments for line in entry.lines])

A record is followed through all lines. One that ends as it began, since a later line takes an earlier one back, has no entry; nor
have records of the second file, and lengths. Of equal records a line is about the one that changed last. One that is put in again
as it was when it was removed, or before, comes back.
"""
from __future__ import annotations

import argparse
import re
import sys
from collections import defaultdict
from typing import Iterable, Iterator, Mapping, Optional, Sequence, Union
from urllib.parse import quote

from ..encoding import Path, encoded
from ..files import refuse_inputs, whole
from ..printed_rows import RECORD
from ..record import WIDEST, split_row
from ..script import Move
from .authors import blame
from .corrections import Line
from .input_files import Inputs
from .options import add_options, messages, write_refused

DESCRIPTION = """Prints a row for each record that accepted lines changed, added or removed, in the order of the genome: the
record as it is now, or as it was when it was removed; what it was at first; and of each line that is about it, in their order,
FILE:NUMBER, the reason, the author, the date and the commit. The author and the date are those of the line's signature
(`curate --sign`), else those of `git blame`, which has the commit too."""
EPILOG = """A record that ends as it began has no row; nor have those of the second file. From `line` to `commit` `;` separates what is
of several lines, and `.` is what isn't known; `%`, `;` and control characters in texts are %25, %3B, %09 .. In `was` and `rest`
spaces separate columns, and those within a column are %20. `rest` is there if the BED file has more than six columns, and has the
others."""
TITLES = ("sequence", *RECORD[1:], "what", "was", "line", "reason", "author", "date", "commit")
REST = "rest"
UNKNOWN = "."
SCORE = re.compile(r"[-+]?(?:\d+\.?\d*|\.\d+)(?:[eE][-+]?\d+)?", re.ASCII)
UNSAFE = "\x00-\x1f\x7f%\udc80-\udcff"  # of texts: control characters, what escapes, and bytes that are no UTF-8


class Logged:
    """A record that was changed.

    Parameters
    ----------
    was : str or None
        Its columns at first, with TABs between them, or None if it wasn't there.

    Attributes
    ----------
    was, now : str or None
        Its columns at first and now.
    last : str
        Its columns when it was there last.
    lines : list of Line
        Those that are about it, in their order: each has its `comments`, its `author`, and `file` and `place`.
    what : str
        "added", "removed" or "changed".

    Examples
    --------
    >>> [(entry.what, entry.now) for entry in bedkeep.log("sizes", "genes.bed", "corrections")]
    [('changed', 'chr1\\t100\\t250\\tgeneA')]
    """

    def __init__(self, was: Optional[str]) -> None:
        self.was = self.now = was
        self.last = was or ""
        self.lines: list[Line] = []

    @property
    def what(self) -> str:
        return "added" if self.was is None else "removed" if self.now is None else "changed"



class Log:
    """Follows the lines that were done. entries: in the order in which lines came to their records"""

    def __init__(self) -> None:
        self.entries: list[Logged] = []
        self._there: dict[str, list[Logged]] = defaultdict(list)  # by what they are now
        self._gone: dict[str, list[Logged]] = defaultdict(list)  # by what they were at first, and last

    def follow(self, move: Move, line: Line) -> None:
        """Goes by a line, which takes a record out, puts one in, or both."""
        old, new = move
        entry = self._of(old) if old else self._back(new or "")
        entry.now, entry.last = new, new or entry.last
        entry.lines.append(line)
        if new:
            self._there[new].append(entry)
            return
        for text in {entry.was or entry.last, entry.last}:
            self._gone[text].append(entry)

    def _of(self, old: str) -> Logged:
        """The entry of a record that is there."""
        return self._there[old].pop() if self._there.get(old) else self._begun(old)

    def _back(self, new: str) -> Logged:
        """The entry of a record that is put in: of one that was removed, if it comes back as it was."""
        gone = [entry for entry in self._gone.pop(new, ()) if entry.now is None and new in (entry.was, entry.last)]
        entry = max(reversed(gone), key=lambda one: one.was == new, default=None)
        self._gone[new] = [one for one in gone if one is not entry]
        return entry or self._begun(None)

    def _begun(self, was: Optional[str]) -> Logged:
        self.entries.append(Logged(was))
        return self.entries[-1]


def log(genome: Path, bed: Path, corrections: Union[Path, Sequence[Path]], second: Optional[Path] = None, copies: bool = False,
        leave_blocks: bool = False) -> list[Logged]:
    """What became of each record that accepted lines changed, in the order of the genome.

    No file is changed. A line that is refused raises nothing, and is in no entry.

    Parameters
    ----------
    genome, bed : path
        The genome file and the BED file.
    corrections : path, or sequence of paths
        The scripts: positions count from 0, and ends are not included.
    second : path, optional
        The second file.
    copies : bool, optional
        Whether an `add` of a record that is there puts a copy in.
    leave_blocks : bool, optional
        Whether a line is done after which columns from the seventh on can't hold.

    Returns
    -------
    list of Logged
        One for each record that doesn't end as it began.

    Raises
    ------
    Error, OSError, ValueError
        A file can't be used.

    Examples
    --------
    >>> [entry] = bedkeep.log("sizes", "genes.bed", "corrections")
    >>> [line.comments for line in entry.lines]
    [('geneA ends later',)]
    """
    with Inputs(genome, bed, corrections, second) as inputs:
        return _sorted(_entries(inputs, copies, leave_blocks), inputs.lengths)


def _entries(inputs: Inputs, copies: bool, leave_blocks: bool) -> list[Logged]:
    """All entries, also those of records that end as they began."""
    followed = Log()
    with inputs.session(leave_blocks) as session:
        inputs.carry(session, copies)
        lines = (line for line in inputs.lines if line.is_done and line.is_edit and not line.is_second)
        for line, move in zip(lines, session.moves()):
            followed.follow(move, line)
    blame(inputs.lines)
    return followed.entries


def _sorted(entries: Iterable[Logged], lengths: Mapping[str, int]) -> list[Logged]:
    """The entries of records that don't end as they began, in the order of the genome."""
    ranks = {name: rank for rank, name in enumerate(lengths)}

    def place(entry: Logged) -> tuple[int, int, int, str]:
        name, start, end, *rest = entry.last.split("\t")
        return ranks[name], int(start), int(end), "\t".join(rest)

    return sorted((entry for entry in entries if entry.was != entry.now), key=place)


# What is printed

def table(entries: Iterable[Logged], is_wide: bool) -> Iterator[str]:
    """A heading and a row for each entry. is_wide: whether there is a column for those after the sixth"""
    yield "\t".join([*TITLES, REST] if is_wide else TITLES)
    for entry in entries:
        record, tail = _columns(entry)
        lists = (";".join(_escaped(text, ";") for text in texts) for texts in _lists(entry).values())
        yield "\t".join([*record, entry.what, _spaced(entry.was), *lists, *([_spaced(tail)] if is_wide else [])])


def gff3(entries: Iterable[Logged]) -> Iterator[str]:
    """The same as GFF3, whose positions are from 1 with the end; also the one in `was`."""
    yield "##gff-version 3"
    for entry in entries:
        (sequence, start, end, name, score, strand), tail = _columns(entry)
        lines, *others = _lists(entry).items()
        attributes = {"Name": [name], "what": [entry.what], "was": [_place(entry.was)], "lines": lines[1], **dict(others),
                      REST: [tail.replace("\t", " ") or UNKNOWN]}
        listed = ";".join(f"{title}={','.join(_escaped(text, ';=&,') for text in texts)}"
                          for title, texts in attributes.items() if {*texts} != {UNKNOWN})
        yield "\t".join([quote(sequence, ".:^*$@!+_?|-", errors="surrogateescape").replace("~", "%7E"), "bedkeep", "region",
                         str(int(start) + 1), end, score if SCORE.fullmatch(score) else UNKNOWN, strand, UNKNOWN, listed])


def _columns(entry: Logged) -> tuple[list[str], str]:
    """The six columns of a record as it was last, and the others with TABs between them."""
    record, tail = split_row(entry.last)
    return [*record, *[UNKNOWN] * (WIDEST - len(record))], tail[1:]


def _lists(entry: Logged) -> dict[str, list[str]]:
    """What is known of each line of an entry, by the title of its column."""
    columns = zip(*([f"{line.file}:{line.place}", " ".join(filter(None, line.comments)), *line.author] for line in entry.lines))
    return {title: [text or UNKNOWN for text in texts] for title, texts in zip(TITLES[-5:], columns)}


def _place(row: Optional[str]) -> str:
    """A record as browsers have its place, and its other columns."""
    if not row:
        return UNKNOWN
    sequence, start, end, *rest = row.split("\t")
    return " ".join([f"{sequence}:{int(start) + 1}-{end}", *rest])


def _spaced(row: Optional[str]) -> str:
    """Columns with spaces between them."""
    return " ".join(_escaped(column, " ") for column in row.split("\t")) if row else UNKNOWN


def _escaped(text: str, characters: str) -> str:
    """A text in which these characters, and all that are unsafe, are escaped by percent signs, byte for byte."""
    return re.sub(f"[{UNSAFE}{characters}]", lambda found: f"%{ord(found[0]) & 0xff:02X}", text)


def options(parser: argparse.ArgumentParser) -> None:
    add_options(parser)
    parser.description, parser.epilog = DESCRIPTION, f"{EPILOG} {parser.epilog}"
    parser.add_argument("--gff3", action="store_true",
                        help="writes GFF3, with the columns after the record as attributes, and places from 1")
    parser.add_argument("-o", dest="output", metavar="FILE", default="-",
                        help="where to; it is written whole or not at all, and never over an input")


def run(given: argparse.Namespace) -> int:
    """Prints the entries, and returns the status: 1 if lines were refused."""
    with Inputs(given.genome, given.bed, given.corrections, given.second) as inputs:
        refuse_inputs(given.output, inputs.given)
        entries = _entries(inputs, given.copies, given.leave_blocks)
        listed = _sorted(entries, inputs.lengths)
        rows = gff3(listed) if given.gff3 else table(listed, inputs.widths[False] > WIDEST)
        with whole(given.output) as file:
            file.writelines(encoded(f"{row}\n") for row in rows)
        write_refused(given.refused, inputs)
    for message in messages(inputs.lines):
        print(message, file=sys.stderr)
    if len(listed) < len(entries):
        print(f"records that end as they began, and have no row: {len(entries) - len(listed)}", file=sys.stderr)
    return 1 if any(line.refusal for line in inputs.lines) else 0

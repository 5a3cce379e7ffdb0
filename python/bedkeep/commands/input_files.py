"""What the commands of the desk are given, read once: a genome file, a BED file, a second file, and scripts of corrections.

    with Inputs(genome, bed, corrections, second) as inputs, inputs.session() as session:
        inputs.carry(session)  # has the program carry out all lines; then each line has its verdict, and its records
        inputs.save(session, path)
"""
from __future__ import annotations

import copy
import os
import tempfile
from types import TracebackType
from typing import Optional, Sequence, Union

from ..bed import lengths_of, width_of
from ..encoding import Path
from ..errors import Damaged, Ended, Error
from ..files import plain, refuse_inputs
from ..given import Genome
from ..program import MOST
from ..record import NARROWEST
from ..runs import merge
from ..session import Session
from .carry import Carrier
from .corrections import Line, read_scripts
from .loading import loading


def refuse_damaged(genome: Genome, bed: str, name: str) -> None:
    """Raises Damaged, with what the file looks like, if the program doesn't take its records. name: what messages call the file"""
    try:
        merge(genome, bed).close()
    except Damaged as failure:
        raise Damaged(failure.status, failure.message.replace(bed, name, 1), failure.hint) from None


class Inputs:
    """The files, as the program can read them until `close`, and the lines of all scripts.

    genome:  the path of the genome file; lengths: its sequences and their lengths, in its order
    bed, second: the paths of the BED files; widths: their numbers of columns, by whether it is the second
    lines:   of the corrections, with comments, empty lines and lines of views; scripts: those of each script
    given:   the names of all files, as they were given
    """

    def __init__(self, genome: Path, bed: Path, corrections: Union[Path, Sequence[Path]], second: Optional[Path] = None) -> None:
        scripts = [corrections] if isinstance(corrections, (str, os.PathLike)) else corrections
        self.given = given = [os.fspath(path) for path in (genome, bed, *scripts, *([second] if second else []))]
        if given.count("-") > 1:
            raise Error("only one file can be standard input")
        self._folder = tempfile.TemporaryDirectory(prefix="bedkeep-")
        self._named: dict[str, str] = {}  # the names as they were given, by the paths that the program reads
        try:
            self.scripts = read_scripts(given[2:2 + len(scripts)])
            self.lines: list[Line] = [line for lines in self.scripts for line in lines]
            with loading(given[1]):
                self.genome = self._plain(given[0])
                self.bed = self._plain(given[1])
                self.second = self._plain(given[-1]) if second else None
        except BaseException:
            self.close()
            raise
        self.widths = {bool(place): width_of(path) or 0 for place, path in enumerate((self.bed, self.second)) if path}
        self._empty = [second for second, width in self.widths.items() if not width]
        for line in self.lines:
            width = self.widths.get(line.is_second)
            if width == 0 and line.command in ("add", "addb") and len(line.fields) >= NARROWEST:
                self.widths[line.is_second] = len(line.fields)  # A file without a record has the width of the first that is added.
            line.cut(self.widths.get(line.is_second, 0))

    def __enter__(self) -> Inputs:
        return self

    def __exit__(self, kind: Optional[type[BaseException]], failure: Optional[BaseException], _: Optional[TracebackType]) -> None:
        self.close()
        if isinstance(failure, Ended):
            failure.message = self.named(failure.message)
        elif type(failure) is Error:
            failure.args = (self.named(str(failure)),)

    def close(self) -> None:
        """Removes the copies that the program read."""
        self._folder.cleanup()

    @property
    def lengths(self) -> dict[str, int]:
        return lengths_of(self.genome)

    def named(self, message: str) -> str:
        """A message of the program with the names of the files as they were given."""
        for path, name in self._named.items():
            message = message.replace(f"{path}: ", f"{name}: ")
        return message

    def with_lines(self, lines: Sequence[Line]) -> Inputs:
        """The same files with some of the lines, or others. They are closed with these."""
        inputs = copy.copy(self)
        inputs.lines = list(lines)
        return inputs

    def session(self, leave_blocks: bool = False) -> Session:
        """A session over the files, with all their columns. leave_blocks: as for a Session."""
        width = next((self.widths[second] for second in self._empty if self.widths[second]), None)
        with loading(self.given[1]):
            return Session(self.genome, self.bed, self.second, width=width, wide=True, leave_blocks=leave_blocks, limit=MOST)

    def second_session(self) -> Session:
        """A session over the second file alone, as its track. It does what a session over both files did."""
        assert self.second
        width = self.widths[True] if True in self._empty else None
        return Session(self.genome, self.second, width=width or None, wide=True, leave_blocks=True, limit=MOST)

    def carry(self, session: Session, copies: bool = False) -> list[Line]:
        """Has a session carry out all lines, and returns those that are refused. copies: as for a Carrier."""
        Carrier(session, copies).carry(self.lines)
        return [line for line in self.lines if line.refusal]

    def save(self, session: Session, path: Path, sorted: bool = False) -> None:
        """Writes the corrected track, whole or not at all, in the order of its file, or if `sorted` in the track's order."""
        refuse_inputs(path, self.given)
        session.save(path, sorted)

    def _plain(self, name: str) -> str:
        path = plain(name, self._folder.name)
        self._named[path] = name
        return path

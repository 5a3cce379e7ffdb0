"""What the prompt writes: the track, the script, the page of the accepted edits. No input is ever written over."""
from __future__ import annotations

import argparse
import os
import tempfile
from typing import Callable, NamedTuple, Optional, Sequence

from ..encoding import encoded
from ..files import whole
from ..script import signature
from ..session import Session

SORTED = "--sorted"


class Given(NamedTuple):
    """The files of the prompt, and what it does with copies, and with blocks that can't hold.

    script: where the accepted lines are kept; replayed: scripts for an earlier release; sign: the name of who accepts lines
    """

    genome: str
    bed: str
    second: Optional[str] = None
    copies: bool = False
    leave_blocks: bool = False
    fasta: Optional[str] = None
    script: Optional[str] = None
    replayed: Sequence[str] = ()
    sign: Optional[str] = None

    @classmethod
    def of(cls, given: argparse.Namespace, script: Optional[str]) -> Given:
        """The files that the options of `curate` and `desk` name. ValueError if nobody can sign by the name."""
        if given.sign is not None:
            signature(given.sign)
        return cls(given.genome, given.bed, given.second, given.copies, given.leave_blocks, given.fasta, script, given.replay,
                   given.sign)


class PromptFiles:
    """Writes files. A file that is there already is written over only if the same line comes once more.

    script: what the accepted edits are
    """

    def __init__(self, session: Session, given: Given, script: Callable[[], str]) -> None:
        self._session, self._given, self._script = session, given, script
        self._safe = ""  # the script when it or the track was written last
        self._asked = ""  # the line that is only done when it comes once more
        self._written: set[str] = set()  # the files of this prompt

    def begin(self, line: str) -> None:
        """Takes notice of a line: only the one directly after it can be that line once more."""
        if line != self._asked:
            self._asked = ""

    def save(self, rest: str) -> None:
        path = rest.removeprefix(f"{SORTED} ").strip()
        if not path or path == SORTED:
            raise ValueError(f"save FILE: the file's name is missing; save {SORTED} FILE has the track's order")
        if self._may_write(f"save {rest}", path):
            self._session.save(path, sorted=rest.startswith(f"{SORTED} "))
            self._safe = self._script()
            print("saved")

    def script(self, path: str) -> None:
        if not path:
            print(self._script(), end="")
        elif self._may_write(f"script {path}", path):
            with whole(path) as file:
                file.write(encoded(self._script()))
            self._safe = self._script()
            print("written")

    def review(self, path: str) -> str:
        """Writes the page of the accepted edits, and returns its path if it is written."""
        line = f"review {path}".strip()
        path = path or f"{self._given.script or self._given.bed}.html"
        stem = os.path.splitext(path)[0]
        if not self._may_write(line, path, *(f"{stem}.{ending}" for ending in ("corrections.bed", "session.xml", "chrom.sizes"))):
            return ""
        from ..review.output import write_page  # so late, since it takes long, and few sessions need it

        with tempfile.NamedTemporaryFile(prefix="bedkeep-") as script:
            if not self._given.script:
                script.write(encoded(self._script()))
                script.flush()
            write_page(self._given.genome, self._given.bed, [self._given.script or script.name], path, self._given.second,
                       copies=self._given.copies, leave_blocks=self._given.leave_blocks)
        print("written:", path)
        return path

    def may_leave(self) -> bool:
        """Whether no edit is lost at the end, or the line that ends came once more."""
        if self._given.script or self._asked == "quit" or self._script() == self._safe:
            return True
        self._asked = "quit"
        print("The edits aren't written: save FILE, script FILE, or quit again.")
        return False

    def _may_write(self, line: str, *paths: str) -> bool:
        """Whether files may be written: no input ever, and what is there only if the line comes once more."""
        for path in paths:
            if self._session.reads(path) or self._given.script and os.path.realpath(path) == os.path.realpath(self._given.script):
                raise ValueError(f"{path} is a file of this prompt, which isn't written over")
        there = [path for path in paths if os.path.exists(path) and os.path.realpath(path) not in self._written]
        if not there or self._asked == line:
            self._written.update(map(os.path.realpath, paths))
            return True
        self._asked = line
        print(f"{there[0]} is there already: the same line once more writes over it")
        return False

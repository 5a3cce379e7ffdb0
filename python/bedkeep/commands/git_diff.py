"""What git shows of a BED file that changed: the script of corrections that makes the new version of the old one.

Header lines and comments are above it, with - and +, and what else differs is in comments below. A file that is no BED file is
compared as text.
"""
from __future__ import annotations

import os
import subprocess
import tempfile
from collections import Counter
from typing import Iterator, NamedTuple, Sequence

from ..encoding import decoded
from ..errors import Error
from ..pairs import beyond
from .diff import Difference
from .git_texts import CRLF, File, is_row, rows_of, why_as_text

ABSENT = "."  # the hash and the mode that git gives for a file that isn't there
SHORT = 7  # digits of a hash


class Given(NamedTuple):
    """What git hands to a command of a diff driver. new_path, message: only of a file that was renamed or copied"""

    path: str
    old: str
    old_hash: str
    old_mode: str
    new: str
    new_hash: str
    new_mode: str
    new_path: str = ""
    message: str = ""

    def header(self) -> Iterator[str]:
        """The lines above a diff, as git has them."""
        new_path = self.new_path or self.path
        is_new, is_deleted = self.old_mode == ABSENT, self.new_mode == ABSENT
        yield f"diff --bedkeep a/{self.path} b/{new_path}"
        if is_new or is_deleted:
            yield f"new file mode {self.new_mode}" if is_new else f"deleted file mode {self.old_mode}"
        elif self.old_mode != self.new_mode:
            yield from (f"old mode {self.old_mode}", f"new mode {self.new_mode}")
        hashes = ("0" * SHORT if text == ABSENT else text[:SHORT] for text in (self.old_hash, self.new_hash))
        index = f"index {'..'.join(hashes)}" + (f" {self.new_mode}" if self.old_mode == self.new_mode else "")
        yield from self.message.splitlines() or ([index] if self.old_hash != self.new_hash else [])
        yield from ("--- /dev/null" if is_new else f"--- a/{self.path}", "+++ /dev/null" if is_deleted else f"+++ b/{new_path}")


def shown(arguments: Sequence[str]) -> Iterator[str]:
    """The lines that git shows. arguments: of the command of a diff driver; of an unmerged file its path alone"""
    if len(arguments) == 1:
        yield f"* Unmerged path {arguments[0]}"
        return
    given = Given(*arguments)
    yield from given.header()
    with tempfile.TemporaryDirectory(prefix="bedkeep-") as folder:
        old, new = (File(path, os.path.join(folder, name)) for path, name in ((given.old, "old"), (given.new, "new")))
        try:
            body = list(_by_records(old, new))
        except (Error, ValueError) as failure:
            body = [f"# compared as text: {why_as_text(failure, (old, new))}", *_by_git(old, new)]
        body += _ends(old, new)
        yield from body or ["# the same records, written otherwise" if old.text != new.text else "# the same text"]


def _by_records(old: File, new: File) -> Iterator[str]:
    difference = Difference(old.path, new.path)
    script = list(difference.script())
    before, after = old.lines(), new.lines()
    others = [[line for line in lines if not is_row(line)] for lines in (before, after)]
    yield from (f"-{line}" for line in beyond(*others))
    yield from (f"+{line}" for line in beyond(*reversed(others)))
    yield from script
    counts = Counter(line.partition("\t")[0] for line in script if "\t" in line)
    if counts:
        yield f"# {', '.join(f'{count} {command}' for command, count in counts.items())}"
    gone = (row for change in difference.changes for row in change.gone)
    come = (row for change in difference.changes for row in change.come)
    if beyond(rows_of(before), gone) != beyond(rows_of(after), come):
        yield "# the order of records changed"


def _ends(old: File, new: File) -> Iterator[str]:
    """What changed at the ends of lines."""
    if old.text and new.text and old.end != new.end:
        yield f"# the lines {'end with CR LF now' if new.end == CRLF else 'no longer end with CR LF'}"
    if old.is_ended != new.is_ended:
        yield f"# the last line {'ends with LF now' if new.is_ended else 'no longer ends with LF'}"


def _by_git(old: File, new: File) -> list[str]:
    """The difference of two texts, without its header."""
    words = ["git", "diff", "--no-index", "--no-ext-diff", "--no-textconv", "--no-color", "--text", "--", old.path, new.path]
    lines = decoded(subprocess.run(words, capture_output=True, check=False).stdout).split("\n")[:-1]
    return lines[next((at for at, line in enumerate(lines) if line.startswith("@@")), len(lines)):]

"""The script of a prompt on the disk, to which each accepted paragraph is appended at once.

A paragraph is one line, or several that are done together, below the comments that are its reason. One without a reason comes
after an empty line, so that it has none of what is above it.
"""
from __future__ import annotations

import fcntl
import os
import re
from contextlib import suppress
from typing import NamedTuple, Optional, Sequence

from ..bgzf import ENDINGS
from ..encoding import decoded, encoded
from ..errors import Error
from ..files import GZIP
from ..script import EDITS, VIEWS, is_reason, is_signature

BLOCK = 4096  # bytes that the disk has all of, or none
REASON = re.compile(r"(?:^#.*\n)+\Z", re.MULTILINE)  # at the end of a text


def paragraph(above: str, lines: Sequence[str], comments: Sequence[str]) -> list[str]:
    """The lines of a paragraph below a line, which is empty if there is none. A signature is what begins it, or else an empty line.

    So both are kept when git merges two scripts that had the same end: no line is common to what is appended to both.
    """
    apart = bool(above) and (not any(map(is_reason, comments)) or above.startswith("#")) and not any(map(is_signature, comments))
    return [*([""] if apart else []), *comments, *lines]


class Written(NamedTuple):
    """A paragraph of this prompt: where it begins, and the line above it."""

    begin: int
    above: str


class Changed(Error):
    """Another program did more to the script than to append lines of a script, so that nothing more is written into it."""


FAILURES = (OSError, Changed)  # what writing a script may raise


class Journal:
    """The file, from the first line of the prompt to its last. Only one prompt at a time has it.

    text: what was there before. Error if that is no script; then the file is as it was.

    A paragraph is there whole or not at all, whenever this process is killed: its first byte is written last, and is a NUL until
    then. At the next start what a NUL begins is cut off.
    """

    def __init__(self, path: str) -> None:
        if path.endswith(ENDINGS):
            raise Error(f"{path}: lines are appended to a script as text, so its name doesn't end in .{path.rpartition('.')[2]}")
        self.path = path
        self._file = _locked(path)
        self._last: list[Written] = []
        self._more = ""  # of another program, not handed out yet
        try:
            self._stamp, self._bytes = self._now(), bytearray(self._read())
            if self._bytes.startswith(GZIP):
                raise Error(f"{path}: gzip packed it, and lines are appended to a script as text: gunzip it first")
            end = _end_of_whole(self._bytes)
            self.text = decoded(bytes(self._bytes[:end]))
            _refuse_other_files(path, self.text)
            self._above = _last_line(self.text)
            if end < len(self._bytes):
                self._cut(end)
        except BaseException:
            self.close()
            raise

    def close(self) -> None:
        """Closes the file, and removes it if nothing is in it."""
        if self._is_there() and not os.fstat(self._file).st_size:
            os.unlink(self.path)
        os.close(self._file)

    def append(self, lines: Sequence[str], comments: Sequence[str] = ()) -> Written:
        """Appends accepted lines below their comments."""
        self._end_line()
        self._more = REASON.sub("", self._more)
        written = Written(len(self._bytes), self._above)
        self._write(paragraph(self._above, lines, comments))
        self._last.append(written)
        return written

    def leave(self, comments: Sequence[str]) -> None:
        """Writes comments down that no line came for. An empty line ends them, so that they are above none."""
        self.append([""], comments)

    @property
    def content(self) -> str:
        """All that is in it, as far as this journal knows."""
        return decoded(bytes(self._bytes))

    def begin(self, lines: Sequence[str]) -> None:
        """Writes the first lines of an empty file, whole or not at all. They are from before."""
        self._replace(_bytes_of(lines))
        self.text, self._above = self.content, lines[-1] if lines else ""

    def explain(self, written: Optional[Written], lines: Sequence[str], comments: Sequence[str]) -> bool:
        """Puts other comments above a paragraph, and says whether it is the last one, of which alone that is done."""
        self._look()
        if not written or not self.is_last(written):
            return False
        listed = paragraph(written.above, lines, comments)
        self._replace(bytes(self._bytes[:written.begin]) + _bytes_of(listed))
        self._above = listed[-1]
        return True

    def cut(self, written: Written) -> None:
        self._cut(written.begin)
        self._last.pop()
        self._above = written.above

    def is_last(self, written: Optional[Written]) -> bool:
        """Whether a paragraph is the last one of the file."""
        self._look()
        return bool(self._last) and self._last[-1] is written and os.fstat(self._file).st_size == len(self._bytes)

    def more(self) -> str:
        """The lines that another program appended since, but for a reason that has no line yet. Changed if it did anything else."""
        self._look()
        more = REASON.sub("", self._more)
        self._more = self._more[len(more):]
        return more

    def _look(self) -> None:
        """Looks for what another program appended, as far as it has ends of lines."""
        if not self._is_there():
            raise Changed(f"{self.path}: another program removed it, or put another file there")
        now = self._now()
        if now == self._stamp:
            return
        read = self._read()
        if not read.startswith(self._bytes):
            raise Changed(f"{self.path}: another program changed what was in it")
        more = read[len(self._bytes):read.rfind(b"\n") + 1]
        try:
            _refuse_other_files(self.path, decoded(more))
        except Error as failure:
            raise Changed(f"{failure}, which another program appended") from None
        self._stamp = now
        if more:
            self._bytes += more
            self._more += decoded(more)
            self._above = _last_line(decoded(more))
            self._last.clear()

    def _end_line(self) -> None:
        """Leaves alone what another program wrote meanwhile, and ends a last line that has no end."""
        self._look()
        size = os.fstat(self._file).st_size
        if size > len(self._bytes) or size and not self._bytes.endswith(b"\n"):
            self._put(b"\n", size)
            if size == len(self._bytes):
                self._bytes += b"\n"
                self._stamp = self._now()
            self._look()

    def _write(self, lines: Sequence[str]) -> None:
        """Appends lines whole; if that fails what was there is left."""
        text, place = _bytes_of(lines), len(self._bytes)
        try:
            self._put(text[1:], place + 1)
            if len(text) > BLOCK:
                os.fsync(self._file)
            self._put(text[:1], place)
            os.fsync(self._file)
        except BaseException:
            with suppress(OSError):
                os.ftruncate(self._file, place)
            self._stamp = self._now()
            raise
        self._bytes += text
        self._above, self._stamp = lines[-1], self._now()

    def _put(self, text: bytes, place: int) -> None:
        written = 0
        while written < len(text):
            written += os.pwrite(self._file, text[written:], place + written)

    def _cut(self, place: int) -> None:
        os.ftruncate(self._file, place)
        del self._bytes[place:]
        self._stamp = self._now()
        os.fsync(self._file)

    def _replace(self, text: bytes) -> None:
        """Puts another file there, whole or not at all, which this journal has from then on."""
        before, beside = self._file, f"{os.path.realpath(self.path)}.{os.getpid()}"
        self._file = os.open(beside, os.O_RDWR | os.O_CREAT | os.O_EXCL | os.O_CLOEXEC, os.fstat(before).st_mode & 0o777)
        try:
            fcntl.flock(self._file, fcntl.LOCK_EX)
            self._put(text, 0)
            os.fsync(self._file)
            os.replace(beside, os.path.realpath(self.path))
        except BaseException:
            os.close(self._file)
            self._file = before
            os.unlink(beside)
            raise
        os.close(before)
        self._bytes, self._stamp = bytearray(text), self._now()

    def _read(self) -> bytes:
        with open(self._file, "rb", closefd=False) as file:
            file.seek(0)
            return file.read()

    def _now(self) -> tuple[int, int]:
        """What differs once the file is written again."""
        state = os.fstat(self._file)
        return state.st_size, state.st_mtime_ns

    def _is_there(self) -> bool:
        try:
            return os.path.samestat(os.stat(self.path), os.fstat(self._file))
        except FileNotFoundError:
            return False


def _locked(path: str) -> int:
    """The file, opened by nobody else for a script. Error if it is."""
    while True:
        file = os.open(path, os.O_RDWR | os.O_CREAT | os.O_CLOEXEC, 0o666)
        try:
            fcntl.flock(file, fcntl.LOCK_EX | fcntl.LOCK_NB)
            if os.path.samestat(os.stat(path), os.fstat(file)):  # else it was replaced meanwhile
                return file
        except (BlockingIOError, FileNotFoundError) as failure:
            if isinstance(failure, BlockingIOError):
                os.close(file)
                raise Error(f"{path}: another prompt has it open") from None
        os.close(file)


def _end_of_whole(text: bytes) -> int:
    """The end of what was written whole: a paragraph that isn't begins with a NUL for its first byte, and its last line may be cut."""
    end = text.find(b"\0")
    if end < 0 or end and text[end - 1:end] != b"\n" or text.find(b"\0", end + 1) > 0:
        return len(text)
    rest = decoded(text[end + 1:text.rfind(b"\n") + 1])
    for first in "#\nar":
        with suppress(Error):
            _refuse_other_files("", first + rest)
            return end
    return len(text)


def _bytes_of(lines: Sequence[str]) -> bytes:
    return encoded("".join(f"{line}\n" for line in lines))


def _last_line(text: str) -> str:
    """The last line of a text, empty or not."""
    return text.removesuffix("\n").rpartition("\n")[2].removesuffix("\r")


def _refuse_other_files(path: str, text: str) -> None:
    """Raises an Error if a text has a line that no script has, such as a record of a BED file."""
    for number, line in enumerate(text.split("\n"), 1):
        line = line.removesuffix("\r")
        command = line.split("\t")[0]
        if line and not line.startswith("#") and command not in EDITS and command not in VIEWS and command != "resize":
            spaces = command.split(" ")[0] in EDITS
            why = "has spaces for TABs" if spaces else "is no correction, so nothing is appended to this file"
            raise Error(f"{path}: line {number} {why}: {line[:80]}")

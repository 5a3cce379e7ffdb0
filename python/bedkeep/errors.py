"""The exceptions of the package. Each is an Error."""
from __future__ import annotations

import re
from typing import Optional, Sequence

HINT = "  "  # how the lines of a hint begin
FIELD = re.compile(r"field (\d+): ")  # how a hint begins that is about one field


class Error(Exception):
    """What the package raises of its own.

    Examples
    --------
    >>> try:
    ...     session.remove("chr1", 1, 2, "geneX")
    ... except bedkeep.Error as error:
    ...     print(type(error).__name__)
    Refused
    """


class NotFound(Error):
    """The program isn't there.

    Examples
    --------
    >>> bedkeep.records("sizes", "genes.bed", program="absent")
    Traceback (most recent call last):
    bedkeep.errors.NotFound: no program 'absent': ...
    """


class Refused(Error, ValueError):
    """A line was refused, and changed nothing.

    Attributes
    ----------
    reason : str
        Why, as the program says it, such as `no such record`.
    number : int
        The line's number in the script that was handed to `edit`, from 1; 1 for a call that sends one line.
    line : str
        The line as it was sent, its fields separated by TABs.
    hint : tuple of str
        What the program says of it besides, line by line; of the first three refused lines of a kind. Its first line is in the text
        of the exception.
    field : int or None
        The number of the field that it is about, from 1, the command among them.
    others : list of Refused
        What was refused after it, if `edit` raised it.

    Examples
    --------
    >>> try:
    ...     session.remove("chr1", 1, 2, "geneX")
    ... except bedkeep.Refused as refused:
    ...     print(refused.reason)
    no such record
    """

    def __init__(self, reason: str, number: int, line: str, hint: tuple[str, ...] = ()) -> None:
        super().__init__(reason, number, line)
        self.reason = reason
        self.number = number
        self.line = line
        self.hint = hint
        self.others: list[Refused] = []

    @property
    def field(self) -> Optional[int]:
        return field_of(self.hint)

    def __str__(self) -> str:
        more = f", and {len(self.others)} more" if self.others else ""
        return ": ".join([f"line {self.number}: {self.reason}: {self.line!r}", *self.hint[:1]]) + more


def without_fields(hints: Sequence[str]) -> list[str]:
    """Hints without the numbers of fields, which nobody counts who didn't write the line into a file."""
    return [FIELD.sub("", hint, count=1) for hint in hints]


def field_of(hints: Sequence[str]) -> Optional[int]:
    """The number of the field that the hints on a refused line are about, or None."""
    found = FIELD.match(hints[0]) if hints else None
    return int(found[1]) if found else None


class Ended(Error):
    """The program ended before it had answered.

    Attributes
    ----------
    status : int
        Its exit status, or a signal's number below 0 if a signal ended it.
    message : str
        The line that it wrote of that, without `bedkeep: `.
    hint : tuple of str
        The lines after it, on what is wrong and what to do, which are in the text of the exception.

    Examples
    --------
    >>> try:
    ...     bedkeep.records("sizes", "absent.bed")
    ... except bedkeep.Ended as ended:
    ...     print(ended.status)
    4
    """

    def __init__(self, status: int, message: str, hint: tuple[str, ...] = ()) -> None:
        super().__init__(status, message)
        self.status = status
        self.message = message
        self.hint = hint

    def __str__(self) -> str:
        return f"\n{HINT}".join([f"{self.message} (status {self.status})", *self.hint])


class BadOptions(Ended):
    """Status 2: an option, a value or a column that the subcommand doesn't take. Its text has the first line of the hint.

    Examples
    --------
    >>> bedkeep.genomecov("sizes", "genes.bed")
    Traceback (most recent call last):
    bedkeep.errors.BadOptions: ...
    """

    def __str__(self) -> str:
        return ": ".join([f"{self.message} (status {self.status})", *self.hint[:1]])


class Damaged(Ended):
    """Status 3: a line of a file is damaged.

    Attributes
    ----------
    file : str
        The file's name as it was given.
    line : int
        The line's number, from 1.
    reason : str
        Why, as the program says it.

    Examples
    --------
    >>> try:
    ...     bedkeep.records({"chr1": 300}, "genes.bed")
    ... except bedkeep.Damaged as damaged:
    ...     print(damaged.file, damaged.line, damaged.reason)
    genes.bed 2 end past the sequence's end
    """

    def __init__(self, status: int, message: str, hint: tuple[str, ...] = ()) -> None:
        super().__init__(status, message, hint)
        parts = re.fullmatch(r"(.*): line (\d+): (.*)", message, re.DOTALL)
        self.file, line, self.reason = parts.groups() if parts else ("", "0", message)
        self.line = int(line)


class InputOutput(Ended):
    """Status 4: a file, the script or the output can't be read or written, or is too long.

    Examples
    --------
    >>> bedkeep.records("sizes", "absent.bed")
    Traceback (most recent call last):
    bedkeep.errors.InputOutput: ...
    """


class NoMemory(Ended):
    """Status 5: memory ran out.

    Examples
    --------
    >>> issubclass(bedkeep.NoMemory, bedkeep.Ended)
    True
    """


BY_STATUS = {2: BadOptions, 3: Damaged, 4: InputOutput, 5: NoMemory}


def ended(status: int, messages: str) -> Ended:
    """The exception for an exit status and all that was written to standard error."""
    lines = messages.split("\n")
    while lines and (not lines[-1] or lines[-1].startswith(HINT)):
        lines.pop()
    last = lines[-1] if lines else ""
    message = last[len("bedkeep: "):] if last.startswith("bedkeep: ") else ""
    if not message:
        message = f"ended by signal {-status}" if status < 0 else "ended without a message"
    hint = [line[len(HINT):] for line in messages.split("\n")[len(lines):] if line]
    return BY_STATUS.get(status, Ended)(status, message, tuple(hint))

"""Lines of a script, the edits that were accepted, and what takes one of them back."""
from __future__ import annotations

import enum
import io
import operator
import os
import re
from collections.abc import Mapping
from datetime import datetime
from itertools import islice
from typing import Collection, Iterable, Iterator, Optional, Sequence, SupportsIndex, Union

from .changes import Changes, halves
from .interrupts import Interrupts
from .record import record_of

EDITS = {"add", "remove", "replace", "addb", "removeb", "replaceb"}
VIEWS = {"open", "close", "print", "printall", "show", "showall"}
TOGETHER = "together:"
MARKER = re.compile(r"#\s*(?:(?:was|conflict|dropped|not lifted):|[a-z ]+, was:|"
                    r"(?:[^\t]*: )?(?:(?:add|remove|replace)b?|resize|show(?:all)?)\t)")
SIGNATURE = re.compile(r"# signed: (\S(?:.*\S)?) (\d{4}-\d\d-\d\dT\d\d:\d\d:\d\d[+-]\d\d:\d\d)")  # a name, and when
INVERSE = {"add": "remove", "remove": "add", "replace": "replace",
           "addb": "removeb", "removeb": "addb", "replaceb": "replaceb"}
Move = tuple[Optional[str], Optional[str]]  # the record that a line took out, and the one that it put in
VIEW_COMMAND = re.compile(r"\n(?:open\t|close\t|print\t|printall\n|show\t|showall\t)")


def is_marker(text: str) -> bool:
    """Whether a line of a script is a comment that a program wrote about one line, or a line that is commented out: no reason."""
    return bool(MARKER.match(text))


def is_signature(text: str) -> bool:
    """Whether a line of a script says who accepted those below it: it begins a paragraph, above the reason."""
    return bool(SIGNATURE.fullmatch(text))


def is_reason(text: str) -> bool:
    """Whether a line of a script is a comment on those below it."""
    return text.startswith("#") and not is_marker(text) and not is_signature(text)


def is_together(text: str) -> bool:
    """Whether it is the comment below which the lines of a paragraph are done whole or not at all."""
    return text.startswith("#") and text[1:].strip().startswith(TOGETHER)


def comments_of(reasons: Iterable[str]) -> list[str]:
    """Reasons as comments, of which none is taken for a marker or a signature."""
    comments = [f"# {reason}".rstrip().replace("\t", " ").replace("\0", "") for reason in reasons]
    return [comment if is_reason(comment) else f'# "{comment[2:]}"' for comment in comments]


def signature(name: str) -> str:
    """The line of a script that says who accepts those below it, now. ValueError if that can't be a name."""
    text = f"# signed: {name} {datetime.now().astimezone().isoformat(timespec='seconds')}"
    if re.search(r"[\t\r\n\0]", name) or not is_signature(text):
        raise ValueError(f"a name is one line without TABs and without spaces around it, and not {name!r}")
    return text


def text_of(field: object) -> str:
    """A field as text: it is text, or a whole number of any type."""
    if isinstance(field, str):
        return field
    if isinstance(field, SupportsIndex) and not isinstance(field, bool):
        return str(operator.index(field))
    raise TypeError(f"a field is text or a whole number, and not {field!r}")


def line_of(*fields: object) -> str:
    """A line of a script with its end. No field may have a TAB or the end of a line in it."""
    texts = [text_of(field) for field in fields]
    for text in texts:
        if re.search(r"[\t\r\n]", text):
            raise ValueError(f"a TAB or the end of a line in a field: {text!r}")
    return "\t".join(texts) + "\n"


def edits_of(lines: Union[str, Iterable[str]]) -> str:
    """The text of a script that has edits alone, from such a text, an open file or any lines. Each line has its end."""
    _refuse_other_types(lines)
    if isinstance(lines, io.TextIOBase):
        lines = lines.read()
    if isinstance(lines, str):
        text = lines if lines.endswith("\n") or not lines else f"{lines}\n"
    else:
        listed = list(lines)
        for line in listed:
            if not isinstance(line, str):
                raise TypeError(f"a line of a script is text with TABs, and not {line!r}")
        text = "\n".join([*listed, ""])
        if text.count("\n") != len(listed):
            text = "\n".join([*(line.rstrip("\n") for line in listed), ""])
            if text.count("\n") != len(listed):
                raise ValueError("a line has the end of another line in it")
    text = text.replace("\r\n", "\n")
    view = VIEW_COMMAND.search(f"\n{text}")
    if view:
        raise ValueError(f"edits alone are taken here, and not {view[0].strip()}: use open, rows and show of a session")
    return text


def _refuse_other_types(lines: object) -> None:
    """Raises for what is surely no script: a path, bytes, a dict or a table."""
    if isinstance(lines, (bytes, os.PathLike, Mapping)) or hasattr(lines, "columns"):
        raise TypeError(f"edits are a text, an open file or lines, and not a {type(lines).__name__}")
    if isinstance(lines, str) and lines and not re.search("^#|[\t\n]", lines):
        raise ValueError(f"no line of a script: {lines!r}; a file of edits is handed in when it is open")


def inverse_of(line: str) -> str:
    """The line that takes back an edit of a record, directly after it; other lines as they are."""
    command, *fields = line.removesuffix("\r").split("\t")
    old, new = halves(command, fields)
    return "\t".join([INVERSE[command], *new, *old]) if command in INVERSE else line


def of_track(line: str) -> str:
    """An edit of the second file as one of a track; other lines as they are."""
    command, separator, rest = line.partition("\t")
    return command.removesuffix("b") + separator + rest if command in EDITS else line


def is_edit(line: str) -> bool:
    """Whether a line of a script is no comment and not empty."""
    return bool(line) and not line.startswith("#")


def paragraphs(lines: Sequence[str]) -> Iterator[range]:
    """The places of the lines of each paragraph: signature, comments, the edits below them, and the empty line after these."""
    begin, edits = 0, False
    for place, line in enumerate(lines):
        if (is_reason(line) or is_signature(line)) and edits:
            yield range(begin, place)
            begin, edits = place, False
        edits = edits or is_edit(line)
        if not line:
            yield range(begin, place + 1)
            begin, edits = place + 1, False
    yield range(begin, len(lines))


def accepted(lines: Sequence[str], refused: Collection[int]) -> str:
    """The text of lines without those that were refused, by their numbers from 1. A reason for these alone goes with them."""
    kept: list[str] = []
    for places in paragraphs(lines):
        listed = [lines[place] for place in places if place + 1 not in refused]
        if len(listed) < len(places) and not any(map(is_edit, listed)):
            listed = [""] if "" in listed and kept and kept[-1] else []
        kept += listed
    return "".join(f"{line}\n" for line in kept)


def pieces_of(text: str) -> Iterator[tuple[str, bool]]:
    """The text of a script in pieces, and whether each is a group: a paragraph that is done whole or not at all."""
    lines = text.split("\n")[:-1]
    begin = 0
    for places in paragraphs(lines):
        listed = lines[places.start:places.stop]
        if any(map(is_together, listed)) and any(map(is_edit, listed)):
            if begin < places.start:
                yield "\n".join([*lines[begin:places.start], ""]), False
            yield "\n".join([*listed, ""]), True
            begin = places.stop
    if begin < len(lines):
        yield "\n".join([*lines[begin:], ""]), False


class Kind(enum.Enum):
    """What holds for a line and those directly below it: no reason, one, or that they are done together. Or it separates two."""

    PLAIN = 0
    EXPLAINED = 1
    TOGETHER = 2
    SEPARATOR = 3


class Script:
    """The accepted edits over a genome of these lengths.

    The comments directly above a line are the reason for it, and for the lines below it up to the next comment or empty line.
    An empty line separates a line that comes without a reason from lines that have one.
    """

    def __init__(self, lengths: Mapping[str, int]) -> None:
        self._lines: list[str] = []
        self._kinds: list[Kind] = []  # of each line
        self._added: list[str] = []
        self._changes = Changes(lengths)
        self._counted = 0  # how many lines are in the changes

    def add(self, text: str) -> None:
        """Adds accepted lines. They are taken apart when that is needed, so that many cost little."""
        self._added.append(text)

    def lines(self) -> list[str]:
        """The lines, without their ends."""
        if self._added:
            with Interrupts():
                for text in self._added:
                    self._add(text.split("\n")[:-1])
                self._added.clear()
        return self._lines

    def parts(self, line: str) -> list[str]:
        """The command of a line and the fields that the program is given."""
        return line.split("\t")

    def changes(self) -> Changes:
        """What the lines changed."""
        lines = self.lines()
        if self._counted < len(lines):
            with Interrupts():
                for line in lines[self._counted:]:
                    if is_edit(line):
                        command, *fields = self.parts(line)
                        self._changes.do(command, fields)
                self._counted = len(lines)
        return self._changes

    def moves(self) -> Iterator[Move]:
        """What each line of the track did, in their order: records with all their columns, numbers without leading zeros."""
        for line in self.lines():
            command, *fields = line.split("\t")
            if command in ("add", "remove", "replace"):
                old, new = ("\t".join(record_of(columns)) if columns else None for columns in halves(command, fields))
                yield old, new

    def explain(self, reason: str) -> None:
        """Puts comments above the last edit, or above the first line of its group."""
        place = self.last()[0]
        comments = [f"# {line}".rstrip() for line in reason.splitlines()]
        self.changes()
        with Interrupts():
            below = self._lines[place:]
            self._cut(place - 1 if comments and place and self._kinds[place - 1] is Kind.SEPARATOR else place)
            self._extend([*comments, *below])
            self._counted = len(self._lines)

    def forget(self, place: int) -> None:
        """Takes out the last edit with the comments directly above it, and one of two empty lines around them."""
        changes = self.changes()
        first = place
        while first and self._lines[first - 1].startswith("#"):
            first -= 1
        if first and self._kinds[first - 1] is Kind.SEPARATOR:
            first -= 1
        with Interrupts():
            command, *fields = self.parts(self._lines[place])
            changes.undo(command, fields)
            below = self._lines[place + 1:]
            self._cut(first)
            self._extend(below[1:] if below[:1] == [""] and self._lines[-1:] in ([], [""]) else below)
            self._counted = len(self._lines)

    def last(self) -> list[int]:
        """The places of the last edit, or of all lines of its group. Comments and empty lines are none."""
        lines = self.lines()
        [first] = last = self.last_edits(1)
        while self._kinds[last[-1]] is Kind.TOGETHER and (is_edit(lines[first - 1]) or is_marker(lines[first - 1])):
            first -= 1
        return [place for place in range(first, last[-1] + 1) if is_edit(lines[place])]

    def last_edits(self, count: int) -> list[int]:
        """The places of so many last edits. IndexError if there are fewer."""
        lines = self.lines()
        found = list(islice((place for place in range(len(lines) - 1, -1, -1) if is_edit(lines[place])), count))
        if len(found) < count:
            raise IndexError("nothing to undo")
        return found[::-1]

    def reverse(self, place: int) -> str:
        """The line that takes back the line at that place, once those after it are taken back."""
        lines = self.lines()
        command, *fields = self.parts(lines[place])
        if command == "resize":
            later = sum(line.startswith(f"resize\t{fields[0]}\t") for line in lines[place + 1:])
            return line_of("resize", fields[0], self.changes().length_before(fields[0], later))
        return inverse_of("\t".join([command, *fields])) + "\n"

    def _add(self, lines: list[str]) -> None:
        """Appends the lines of a call, after an empty one if the first would get the reason of the line before."""
        first, last = (next((line for line in listed if not is_marker(line)), "") for listed in (lines, reversed(self._lines)))
        if is_edit(first) and is_edit(last) and self._kinds[-1] in (Kind.EXPLAINED, Kind.TOGETHER):
            self._lines.append("")
            self._kinds.append(Kind.SEPARATOR)
        self._extend(lines)

    def _extend(self, lines: list[str]) -> None:
        kind = self._kinds[-1] if self._kinds else Kind.PLAIN
        begun = bool(self._lines) and is_reason(self._lines[-1])
        for line in lines:
            if not line or kind is Kind.SEPARATOR or is_signature(line):
                kind = Kind.PLAIN
            below, begun = begun, is_reason(line)
            if begun:
                kind = Kind.TOGETHER if is_together(line) or below and kind is Kind.TOGETHER else Kind.EXPLAINED
            self._kinds.append(kind)
        self._lines += lines

    def _cut(self, place: int) -> None:
        """Takes out the lines from a place on."""
        del self._lines[place:], self._kinds[place:]

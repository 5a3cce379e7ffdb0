"""Scripts of corrections, several read as one: each line with its file, its number there, its reason and its group.

`read_lines` reads them. `carry.Carrier` has a session carry them out, after which each line has its verdict: a line that is well
formed has its records, and one that was refused a message that names the field.

A reason is the block of comments directly above a paragraph: the lines down to the next comment or empty line. A comment that
begins with `together:` makes the paragraph a group, whose lines are done whole or not at all. Directly above the reason, or the
paragraph without one, may be a signature. Markers, such as `# was: ..`, are comments that a program wrote about one line: they are
no reason, and no paragraph begins or ends with them.
"""
from __future__ import annotations

import os
import re
from typing import Iterable, Iterator, Mapping, NamedTuple, Optional, Sequence

from ..changes import halves
from ..encoding import Path, decoded
from ..errors import field_of
from ..files import read_bytes
from ..printed_rows import RECORD
from ..record import NARROWEST, WIDEST, Record, record_of
from ..script import EDITS, SIGNATURE, TOGETHER, VIEWS, is_marker, is_reason, is_signature, is_together
from ..wide import cut

ABSENT = "no such record"
UNLIKE = "the record is there with"  # how a session says that the columns after the sixth differ
PLACE = re.compile(r"[^:]+:[0-9,]+-[0-9,]+")
ABOUT_COMMANDS = {"no such command or wrong fields", "no second file"}
WRONG_NUMBER = "wrong number of columns"


class Author(NamedTuple):
    """Who made a correction, when, and the commit that has it, as far as that is known. date: ISO 8601, with a time zone"""

    name: str = ""
    date: str = ""
    commit: str = ""


def author_of(signature: str, blamed: Author = Author()) -> Author:
    """Who signed; without a signature what git knows."""
    signed = SIGNATURE.fullmatch(signature)
    return Author(signed[1], signed[2], blamed.commit) if signed else blamed


class Group:
    """The lines of a paragraph that are done whole or not at all."""

    def __init__(self) -> None:
        self.lines: list[Line] = []


class Line:
    """A line of the corrections, and once it is carried out its verdict.

    number:   through all files, from 1; place: in its file
    text:     without its end; command, fields: its parts; narrow: the fields without columns after the sixth
    heading:  the comments that are its reason, as they are in the file; signature: the line above them that says who accepted it
    blamed:   what git knows of its author, once that is looked for
    group:    the lines that are done with it or not at all, itself among them; or None
    refusal:  why the program, or the package, refused it; empty if it was done or isn't run
    message:  the same with the field that it is about, and its value
    hints:    what else is to be said of the refusal
    offers:   lines that would fit instead
    warning:  what no longer holds of the columns after the sixth, though it was done
    there:    the record that an `add` isn't done for, since it is there already; it differs if the line is refused
    width:    the number of columns of the file that it edits, once that is known
    old, new: the record that it takes out and the one that it puts in, if it is well formed
    old_tail, new_tail: their columns from the seventh on, if the line has them
    """

    def __init__(self, number: int, file: str, place: int, text: str, heading: Sequence[str] = (),
                 group: Optional[Group] = None, signature: str = "") -> None:
        self.number, self.file, self.place, self.text = number, file, place, text
        self.heading, self.group, self.signature = tuple(heading), group, signature
        self.blamed = Author()
        self.command, *self.fields = text.split("\t")
        self.refusal = self.message = self.warning = ""
        self.hints: tuple[str, ...] = ()
        self.offers: tuple[str, ...] = ()
        self.there: Optional[Record] = None
        self.old: Optional[Record] = None
        self.new: Optional[Record] = None
        self.old_tail: Optional[str] = None
        self.new_tail: Optional[str] = None
        self.width = 0
        self.narrow = self.fields
        self._asked: Optional[tuple[Optional[Record], Optional[Record]]] = None
        if group and self.is_run:
            group.lines.append(self)

    @property
    def comments(self) -> tuple[str, ...]:
        """The reason, line by line, without `#` and `together:`."""
        texts = [comment[1:].strip() for comment in self.heading]
        return tuple(text[len(TOGETHER):].strip() if text.startswith(TOGETHER) else text for text in texts if text != TOGETHER)

    @property
    def above(self) -> tuple[str, ...]:
        """All that is above its paragraph: the signature and the reason."""
        return (self.signature, *self.heading) if self.signature else self.heading

    @property
    def author(self) -> Author:
        """Who made it, by its signature if it has one, else by git."""
        return author_of(self.signature, self.blamed)

    @property
    def is_run(self) -> bool:
        """Whether it is a correction, and no comment, no empty line and no line of a view."""
        return bool(self.text) and not self.text.startswith("#") and self.command not in VIEWS

    @property
    def is_edit(self) -> bool:
        """Whether it takes or puts a record, and is well formed."""
        return self.old is not None or self.new is not None

    @property
    def is_done(self) -> bool:
        return self.is_run and not self.refusal and not self.there

    @property
    def is_second(self) -> bool:
        """Whether it is an edit of the second file."""
        return self.command in EDITS and self.command.endswith("b")

    @property
    def sent(self) -> str:
        """What a session is given: an empty line for what isn't run."""
        if not self.is_run:
            return ""
        # Of two more one is dropped by `Session.edit`, and one by the program.
        return f"{self.text}\r\r" if self.text.endswith("\r") else self.text

    def cut(self, width: int) -> None:
        """Takes the columns from the seventh on apart, if the file has so many. width: of the file, or 0 if it isn't known."""
        if width == self.width:
            return
        self.width, self._asked = width, None
        if self.command in EDITS:
            self.narrow, self.old_tail, self.new_tail = cut(self.command, self.fields, width)

    def again(self, text: str) -> Line:
        """Another line in its place."""
        line = Line(self.number, self.file, self.place, text, self.heading, signature=self.signature)
        line.cut(self.width)
        return line

    def judge(self, refusal: str, hints: Iterable[str] = ()) -> None:
        """Takes the verdict of a session: why it was refused, or nothing."""
        self.hints = tuple(hint for hint in hints if not _is_offer(hint))
        self.offers = tuple(hint for hint in hints if _is_offer(hint))
        self.refusal = refusal
        self.message = self._fault() if refusal else ""
        self.warning, self.there = "", None
        is_malformed = refusal in {*ABOUT_COMMANDS, WRONG_NUMBER} or field_of(self.hints) is not None
        self.old, self.new = (None, None) if is_malformed else self.asked()

    def refuse(self, refusal: str, message: str = "") -> None:
        """Takes the verdict of the package over that of the session, about records that are well formed."""
        self.refusal, self.message, self.warning = refusal, message or refusal, ""

    def asked(self) -> tuple[Optional[Record], Optional[Record]]:
        """The record that it takes out and the one that it puts in, whatever becomes of it; none if they can't be records."""
        if self._asked is None:
            old, new = halves(self.command, self.narrow)
            sound = all(is_record(columns) for columns in (old, new) if columns)
            self._asked = record_of(old) if sound and old else None, record_of(new) if sound and new else None
        return self._asked

    def records(self) -> list[Record]:
        """Those of `asked` that there are."""
        return [record for record in self.asked() if record]

    def _needed(self) -> str:
        """How many fields the edit of a file of that width has."""
        widths = sorted({min(self.width, WIDEST), self.width})
        if self.command not in EDITS or not self.width:
            return ""
        counts = widths
        if self.command.startswith("replace"):
            counts = sorted({old + new for old in widths for new in widths if old <= new})
        last = f"{' or ' * (len(counts) > 1)}{counts[-1]}"
        return f"; {', '.join(map(str, counts[:-1]))}{last} are needed"

    def _fault(self) -> str:
        """The refusal with the field that it is about and its value."""
        if self.refusal == WRONG_NUMBER:
            places = "".join(f"; {field} is three fields" for field in self.fields if PLACE.fullmatch(field))
            return f"{self.refusal}: {len(self.fields)} fields{self._needed()}{places}"
        if self.refusal == ABSENT:
            unlike = [hint for hint in self.hints if hint.startswith(UNLIKE)]
            return ": ".join([ABSENT, " ".join(halves(self.command, self.narrow)[0]), *unlike])
        if self.refusal in ABOUT_COMMANDS:
            return f"{self.refusal}: {self.command}"
        field = field_of(self.hints)
        return f"{self.refusal}: {self.fields[field - 2]!r} ({self._name_of(field)})" if field else self.refusal

    def _name_of(self, field: int) -> str:
        """What a field is called, by its number in the line."""
        if self.command == "resize":
            return ("sequence", "length")[field - 2]
        if not self.command.startswith("replace"):
            return f"{RECORD[field - 2]}, field {field}"
        half = self.width if self.old_tail is not None else WIDEST if self.new_tail is not None else len(self.fields) // 2
        return f"{'old' if field - 2 < half else 'new'} {RECORD[(field - 2) % half]}, field {field}"


def is_record(columns: Sequence[str]) -> bool:
    """Whether columns begin with a sequence, and a start below an end."""
    if len(columns) < NARROWEST:
        return False
    start, end = columns[1:NARROWEST]
    return _is_number(start) and _is_number(end) and int(start) < int(end)


def _is_number(text: str) -> bool:
    return 0 < len(text) <= 10 and text.isascii() and text.isdigit()


def _is_offer(hint: str) -> bool:
    """Whether a hint is a line of a script."""
    return "\t" in hint and hint.split("\t")[0] in EDITS


def read_scripts(files: Iterable[Path]) -> list[list[Line]]:
    """The lines of each of some scripts, comments and empty ones too. They are numbered through all."""
    scripts: list[list[Line]] = []
    for file in files:
        scripts.append(read_text(decoded(read_bytes(file)), os.fspath(file), sum(map(len, scripts))))
    return scripts


def read_lines(files: Iterable[Path]) -> list[Line]:
    """All lines of some scripts."""
    return [line for lines in read_scripts(files) for line in lines]


def read_text(text: str, file: str = "-", before: int = 0) -> list[Line]:
    """All lines of the text of a script. file: its name; before: how many lines of other scripts are above it."""
    lines: list[Line] = []
    heading: list[str] = []
    group: Optional[Group] = None
    begun = False  # a reason, by the line directly above
    signature = ""
    texts = text.split("\n")
    for place, row in enumerate(texts if texts[-1] else texts[:-1], 1):
        row = row[:-1] if row.endswith("\r") else row
        if is_reason(row):
            heading = [*heading, row] if begun else [row]
            group = Group() if is_together(row) else group if begun else None
            signature = signature if begun or lines and lines[-1].text == signature else ""
        elif not row or is_signature(row):
            heading, group, signature = [], None, row
        begun = is_reason(row)
        is_line = not row.startswith("#")
        lines.append(Line(before + place, file, place, row, heading if is_line else (), group if is_line else None, signature))
    return lines


def rewritten(lines: Sequence[Line], written: Mapping[int, tuple[Sequence[str], bool]]) -> Iterator[str]:
    """The lines of scripts again, some of them otherwise. Reasons stay where they are, and none becomes that of another line.

    written: by the number of a line what is written for it, and whether that leaves it out, as comments alone
    """
    is_left = False  # whether a line was left out last, whose reason is above
    before: Optional[Line] = None
    for line in lines:
        is_comment = line.text.startswith("#")
        ends = is_comment and not is_marker(line.text)
        begins = bool(before and before.file != line.file
                      and (before.text.startswith("#") or not ends and (before.above or is_left)))
        if line.text and (is_left and (ends or begins) or begins):
            yield ""
        if line.number in written:
            texts, is_left = written[line.number]
            yield from texts
        else:
            yield line.text
            is_left = is_left and is_comment and not ends
        before = line

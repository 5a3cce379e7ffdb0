"""The edits of a prompt: carried out, written down with their reasons, taken back and done again."""
from __future__ import annotations

from typing import Optional, Sequence

from ..interrupts import Interrupts
from ..record import Record
from ..script import TOGETHER, is_reason, is_signature, signature
from ..session import Session
from .carry import Carrier, Editing
from .corrections import Author, Line, author_of, read_text
from .journal import FAILURES, Journal, Written, paragraph

Move = tuple[bool, Optional[Record], Optional[Record]]


class Edit:
    """Accepted lines that are taken back at once, below their comments; or comments alone. title: what they do, if it is one thing

    moves:   of each line whether it is of the second file, the record that it takes out and the one that it puts in
    written: where it is in the journal, if this prompt wrote it
    takes:   the edit that it took back
    continues: whether its reason is that of the edit before
    """

    def __init__(self, lines: Sequence[str], comments: Sequence[str], title: str = "") -> None:
        self.lines, self.comments, self.title = list(lines), list(comments), title
        self.moves: list[Move] = []
        self.written: Optional[Written] = None
        self.takes: Optional[Edit] = None
        self.continues = False

    def take(self, line: Line) -> None:
        """Gets a line that was done."""
        self.moves.append((line.is_second, *line.asked()))

    @property
    def author(self) -> Author:
        """Who signed it."""
        return author_of("".join(self.comments[:1]))

    @property
    def reason(self) -> str:
        """Its reason, or nothing."""
        texts = [comment[1:].strip().removeprefix(TOGETHER).strip() for comment in self.comments if is_reason(comment)]
        return " ".join(filter(None, texts))

    @property
    def called(self) -> str:
        """What to call it: its reason, or else its first line."""
        return self.reason or " ".join(self.lines[:1]).replace("\t", " ")


class Edits:
    """Has a session carry out what is typed. Each accepted paragraph is in the script, and in the journal if there is one.

    done: the accepted edits in their order, without those that `undo` took back; name: who signs them, if somebody does
    """

    def __init__(self, session: Session, carrier: Carrier, journal: Optional[Journal], name: Optional[str] = None) -> None:
        self._session, self._carrier, self._journal, self._name = session, carrier, journal, name
        self.done: list[Edit] = []
        self._undone: list[Edit] = []

    @property
    def undone(self) -> Optional[Edit]:
        """The edit that `redo` does again."""
        return self._undone[-1] if self._undone else None

    def text(self) -> str:
        """The accepted lines as a script, without those that were taken back."""
        listed: list[str] = []
        for edit in self.done:
            listed += edit.lines if edit.continues else paragraph(listed[-1] if listed else "", edit.lines, edit.comments)
        return "".join(f"{line}\n" for line in listed)

    def replay(self) -> list[Line]:
        """Carries out what the journal has from before, and returns all its lines with their verdicts."""
        return self._take_in(self._journal.text if self._journal else "")

    def follow(self) -> list[Line]:
        """Carries out what another program appended to the journal since, and returns these lines with their verdicts."""
        return self._take_in(self._journal.more()) if self._journal else []

    def carry(self, texts: Sequence[str], comments: Sequence[str], title: str = "", by: Optional[Editing] = None) -> list[Line]:
        """Carries out a line, or several together, writes down what was done below the comments, and returns their verdicts.

        title: what several lines do, which is their reason if there are no comments; by: as for `Carrier.carry`. OSError if it
        can't be written down; then nothing is done.
        """
        lines = self._carry(Edit(texts, _heading(comments, title), title), by)
        if any(line.is_done for line in lines):
            self._undone.clear()
        return lines

    def attempt(self, texts: Sequence[str], by: Editing) -> list[Line]:
        """The verdicts of a line, or of several together, carried out by what keeps nothing."""
        lines = _lines(Edit(texts, _heading([], "", len(texts) > 1)))
        self._carrier.carry(lines, by)
        return lines

    def note(self, comments: Sequence[str]) -> Edit:
        """Writes comments down by themselves, as an edit without a line."""
        edit = Edit([], comments)
        with Interrupts():
            self._keep(edit)
        self._undone.clear()
        return edit

    def explain(self, comments: Sequence[str]) -> bool:
        """Puts comments above the last edit, and says whether it still is the last one of the journal. IndexError without one."""
        edit = self._last()
        heading = self._signed(_heading(comments, edit.title))
        with Interrupts():
            if self._journal and not self._journal.explain(edit.written, edit.lines, heading):
                return False
            edit.comments, edit.continues = heading, False
        return True

    def undo(self, comments: Sequence[str] = ()) -> Edit:
        """Takes the last edit back, and returns it. IndexError if there is none.

        comments: why, and markers. If the journal's last paragraph isn't that of the edit, the lines that reverse it are appended
        below these, or below the reason that the lines had.
        """
        edit = self._last()
        with Interrupts():
            inverse = self._take_back(edit)
            try:
                self._take_out(edit, inverse, taken_back(edit.called, comments))
            except FAILURES:
                self._carrier.carry(_lines(edit))
                raise
            self._undone.append(self.done.pop())
        return edit

    def redo(self, by: Optional[Editing] = None) -> list[Line]:
        """Does the edit again that was taken back last. IndexError if there is none, or another one was done since."""
        if not self._undone:
            raise IndexError("nothing to do again")
        edit = self._undone[-1]
        lines = self._carry(edit, by)
        if not edit.lines:
            self._keep(edit)
        if not edit.lines or any(line.is_done for line in lines):
            self._undone.pop()
        return lines

    def take_back(self, edit: Edit, comments: Sequence[str] = (), by: Optional[Editing] = None) -> list[Line]:
        """Takes back an edit that isn't the last one: the lines that reverse it are an edit of their own, whose verdicts are returned.

        comments: as for `undo`. None may be `standing` on it.
        """
        inverse = self.inverse(edit)
        title = edit.called if len(inverse) > 1 else ""
        back = Edit(inverse, _heading(taken_back(edit.called, comments), title), title)
        back.takes = edit
        lines = self._carry(back, by)
        if any(line.is_done for line in lines):
            self._undone.clear()
        return lines

    def inverse(self, edit: Edit) -> list[str]:
        """The lines that reverse an edit."""
        before = sum(len(one.lines) for one in self.done[:self.done.index(edit)])
        return self._session.inverse_of(before, len(edit.lines))

    def standing(self, edit: Edit) -> Optional[Edit]:
        """The first edit after another that takes out a record which without that one wouldn't be there, or resizes as it does."""
        pairs = [pair for one in self.done if one.takes and one.takes is not edit for pair in (one, one.takes)]
        later = [one for one in self.done[self.done.index(edit) + 1:] if one not in pairs]
        resized = _resized(edit)
        put = {new for second, _, new in edit.moves if new and not second} - {old for second, old, _ in edit.moves if not second}
        steps = [(one, step) for one in later for move in one.moves for step in _steps(move) if step[0] in put]
        copies = {record: self._copies(record) - sum(count for _, (other, count) in steps if other == record) for record in put}
        gone = None
        for one, (record, count) in steps:
            copies[record] += count
            gone = gone or (one if copies[record] < 1 else None)
        return gone or next((one for one in later if resized & _resized(one)), None)

    def _copies(self, record: Record) -> int:
        return self._session.around([(record[0], int(record[1]), int(record[2]))])[record]

    def _last(self) -> Edit:
        if not self.done:
            raise IndexError("nothing to undo")
        return self.done[-1]

    def _carry(self, edit: Edit, by: Optional[Editing] = None) -> list[Line]:
        lines = _lines(edit)
        with Interrupts():
            self._carrier.carry(lines, by)
            done = Edit([], edit.comments, edit.title)
            done.takes = edit.takes
            for line in lines:
                if line.is_done:
                    done.lines.append(line.text)
                    done.take(line)
            if done.lines:
                self._keep(done)
        return lines

    def _keep(self, edit: Edit) -> None:
        """Writes down an edit that was done, signed now; it is taken back if that can't be."""
        edit.comments = self._signed(edit.comments)
        try:
            edit.written = self._journal.append(edit.lines, edit.comments) if self._journal else None
        except FAILURES:
            self._take_back(edit)
            raise
        self.done.append(edit)

    def _take_out(self, edit: Edit, inverse: Sequence[str], comments: Sequence[str]) -> None:
        """Takes an edit out of the journal, or appends its inverse below comments."""
        if not self._journal:
            return
        if edit.written and self._journal.is_last(edit.written):
            self._journal.cut(edit.written)
        else:
            self._journal.append(inverse, self._signed(_heading(comments, "", len(inverse) > 1)))

    def _signed(self, comments: Sequence[str]) -> list[str]:
        """Comments below the signature of now, if somebody signs, and no other one."""
        signatures = [signature(self._name)] if self._name else []
        return [*signatures, *(text for text in comments if not is_signature(text))]

    def _take_back(self, edit: Edit) -> list[str]:
        """Has the session take back the last edit, and returns the lines that reverse it."""
        inverse: list[str] = []
        while len(inverse) < len(edit.lines):
            inverse += self._session.inverse().rstrip("\n").split("\n")
            self._session.undo()
        return inverse

    def _take_in(self, text: str) -> list[Line]:
        """Carries out a text that the journal has, and returns all its lines with their verdicts."""
        lines = read_text(text, self._journal.path if self._journal else "-")
        self._carrier.carry(lines)
        above: Optional[Line] = None
        for line in lines:
            if line.is_done:
                self._take_over(line, above)
                above = line
        return lines

    def _take_over(self, line: Line, above: Optional[Line]) -> None:
        """Keeps a line of the journal that was done, and the one above it."""
        continues = above is not None and (above.above, above.group) == (line.above, line.group)
        if continues and line.group:
            self.done[-1].lines.append(line.text)
        else:
            self.done.append(Edit([line.text], line.above))
            self.done[-1].continues = continues
        self.done[-1].take(line)


def taken_back(reason: str, comments: Sequence[str]) -> list[str]:
    """The comments above lines that reverse an edit of a reason. comments: why, if there is a reason for that"""
    reasons = [text.removeprefix("#").strip() for text in comments if is_reason(text)] or [reason]
    markers = [text for text in comments if not is_reason(text)]
    return [f"# taken back: {reasons[0]}", *(f"# {text}" for text in reasons[1:]), *markers]


def _steps(move: Move) -> list[tuple[Record, int]]:
    """The copies of records of the track that a line puts in, or takes out."""
    second, old, new = move
    return [] if second else [(record, count) for record, count in ((old, -1), (new, 1)) if record]


def _resized(edit: Edit) -> set[str]:
    return {line.split("\t")[1] for line in edit.lines if line.startswith("resize\t")}


def _lines(edit: Edit) -> list[Line]:
    """The lines of an edit, with their reason."""
    return [line for line in read_text("".join(f"{line}\n" for line in [*edit.comments, *edit.lines])) if line.is_run]


def _heading(comments: Sequence[str], title: str, together: bool = False) -> list[str]:
    """The comments above lines, which have `together:` if a title or the caller says so."""
    if not title and not together:
        return list(comments)
    reasons = [text for text in comments if is_reason(text)] or [title]
    markers = [text for text in comments if not is_reason(text)]
    return [f"# {TOGETHER} {reasons[0].removeprefix('#').strip().removeprefix(TOGETHER).strip()}", *reasons[1:], *markers]

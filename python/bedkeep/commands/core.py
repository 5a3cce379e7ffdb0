"""What the page, the prompt and a replay edit: a session, its views, the script on the disk, and what became of each correction.

    with ExitStack() as stack:
        core = opened(Given("sizes", "genes.bed", script="corrections"), ["merge"], stack)
        core.attempt(["replace\tchr1\t100\t200\tgeneA\tchr1\t90\t200\tgeneA"])   # what would change
        core.edit(["replace\tchr1\t100\t200\tgeneA\tchr1\t90\t200\tgeneA"], "begins earlier")

It takes and gives plain values, and prints nothing. Every method takes the lock, so that one edit is made at a time, and whoever
asks sees the state after the last one. A line is in the script on the disk, synced, before it is answered. All rules are those of
`Carrier`, `Edits`, `References` and `replay`.
"""
from __future__ import annotations

import functools
import threading
import time
from contextlib import ExitStack, contextmanager, suppress
from typing import Any, Callable, Iterator, Mapping, Optional, Sequence, TypeVar, cast

from ..encoding import encoded
from ..errors import Ended, Error, Refused
from ..formats import names_of
from ..interrupts import Interrupts
from ..printed_rows import RECORD
from ..program import MOST
from ..record import WIDEST
from ..regions import Region
from ..script import comments_of, inverse_of, is_marker, is_reason
from ..session import Seen, Session, needs_wide
from .authors import blame
from .carry import Carrier
from .corrections import Author, Line
from .counts import Counts
from .explain import explain
from .journal import Changed, Journal
from .loading import loading
from .places import NoPlace
from .prompt_commands import Commands
from .prompt_edits import Edit, Edits, Move, taken_back
from .prompt_files import Given
from .references import Found, References
from .drawn_regions import MOST_RECORDS, RECORDS, Bases, Mirror, Regions, Sight, around, changes, places_of, with_tails
from .worklist import DECIDED, DROPPED, OPEN, OTHER, REOPENED, TAKEN, WAS, Item, Worklist, decided, kind_of, marker

DONE, REFUSED, THERE, BACK = "done", "refused", "already there", "taken back"  # verdicts, and DROPPED
DISK, SCRIPT, PROGRAM, ASLEEP = "disk", "script", "program", "asleep"  # kinds of Unwell
PATIENCE = 10  # seconds that one call waits for another
LOOKS = 1  # seconds between two looks at the script
MOST_FOUND = 50
Answer = dict[str, Any]
Call = TypeVar("Call", bound=Callable[..., Any])
Beside = TypeVar("Beside", Mirror, Bases)


class Stale(Error):
    """Somebody asked for what isn't so any more: another one was faster."""


class Unwell(Error):
    """Nothing is taken until it is well again. kind: what isn't well, one of DISK, SCRIPT, PROGRAM and ASLEEP"""

    def __init__(self, kind: str, sentence: str) -> None:
        super().__init__(sentence)
        self.kind = kind


def alone(call: Call) -> Call:
    """Makes a method of a core one that a single thread is in at a time, and that says in a sentence what isn't well."""
    @functools.wraps(call)
    def locked(core: Core, *words: Any, **options: Any) -> Any:
        with core.held(), core.failures():
            return call(core, *words, **options)

    return cast(Call, locked)


def doing(call: Call) -> Call:
    """Makes a method one that changes something: after what another program appended, and not cut in two by an interrupt."""
    @functools.wraps(call)
    def begun(core: Core, *words: Any, **options: Any) -> Any:
        core.begin()
        with Interrupts():
            return call(core, *words, **options)

    return alone(cast(Call, begun))


class Entry:
    """A correction: a line or a paragraph, or an item of the worklist that was dropped.

    edit: its accepted lines, if there are any; before: whether the script had it at the start; changed: the version of its last change
    by, takes: the number of the correction that took it back, if it wasn't the last one then; and of the one that it took back
    markers: the comments above it that say what it decides about; answers: the number of that item; author: who made it
    """

    def __init__(self, lines: Sequence[str], reason: str, verdict: str, edit: Optional[Edit] = None) -> None:
        self.number = 0
        self.lines, self.reason, self.verdict, self.edit = list(lines), reason, verdict, edit
        self.before, self.changed = False, 0
        self.message = ""
        self.warnings: list[str] = []
        self.markers: list[str] = []
        self.author = edit.author if edit else Author()
        self.place: Optional[Region] = None
        self.answers: Optional[int] = None
        self.by: Optional[int] = None
        self.takes: Optional[int] = None

    def take(self, line: Line, edit: Optional[Edit], lengths: Mapping[str, int]) -> None:
        """Takes a line with its verdict. edit: that it was done by"""
        self.lines.append(line.text)
        self.edit = self.edit or edit
        self.message = "; ".join(filter(None, [self.message, line.message]))
        self.warnings += [line.warning] if line.warning else []
        self.verdict = REFUSED if line.refusal else DONE if line.is_done and self.verdict != REFUSED else self.verdict
        places = [*([self.place] if self.place else []), *places_of([line], lengths)]
        mine = [place for place in places if place[0] == places[-1][0]]
        self.place = (mine[0][0], min(start for _, start, _ in mine), max(end for _, _, end in mine)) if mine else None

    def as_json(self) -> Answer:
        return {"number": self.number, "lines": self.lines, "reason": self.reason, "verdict": self.verdict, "before": self.before,
                "message": self.message, "warnings": self.warnings, "place": self.place, "answers": self.answers,
                "by": self.by, "takes": self.takes, "author": self.author.name, "date": self.author.date}


class Core:
    """A session with its script, as all faces see it. `changed` is the lock, which is notified after each change.

    session, references, makers: for who looks at records, and makes lines of them
    began: the lines that the script had at the start, with their verdicts; version: how often something changed
    unwell: what isn't well, so that nothing is taken before it is; looking: what looks for the worklist
    """

    def __init__(self, session: Session, given: Given, journal: Optional[Journal] = None, views: Sequence[str] = ()) -> None:
        self.session, self.given, self._journal = session, given, journal
        self.references = References(session)
        self.makers = Commands(session, self.references)
        self.views = [RECORDS, *views]
        self.changed = threading.Condition(threading.RLock())
        self.version = 0
        self.is_over = self._is_watched = False
        self.unwell: Optional[Unwell] = None
        self.entries: list[Entry] = []
        self.worklist: Optional[Worklist] = None
        self.looking: Optional[threading.Thread] = None
        self._edits = Edits(session, Carrier(session, given.copies), journal, given.sign)
        self._counts: Optional[Counts] = None  # once they are needed, as the others
        self._mirror: Optional[Mirror] = None
        self._bases: Optional[Bases] = None
        self.began = self._edits.replay() if journal else []
        blame(self.began)
        with self.changed:
            self._enter_all(self.began, True)

    # The lock, and what isn't well

    @contextmanager
    def held(self) -> Iterator[None]:
        """Holds the lock. Unwell if another call doesn't give it up."""
        if not self.changed.acquire(timeout=PATIENCE):
            raise Unwell(ASLEEP, f"another call has waited for the program for {PATIENCE} seconds: it is at work, or suspended")
        try:
            yield
        finally:
            self.changed.release()

    @contextmanager
    def failures(self) -> Iterator[None]:
        """Says in a sentence what isn't well."""
        try:
            yield
        except Ended as failure:
            kept = f"; what was accepted is in {self._journal.path}" if self._journal else ""
            raise self._ill(PROGRAM, f"the program has ended: {failure}{kept}") from None
        except Changed as failure:
            raise self._ill(SCRIPT, f"{failure}; nothing is written into it before it is as it was, or all is begun again") from None
        except OSError as failure:
            name = failure.filename or (self._journal.path if self._journal else "")
            raise Unwell(DISK, f"{name}: {(failure.strerror or str(failure)).lower()}: it isn't written down, so it isn't done") from None

    def _ill(self, kind: str, sentence: str) -> Unwell:
        """Takes notice of what isn't well."""
        if str(self.unwell) != sentence:
            self.unwell = Unwell(kind, sentence)
            self._tell()
        return Unwell(kind, sentence)

    def _tell(self) -> None:
        self.version += 1
        self.changed.notify_all()

    def _look(self) -> None:
        """Begins a call that needs the program, but not the script."""
        try:
            self.begin()
        except Changed:
            with suppress(Unwell), self.failures():
                raise

    def begin(self) -> None:
        """Begins a call that needs the program and the script: takes in what another program appended to it."""
        if self.unwell and self.unwell.kind == PROGRAM:
            raise Unwell(PROGRAM, str(self.unwell))
        if self.session.is_suspended():
            raise Unwell(ASLEEP, "the program is suspended; it goes on once it is continued")
        done = len(self._edits.done)
        lines = self._edits.follow()
        for edit in self._edits.done[done:]:
            self._follow(edit.lines, edit.moves)
        if lines:
            self._enter_all(lines, False)
        if lines or self.unwell:
            self.unwell = None
            self._tell()

    def wait(self, version: int, seconds: float) -> int:
        """Waits for a version after that one, or until the time is over or the core ends. It looks at the script meanwhile."""
        until = time.monotonic() + seconds
        while True:
            with suppress(Error), self.held(), self.failures():
                if not self.is_over:
                    self.begin()
            with self.changed:
                left = until - time.monotonic()
                if self.version > version or self.is_over or left <= 0:
                    return self.version
                self.changed.wait(min(left, LOOKS))

    def end(self) -> None:
        """Ends, after the edit that was begun."""
        with self.changed:
            if self.is_over:
                return
            self.is_over = True
            self.changed.notify_all()
            if self._journal:
                self._journal.close()
            for session in self.session, *(part.session for part in (self._mirror, self._bases) if part):
                with suppress(Error):
                    session.end()

    # What is there

    @alone
    def state(self, since: int = -1) -> Answer:
        """All besides regions. since: only the corrections and items that changed after that version"""
        with suppress(Unwell), self.failures():
            self._look()
            self._counted()
        session, counts = self.session, self._counts
        count, kind = session.columns() or session.width, session.format()
        return {"version": self.version, "files": self.given._asdict(), "views": self.views, "format": kind,
                "columns": [*RECORD[:count], *names_of(kind, max(count - WIDEST, 0))], "second": session.columns(second=True),
                "second_format": session.format(second=True), "has_bases": bool(self.given.fasta),
                "sequences": [[name, length, counts.of(name).total if counts else 0] for name, length in session.lengths.items()],
                "corrections": [entry.as_json() for entry in self.entries if entry.changed > since],
                "worklist": self.worklist.as_json() if self.worklist else None,
                "can_undo": self._last()[0].number if self._edits.done else None, "can_redo": self._edits.undone is not None,
                "unwell": str(self.unwell or "")}

    @alone
    def region(self, sequence: str, start: int, end: int, margin: int = 0) -> Answer:
        """What is drawn of a region, with the version that it is of."""
        self._look()
        self.watch()
        length = self.session.length(sequence)
        regions = Regions(self.session, self._counted(), self._second(), self._fasta())
        return {**regions.drawn((sequence, start, end), margin, length), "version": self.version}

    @alone
    def overview(self, sequence: str, bins: int) -> Answer:
        """A whole sequence in so many parts, with the corrections on it."""
        length = self.session.length(sequence)
        items = self.worklist.open_items() if self.worklist else []
        return {"sequence": sequence, "length": length, "version": self.version,
                "starts": self._counted().of(sequence).bins(0, length, bins)[0] if length else [],
                "marks": [[entry.number, *entry.place[1:], entry.verdict] for entry in self.entries
                          if entry.place and entry.place[0] == sequence],
                "open": [[item.number, *item.place[1:]] for item in items if item.place and item.place[0] == sequence]}

    @alone
    def find(self, text: str) -> Answer:
        """The place that a text is, and the records that have it for a name, in any case or as a part. ValueError if there are none."""
        self._look()
        found = self.references.named(text)
        try:
            place = self.references.place(text)
        except ValueError as failure:
            if not found and not isinstance(failure, NoPlace):
                raise
            found = found or [self.references.meant(text)]
            return {"place": None, "said": found[0].said, "found": [self._found(one) for one in found]}
        return {"place": place[:3], "said": place.said, "found": [self._found(one) for one in found]}

    @alone
    def make(self, what: str, records: Sequence[Sequence[str]], value: str = "") -> Answer:
        """The lines of a command over some records with all their columns, as `Commands.made` has them, and what is said of them."""
        return self.makers.made(what, records, value)._asdict()

    @alone
    def stream(self, take: Callable[[bytes], object]) -> None:
        """Hands on the corrected track, as `save` writes it."""
        self._look()
        self.session.stream_file(take)

    @alone
    def script(self) -> bytes:
        """The script, as it is on the disk if it is there."""
        return encoded(self._journal.content if self._journal else self._edits.text())

    @alone
    def accepted(self) -> str:
        """The lines that were accepted and not taken back, as a script."""
        return self._edits.text()

    def look(self) -> None:
        """Begins to look for the worklist, beside, since that reads the track once more."""
        if not self.looking and not self.worklist:
            self.looking = threading.Thread(target=_look_for_items, args=(self, self.given), daemon=True)
            self.looking.start()

    def join(self) -> None:
        """Waits for the worklist, which is looked for if it isn't yet. There is none without a script."""
        if self.given.script:
            self.look()
        if self.looking:
            self.looking.join()

    @alone
    def watch(self) -> None:
        """Opens the views, if they aren't yet. Error if one can't be."""
        if not self._is_watched:
            for at, words in enumerate(self.views):
                try:
                    self.views[at] = self.session.watch(words)
                except Refused as refused:
                    raise Error(f"--view {words!r}: {refused.reason}") from None
            self._is_watched = True

    # Edits

    @alone
    def attempt(self, texts: Sequence[str]) -> Answer:
        """What a line would do, or several together: the changed rows of all views, or why they would be refused. Nothing is kept."""
        self._look()
        self.watch()
        texts = _texts(texts)
        sight = Sight(self.session, self._around(texts), keep=False)
        return self._answer(self._edits.attempt(texts, sight), sight)

    @alone
    def judge(self, texts: Sequence[str]) -> list[Line]:
        """The verdicts of a line, or of several together, of which nothing is kept."""
        self._look()
        return self._edits.attempt(_texts(texts), Sight(self.session, None, keep=False))

    @doing
    def edit(self, texts: Sequence[str], reason: str = "", answers: Optional[int] = None, title: str = "") -> Answer:
        """Carries out a line, or several whole or not at all, and writes them down with their reason; or says why they are refused.

        answers: the item of the worklist that they decide about; title: what several do, which is their reason if there is none
        """
        item = self._open_item(answers) if answers is not None else None
        texts, reasons = _texts(texts), [*(item.lines[0].comments if item else ()), *reason.splitlines()]
        markers = item.markers(WAS) if item else []
        sight = Sight(self.session, self._around(texts), keep=True)
        lines = self._edits.carry(texts, [*comments_of(reasons), *markers], title or f"{len(texts)} lines" * (len(texts) > 1), sight)
        return {**self._answer(lines, sight), **self._entered(lines, markers, item)}

    @doing
    def undo(self, expected: Optional[int] = None, reason: str = "") -> Answer:
        """Takes the last correction back. IndexError if there is none. expected: its number, as the one knows it who asks"""
        entry, edit = self._last()
        if expected not in (None, entry.number):
            raise Stale("another edit came meanwhile: look at the list before you take one back")
        inverse, region = self._edits.inverse(edit), self._around(entry.lines)
        before = self.session.show_all(*region) if region else {}
        self._edits.undo([*comments_of(reason.splitlines()), *_reopened(entry.markers)])
        self._follow(inverse, [(second, new, old) for second, old, new in edit.moves])
        self._set(entry, BACK)
        seen = Seen([], before, self.session.show_all(*region) if region else {}, list(map(inverse_of, reversed(inverse))), [])
        return {"undone": entry.as_json(), "changes": changes(seen), "compared": bool(before), "version": self.version}

    @doing
    def redo(self) -> Answer:
        """Does the correction again that `undo` took back last. IndexError if there is none, or another one was done since."""
        undone = self._edits.undone
        entry = next((one for one in self.entries if one.edit is undone), None)
        sight = Sight(self.session, self._around(entry.lines if entry else ()), keep=True)
        lines = self._edits.redo(sight)
        answer = self._answer(lines, sight)
        if entry and self._edits.undone is not undone:
            entry.edit = self._edits.done[-1]
            entry.author = entry.edit.author
            self._follow(entry.edit.lines, entry.edit.moves)
            self._set(entry, DROPPED if entry.lines and not entry.edit.lines else DONE)
            answer.update(entry=entry.as_json(), version=self.version)
        return answer

    @doing
    def take_back(self, number: int, reason: str = "") -> Answer:
        """Takes any correction back by itself: the last one as `undo` does, an earlier one by its inverse, as a correction of its own.

        It is refused if a later one is about what it put in.
        """
        entry = self.entries[number - 1] if 0 < number <= len(self.entries) else None
        if not entry or entry.verdict not in (DONE, DROPPED):
            raise Stale(f"there is no correction {number} that could be taken back")
        if self._edits.done and entry.edit is self._edits.done[-1]:
            return self.undo(number, reason)
        comments = [*comments_of(reason.splitlines()), *_reopened(entry.markers)]
        if not entry.edit or not entry.edit.lines:
            back = self._enter(Entry([], reason, DONE, self._edits.note(taken_back(entry.reason, comments))))
            self._set(entry, BACK, back)
            return {"entry": back.as_json(), "changes": [], "version": self.version}
        standing = self._edits.standing(entry.edit)
        later = next((one for one in self.entries if standing and one.edit is standing), None)
        if later:
            said = f"correction {later.number} stands on it: {later.reason or later.lines[0]}"
            why = {"text": entry.lines[0], "reason": "a later correction stands on it", "message": said, "says": [], "offers": []}
            return {"refused": [why], "there": []}
        sight = Sight(self.session, self._around(entry.lines), keep=True)
        lines = self._edits.take_back(entry.edit, comments, sight)
        answer = {**self._answer(lines, sight), **self._entered(lines, comments)}
        if "entry" in answer:
            self._set(entry, BACK, self.entries[-1])
            answer.update(entry=self.entries[-1].as_json(), version=self.version)
        return answer

    @doing
    def explain(self, reason: str) -> bool:
        """Gives the last correction another reason, and says whether that could be. IndexError if there is none."""
        entry, edit = self._last()
        is_done = self._edits.explain([*comments_of(reason.splitlines()), *(one for one in edit.comments if is_marker(one))])
        if is_done:
            entry.reason, entry.author = edit.reason, edit.author
            self._touch(entry)
        return is_done

    @doing
    def drop(self, number: int, reason: str) -> Answer:
        """Decides that an item of the worklist isn't wanted any more, for a reason, which the script keeps."""
        item = self._open_item(number)
        if not reason.strip():
            raise ValueError("why is it dropped? The script keeps the reason")
        markers = item.markers(DROPPED)
        edit = self._edits.note([*comments_of([*item.lines[0].comments, *reason.splitlines()]), *markers])
        entry = Entry([line.text for line in item.lines], edit.reason, DROPPED, edit)
        entry.markers, entry.answers, entry.place = markers, number, item.place
        self._set(self._enter(entry), DROPPED)
        return {"entry": entry.as_json(), "version": self.version}

    @doing
    def leave(self, reasons: Sequence[str]) -> None:
        """Writes down reasons that no correction came for."""
        if reasons and self._journal:
            self._journal.leave(comments_of(reasons))

    @alone
    def take_worklist(self, worklist: Worklist) -> None:
        """Begins to ask for decisions, but for those that the script has already."""
        worklist.settle(self._journal.content.split("\n") if self._journal else ())
        self.worklist = worklist
        owners = {text: entry for entry in self.entries if entry.verdict in (DONE, DROPPED) for text in +decided(entry.markers)}
        for item in worklist.items.values():
            entry = owners.get(item.lines[0].text)
            if item.state == DECIDED and entry:
                entry.answers, item.entry = item.number, entry.number
        self._tell()

    # What the calls above are made of

    def _answer(self, lines: Sequence[Line], sight: Sight) -> Answer:
        """What came of lines: why they are refused, or what they changed."""
        there = [line.there for line in lines if line.there and not line.refusal]
        if any(line.refusal for line in lines):
            explained = explain(lines, self.session, self.session.lengths, self.judge, self._mirror.session if self._mirror else None)
            return {"refused": [one.as_json() for one in explained], "there": there}
        return {"changes": changes(sight.seen), "compared": not sight.seen or bool(sight.seen.before), "there": there,
                "warnings": [line.warning for line in lines if line.warning]}

    def _entered(self, lines: Sequence[Line], markers: Sequence[str], item: Optional[Item] = None) -> Answer:
        """Follows lines that were done, as a new correction."""
        done = [line for line in lines if line.is_done]
        if not done:
            return {}
        edit = self._edits.done[-1]
        entry = Entry([], edit.reason, DONE, edit)
        for line in done:
            entry.take(line, edit, self.session.lengths)
        entry.markers, entry.answers = list(filter(kind_of, markers)), item.number if item else None
        self._follow(edit.lines, edit.moves)
        self._set(self._enter(entry), DONE)
        return {"entry": entry.as_json(), "version": self.version}

    def _enter(self, entry: Entry) -> Entry:
        self.entries.append(entry)
        entry.number = len(self.entries)
        return entry

    def _set(self, entry: Entry, verdict: str, by: Optional[Entry] = None) -> None:
        """Gives a correction a verdict, and what follows from it to the item that it decides about, and to one that it took back."""
        entry.verdict, entry.by = verdict, by.number if by else None
        if by:
            by.takes = entry.number
        if entry.takes:
            taken = self.entries[entry.takes - 1]
            self._set(taken, BACK if verdict == DONE else DROPPED if not taken.edit or not taken.edit.lines else DONE,
                      entry if verdict == DONE else None)
        item = self.worklist.items.get(entry.answers) if self.worklist and entry.answers is not None else None
        if item:
            item.entry = None if verdict == BACK else entry.number
            item.state = OPEN if verdict == BACK else DROPPED if verdict == DROPPED else TAKEN if entry.lines == item.offered else OTHER
        self._touch(entry)

    def _touch(self, entry: Entry) -> None:
        self._tell()
        entry.changed = self.version

    def _enter_all(self, lines: Sequence[Line], before: bool) -> None:
        """Makes corrections of lines that the script has, and that have their verdicts: one of all lines of a group."""
        count = sum(line.is_done for line in lines)
        edits = [edit for edit in self._edits.done for _ in edit.lines]
        owners = iter(edits[len(edits) - count:])
        comments: list[str] = []
        above: Optional[Line] = None
        lengths = self.session.lengths
        for line in lines:
            if line.text.startswith("#"):
                comments.append(line.text)
                self._enter_decision(line, comments, before)
            elif line.is_run:
                if not above or not line.group or line.group is not above.group:
                    self._enter(Entry([], " ".join(line.comments), THERE)).before = before
                    self.entries[-1].author = line.author
                    self.entries[-1].markers = [text for text in comments if kind_of(text) in (WAS, REOPENED)]
                self.entries[-1].take(line, next(owners) if line.is_done else None, lengths)
                self._touch(self.entries[-1])
                above, comments = line, []
            elif not line.text:
                comments = []

    def _enter_decision(self, line: Line, comments: Sequence[str], before: bool) -> None:
        """Takes what a marker of the script says of items that were dropped, or that need a decision again."""
        kind, about = kind_of(line.text), line.text.partition(": ")[2]
        if kind == DROPPED:
            reason = " ".join(one.lstrip("# ") for one in comments if is_reason(one))
            entry = self._enter(Entry([about], reason, DROPPED))
            entry.before, entry.markers, entry.author = before, [line.text], line.author
            self._touch(entry)
        elif kind == REOPENED:
            taken = next((one for one in reversed(self.entries) if about in decided(one.markers) and one.verdict in (DONE, DROPPED)), None)
            if taken:
                self._set(taken, BACK)

    def _last(self) -> tuple[Entry, Edit]:
        """The last correction that can be taken back."""
        if not self._edits.done:
            raise IndexError("nothing to take back")
        edit = self._edits.done[-1]
        return next(entry for entry in reversed(self.entries) if entry.edit is edit), edit

    def _open_item(self, number: int) -> Item:
        item = self.worklist.items.get(number) if self.worklist else None
        if item is None or item.state != OPEN:
            raise Stale("that line has its decision already")
        return item

    def _around(self, texts: Sequence[str]) -> Optional[Region]:
        """The region in which lines are seen, if somebody looks, and unless its rows are too many to compare."""
        if not self._is_watched:
            return None
        lines, lengths = [Line(number, "", number, text) for number, text in enumerate(texts, 1)], self.session.lengths
        for line in lines:
            line.cut(self.session.columns(line.is_second))
        region = around(places_of(lines, lengths), lengths)
        is_full = region and self._counts and self._counts.of(region[0]).near(*region[1:]) > MOST_RECORDS
        return None if is_full else region

    def _follow(self, texts: Sequence[str], moves: Sequence[Move]) -> None:
        """Has what is beside the session follow lines that it accepted."""
        for text in texts:
            for part in self._mirror, self._bases:
                if part:
                    part.edit(text)
        if self._counts:
            self._counts.follow(moves)

    def _counted(self) -> Counts:
        self._counts = self._counts or Counts(self.session)
        return self._counts

    def _second(self) -> Optional[Mirror]:
        if self.given.second and not self._mirror:
            self._mirror = self._caught_up(Mirror(self.given.genome, self.given.second, needs_wide(self.given.second)))
        return self._mirror

    def _fasta(self) -> Optional[Bases]:
        if self.given.fasta and not self._bases:
            self._bases = self._caught_up(Bases(self.given.genome, self.given.fasta))
        return self._bases

    def _caught_up(self, part: Beside) -> Beside:
        """What is beside the session, after the edits that were done."""
        for edit in self._edits.done:
            for text in edit.lines:
                part.edit(text)
        return part

    def _found(self, found: Found) -> Answer:
        rows = ["\t".join(map(str, row)) for row in found.rows[:MOST_FOUND]]
        return {"said": found.said, "records": [row.split("\t") for row in with_tails(self.session, rows)],
                "more": max(0, len(found.rows) - MOST_FOUND)}


def opened(given: Given, views: Sequence[str], stack: ExitStack, looks: bool = True) -> Core:
    """The core over files, which ends with the stack. Raises as the commands do.

    Of scripts that are replayed what fits is written into an empty script at once. looks: whether it begins to look for what needs a
    decision, or is refused in the script itself
    """
    wide = any(needs_wide(path) for path in (given.bed, given.second) if path)
    with loading(given.bed):
        session = Session(given.genome, given.bed, given.second, given.fasta, wide=wide, leave_blocks=given.leave_blocks, limit=MOST)
    stack.callback(session.end)
    if given.script and session.reads(given.script):
        raise Error(f"{given.script} is a file of this session, which isn't changed")
    journal = Journal(given.script) if given.script else None
    worklist = None
    try:
        if journal and given.replayed and not journal.text:
            worklist = _worklist(given)
            journal.begin(list(worklist.fitting()))
        core = Core(session, given, journal, views)
    except BaseException:
        if journal:
            journal.close()
        raise
    stack.callback(core.end)
    if worklist:
        core.take_worklist(worklist)
    elif looks and (given.replayed or any(entry.verdict == REFUSED for entry in core.entries)):
        core.look()
    return core


def _worklist(given: Given) -> Worklist:
    scripts = given.replayed or [cast(str, given.script)]
    return Worklist(given.genome, given.bed, scripts, given.second, given.copies, given.leave_blocks)


def _look_for_items(core: Core, given: Given) -> None:
    with suppress(Error, OSError):  # It goes on without them.
        core.take_worklist(_worklist(given))


def _texts(texts: Sequence[str]) -> list[str]:
    """Lines of corrections with TABs between their fields; spaces separate the fields of one without a TAB."""
    listed = [text if "\t" in text else "\t".join(text.split()) for text in texts]
    for text in listed:
        if not Line(1, "", 1, text).is_run or any(end in text for end in "\r\n\0"):
            raise ValueError(f"no correction: {text!r}")
    if not listed:
        raise ValueError("no correction")
    return listed


def _reopened(markers: Sequence[str]) -> list[str]:
    """What says the contrary of markers: that their items need a decision again, or none any more."""
    return [marker(WAS if kind_of(text) == REOPENED else REOPENED, text.partition(": ")[2]) for text in markers]

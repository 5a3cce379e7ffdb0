"""What a session over wide files has besides: the first six columns of its files for the program, and the tails of their records.

Each record of a wide file is known here with its tail, so before lines are sent it is decided of each whether the columns after
the sixth fit. Many lines are one exchange with the program. If it refuses one that wasn't expected to be refused, the lines after
that are taken back and sent again.
"""
from __future__ import annotations

import os
import shutil
import tempfile
import weakref
from collections.abc import Mapping
from typing import Callable, Iterator, NamedTuple, Optional, Sequence

from .bed import Bed
from .conversation import Answer
from .encoding import decoded, encoded
from .errors import FIELD, Error, field_of
from .formats import DIGITS
from .record import WIDEST, record_of
from .script import EDITS, INVERSE, Move, Script, inverse_of, is_edit
from .wide import Joiner, Step, Tails, Unfit, cut

Ask = Callable[[str, bool], Answer]  # sends the lines of a text to the program; all of them, or those before an interrupt
STRANDS = {"+", "-", "."}


class Plan(NamedTuple):
    """What is decided of a line: what the program is given, what that will do if it is done, and why it is refused here."""

    sent: str
    step: Optional[Step] = None
    refusal: str = ""
    hint: Sequence[str] = ()
    is_wide: bool = False  # whether it is an edit of a wide file, which the program refuses if it has no step

    def is_foreseen(self, refused: bool) -> bool:
        """Whether the program's verdict is the one that was expected."""
        return not self.is_wide or bool(self.refusal) or refused == (self.step is None)


class Wide:
    """The BED files of a session.

    narrow: what the program reads, by option; source: the path of the track with all its columns, unpacked; form: of that
    width: of the track; leave: whether columns that can't follow are left as they are, with a warning
    steps: what the edits did that were accepted last, if a file is wide; None for those of another file
    """

    def __init__(self, paths: Mapping[str, str], names: Mapping[str, str], width: Optional[int] = None, leave: bool = False) -> None:
        folder = tempfile.mkdtemp(prefix="bedkeep-")
        self.close = weakref.finalize(self, _remove, folder, os.getpid())
        self._beds = {option: Bed(path, names.get(path, path), folder, width or 0) for option, path in paths.items()}
        self.narrow = {option: file.narrow for option, file in self._beds.items()}
        self.source, self.form = self._beds["-i"].source, self._beds["-i"].form
        self.width = self._beds["-i"].width
        self.steps: list[Optional[Step]] = []
        self._tails = {option: Tails(file.width, file.rows(), file.form) for option, file in self._beds.items() if file.is_wide}
        self._leave = leave
        self._script: Optional[Script] = None
        self._lengths: Mapping[str, int] = {}

    def script(self, lengths: Mapping[str, int]) -> Script:
        """The script of the session, which begins."""
        self._script = WideScript(lengths, self) if self._tails else Script(lengths)
        return self._script

    def columns(self, second: bool = False) -> int:
        """The columns of a file: 0 of one without a record, or if there is no such file."""
        file = self._beds.get("-b" if second else "-i")
        return file.width if file else 0

    def format(self, second: bool = False) -> str:
        """The format of a file's columns from the seventh on."""
        tails = self._tails.get("-b" if second else "-i")
        return tails.format or "" if tails else ""

    def tails_of(self, record: Sequence[str], second: bool = False) -> list[str]:
        """The tails of the copies of a record, in the order in which they would be taken."""
        tails = self._tails.get("-b" if second else "-i")
        return list(tails.of(record_of(record))) if tails else []

    def joiner(self) -> Callable[[bytes], bytes]:
        """Puts the tails to whole lines of the track, which come in pieces."""
        tails = self._tails.get("-i")
        if tails is None:
            return bytes
        joiner = Joiner(tails)
        return lambda lines: b"".join(encoded(f"{joiner.join(row)}\n") for row in decoded(lines).split("\n")[:-1])

    def parts(self, line: str) -> list[str]:
        """The command of a line, and its fields without tails."""
        command, *fields = line.split("\t")
        tails = self._of(command)
        return [command, *cut(command, fields, tails.width).fields] if tails else [command, *fields]

    def ask(self, ask: Ask, text: str, whole: bool = False) -> Answer:
        """Sends lines with the first six columns of their records, and has the tails follow those that are done.

        The answer has those that are refused here too, by their numbers in the text. `steps` has what the others did.
        """
        self.steps = []
        if not self._tails:
            return ask(text, whole)
        self._lengths = self._script.changes().lengths if self._script else {}
        lines, sent, size = text.split("\n")[:-1], 0, len(text)
        refused: dict[int, str] = {}
        hints: dict[int, list[str]] = {}
        while sent < len(lines):
            batch = _batch(lines, sent, size)
            answer, done = self._exchange(batch, ask, whole)
            refused.update((sent + number, reason) for number, reason in answer.refused.items())
            hints.update((sent + number, self._hints(batch[number - 1], hint)) for number, hint in answer.hints.items())
            sent += done
            if answer.sent < len(batch):
                break
            size = size * 2 if done == len(batch) else 1
        return Answer(sent, refused, hints)

    def _exchange(self, lines: Sequence[str], ask: Ask, whole: bool) -> tuple[Answer, int]:
        """Sends some lines, and returns the answer, and how many of them are done with: those after an unforeseen answer aren't."""
        plans = [self._plan(line) for line in lines]
        answer = ask("".join(f"{plan.sent}\n" for plan in plans), whole)
        other = next((at for at, plan in enumerate(plans[:answer.sent]) if not plan.is_foreseen(at + 1 in answer.refused)), None)
        done = answer.sent if other is None else other + 1
        for plan in plans[done if other is None else other:]:
            self._undo(plan)
        if other is not None and done not in answer.refused:
            raise Error(f"the program took a line that has no record here: {lines[other]!r}")
        if done < answer.sent:
            self._go_back(plans[done:answer.sent], {number - done for number in answer.refused}, ask)
        refused = {number: reason for number, reason in answer.refused.items() if number <= done}
        for number, (line, plan) in enumerate(zip(lines[:done], plans), 1):
            if plan.refusal:
                refused[number] = plan.refusal
            if plan.hint:
                answer.hints[number] = list(plan.hint)
            command = line.split("\t", 1)[0]
            if number not in refused and (command in EDITS or command == "resize"):
                self.steps.append(plan.step)
                self._resize(line)
        return answer._replace(refused=dict(sorted(refused.items()))), done

    def _go_back(self, plans: Sequence[Plan], refused: set[int], ask: Ask) -> None:
        """Takes back what the program did of some lines, the last one first."""
        done = [plan.sent for number, plan in enumerate(plans, 1) if number not in refused and plan.sent.split("\t")[0] in EDITS]
        if ask("".join(f"{inverse_of(line)}\n" for line in reversed(done)), True).refused:
            raise Error("lines can't be taken back")

    def _plan(self, line: str) -> Plan:
        """Decides a line, and has the tails follow it."""
        text = line.removesuffix("\r")  # as the program reads it
        command, *fields = text.split("\t")
        tails = self._of(command)
        if tails is None:
            return Plan(line)
        columns, old_tail, new_tail = cut(command, fields, tails.width)
        sent = "\t".join([command, *columns]) + line[len(text):]
        half = len(columns) // 2 if command.startswith("replace") else len(columns)
        if half != WIDEST:
            return Plan(sent, hint=[_count(len(fields), command, tails.width)], is_wide=True)
        if not all(map(self._is_sound, [columns[:half], columns[-half:]])):
            return Plan(sent, is_wide=True)
        old = None if command.startswith("add") else record_of(columns[:half])
        new = None if command.startswith("remove") else record_of(columns[-half:])
        try:
            step = tails.plan(old, new, old_tail, new_tail, self._leave)
        except Unfit as unfit:
            offer = ["\t".join([command, *unfit.offer])] if unfit.offer else []
            return Plan("", None, unfit.reason, [*unfit.hint, *offer], True)
        if step:
            tails.do(step)
        return Plan(sent, step, is_wide=True)

    def _hints(self, line: str, hints: Sequence[str]) -> list[str]:
        """Hints on a line with the names of the files as they were given, and with the number that a field has among all columns."""
        text = "\n".join(hints)
        for bed in self._beds.values():
            text = text.replace(bed.narrow, bed.name)
        command, *fields = line.split("\t")
        tails, field = self._of(command), field_of(hints) or 0
        if tails and field > 1 + WIDEST and cut(command, fields, tails.width).old_tail is not None:
            text = FIELD.sub(f"field {field + tails.width - WIDEST}: ", text, count=1)
        return text.split("\n")

    def _undo(self, plan: Plan) -> None:
        tails = self._of(plan.sent.split("\t")[0])
        if tails and plan.step:
            tails.undo(plan.step)

    def _of(self, command: str) -> Optional[Tails]:
        """The tails of the file that a command edits, if it is wide."""
        return self._tails.get("-b" if command.endswith("b") else "-i") if command in EDITS else None

    def _is_sound(self, columns: Sequence[str]) -> bool:
        """Whether the program takes the columns of a record for one."""
        if not (DIGITS.fullmatch(columns[1]) and DIGITS.fullmatch(columns[2])):
            return False
        is_place = int(columns[1]) < int(columns[2]) <= self._lengths.get(columns[0], 0)
        return is_place and all(columns[3:5]) and columns[5] in STRANDS and not {"\r", "\0"}.intersection(*columns[3:5])

    def _resize(self, line: str) -> None:
        """Follows the length of a sequence that a line corrected."""
        command, *fields = line.split("\t")
        if command == "resize":
            self._lengths = {**self._lengths, fields[0]: int(fields[1])}


def _remove(folder: str, owner: int) -> None:
    """Removes a folder, but not from a process that was forked."""
    if os.getpid() == owner:
        shutil.rmtree(folder, ignore_errors=True)


def _count(fields: int, command: str, width: int) -> str:
    if command.startswith("replace"):
        return f"{fields} columns, and a record has {width}: all are written, or the first {WIDEST}, of both records"
    return f"{fields} columns, and the track has {width}: all are written, or the first {WIDEST}"


def _batch(lines: Sequence[str], begin: int, size: int) -> Sequence[str]:
    """So many lines from a place on, but a `resize` by itself: those of a batch can be taken back without the lengths before."""
    if lines[begin].startswith("resize\t"):
        return lines[begin:begin + 1]
    end = next((at for at in range(begin, min(begin + size, len(lines))) if lines[at].startswith("resize\t")), begin + size)
    return lines[begin:end]


class WideScript(Script):
    """The accepted edits, with what they did to the tails.

    warnings: what of a tail can't hold any more, with the line that left it so
    """

    def __init__(self, lengths: Mapping[str, int], wide: Wide) -> None:
        super().__init__(lengths)
        self.warnings: list[tuple[str, str]] = []
        self._warned: list[int] = []  # the places of their steps
        self._wide = wide
        self._steps: list[Optional[Step]] = []  # of all edits
        self._found: Optional[tuple[int, int]] = None  # the place of an edit among the lines, and that of its step

    def add(self, text: str) -> None:
        super().add(text)
        self._found = None
        steps, begin = self._wide.steps, len(self._steps)
        self._steps += steps
        if any(step and step.warning for step in steps):
            for place, (line, step) in enumerate(zip(filter(is_edit, text.split("\n")), steps), begin):
                if step and step.warning:
                    self.warnings.append((line, step.warning))
                    self._warned.append(place)

    def forget(self, place: int) -> None:
        super().forget(place)
        self._found = None
        self._steps.pop()
        if self._warned[-1:] == [len(self._steps)]:
            self._warned.pop()
            self.warnings.pop()

    def explain(self, reason: str) -> None:
        super().explain(reason)
        self._found = None

    def parts(self, line: str) -> list[str]:
        return self._wide.parts(line)

    def reverse(self, place: int) -> str:
        step = self._steps[self._step_of(place)]
        if step is None:
            return super().reverse(place)
        rows = (row for row in (step.new_row, step.old_row) if row is not None)
        return "\t".join([INVERSE[self.lines()[place].split("\t")[0]], *rows]) + "\n"

    def moves(self) -> Iterator[Move]:
        if self._wide.width <= WIDEST:
            yield from super().moves()
            return
        for line, step in zip(filter(is_edit, self.lines()), self._steps):
            if step and not line.split("\t")[0].endswith("b"):
                yield step.old_row, step.new_row

    def _step_of(self, place: int) -> int:
        """The place among the steps of an edit of that place among the lines. Edits are asked for from the last one on."""
        lines = self.lines()
        known, step = self._found if self._found and place <= self._found[0] else (len(lines), len(self._steps))
        self._found = place, step - sum(map(is_edit, lines[place:known]))
        return self._found[1]

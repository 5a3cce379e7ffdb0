"""What the prompt for corrections does with each line that is typed: a face of the core."""
from __future__ import annotations

import os
import webbrowser
from typing import Callable, Optional, Sequence

from ..errors import Error, Refused, without_fields
from ..record import WIDEST
from ..script import EDITS, TOGETHER, is_together
from . import prompt_says
from .core import Core
from .looks import VIEWS, Looks, options_and_rest
from .options import messages
from .prompt_commands import USAGES, Proposal
from .prompt_files import PromptFiles
from .prompt_help import HELP, command_meant
from .prompt_items import Items
from .prompt_says import INDENT, Says, indented
from .references import Unclear, references

LEAVING = {"quit", "exit"}
LINES = {*EDITS, "resize"}


class Curator:
    """Carries out what is typed, and says what came of it. ask: how a reason is asked for, if somebody is there to say it."""

    def __init__(self, core: Core, ask: Optional[Callable[[str], Optional[str]]] = None) -> None:
        self._core, self._ask, self._makers = core, ask, core.makers
        self._says = Says()
        self._items = Items(core, self._says)
        self._looks = Looks(core.session, core.references)
        self._files = PromptFiles(core.session, core.given, core.accepted)
        self._comments: list[str] = []  # for the next edit
        self._seen = len(core.entries)  # corrections that somebody knows of
        self._offered_for: list[str] = []  # the reason of the line that was refused, for one that is offered instead
        self._together: Optional[list[str]] = None  # the lines so far of a paragraph that is typed under `# together:`
        self._next: Optional[str] = None  # a command that came for a reason
        self._commands: dict[str, Callable[[str], object]] = {
            "show": self._looks.show, "find": self._looks.find, "near": self._looks.near, "undo": self._undo, "redo": self._redo,
            "history": self._history, "why": self._why, "review": self._review, "save": self._files.save, "script": self._files.script,
            "next": self._items.next, "take": self._take, "drop": self._drop, "later": self._items.later, "help": lambda _: print(HELP)}
        self._known = {*self._commands, *VIEWS, *USAGES, *LINES, *LEAVING}

    @property
    def prompt(self) -> str:
        """What is shown before a line is typed: another one if it would decide about a line of the worklist."""
        return f"line {self._items.in_hand.lines[0].place}> " if self._items.in_hand else "bedkeep> "

    def begin(self) -> None:
        """Says what isn't done of the script that was there, and how many lines need a decision."""
        lines = self._core.began
        for message in messages(lines):
            print(message)
        refused, there = sum(bool(line.refusal) for line in lines), sum(bool(line.there and not line.refusal) for line in lines)
        if lines:
            print(f"{self._core.given.script}: {sum(line.is_done for line in lines)} done again, {refused} refused"
                  f"{f', {there} already there' if there else ''}")
        if self._core.given.replayed:
            self._core.join()
            print(self._items.count() or "each line fits")

    def run(self, line: str) -> bool:
        """Carries out a line, and says whether the prompt goes on."""
        self._next = line
        while self._next is not None:
            line, self._next = self._next.strip(), None
            if self._together is not None and not self._is_of_paragraph(line):
                self._try(self._end_paragraph, line, bool(self._together))
                self._says.offered = [] if line else self._says.offered  # Nobody has seen them who typed this.
            self._offered_for = self._offered_for if self._says.offered else []
            if _command(line) in LEAVING:
                return not self._files.may_leave()
            self._files.begin(line)
            self._try(self._do, line, self._together is None and not self._is_look(line))
            self._say_appended()
        return True

    def _say_appended(self) -> None:
        """Says what another program appended to the script meanwhile."""
        for entry in self._core.entries[self._seen:] if self._core.given.script else ():
            if not (entry.edit and entry.edit.written):
                print(f"{self._core.given.script}: another program appended:", *" and ".join(entry.lines).split("\t"))
        self._seen = len(self._core.entries)

    def leave(self) -> None:
        """Ends a paragraph, and keeps a reason that no edit came for."""
        if self._together is not None:
            self._try(self._end_paragraph, "", bool(self._together))
        self._core.leave([comment.removeprefix("#").strip() for comment in self._comments])

    def _try(self, call: Callable[[str], object], line: str, takes_reason: bool) -> None:
        """Carries out a line, or says why it can't be. takes_reason: whether the comments above it are for it alone"""
        comments = self._comments
        try:
            call(line)
        except Refused as refused:
            print("refused:", refused.reason)
            indented(without_fields(refused.hint))
        except Unclear as unclear:
            print(unclear)
            self._looks.print_records(unclear.rows)
            self._says.unclear(unclear, _fields(line))
        except OSError as failure:
            print(f"{failure.filename}: {failure.strerror}" if failure.filename else failure)
        except (Error, ValueError, IndexError) as failure:
            print(failure)
        except KeyboardInterrupt:
            print("interrupted")
        if takes_reason and comments and self._comments is comments:
            print(f"{INDENT}its reason isn't kept for the next line")
            self._comments, self._offered_for = [], comments

    def _do(self, line: str) -> None:
        command, fields = _command(line), _fields(line)
        rest = line[len(command):].strip()
        offered = self._says.offered
        if line and not line.startswith("#"):
            self._says.offered = []
        if line.startswith("#"):
            self._comments = [*self._comments, line]
            if is_together(line):
                self._together = []
                if self._ask:
                    print("the lines down to an empty one are done together")
        elif self._together is not None:
            self._together.append("\t".join(fields))
        elif line.isdecimal() and 0 < int(line) <= len(offered):
            self._take_offer(offered[int(line) - 1])
        elif _is_merge_of_two(fields):
            self._propose(self._makers.merge(*references(fields[1:])), line)
        elif command in VIEWS:
            self._looks.view(fields)
        elif command in self._commands:
            self._commands[command](rest)
        elif command in USAGES:
            self._propose(self._makers.of(command, fields[1:]), line)
        elif command in LINES:
            self._edit(fields)
        elif line:
            self._say_unknown(command, rest)

    def _say_unknown(self, command: str, rest: str) -> None:
        meant = command_meant(command, self._known)
        print(f"refused: {command} is no command{f': is {meant} meant?' if meant else ''}")
        if meant:
            self._says.offer([f"{meant} {rest}".strip()], is_typed=True)
        indented(["`help` lists the commands"])

    def _take_offer(self, offered: prompt_says.Offered) -> None:
        self._comments = self._comments or self._offered_for
        if offered.is_typed:
            self._do(offered.texts[0])
        else:
            self._carry(offered.texts, offered.title if len(offered.texts) > 1 else "")

    def _is_of_paragraph(self, line: str) -> bool:
        """Whether a line goes on with the paragraph that is typed: one of a script, or a comment before the first one."""
        return _command(line) in LINES or line.startswith("#") and not self._together

    def _end_paragraph(self, _: str) -> None:
        """Carries out the paragraph that was typed, whole or not at all."""
        texts, self._together = self._together or [], None
        if texts:
            self._carry(texts)

    def _edit(self, fields: Sequence[str]) -> None:
        """Carries out a line of a script; or a `remove` of a record by its name or place."""
        command, *columns = fields
        is_short = len(columns) not in (self._core.session.width, self._core.session.columns())
        if command == "remove" and is_short and len(references(columns)) == 1:
            self._propose(self._makers.remove(references(columns)[0]))
        else:
            self._carry(["\t".join(fields)])

    def _propose(self, proposal: Proposal, line: str = "") -> None:
        """Says which records were taken, and carries out the lines."""
        print(*proposal.said, sep="\n")
        self._carry(proposal.lines, " ".join(_fields(line)) if len(proposal.lines) > 1 else "")

    def _carry(self, texts: Sequence[str], title: str = "", is_seen: bool = False) -> None:
        """Carries out a line, or several together. If somebody is there they see first what changes, and are asked for the reason.

        is_seen: whether they have seen it already
        """
        item = self._items.in_hand
        reasons = [comment[1:].strip().removeprefix(TOGETHER).strip() for comment in self._comments]
        if self._ask:
            answer = self._core.attempt(texts)
            if "refused" in answer or answer["there"] and not answer["changes"]:
                self._say(answer, texts)
                return
            if not is_seen:
                prompt_says.would(answer, self._core.session.columns() > WIDEST)
            if not reasons and not (item and any(item.lines[0].comments)):
                reasons = self._reasons()
        self._say(self._core.edit(texts, "\n".join(reasons), item.number if item else None, title), texts)

    def _say(self, answer: prompt_says.Answer, texts: Sequence[str]) -> None:
        """Says what came of lines. Those that are refused keep their reason for the ones that are offered."""
        self._says.there(answer)
        if "refused" in answer:
            self._says.refused(answer, texts)
        elif "entry" in answer:
            self._comments = []
            prompt_says.done(answer)
            self._items.settle()

    def _reasons(self) -> list[str]:
        """Asks for the reason of what would be done. ValueError if it isn't to be. What begins with a command is the next line instead."""
        answer = self._ask("why? ") if self._ask else ""
        if answer is None:
            raise ValueError("nothing is done")
        if not answer.startswith("#") and _command(answer) not in self._known:
            return [answer.strip()]
        print("no reason is kept for the line above, since a command came; `why TEXT` gives it one")
        self._next = answer
        return []

    def _why(self, text: str) -> None:
        if not text:
            raise ValueError("why TEXT: the reason for the last correction")
        if not self._core.explain(text):
            print(f"{self._core.given.script}: its last line isn't of this prompt, so the reason isn't there")

    def _undo(self, number: str) -> None:
        reason = "\n".join(comment.removeprefix("#").strip() for comment in self._comments)
        if number and not number.isdecimal():
            raise ValueError("undo takes the last correction back, and undo NUMBER that one; `history` has the numbers")
        answer = self._core.take_back(int(number), reason) if number else self._core.undo(reason=reason)
        if "refused" in answer:
            print(answer["refused"][0]["message"])
            return
        self._comments = []
        entry = answer.get("undone") or self._core.entries[int(number) - 1].as_json()
        prompt_says.undone(entry)

    def _redo(self, rest: str) -> None:
        if rest:
            raise ValueError("redo does one correction again: write it again for the next one")
        self._say(self._core.redo(), [])

    def _history(self, text: str) -> None:
        prompt_says.history((entry.as_json() for entry in self._core.entries), text)

    def _take(self, reason: str) -> None:
        """Carries out the line in hand as it is offered."""
        if reason:
            self._comments = [*self._comments, f"# {reason}"]
        texts = self._items.taken()
        if texts:
            self._carry(texts, is_seen=True)

    def _drop(self, reason: str) -> None:
        self._items.drop(reason or self._ask and self._ask("why? ") or "")

    def _review(self, path: str) -> None:
        """Writes the page of the accepted edits, and opens it if somebody is there to look."""
        page = self._files.review(path)
        if page and self._ask:
            webbrowser.open(f"file://{os.path.realpath(page)}")

    def _is_look(self, line: str) -> bool:
        """Whether a line is none that a reason could be for."""
        command = _command(line)
        return (not line or line.startswith("#") or command in self._commands
                or command in VIEWS and not _is_merge_of_two(_fields(line)))


def _command(line: str) -> str:
    return (line.split(None, 1) or [""])[0]


def _fields(line: str) -> list[str]:
    """The fields of a line, which TABs separate if it has one."""
    return line.split("\t" if "\t" in line else None)


def _is_merge_of_two(fields: Sequence[str]) -> bool:
    """Whether a line makes one record of two, and is no view."""
    if fields[:1] != ["merge"]:
        return False
    options, rest = options_and_rest(fields)
    return len(options) == 1 and len(references(rest)) == 2

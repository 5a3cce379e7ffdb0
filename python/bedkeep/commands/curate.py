"""A prompt for corrections: python3 -m bedkeep curate GENOME BED [-b SECOND] [--script FILE]"""
from __future__ import annotations

import argparse
import io
import sys
from collections import deque
from contextlib import ExitStack
from typing import Callable, Iterator, Optional

from ..files import lines_of
from ..script import EDITS
from .core import opened
from .options import add_editing, views_of
from .prompt import Curator
from .prompt_files import Given

IN_MEMORY = "without --script FILE the edits are in memory alone: `script FILE` or `save FILE` writes them"


class Typed:
    """The lines of standard input, at a terminal with a prompt and a history. Several that are pasted come one by one."""

    def __init__(self) -> None:
        self._terminal = sys.stdin.isatty()
        self._waiting: deque[str] = deque()
        if self._terminal:
            try:
                import readline

                readline.parse_and_bind("tab: self-insert")
            except ImportError:
                pass

    def lines(self, prompt: Callable[[], str] = lambda: "bedkeep> ") -> Iterator[str]:
        """All lines. Ctrl-D is quit, and Ctrl-C drops a line."""
        while True:
            try:
                yield self._next(prompt() if self._terminal else "")
            except KeyboardInterrupt:
                print()
            except EOFError:
                if not self._terminal:
                    return
                print()
                yield "quit"

    def answer(self, question: str) -> Optional[str]:
        """What is answered at the terminal. Ctrl-D is no answer, and None is that of Ctrl-C: to leave it."""
        try:
            return self._next(question)
        except (KeyboardInterrupt, EOFError) as left:
            print()
            return "" if isinstance(left, EOFError) else None

    @property
    def ask(self) -> Optional[Callable[[str], Optional[str]]]:
        """How somebody is asked, if somebody is there."""
        return self.answer if self._terminal else None

    def _next(self, prompt: str) -> str:
        if not self._waiting:
            self._waiting.extend(input(prompt).split("\n"))
        return self._waiting.popleft()


def options(parser: argparse.ArgumentParser) -> None:
    parser.description = "A prompt for corrections of a BED file."
    add_editing(parser)
    parser.add_argument("third", metavar="SECOND", nargs="?", help="the same as -b SECOND")


def run(given: argparse.Namespace) -> int:
    _take_any_bytes()
    if given.second and given.third:
        raise ValueError(f"two second files: {given.second} and {given.third}")
    given.second = given.second or given.third
    if given.second:
        _refuse_script(given.second)
    if given.replay and not given.script:
        raise ValueError("--replay needs --script FILE, for the new script")
    typed = Typed()
    with ExitStack() as stack:
        core = opened(Given.of(given, given.script), views_of(given), stack, looks=False)
        if given.view:
            core.watch()
        curator = Curator(core, typed.ask)
        curator.begin()
        print(f"{len(core.session)} records of {core.session.columns() or core.session.width} columns; `help` lists the commands")
        if not given.script:
            print(IN_MEMORY)
        for line in typed.lines(lambda: curator.prompt):
            if not curator.run(line):
                break
        curator.leave()
    return 0


def _take_any_bytes() -> None:
    """Has names of any bytes be typed and printed as they are, in any locale."""
    for stream in sys.stdin, sys.stdout:
        if isinstance(stream, io.TextIOWrapper):
            stream.reconfigure(encoding="utf-8", errors="surrogateescape")


def _refuse_script(path: str) -> None:
    """Raises if the second file is a script of corrections."""
    first = next((line for line in lines_of(path) if line and not line.startswith("#")), "")
    if first.split("\t")[0] in {*EDITS, "resize"}:
        raise ValueError(f"{path} is a script of corrections, which comes after --script")

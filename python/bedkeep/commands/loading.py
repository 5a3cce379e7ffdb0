"""One line at a terminal while files are read, if that takes a while. What isn't read by a person gets nothing."""
from __future__ import annotations

import os
import sys
import threading
from contextlib import contextmanager, suppress
from contextvars import ContextVar
from typing import Iterator

_IS_COMMAND: ContextVar[bool] = ContextVar("_IS_COMMAND", default=False)  # of this thread; what runs beside it shows nothing
SOON = 1.5  # seconds after which the line is shown
CLEAR = "\r\x1b[K"  # takes away the line that the cursor is on


@contextmanager
def in_command() -> Iterator[None]:
    """Has `loading` show its line, which it doesn't do for a call from Python."""
    before = _IS_COMMAND.set(True)
    try:
        yield
    finally:
        _IS_COMMAND.reset(before)


@contextmanager
def loading(path: str) -> Iterator[None]:
    """Shows `loading FILE` on standard error if the block takes a while, and takes it away again at its end.

    Only in a command, and only if standard error is a terminal that can take a line away.
    """
    if not (_IS_COMMAND.get() and sys.stderr.isatty() and os.environ.get("TERM", "dumb") != "dumb"):
        yield
        return
    shown = threading.Event()

    def show() -> None:
        shown.set()
        _write(_line(path))

    timer = threading.Timer(SOON, show)
    timer.start()
    try:
        yield
    finally:
        timer.cancel()
        timer.join()
        if shown.is_set():
            _write(CLEAR)


def _write(text: str) -> None:
    with suppress(OSError):  # The terminal hung up.
        print(text, end="", file=sys.stderr, flush=True)


def _line(path: str) -> str:
    """The line, which has to fit into one of the terminal."""
    name = "standard input" if path == "-" else os.path.basename(path)
    text = "".join(letter if letter.isprintable() else "?" for letter in f"loading {name}")
    try:
        columns = os.get_terminal_size(sys.stderr.fileno()).columns
    except OSError:
        columns = 0
    return text[:(columns or 80) - 1]

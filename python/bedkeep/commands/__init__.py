"""The commands: python3 -m bedkeep COMMAND .., or bedkeep-desk COMMAND ..

Each is a module of its name, in which `options` says what it takes, and `run` carries it out and returns the status.
"""
from __future__ import annotations

import argparse
import difflib
import importlib
import os
import sys
from contextlib import contextmanager
from typing import Iterator, Optional, Sequence

from .. import __version__
from ..errors import Error
from ..interrupts import ending_in_order
from ..program import find, other_version
from .loading import in_command

COMMANDS = {
    "apply": "writes the corrected track, and lists the lines that are refused",
    "diff": "prints the script that makes one BED file of another",
    "replay": "says why a line no longer fits, and writes the script again with lines that fit",
    "lift": "carries corrections to another assembly by a chain file",
    "agree": "compares two scripts over one track, record by record",
    "log": "lists each corrected record: what it was, the lines that changed it, why, who and when",
    "review": "writes a page to look at each correction",
    "curate": "a prompt for corrections",
    "desk": "a page in the browser for corrections",
    "git": "has git show and merge BED files by records",
    "windows": "runs a subcommand over a track of any size, window by window",
}
INTERRUPTED, CLOSED = 130, 141  # statuses, as if signal 2 had ended a command, or signal 13, since nobody reads its output any more
STATUSES = f"""Each has --help. Statuses: 0 all is done, 1 lines are refused, 2 the options or a file can't be used, {INTERRUPTED} it was
interrupted, {CLOSED} nobody reads the output any more."""
PLAIN = {"No such file or directory": "no such file", "Is a directory": "it is a folder", "Not a directory": "no such folder"}


class Failed(SystemExit):
    """A command can't go on, and has said why."""


def main(words: Optional[Sequence[str]] = None) -> int:
    """Runs a command, and returns its status."""
    with ending_in_order(), failures(), in_command():
        return _run(list(sys.argv[1:] if words is None else words))


def _run(words: Sequence[str]) -> int:
    command, *rest = words or [""]
    name = os.path.basename(sys.argv[0])
    parser = argparse.ArgumentParser(prog=name if name.startswith("bedkeep") else "python3 -m bedkeep", epilog=STATUSES)
    parser.add_argument("--version", action="store_true", help="prints the version")
    commands = parser.add_subparsers(title="commands", metavar="COMMAND")
    for known, what in COMMANDS.items():
        commands.add_parser(known, help=what)
    if command in COMMANDS:
        return _run_command(command, commands.choices[command], rest)
    if command.startswith("-") or command == "help":
        if parser.parse_args(["--help" if command == "help" else command]).version:
            return _print_versions()
    meant = "".join(f", is {known} meant?" for known in difflib.get_close_matches(command, COMMANDS, 1))
    print(f"no such command: {command}{meant}" if command else "no command", parser.format_help(), sep="\n\n", end="", file=sys.stderr)
    return 2


def _run_command(command: str, parser: argparse.ArgumentParser, words: Sequence[str]) -> int:
    """Runs a command, whose module is imported when it is called, so that others cost nothing."""
    module = importlib.import_module(f".{command}", __package__)
    module.options(parser)
    given = parser.parse_args(words) if command == "windows" else parser.parse_intermixed_args(words)
    status: int = module.run(given)
    return status


def _print_versions() -> int:
    """Prints the version of the package, and says so if the program isn't there or is of another one."""
    print(f"bedkeep {__version__}")
    try:
        said = other_version(find(None))
    except Error as failure:
        said = (str(failure),)
    for line in said:
        print(line, file=sys.stderr)
    return 0


def said(failure: OSError) -> str:
    """What went wrong with a file, as a person would say it."""
    why = failure.strerror or str(failure)
    why = PLAIN.get(why, why[:1].lower() + why[1:])
    return f"{failure.filename}: {why}" if failure.filename else why


@contextmanager
def failures() -> Iterator[None]:
    """Says what went wrong, and ends with status 2. If nobody reads the output any more there is nobody to tell."""
    try:
        try:
            yield
        finally:
            _flush_output()
    except BrokenPipeError:
        raise Failed(CLOSED) from None
    except OSError as failure:
        print(said(failure), file=sys.stderr)
        raise Failed(2) from None
    except (Error, ValueError) as failure:
        print(failure, file=sys.stderr)
        raise Failed(2) from None
    except KeyboardInterrupt:
        print("interrupted", file=sys.stderr)
        raise Failed(INTERRUPTED) from None


def _flush_output() -> None:
    """Writes what is left of standard output. If that fails it goes nowhere, so that the end of Python doesn't fail once more."""
    try:
        if sys.stdout:  # It is None if the command was started without one.
            sys.stdout.flush()
    except OSError as failure:
        failure.filename = "standard output"
        os.dup2(os.open(os.devnull, os.O_WRONLY), sys.stdout.fileno())
        raise

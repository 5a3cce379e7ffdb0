"""What tests that run the program have in common."""
import argparse
import contextlib
import os
import subprocess
import sys
import threading


class Wrong(Exception):
    """Something that must not be."""


def require(holds, what):
    if not holds:
        raise Wrong(what)


def parser_of(text):
    """The arguments of a test, after its description: the program is the first."""
    words = argparse.ArgumentParser(description=text.splitlines()[0])
    words.add_argument("program")
    return words


def begin(words):
    """The arguments that were given, with the path of the program, which is there."""
    wanted = words.parse_args()
    if not os.access(wanted.program, os.X_OK):
        sys.exit(f"{wanted.program} is not there: run `make build` first")
    wanted.program = os.path.realpath(wanted.program)
    return wanted


def is_proved(program):
    """Whether a program says that it is proved. That of `make check` says that it isn't."""
    return b"\nproved with " in subprocess.run([program, "--version"], stdout=subprocess.PIPE, check=True).stdout


def left_out(what, why):
    """Says what is left out because a tool isn't there, as left_out.sh does."""
    line = f"left out: {what}: {why}"
    print(line, flush=True)
    with open(os.environ.get("LEFT_OUT", os.devnull), "a", encoding="utf-8") as file:
        print(line, file=file)


@contextlib.contextmanager
def stopped_after(seconds, process):
    """Ends a process if it takes longer, by a signal that no test allows."""
    timer = threading.Timer(seconds, process.kill)
    timer.start()
    try:
        yield
    finally:
        timer.cancel()

"""Who wrote the lines of scripts, and when, by `git blame`. A line that somebody signed has another author, and the same commit."""
from __future__ import annotations

import os
import subprocess
from datetime import datetime, timedelta, timezone
from itertools import groupby
from typing import Iterator, Sequence

from ..encoding import decoded
from .corrections import Author, Line

NOT_COMMITTED = Author(commit="not committed")
ABBREVIATED = 10  # digits of a commit
DAY = 24 * 60  # minutes


def blame(lines: Sequence[Line]) -> None:
    """Has lines know what git knows of their authors. Nothing is known without git, or of a file that git doesn't know."""
    for file, listed in groupby(lines, key=lambda line: line.file):
        known = dict(_blamed(file)) if os.path.isfile(file) else {}
        for line in listed:
            text, author = known.get(line.place, ("", Author()))
            if text == line.text:  # A file that is packed has other lines.
                line.blamed = author


def _blamed(path: str) -> Iterator[tuple[int, tuple[str, Author]]]:
    """The lines of a file by their numbers, with their authors."""
    folder, name = os.path.split(os.path.realpath(path))
    command = ["git", "-C", folder, "blame", "--line-porcelain", "--encoding=UTF-8", "--", name]
    try:
        run = subprocess.run(command, stdin=subprocess.DEVNULL, stdout=subprocess.PIPE, stderr=subprocess.DEVNULL, check=False)
    except OSError:  # There is no git.
        return
    said: dict[str, str] = {}  # of one line, before its text
    for row in decoded(run.stdout).split("\n")[:-1]:
        if row.startswith("\t"):
            yield int(said["place"]), (row[1:].removesuffix("\r"), _author(said))
            said = {}
        elif said:
            what, _, value = row.partition(" ")
            said[what] = value
        else:
            said = dict(zip(("commit", "before", "place"), row.split(" ")))


def _author(said: dict[str, str]) -> Author:
    if not said["commit"].strip("0"):
        return NOT_COMMITTED
    return Author(said["author"], _date(int(said["author-time"]), said["author-tz"]), said["commit"][:ABBREVIATED])


def _date(seconds: int, zone: str) -> str:
    """The time in ISO 8601, in the time zone of the one who wrote; in UTC if there is no such zone."""
    minutes = (int(zone[1:-2]) * 60 + int(zone[-2:])) * (-1 if zone.startswith("-") else 1)
    return datetime.fromtimestamp(seconds, timezone(timedelta(minutes=minutes if abs(minutes) < DAY else 0))).isoformat()

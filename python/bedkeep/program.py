"""The path of the program, its version, and its environment."""
from __future__ import annotations

import functools
import os
import re
import shutil
import subprocess
import sys
import sysconfig
from typing import Optional

from . import __version__
from .encoding import Path, decoded
from .errors import NotFound

MOST = 100_000_000  # records of a file, and lines of a script: the greatest value of -limit
SECONDS = 5  # that a program has to say its version


def find(program: Optional[Path]) -> str:
    """The path of the program: the argument, else what BEDKEEP names, else `bedkeep` on the path, or where pip puts it."""
    name = os.fspath(program) if program is not None else os.environ.get("BEDKEEP") or "bedkeep"
    path = shutil.which(name)
    if path is None and name == "bedkeep":
        folders = os.path.dirname(sys.executable), sysconfig.get_path("scripts"), sysconfig.get_path("scripts", "posix_user")
        path = shutil.which(name, path=os.pathsep.join(folders))
    if path is None:
        raise NotFound(f"no program {name!r}: give program=.., set BEDKEEP, or put bedkeep on the path")
    return path


@functools.lru_cache(maxsize=None)
def other_version(path: str) -> tuple[str, ...]:
    """What is to be said of a program of another version than this package, which may be why it refuses something; else nothing."""
    try:
        said = subprocess.run([path, "--version"], stdin=subprocess.DEVNULL, stdout=subprocess.PIPE, stderr=subprocess.DEVNULL,
                              timeout=SECONDS).stdout
    except (OSError, subprocess.TimeoutExpired):
        return ()
    found = re.match(r"bedkeep (\S+)", decoded(said))
    if not found or found[1] == __version__:
        return ()
    return (f"the program {path} is of version {found[1]}, and the package of {__version__}",)


def environment() -> dict[str, str]:
    """The environment of the program: it says what is wrong and what to do, after each message."""
    return {**os.environ, "BEDKEEP_HINTS": "always"}

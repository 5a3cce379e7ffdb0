"""BED files in git by records, and scripts by paragraphs: python3 -m bedkeep git --install

It has git show and merge the files of a repository so: `git_diff`, `git_merge` and `git_scripts` say how.
"""
from __future__ import annotations

import argparse
import os
import shlex
import subprocess
import sys
from collections.abc import Mapping
from typing import Optional, Sequence

from ..bed import lengths_of
from ..encoding import decoded, encoded
from ..errors import Error
from ..files import whole
from .git_diff import shown
from .git_merge import merge
from .git_scripts import merge_scripts
from .git_texts import Style

DESCRIPTION = """Has git show BED files by records, as the script of corrections between two versions, and merge them by records, and
scripts (corrections, *.corrections) by paragraphs, so that each line keeps its reason. --install sets a repository up: lines in
.gitattributes, to be committed, and settings of this clone alone, which each clone needs. `git config bedkeep.genome FILE`, from
the top of the repository, has a merge refuse records past the end of their sequence."""
EPILOG = """`git log -p` and `git show` show records with --ext-diff, and else lines, also of .bed.gz. What `git diff` shows is no
patch: --no-ext-diff has one."""
ATTRIBUTES = ("*.bed diff=bedkeep merge=bedkeep", "*.bed.gz diff=bedkeep merge=bedkeep",
              "corrections merge=bedkeep-script", "*.corrections merge=bedkeep-script")
DIFF, MERGE, SCRIPT = "diff.bedkeep", "merge.bedkeep", "merge.bedkeep-script"
GENOME = "bedkeep.genome"


def options(parser: argparse.ArgumentParser) -> None:
    parser.description, parser.epilog = DESCRIPTION, EPILOG
    what = parser.add_mutually_exclusive_group(required=True)
    what.add_argument("--install", action="store_true", help="sets up the repository of this folder, and says what it wrote")
    what.add_argument("--uninstall", action="store_true", help="takes that back")
    what.add_argument("--diff", nargs=argparse.REMAINDER, metavar="..", help="what git runs to show a file")
    what.add_argument("--merge", nargs=argparse.REMAINDER, metavar="..", help="what git runs to merge a file: BASE OURS THEIRS SIZE PATH")
    what.add_argument("--merge-script", nargs=argparse.REMAINDER, metavar="..", help="the same for a script of corrections")


def run(given: argparse.Namespace) -> int:
    """Does what is asked for, and returns the status: 1 if a merge left conflicts."""
    if given.diff is not None:
        sys.stdout.buffer.writelines(encoded(f"{line}\n") for line in shown(given.diff))
        sys.stdout.flush()
        return 0
    if given.merge is not None or given.merge_script is not None:
        return _merge(given.merge or given.merge_script or [], given.merge is None)
    for line in install() if given.install else uninstall():
        print(line)
    return 0


def install() -> list[str]:
    """Sets up the repository of this folder. Returns what it wrote. What is there stays, and no line is written twice."""
    top, program = _top(), f"{shlex.quote(sys.executable)} -m bedkeep"
    if subprocess.run([sys.executable, "-m", "bedkeep", "--version"], cwd=top, capture_output=True, check=False).returncode:
        raise Error(f"{program} can't be run in {top}: install the package, or set PYTHONPATH")
    path = os.path.join(top, ".gitattributes")
    lines = _attributes(path)
    missing = [line for line in ATTRIBUTES if line.split() not in map(str.split, lines)]
    if missing:
        unended = ["\n"] if lines and not lines[-1].endswith("\n") else []
        _write(path, [*lines, *unended, *(f"{line}\n" for line in missing)])
    settings = {f"{DIFF}.command": f"{program} git --diff", f"{DIFF}.textconv": "gzip -cdf --",
                f"{MERGE}.name": "BED files by records", f"{MERGE}.driver": f"{program} git --merge %O %A %B %L %P",
                f"{SCRIPT}.name": "corrections by paragraphs", f"{SCRIPT}.driver": f"{program} git --merge-script %O %A %B %L %P"}
    for name, value in settings.items():
        _git("config", "--local", name, value)
    return [*(f"{path}: added {line}" for line in missing), *(f"git config {name} {shlex.quote(value)}" for name, value in settings.items())]


def uninstall() -> list[str]:
    """Takes back what `install` wrote, and returns what it did. Other lines and settings stay."""
    path = os.path.join(_top(), ".gitattributes")
    lines = _attributes(path)
    left = [line for line in lines if line.split() not in map(str.split, ATTRIBUTES)]
    done = [f"{path}: removed {line.strip()}" for line in lines if line not in left]
    if done and left:
        _write(path, left)
    elif done:
        os.unlink(path)
    for section in DIFF, MERGE, SCRIPT:
        if subprocess.run(["git", "config", "--local", "--remove-section", section], capture_output=True, check=False).returncode == 0:
            done.append(f"git config --remove-section {section}")
    return done or ["nothing of it is there"]


def _merge(words: Sequence[str], is_script: bool) -> int:
    """Merges as a merge driver: into the second file."""
    if len(words) != 5 or not words[3].isdigit():
        raise Error("a merge needs BASE OURS THEIRS SIZE PATH")
    base, ours, theirs, size, path = words
    said: list[str] = []
    kind = _setting("merge.conflictStyle") or "merge"
    style = Style(int(size), kind)
    merged = merge_scripts(base, ours, theirs, style) if is_script else merge(base, ours, theirs, _lengths(said), style)
    merged.write(ours)
    for line in [*said, *(f"{path}: {line}" for line in (*merged.notes, *merged.conflicts))]:
        print(line, file=sys.stderr)
    return 1 if merged.conflicts else 0


def _lengths(said: list[str]) -> Optional[Mapping[str, int]]:
    """The lengths of the genome file that git's settings name, or None. said: gets why it can't be used"""
    name = _setting(GENOME, "--path")
    if not name:
        return None
    try:
        return lengths_of(os.path.join(_top(), name))
    except (OSError, ValueError, IndexError, Error) as failure:
        said.append(f"{GENOME}: {name} is no genome file, so no record is looked at for its end: {failure}")
        return None


def _attributes(path: str) -> list[str]:
    """The lines of .gitattributes with their ends."""
    if not os.path.exists(path):
        return []
    with open(path, "rb") as file:
        return list(map(decoded, file))


def _write(path: str, lines: Sequence[str]) -> None:
    with whole(path) as file:
        file.writelines(map(encoded, lines))


def _top() -> str:
    return _git("rev-parse", "--show-toplevel")


def _setting(name: str, *words: str) -> str:
    """A setting of git, or nothing."""
    run = subprocess.run(["git", "config", *words, "--get", name], capture_output=True, check=False)
    return decoded(run.stdout).rstrip("\n")


def _git(*words: str) -> str:
    """What git prints. Error with what it says if it fails."""
    run = subprocess.run(["git", *words], capture_output=True, check=False)
    if run.returncode:
        raise Error(decoded(run.stderr).strip() or f"git {words[0]} failed")
    return decoded(run.stdout).rstrip("\n")

#!/usr/bin/env python3
"""Runs the steps of README.md and of pages of docs/, and compares what they print with what the pages show.

    scripts/test/pages.py PROGRAM [FOLDER]

FOLDER has README.md, docs/ and examples/: the sources, which is the default, or the documents of a release that was unpacked.
A step is a block of commands, ```sh, and after it what it prints, ```text; a step without that prints nothing. The steps of a
page run in their order, each by a bash of its own that has what they exported, in a temporary folder that has examples/, with
the program, bedkeep-desk and the Python package as they are installed. Standard output and standard error go into one pipe, as
they would to a terminal. A block of Python is the text of a file of examples/, and a block without a language is a picture.
Status 1 if anything differs.
"""
import difflib
import os
import re
import shutil
import signal
import subprocess
import sys
import tempfile
from pathlib import Path

BLOCK = re.compile(r"^```(\w*)\n(.*?)^```$", re.M | re.S)
SECONDS = 20
PAGES = "README.md", "docs/GUIDE.md", "docs/LENGTHS.md", "docs/BASES.md", "docs/PIPELINES.md"


def main():
    if len(sys.argv) not in (2, 3):
        sys.exit("usage: scripts/test/pages.py PROGRAM [FOLDER]")
    program = Path(sys.argv[1]).resolve()
    if not program.is_file():
        sys.exit(f"{sys.argv[1]} is not there: run `make build` first")
    top = Path(sys.argv[2] if len(sys.argv) == 3 else Path(__file__).parent.parent.parent).resolve()
    done, faults = [], []
    for page in (top / name for name in PAGES):
        if not page.is_file():
            faults.append(f"{page} is not there")
            continue
        steps, wrong = read_page(page, top / "examples")
        faults += wrong + run_page(page.name, steps, program, top)
        done.append(f"{len(steps)} steps of {page.relative_to(top)}")
    if faults:
        sys.exit("\n".join(faults))
    print(f"{', '.join(done)} print what the pages show")


def read_page(page, examples):
    """The steps of a page, each with its line number, its commands and what it prints; and what is wrong with the page."""
    steps, faults = [], []
    text = page.read_text()
    programs = {file.read_text() for file in examples.glob("*.py")}
    for block in BLOCK.finditer(text):
        line = text.count("\n", 0, block.start()) + 1
        language, shown = block.groups()
        between = text[text.rfind("```", 0, block.start()) + 3 : block.start()]
        if language == "sh":
            steps.append([line, shown, ""])
        elif language == "text" and steps and not steps[-1][2] and not between.strip():
            steps[-1][2] = shown
        elif language and (language != "python" or shown not in programs):
            faults.append(f"{page.name}, line {line}: neither commands, nor what they print, nor a file of examples/")
    if not steps:
        faults.append(f"{page.name} has no steps")
    return steps, faults


def run_page(name, steps, program, top):
    """Runs the steps of a page in a folder of their own, and says which of them print something else."""
    faults = []
    with tempfile.TemporaryDirectory() as here, tempfile.TemporaryDirectory() as path:
        shutil.copytree(top / "examples", Path(here) / "examples")
        install(Path(path), program, top)
        environment = {**os.environ, "PATH": f"{path}/bin:{os.environ['PATH']}", "PYTHONDONTWRITEBYTECODE": "1"}
        environment.pop("PYTHONPATH", None)
        exported = ""
        for line, commands, shown in steps:
            faults += differences(f"{name}, the step at line {line}:", shown, run(exported + commands, here, environment))
            exported += "".join(re.findall("^export .*\n", commands, re.M))
    return faults


def install(folder, program, top):
    """The program, bedkeep-desk and the Python package, of the sources or of a release, where `make install` puts them."""
    sources, share = top / "python", top.parent.parent
    package, desk = (sources, sources / "bedkeep-desk") if sources.is_dir() else (share / "bedkeep/python", share.parent / "bin/bedkeep-desk")
    for place, target in ("bin/bedkeep", program), ("share/bedkeep/python", package):
        (folder / place).parent.mkdir(parents=True)
        (folder / place).symlink_to(target)
    shutil.copy(desk, folder / "bin")  # it looks beside itself


def run(commands, folder, environment):
    """What the commands print, or that they take too long."""
    bash = subprocess.Popen(["bash", "-c", commands], cwd=folder, env=environment, stdin=subprocess.DEVNULL,
                            stdout=subprocess.PIPE, stderr=subprocess.STDOUT, start_new_session=True)
    try:
        return bash.communicate(timeout=SECONDS)[0].decode(errors="replace")
    except subprocess.TimeoutExpired:
        os.killpg(bash.pid, signal.SIGKILL)
        bash.communicate()
        return f"no end within {SECONDS} seconds\n"


def differences(where, shown, printed):
    """Which lines of a step differ, under the place of the page where it begins."""
    rows = list(difflib.unified_diff(shown.splitlines(), printed.splitlines(), "shown", "printed", lineterm="", n=1))
    if shown.splitlines() == printed.splitlines() and shown != printed:
        rows = ["its last line has no end"]
    return ["\n".join([where, *rows])] if rows else []


if __name__ == "__main__":
    main()

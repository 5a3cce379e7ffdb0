#!/usr/bin/env python3
"""Runs the examples in tests/, and compares what the built program prints, its messages and its status, byte for byte.

    scripts/test/transcripts.py build/bedkeep [FILE ..]     FILE is one of tests/; without any, all are run

The program of `make check` may say that it is unproved where the proved one says with what it was proved.

A file is blocks with an empty line between them. The first says what is in all others, and each of these runs in a folder of
its own. The mark at the front of a line says what it is:

    #    a comment
    @    the name of a file; its lines follow, each after a |
    $    the words of a run
    <    a line of its script; if there is none, standard input can't be read
    >    a line that it prints
    !    a line of its messages
    =    its status, if that is not 0

In a table (.tsv) each block after the first is the names of its columns and then rows, each of which is a run: `words`,
`status`, `script`, `out`, `err`, and any other column is the file of that name. What a table lacks is in the first block.

After a mark and in a table \\t, \\n, \\r, \\0, \\\\ and \\x with two digits mean one byte. A line that ends in one \\ has no LF.
Status 1 if anything differs.
"""
import difflib
import os
import re
import shlex
import subprocess
import sys
import tempfile
from pathlib import Path

MISTAKES = "mistakes.tsv"  # a table that hints.py reads
TESTS = Path(__file__).resolve().parent.parent.parent / "tests"
STREAMS = {"<": "script", ">": "out", "!": "err"}
ESCAPES = {"t": b"\t", "n": b"\n", "r": b"\r", "0": b"\0", "\\": b"\\", "": b""}
# What the program says of itself, and what that of `make check` says there.
PROVED, UNPROVED = b"\nproved with rattle-kit", b"\nunproved by rattle-kit"
SECONDS = 60


def meant(text):
    """The bytes that a text means."""
    parts = re.split(r"\\(x[0-9a-f]{2}|.|$)", text)
    for at in range(1, len(parts), 2):
        escape = parts[at]
        parts[at] = ESCAPES[escape] if escape in ESCAPES else bytes([int(escape[1:], 16)])
    return b"".join(part if isinstance(part, bytes) else part.encode() for part in parts)


def line_meant(text):
    """The bytes of a line."""
    is_whole = re.fullmatch(r"([^\\]|\\.)*", text)
    return meant(text) + (b"\n" if is_whole else b"")


def read_block(lines):
    """The files and the runs of a block."""
    files, runs, name = {}, [], None
    for number, line in lines:
        mark, text = line[:1], line[2:]
        if mark == "@":
            name = text
            files[name] = b""
        elif mark == "|":
            files[name] += line_meant(text)
        elif mark == "$":
            runs.append({"line": number, "words": text})
        elif mark in STREAMS:
            runs[-1][STREAMS[mark]] = runs[-1].get(STREAMS[mark], b"") + line_meant(text)
        elif mark == "=":
            runs[-1]["status"] = int(text)
        elif mark != "#":
            raise ValueError(f"line {number} has another mark")
    return files, runs


def read_table(lines, files, runs):
    """The files and the run of each row of a table, after what the first block says."""
    rows = [(number, line.split("\t")) for number, line in lines if line[0] != "#"]
    columns = rows[0][1]
    for number, cells in rows[1:]:
        if len(cells) != len(columns):
            raise ValueError(f"line {number} has {len(cells)} cells instead of {len(columns)}")
        row = dict(zip(columns, cells))
        run = {**runs[0], "line": number} if runs else {"line": number}
        if "words" in row:
            run["words"] = row.pop("words")
        if "status" in row:
            run["status"] = int(row.pop("status"))
        for stream in STREAMS.values():
            if stream in row:
                run[stream] = meant(row.pop(stream))
        yield {**files, **{name: meant(text) for name, text in row.items()}}, [run]


def blocks_of(path):
    """The files and the runs of each block of a file but the first."""
    blocks = [[]]
    for number, line in enumerate(path.read_bytes().decode().removesuffix("\n").split("\n"), 1):
        if line:
            blocks[-1].append((number, line))
        else:
            blocks.append([])
    files, runs = read_block(blocks[0])
    for block in blocks[1:]:
        if path.suffix == ".tsv":
            yield from read_table(block, files, runs)
        else:
            own, of_block = read_block(block)
            yield {**files, **own}, of_block


def shown(text):
    """The lines of a text, in which what can't be seen is."""
    return [repr(line.decode("latin-1"))[1:-1] for line in text.splitlines(keepends=True)]


def differences(program, run, folder):
    """Runs the program, and says what differs from what is wanted."""
    command = [program, *shlex.split(run["words"])]
    with tempfile.TemporaryFile() as script:
        script.write(run.get("script", b""))
        script.seek(0)
        stdin = script.fileno() if "script" in run else os.open(folder, os.O_RDONLY)
        done = subprocess.run(command, cwd=folder, stdin=stdin, capture_output=True, timeout=SECONDS)
        if "script" not in run:
            os.close(stdin)
    if done.returncode != run.get("status", 0):
        yield f"status {done.returncode} instead of {run.get('status', 0)}"
    for stream, found in ("out", done.stdout.replace(UNPROVED, PROVED)), ("err", done.stderr):
        wanted = run.get(stream, b"")
        if found != wanted:
            lines = difflib.unified_diff(shown(wanted), shown(found), n=1, lineterm="")
            yield from [f"std{stream}: - is wanted, + is there", *list(lines)[2:]]


def run_file(program, path):
    """How many runs a file has, and how many of them differ."""
    count = wrong = 0
    for files, runs in blocks_of(path):
        with tempfile.TemporaryDirectory() as folder:
            for name, text in files.items():
                Path(folder, name).write_bytes(text)
            for run in runs:
                found = list(differences(program, run, folder))
                if found:
                    print(f"{path.name}, line {run['line']}: {run['words']}", *found, sep="\n    ", file=sys.stderr)
                count += 1
                wrong += bool(found)
    return count, wrong


def main():
    if len(sys.argv) < 2:
        sys.exit("usage: scripts/test/transcripts.py PROGRAM [FILE ..]")
    program = Path(sys.argv[1]).resolve()
    paths = [Path(name) for name in sys.argv[2:]]
    paths = paths or sorted(path for path in TESTS.iterdir() if path.suffix in (".txt", ".tsv") and path.name != MISTAKES)
    count = wrong = 0
    for path in paths:
        runs, differ = run_file(program, path)
        if not runs:
            sys.exit(f"{path} has no run")
        count, wrong = count + runs, wrong + differ
    if wrong or not count:
        sys.exit(f"{wrong} of the {count} runs of tests/ differ")
    print(f"all {count} runs of tests/ print what they are to print")


if __name__ == "__main__":
    main()

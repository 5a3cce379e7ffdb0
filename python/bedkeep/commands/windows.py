"""A run over BED files of any size, window by window: python3 -m bedkeep windows [--window N] [--jobs N] merge -g sizes -i many.bed.gz -d 10

It prints the rows of one run over all. bgzip compressed the BED files, and tabix indexed them. The README of examples/at_scale says how,
and what a window is.
"""
from __future__ import annotations

import argparse
import os
import shutil
import subprocess
import sys
import tempfile
from collections import deque
from concurrent.futures import Future, ThreadPoolExecutor
from enum import Enum
from pathlib import Path
from typing import BinaryIO, Iterable, Iterator, NamedTuple, Optional, Sequence

from ..bed import lengths_of
from ..errors import Error
from ..files import line_text, opened
from ..forms import is_header
from ..program import find
from .input_files import refuse_damaged

FILES = ("-g", "-i", "-a", "-bed", "-b", "-fi")
VALUED = (*FILES, "-d", "-c", "-o", "-width", "-limit")
# Options without a value in this subcommand.
FLAGS = (("genomecov", "-d"), ("intersect", "-c"))
# Past the end of each sequence: what is there is refused by bedkeep, and not left out.
FAR = 4_294_967_295
# Positions are above what some versions of awk print as they are.
AWK = ["awk", "-F", "\t", "-v", "OFS=\t", "-v", "CONVFMT=%.0f", "-v", "OFMT=%.0f"]
CLIP = "{ if ($2 < low) $2 = low; if ($3 > high) $3 = high; $2 -= low; $3 -= low; print }"
BEGUN = "$2 >= low && $2 < high { print > track; if ($3 > reach) reach = $3 } END { print reach + 0 }"
MOVE = "{ $2 += low; if (ends) $3 += low; print }"


class Borders(Enum):
    """What becomes of a record at the border of a window."""

    CLIP = "It is cut there, and rows that meet there are one."
    START = "It is in the window that it starts in."
    NONE = "There is none within a sequence."


class NoRows(Error):
    """Why there are no rows."""


class TooMany(Exception):
    """A window has more records than the limit."""


class Stretch(NamedTuple):
    """A part of a sequence."""

    name: str
    start: int
    end: int
    length: int

    def is_whole(self) -> bool:
        return self.end - self.start == self.length

    def region(self) -> str:
        return f"{self.name}\t{self.start}\t{self.limit()}\n"

    def limit(self) -> int:
        """Where its records end: that of the sequence is looked at by bedkeep."""
        return FAR if self.end == self.length else self.end


# A part of a sequence, or sequences that are neighbours in the genome file.
Window = Sequence[Stretch]


class Run(NamedTuple):
    """The arguments of a run."""

    subcommand: str
    genome: str
    track: str
    second: Optional[str]
    fasta: Optional[str]
    options: Sequence[str]

    @classmethod
    def of(cls, words: Sequence[str]) -> Run:
        files: dict[str, str] = {}
        options: list[str] = []
        rest = iter(words[1:])
        for word in rest:
            value = next(rest, None) if word in VALUED and (words[0], word) not in FLAGS else None
            if word in FILES and value is not None:
                files[word] = value
            else:
                options += [word] if value is None else [word, value]
        track = files.get("-i") or files.get("-a") or files.get("-bed")
        if not track or "-g" not in files:
            raise NoRows("a run names its genome file and its BED file")
        return cls(words[0], files["-g"], track, files.get("-b"), files.get("-fi"), options)

    def borders(self) -> Borders:
        if self.subcommand in ("intersect", "subtract", "getfasta", "records"):
            return Borders.START
        if self.subcommand == "cluster" or self.subcommand == "merge" and {"-s", "-c", "-o"} & set(self.options):
            return Borders.NONE
        return Borders.CLIP

    def is_by_position(self) -> bool:
        return self.subcommand == "genomecov" and "-d" in self.options

    def distance(self) -> int:
        """The gap over which rows that meet at a border are one."""
        return int(self.options[self.options.index("-d") + 1]) if self.subcommand == "merge" and "-d" in self.options else 0

    def command(self, genome: str, track: str, second: str, *more: str) -> list[str]:
        """The same run over other files."""
        files = {"intersect": ["-a", track, "-b", second], "subtract": ["-a", track, "-b", second],
                 "getfasta": ["-bed", track, "-fi", self.fasta or os.devnull]}
        # The windows without a record are left out for -L.
        options = [option for option in self.options if (self.subcommand, option) != ("complement", "-L")]
        return [find(None), self.subcommand, "-g", genome, *files.get(self.subcommand, ["-i", track]), *options, *more]


def output_of(command: Sequence[str]) -> str:
    done = subprocess.run(command, stdout=subprocess.PIPE, stderr=subprocess.PIPE, encoding="utf-8", errors="surrogateescape")
    if done.returncode:
        raise NoRows(done.stderr.strip())
    return done.stdout


def names_in(bed: str) -> list[str]:
    """The sequences that a BED file has records of."""
    return output_of(["tabix", "-l", bed]).split("\n")[:-1]


def check(run: Run) -> None:
    """Refuses what one run refuses before it reads records, and records of unknown sequences."""
    output_of([find(None), "merge", "-g", run.genome, "-i", os.devnull])
    empty = run._replace(fasta=os.devnull).command(os.devnull, os.devnull, os.devnull)
    output_of(empty if "-width" in run.options else [*empty, "-width", "6"])
    known = lengths_of(run.genome)
    for bed in filter(None, (run.track, run.second)):
        unknown = [name for name in names_in(bed) if name not in known]
        if unknown:
            raise NoRows(f"{bed}: unknown sequence: {unknown[0]}")
        if os.path.isfile(bed):
            check_first(run.genome, bed)


def check_first(genome: str, bed: str) -> None:
    """Refuses a file whose first record the program doesn't take, such as one of GFF, whose columns awk would take for others."""
    with opened(bed) as file, tempfile.NamedTemporaryFile(prefix="bedkeep-") as first:
        for line in file:
            first.write(line)
            if not is_header(line_text(line)):
                break
        first.flush()
        refuse_damaged(genome, first.name, bed)


def windows_of(run: Run, size: int) -> list[Window]:
    """The windows of a run: a sequence longer than the size is cut, unless it has to stay whole, and shorter ones are taken together."""
    sequences = list(lengths_of(run.genome).items())
    if run.subcommand == "complement" and "-L" in run.options:
        present = set(names_in(run.track))
        sequences = [(name, length) for name, length in sequences if name in present]
    windows: list[Window] = []
    together: list[Stretch] = []
    for name, length in sequences:
        step = length if run.borders() is Borders.NONE else size
        pieces = [Stretch(name, start, min(start + step, length), length) for start in range(0, length, step)] if length else [Stretch(name, 0, 0, 0)]
        if len(pieces) > 1 or sum(piece.length for piece in [*together, *pieces]) > size:
            windows += [together] if together else []
            together = []
        if len(pieces) > 1:
            windows += [[piece] for piece in pieces]
        else:
            together += pieces
    return windows + ([together] if together else [])


def halves(window: Window) -> tuple[Window, Window]:
    if len(window) > 1:
        return window[:len(window) // 2], window[len(window) // 2:]
    stretch = window[0]
    middle = (stretch.start + stretch.end) // 2
    return [stretch._replace(end=middle)], [stretch._replace(start=middle)]


def filtered(bed: str, window: Window, folder: Path, program: str, output: Optional[BinaryIO], **variables: object) -> str:
    """What a program of awk prints of the records of a BED file that overlap a window, unless that goes to the output."""
    regions = folder / "regions.bed"
    regions.write_text("".join(stretch.region() for stretch in window), errors="surrogateescape")
    words = [word for name, value in variables.items() for word in ("-v", f"{name}={value}")]
    with subprocess.Popen(["tabix", "-R", str(regions), bed], stdout=subprocess.PIPE) as reader:
        done = subprocess.run([*AWK, *words, program], stdin=reader.stdout, stdout=output or subprocess.PIPE)
    if reader.returncode or done.returncode:
        raise NoRows(f"{bed}: its records can't be read by tabix and awk")
    return done.stdout.decode() if output is None else ""


def write_files(run: Run, window: Window, folder: Path) -> None:
    """Writes the files of a run over a window: its genome file, and the records of both BED files."""
    stretch = window[0]
    clips = run.borders() is Borders.CLIP and not stretch.is_whole()
    lengths = ((part.name, part.end - part.start if clips else part.length) for part in window)
    (folder / "genome").write_text("".join(f"{name}\t{length}\n" for name, length in lengths), errors="surrogateescape")
    if run.borders() is Borders.START and not stretch.is_whole():
        (folder / "track").touch()
        reach = int(filtered(run.track, window, folder, BEGUN, None, low=stretch.start, high=stretch.limit(), track=folder / "track"))
        beside: Window = [stretch._replace(end=min(max(reach, stretch.end), stretch.length))]
    else:
        with open(folder / "track", "wb") as track:
            filtered(run.track, window, folder, CLIP if clips else "1", track, low=stretch.start, high=stretch.limit())
        beside = window
    if run.second:
        with open(folder / "second", "wb") as second:
            filtered(run.second, beside, folder, "1", second)


def write_one(run: Run, window: Window, rows: Path) -> None:
    stretch = window[0]
    with tempfile.TemporaryDirectory(dir=rows.parent) as name, open(rows, "wb") as output:
        folder = Path(name)
        write_files(run, window, folder)
        if run.borders() is not Borders.CLIP and not os.path.getsize(folder / "track"):
            return
        command = run.command(*(str(folder / file) for file in ("genome", "track", "second")))
        moves = run.borders() is Borders.CLIP and stretch.start > 0
        mover = [*AWK, "-v", f"low={stretch.start}", "-v", f"ends={int(not run.is_by_position())}", MOVE]
        with open(folder / "said", "w+b") as said:
            with subprocess.Popen(command, stdout=subprocess.PIPE if moves else output, stderr=said) as runner:
                moved = subprocess.run(mover, stdin=runner.stdout, stdout=output).returncode if moves else 0
            said.seek(0)
            message = said.read().decode(errors="replace").strip()
        if message.endswith(": too many"):
            raise TooMany
        if runner.returncode or moved:
            raise NoRows(message.replace(f"{folder}/", f"{stretch.name}:{stretch.start}: "))


def write_rows(run: Run, window: Window, rows: Path) -> Path:
    """Writes the rows of a window into a file: those of its halves if it has too many records."""
    try:
        write_one(run, window, rows)
    except TooMany:
        if len(window) == 1 and (run.borders() is Borders.NONE or window[0].end - window[0].start < 2):
            raise NoRows(f"{window[0].name}:{window[0].start}: too many records: give a greater -limit") from None
        parts = [rows.with_name(f"{rows.name}.{number}") for number in range(2)]
        for half, part in zip(halves(window), parts):
            write_rows(run, half, part)
        with open(rows, "wb") as output:
            put_joined(run, parts, output)
        for part in parts:
            part.unlink()
    return rows


def put_joined(run: Run, parts: Iterable[Path], output: BinaryIO) -> None:
    """Writes the rows of windows one after another."""
    if run.subcommand == "cluster":
        put_clusters(parts, output)
    elif run.borders() is Borders.CLIP and not run.is_by_position():
        put_met(run.distance(), parts, output)
    else:
        for part in parts:
            with open(part, "rb") as rows:
                shutil.copyfileobj(rows, output, 1 << 20)


def put_clusters(parts: Iterable[Path], output: BinaryIO) -> None:
    """The same for blocks, which are numbered through."""
    before = last = 0
    for part in parts:
        with open(part, "rb") as rows:
            for row in rows:
                record, number = row.rsplit(b"\t", 1)
                last = before + int(number)
                output.write(b"%s\t%d\n" % (record, last))
        before = last


def put_met(distance: int, parts: Iterable[Path], output: BinaryIO) -> None:
    """The same for rows of which two that meet at a border are one: the last of a window and the first of the next."""
    held: list[bytes] = []
    for part in parts:
        text = part.read_bytes()
        if held and text:
            row, _, rest = text.partition(b"\n")
            first = row.split(b"\t")
            if first[0] == held[0] and int(first[1]) <= int(held[2]) + distance and first[3:] == held[3:]:
                held[2] = first[2]
                text = rest
        if text:
            if held:
                output.write(b"\t".join(held) + b"\n")
            begin = text.rfind(b"\n", 0, -1) + 1
            output.write(text[:begin])
            held = text[begin:-1].split(b"\t")
    if held:
        output.write(b"\t".join(held) + b"\n")


def rows_in_order(run: Run, windows: Sequence[Window], jobs: int, folder: Path) -> Iterator[Path]:
    """The rows of each window, in files that are taken away once the next one is asked for. A few windows are ahead."""
    ahead: deque[Future[Path]] = deque()
    with ThreadPoolExecutor(jobs) as pool:
        try:
            for number, window in enumerate(windows):
                ahead.append(pool.submit(write_rows, run, window, folder / str(number)))
                if len(ahead) > 2 * jobs:
                    yield from taken_away(ahead.popleft().result())
            while ahead:
                yield from taken_away(ahead.popleft().result())
        finally:
            for job in ahead:
                job.cancel()


def taken_away(rows: Path) -> Iterator[Path]:
    yield rows
    rows.unlink()


def options(parser: argparse.ArgumentParser) -> None:
    parser.description = "Runs a subcommand of bedkeep over indexed BED files, window by window."
    parser.add_argument("--window", type=int, default=20_000_000, help="bases of a window (default 20000000)")
    parser.add_argument("--jobs", type=int, default=os.cpu_count() or 1, help="how many windows at once (default: one a processor)")
    parser.add_argument("--only", type=int, metavar="K", help="print the rows of window K alone, counted from 0")
    parser.add_argument("--join", type=Path, metavar="FOLDER", help="join the rows of all windows, which are in FOLDER/0, FOLDER/1 ..")
    parser.add_argument("words", nargs=argparse.REMAINDER, metavar="SUBCOMMAND ..", help="the arguments of a run of bedkeep")


def run(given: argparse.Namespace) -> int:
    if not given.words or given.window < 1 or given.jobs < 1:
        raise NoRows("windows takes a subcommand, and numbers above 0")
    asked = Run.of(given.words)
    if given.join:
        put_joined(asked, (given.join / str(number) for number in range(len(windows_of(asked, given.window)))), sys.stdout.buffer)
        return 0
    check(asked)
    windows = windows_of(asked, given.window)
    if given.only is not None:
        if not 0 <= given.only < len(windows):
            raise NoRows(f"there is no window {given.only}")
        windows = [windows[given.only]]
    with tempfile.TemporaryDirectory() as name:
        put_joined(asked, rows_in_order(asked, windows, given.jobs, Path(name)), sys.stdout.buffer)
    sys.stdout.flush()
    return 0

#!/usr/bin/env python3
"""Times what the Python package does over a large track: sessions, tables, and the prompt.

    make build
    python3 scripts/bench/package.py [--records N] [--columns N] [--runs N] [--program PROGRAM]

Tables need pandas. The prompt is a process of its own: its first line is timed from its start, and each later answer from the
line that was typed.
"""
import argparse
import os
import statistics
import subprocess
import sys
import tempfile
import time
from pathlib import Path

TOP = Path(__file__).resolve().parent.parent.parent
sys.path.insert(0, str(TOP / "python"))
import bedkeep  # noqa: E402


def main():
    words = argparse.ArgumentParser(description=__doc__.splitlines()[0])
    words.add_argument("--records", type=int, default=1_000_000)
    words.add_argument("--columns", type=int, choices=[4, 5, 6], default=6)
    words.add_argument("--runs", type=int, default=3, help="runs of each; the median is printed")
    words.add_argument("--program", default=str(TOP / "build" / "bedkeep"))
    wanted = words.parse_args()
    os.environ["BEDKEEP"] = wanted.program
    with tempfile.TemporaryDirectory() as folder:
        sizes, bed = write_data(Path(folder), wanted.records, wanted.columns)
        print(f"{wanted.records:,} records of {wanted.columns} columns, {wanted.runs} runs of each\n\n| what | ms |\n|---|---|")
        runs = [{**time_session(sizes, bed), **time_prompt(sizes, bed, wanted.records, wanted.columns)} for _ in range(wanted.runs)]
        for what in runs[0]:
            print(f"| {what} | {statistics.median(run[what] for run in runs):,.0f} |")


def write_data(folder, records, columns):
    """Genes of 700 bases, one every 1,000, on four sequences."""
    sizes, bed = folder / "sizes", folder / "genes.bed"
    sizes.write_text("".join(f"chr{number}\t{250 * records + 1000}\n" for number in range(1, 5)))
    with bed.open("w") as file:
        for number in range(records):
            start = 1000 * (number % (records // 4))
            row = f"chr{1 + number * 4 // records}", start, start + 700, f"gene{number}", number % 1000, "+-"[number % 2]
            file.write("\t".join(map(str, row[:columns])) + "\n")
    return sizes, bed


def time_session(sizes, bed):
    """The time of each call over a session, in milliseconds."""
    times = {}

    def timed(what, call):
        begun = time.perf_counter()
        result = call()
        times[what] = 1000 * (time.perf_counter() - begun)
        return result

    session = timed("session begins", lambda: bedkeep.Session(sizes, bed))
    with session:
        timed("len", lambda: len(session))
        timed("region of 2,000 bases", lambda: session.region("chr2", 500_000, 502_000))
        timed("find", lambda: session.find("gene1234"))
        timed("near", lambda: session.near("chr2", 500_000, 500_701))
        timed("in", lambda: ("chr1", 0, 700) in session)
        timed("records, the first time", session.records)
        timed("records, again", session.records)
        try:
            frame = timed("to_frame", session.to_frame)
        except ImportError:
            return times
    timed("session of a table", lambda: bedkeep.Session({f"chr{number}": 10 ** 9 for number in range(1, 5)}, frame)).end()
    edited = frame.copy()
    edited.loc[frame.index % 10_000 == 7, "end"] += 1
    timed("edits of two tables", lambda: bedkeep.edits(frame, edited))
    return times


def time_prompt(sizes, bed, records, columns):
    """The time from a start of the prompt, or from a line, to the last line of its answer."""
    times = {}
    command = [sys.executable, "-m", "bedkeep", "curate", str(sizes), str(bed), "--script", f"{bed}.script"]
    begun = time.perf_counter()
    with subprocess.Popen(command, stdin=subprocess.PIPE, stdout=subprocess.PIPE, bufsize=0,
                          env={**os.environ, "PYTHONPATH": str(TOP / "python")}) as process:
        def answered(what, lines):
            for _ in range(lines):
                process.stdout.readline()
            times[what] = 1000 * (time.perf_counter() - begun)

        answered("prompt begins", 1)
        other = "\t".join(["remove", "chr2", "500000", "500701", "no", "0", "+"][:1 + columns])
        for what, line, lines in (("an edit", f"set name gene{records // 2} other", 2), ("a refusal with near records", other, 4)):
            begun = time.perf_counter()
            process.stdin.write(f"{line}\n".encode())
            answered(f"prompt: {what}", lines)
        process.stdin.close()
    os.unlink(f"{bed}.script")
    return times


if __name__ == "__main__":
    main()

#!/usr/bin/env python3
"""Runs the built program over files of real sizes, long lines, long names and long rows: a body that gives up above some size is
seen here. What it is to print is made beside the files, never by the program. Prints of more than 16 KiB also go into files that
have room for a part of them, around the sizes of the program's buffer, and into an output that takes a part of a write. It takes
seconds.

    scripts/test/sizes.py build/bedkeep

The program of `make check`, which isn't proved and is slower, gets a tenth of most sizes.

Status 1 if a run prints anything else, or has another message or status.
"""
import os
import random
import resource
import select
import signal
import socket
import subprocess
import sys
import tempfile
from pathlib import Path

from trials import begin, is_proved, parser_of

SECONDS = 120
# What most sizes are divided by.
LESS = 1
ROOMS = [0, 1, 8_190, 8_191, 8_192, 8_193, 8_194, 16_383, 16_384, 16_385]
NO_ROOM = b"bedkeep: output cannot be written\n"
# A program whose status says whether its write was cut short.
IS_SHORT = "import os, sys; sys.exit(os.write(1, bytes(8192)) < 8192)"
COMPLEMENT = str.maketrans("ACGTNacgtR", "TGCANtgcaY")


def table(rows):
    """Lines of fields with TABs between them."""
    return "".join("\t".join(map(str, row)) + "\n" for row in rows)


def fasta(name, bases, width=0):
    """A sequence of a FASTA file, in lines of so many bases; in one line if that is 0."""
    width = width or len(bases)
    return f">{name}\n" + "".join(bases[at : at + width] + "\n" for at in range(0, len(bases), width))


def records_at_one_place():
    """Records with one place and many names: each view has one row."""
    yield "records at one place", "session -g g -i a", {
        "g": "big\t1000000\n",
        "a": table(("big", 0, 10, name) for name in range(20_000 // LESS)),
    }, "open\tm\tmerge\nopen\tc\tcomplement\nopen\tg\tgenomecov -bg\nprintall\n", (
        f"#m\nbig\t0\t10\n#c\nbig\t10\t1000000\n#g\nbig\t0\t10\t{20_000 // LESS}\n"
    )


def many_sequences():
    """A record of six columns on each of many sequences, and edits of one."""
    names = [f"chr{number}" for number in range(200_000, 200_000 + 200_000 // LESS)]
    here = names[len(names) // 2]
    lines = [("add", here, 5, 9, "n", 0, "."), ("add", here, 5, 9, "n", 0, "."), ("remove", here, 5, 9, "n", 0, "."),
             ("replace", here, 5, 9, "n", 0, ".", here, 15, 19, "n", 0, "."), ("print", "m")]
    yield "many sequences", "session -g g -i a", {
        "g": table((name, 100) for name in names),
        "a": table((name, 10, 20, "name", 0.5, "-") for name in names),
    }, "open\tm\tmerge\n" + table(lines), table((name, 10, 20) for name in names)


def reversed_records():
    """Many records, the last one first."""
    places = [("big", start, start + 5) for start in range(0, 1_000_000 // LESS, 10)]
    files = {"g": "big\t1000000\n", "a": table(reversed(places))}
    yield "places from the end", "merge -g g -i a", files, None, table(places)
    yield "records from the end", "cluster -g g -i a", files, None, table((*place, number) for number, place in enumerate(places, 1))


def out_of_order():
    """Records in order except for some of one start, the longest first, or for neighbors; and many of one interval in no order."""
    for count in 2, 3, 16, 17, 18, 40:
        ties = [("chr1", 1, 2, "n", 0, "+"), *(("chr1", 5, 99 - number, "n", 0, "+") for number in range(count)), ("chr1", 6, 7, "n", 0, "+")]
        yield f"{count} records of one start", "records -g g -i a", {"g": "chr1\t100\n", "a": table(ties)}, None, table(sorted(ties))
    for count in 3, 17, 300:
        names = [("chr1", 5, 9, f"read:{(number * 7919 % 251) ** 3}", number % 5, "+-."[number % 3]) for number in range(count)]
        yield f"{count} records of one interval", "records -g g -i a", {"g": "chr1\t100\n", "a": table(names)}, None, (
            table(sorted(names, key=lambda name: [str(cell).encode() for cell in name]))
        )
    for run in *range(2, 17), 17:
        turned = [("big", run * turn - back, run * turn - back + 1) for turn in range(1, 1_201) for back in range(1, run + 1)]
        yield f"neighbors of {run}", "records -g g -i a", {"g": "big\t100000\n", "a": table(turned)}, None, table(sorted(turned))


def regions():
    """A few rows of many records on two sequences, without a long record over all of them, with it, and without it again."""
    places = [(name, start, start + 5) for name in ("big", "other") for start in range(0, 500_000, 10)]
    lines = [("open", "m", "merge"), ("open", "k", "cluster"), ("open", "g", "genomecov -bg"), ("open", "c", "complement"), ("open", "r", "records")]
    at = ("other", 250_002, 250_015)
    shown = [(place, number) for number, place in enumerate(places, 1) if place[0] == at[0] and place[1] < at[2] and at[1] < place[2]]
    numbered, ones = table((*place, number) for place, number in shown), table((*place, 1) for place, _ in shown)
    plain = table(place for place, _ in shown)
    before = f"#m\n{plain}#k\n{numbered}#g\n{ones}#c\n" + table([("other", 250_005, 250_010)]) + f"#r\n{plain}"
    # One long record joins all blocks of its sequence, and covers each position once more.
    long = ("other", 0, 500_000)
    joined = table((*place, 50_001) for place in [long, *(place for place, _ in shown)])
    depths = table([("other", 250_000, 250_005, 2), ("other", 250_005, 250_010, 1), ("other", 250_010, 250_015, 2)])
    after = f"#m\n{table([long])}#k\n{joined}#g\n{depths}#c\n#r\n{table([long])}{plain}"
    yield "regions of many records", "session -g g -i a", {"g": "big\t500000\nother\t500000\n", "a": table(places)}, (
        table([*lines, ("showall", *at), ("add", *long), ("showall", *at), ("remove", *long), ("show", "k", *at)])
    ), before + after + numbered


def long_lines():
    """Script lines with long names."""
    for count in 1_001, 10_000, 100_000:
        name = "n" * count
        record = ("chr1", 10, 20, name)
        lines = [("add", *record), ("add", *record), ("remove", *record), ("replace", *record, *record[:3], name + "x")]
        yield f"names of {count} bytes", "session -g g -i a -width 4", {"g": "chr1\t100\n", "a": ""}, (
            f"#{name}\n" + table(lines) + "open\tc\tcluster\nprint\tc\n"
        ), f"chr1\t10\t20\t{name}x\t1\n"


def long_file_lines():
    """A heading of more than half a megabyte, and a record whose name has half of that."""
    yield "long lines of a file", "merge -g g -i a", {
        "g": "s\t1000000\n", "a": f"#{'c' * (600_000 // LESS)}\r\ns\t1\t2\t{'n' * (300_000 // LESS)}\ns\t5\t9\tm",
    }, None, "s\t1\t2\ns\t5\t9\n"


def long_names():
    """A sequence, records and scores with long names, in files and in lines."""
    name, cell = "s" * 300, "n" * 100
    yield "long names", "session -g g -i a", {
        "g": f"{name}\t100\n",
        "a": table([(name, 10, 20, cell, cell, "+")]),
    }, table([("add", name, 20, 30, cell + "x", cell + "x", "+"), ("open", "m", "merge -c 4 -o collapse"), ("print", "m")]), (
        f"{name}\t10\t30\t{cell},{cell}x\n"
    )


def rows_of_each_length():
    """Sequences, names and scores around the sizes of what a row is put together in."""
    for sequence, name, score in (1, 1, 1), (20, 64, 24), (20, 65, 24), (20, 64, 25), (300, 2, 3), (300, 700, 500):
        row = ("c" * sequence, 7, 19, "n" * name, "5" * score, "-")
        files = {"g": f"chr1\t9\n{row[0]}\t100\n", "a": table([row])}
        yield f"a record of {len(table([row]))} bytes", "records -g g -i a", files, None, table([row])
        yield f"a row of {len(table([row]))} bytes", "cluster -g g -i a", files, None, table([(*row, 1)])


def long_bases():
    """The bases of a long sequence, in one line and in many."""
    size = 2_400_000 // LESS
    bases = "ACGTNacgtR" * (size // 10)
    for width in 0, 60, 61:
        yield f"a sequence in lines of {width or 'all its'} bases", "getfasta -g g -bed a -fi f", {
            "g": table([("big", size)]), "a": table([("big", 0, size)]), "f": fasta("big a chromosome", bases, width),
        }, None, fasta(f"big:0-{size}", bases)


def many_short_bases():
    """Many sequences, of which the genome has every second one, with a line for each base."""
    sizes = [(f"contig_{number}", 4 + number % 7) for number in range(50_000 // LESS)]
    half = sizes[1::2]
    yield "many sequences of bases", "getfasta -g g -bed a -fi f", {
        "g": table(half),
        "a": table((name, 0, size) for name, size in half),
        "f": "".join(fasta(f"{name} of many", "A" * size, 1) for name, size in sizes),
    }, None, "".join(fasta(f"{name}:0-{size}", "A" * size) for name, size in half)


def long_headers():
    """Names and a description of a hundred thousand bytes."""
    name = "0123456789" * 10_000
    yield "long headers", "getfasta -g g -bed a -fi f", {
        "g": f"{name}a\t4\n", "a": f"{name}a\t1\t4\n", "f": fasta(f"{name}b", "TT") + fasta(f"{name}a {name}", "ACGT"),
    }, None, fasta(f"{name}a:1-4", "CGT")


def long_rows():
    """Rows of many lengths on both strands."""
    bases = "AACCGTNacR" * 500
    places = [(0, 5_000), (10, 260), (20, 280), (0, 1_020), (30, 1_060), (0, 2_050), (2_560, 4_990), (4_990, 5_000), (1, 4_999)]
    for start, stop in places:
        part = bases[start:stop]
        back = part.translate(COMPLEMENT)[::-1]
        yield f"the bases from {start} to {stop}", "getfasta -s -g g -bed a -fi f", {
            "g": "s\t5000\n", "a": table(("s", start, stop, "n", 0, strand) for strand in "-+"), "f": fasta("s", bases),
        }, None, fasta(f"s:{start}-{stop}(+)", part) + fasta(f"s:{start}-{stop}(-)", back)


def intervals(chance, count, long, short):
    """Sorted intervals, of which one in so many may have up to 700 bases, and the others up to so many."""
    places = []
    for _ in range(count):
        start = chance.randrange(700)
        stop = start + chance.randint(1, 700 if chance.randrange(long) == 0 else short)
        places.append((f"chr{chance.randrange(3)}", start, stop))
    return sorted(places)


def pairs():
    """From none to all of the second file's records are long: all that overlap, by a look at each pair."""
    for seed in range(60):
        chance = random.Random(seed)
        first = intervals(chance, chance.choice([4, 25, 70]), 5, 12)
        second = intervals(chance, chance.choice([3, 20, 60, 400]), chance.choice([1, 2, 5, 15, 10**6]), 1 + seed % 12)
        rows = [(*a, *b) for a in first for b in second if a[0] == b[0] and a[1] < b[2] and b[1] < a[2]]
        yield f"pairs of seed {seed}", "intersect -wa -wb -g g -a a -b b", {
            "g": table((f"chr{number}", 2_000) for number in range(3)), "a": table(first), "b": table(second),
        }, None, table(rows)


def long_prints():
    """Rows of a thousand records in sessions, one view and two, and in runs of one subcommand."""
    places = [("big", start, start + 10) for start in range(100_000, 200_000, 100)]
    files = {"g": "big\t1000000\n", "a": table(places), "b": ""}
    plain, ones, noughts = table(places), table((*place, 1) for place in places), table((*place, 0) for place in places)
    numbered = table((*place, number) for number, place in enumerate(places, 1))
    for view, rows in ("merge", plain), ("merge -c 1 -o count", ones), ("genomecov -bg", ones), ("cluster", numbered), (
            "intersect -c", noughts), ("subtract", plain):
        yield f"a session's {view}", "session -g g -i a -b b", files, f"open\tv\t{view}\nprint\tv\n", rows
        command, *options = view.split()
        inputs = "-a a -b b" if command in ("intersect", "subtract") else "-i a"
        yield view, " ".join([command, "-g g", inputs, *options]), files, None, rows
    yield "two views", "session -g g -i a", files, "open\tv\tcluster\nopen\tw\tgenomecov -bg\nprintall\n", (
        f"#v\n{numbered}#w\n{ones}"
    )
    yield "genomecov -d", "genomecov -d -g g -i a", {"g": "s\t2000\n", "a": ""}, None, table(("s", at, 0) for at in range(1, 2_001))


def long_sequences():
    """A row of 20,000 bases, in sessions and in runs of getfasta."""
    bases = "AACG" * 5_000
    files = {"g": "s\t20000\n", "a": "s\t0\t20000\tn\t0\t-\n", "f": fasta("s", bases)}
    for options, row in ("", fasta("s:0-20000", bases)), (" -tab", f"s:0-20000\t{bases}\n"), (" -s", fasta("s:0-20000(-)", "CGTT" * 5_000)):
        yield f"a session's getfasta{options}", "session -g g -i a -fi f", files, f"open\tv\tgetfasta{options}\nprint\tv\n", row
        yield f"getfasta{options}", f"getfasta -g g -bed a -fi f{options}", files, None, row


def run_in(program, folder, words, script, room=None):
    """Status, messages and output of a run, whose output is a file that has room for so many bytes."""
    def limit():
        if room is not None:
            resource.setrlimit(resource.RLIMIT_FSIZE, (room, room))

    output = Path(folder, "output")
    with open(output, "wb") as file:
        # The signal that comes with a full file stays ignored, as Python has it, so that the write fails instead.
        done = subprocess.run([program, *words.split()], cwd=folder, input=(script or "").encode(), stdout=file, stderr=subprocess.PIPE,
                              preexec_fn=limit, restore_signals=False, timeout=SECONDS)
    return done.returncode, done.stderr, output.read_bytes()


def run_in_parts(command, folder, script):
    """The same of a run whose writes are cut short: once the output holds a part of one, a stop ends it, and the part is read."""
    near, far = socket.socketpair()
    # The system takes this for the least that it has, about 4 KiB.
    far.setsockopt(socket.SOL_SOCKET, socket.SO_SNDBUF, 1)
    parts = [b""]
    with near, tempfile.TemporaryFile() as file:
        file.write((script or "").encode())
        file.seek(0)
        with subprocess.Popen(command, cwd=folder, stdin=file, stdout=far, stderr=subprocess.PIPE) as done:
            far.close()
            while len(parts) == 1 or parts[-1]:
                if not select.select([near], [], [], SECONDS)[0]:
                    done.kill()
                os.kill(done.pid, signal.SIGSTOP)
                os.waitid(os.P_PID, done.pid, os.WSTOPPED | os.WEXITED | os.WNOWAIT)
                parts.append(near.recv(1 << 20))
                os.kill(done.pid, signal.SIGCONT)
            messages = done.stderr.read()
    return done.returncode, messages, b"".join(parts)


def is_right(program, name, words, files, script, wanted, rooms=()):
    """Whether a run prints what it is to, into each room what fits, and with rooms in parts too; says so if it doesn't."""
    wanted = wanted.encode()
    with tempfile.TemporaryDirectory() as folder:
        for file, text in files.items():
            Path(folder, file).write_text(text)
        whole = run_in(program, folder, words, script)
        wrong = [] if whole == (0, b"", wanted) else [("whole", whole)]
        for room in rooms:
            cut = run_in(program, folder, words, script, room)
            if cut != (4, NO_ROOM, wanted[:room]):
                wrong.append((f"room {room}", cut))
        if rooms:
            parts = run_in_parts([program, *words.split()], folder, script)
            if parts != (0, b"", wanted):
                wrong.append(("in parts", parts))
    for how, (status, messages, output) in wrong:
        print(f"{name}, {how}: status {status}, {len(output)} bytes of {len(wanted)}, {messages[:200]}", file=sys.stderr)
    return not wrong


def main():
    global LESS
    program = begin(parser_of(__doc__)).program
    LESS = 1 if is_proved(program) else 10
    if run_in_parts([sys.executable, "-c", IS_SHORT], "/", None)[0] != 1:
        sys.exit("no write is cut short here")
    whole = [records_at_one_place, many_sequences, reversed_records, out_of_order, regions, long_lines, long_file_lines, long_names,
             rows_of_each_length, long_bases, many_short_bases, long_headers, long_rows, pairs]
    results = [is_right(program, *run) for kind in whole for run in kind()]
    for kind in long_prints, long_sequences:
        results += [is_right(program, *run, rooms=[*ROOMS, len(run[-1]) - 1]) for run in kind()]
    if not all(results):
        sys.exit(f"{results.count(False)} of {len(results)} runs of real sizes are wrong")
    print(f"all {len(results)} runs of real sizes print what they are to print")


if __name__ == "__main__":
    main()

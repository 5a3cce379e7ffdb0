#!/usr/bin/env python3
"""Runs random scripts while something goes wrong, and looks at what the program leaves.

    make build
    python3 scripts/test/fuzz.py build/bedkeep [--seed N] [--seconds N] [--count N]

Each script is random lines of all commands over small random files, some of them faulty. It is run once undisturbed, and a
script of edits, prints and regions of a merge alone is compared with a plain reference in this file. Then it is run again in one of these
ways, at random: with little memory, with an output whose reader goes away, on a full device, with a reader that is slow, with an
input that ends in the middle of a line, with a SIGTERM at some time.

What must hold each time: the exit status is that of the table for what happened; standard output is the beginning of what the
undisturbed run printed, and all of it if the status says so; each line of standard error is one that the program has; no run ends
by a signal but the one that was sent, or takes longer than ten seconds. After a line for which an allocation failed only whole
lines are asked for; and with so little memory that nothing was written at all, a run may not have been started.
"""

import collections
import os
import random
import re
import resource
import signal
import subprocess
import sys
import tempfile
import threading
import time

from trials import Wrong, begin, parser_of, require, stopped_after

# seconds that a run may take
LONGEST = 10
PAGE = 4096
# the status if the system's loader can't start a program
LOADER = 127
SEQUENCES = [("chr1", 200), ("chr2", 90), ("chr10", 0)]
NO_MEMORY = b"no memory"
LINE = re.compile(rb"line [0-9]+: [a-z][a-z' ]*\n|bedkeep: [^\n]+\n")
VIEWS = ["merge", "merge -d 3", "merge -c 1,2 -o count,max", "cluster", "complement", "complement -L", "genomecov -bg", "genomecov -bga",
         "genomecov -d", "intersect", "intersect -c", "intersect -v", "subtract", "subtract -A", "getfasta", "getfasta -tab", "merge -x", ""]


def main():
    words = parser_of(__doc__)
    words.add_argument("--seed", type=int, default=1)
    words.add_argument("--seconds", type=float, default=20, help="stop after this time")
    words.add_argument("--count", type=int, default=10**9, help="stop after so many scripts")
    wanted = begin(words)
    end, done, ends = time.monotonic() + wanted.seconds, 0, collections.Counter()
    with tempfile.TemporaryDirectory() as folder:
        while done < wanted.count and time.monotonic() < end:
            chance = random.Random(f"{wanted.seed} {done}")
            try:
                ends[disturb(wanted.program, folder, chance)] += 1
            except Wrong as wrong:
                sys.exit(f"seed {wanted.seed}, script {done}: {wrong}")
            done += 1
    print(f"fuzz: {done} scripts from seed {wanted.seed}, disturbed, and none left anything wrong")
    print("  how they ended: " + ", ".join(f"{name} {status} ({count})" for (name, status), count in sorted(ends.items())))


class Case:
    """A script over files, and what an undisturbed run of it leaves."""

    def __init__(self, program, folder, chance, most):
        plain = chance.random() < 0.4
        records, lines = (1, most * 20) if plain else (most * 10, 120)
        self.script = b"".join(line + b"\n" for line in (plain_lines(chance, lines) if plain else any_lines(chance, lines)))
        self.words = [program, "session", *write_files(folder, chance, records)]
        self.status, self.output, self.messages = self.run(self.script)
        require(self.status in (0, 1), f"an undisturbed run has status {self.status}: {self.messages[-200:]!r}")
        require((self.status == 1) == (self.messages != b""), "the status doesn't fit the messages")
        if plain:
            require((self.output, self.messages) == reference(self.script), f"the reference differs on {self.script!r}")

    def start(self, **given):
        return subprocess.Popen(self.words, stdin=subprocess.PIPE, stderr=subprocess.PIPE, **given)

    def run(self, script, **given):
        """Status, output and messages of a run that gets this script."""
        return finish(self.start(stdout=subprocess.PIPE, **given), script)


def finish(process, script):
    try:
        output, messages = process.communicate(script, timeout=LONGEST)
    except subprocess.TimeoutExpired:
        process.kill()
        process.communicate()
        raise Wrong("a run hangs")
    require(LINE.sub(b"", messages) == b"", f"standard error has a line of no kind: {messages[-300:]!r}")
    return process.returncode, output, messages


# ------------------------------------------------------------------ what goes wrong


def disturb(program, folder, chance):
    """Runs a script, and then once more while something goes wrong: what it was, and the status."""
    way = chance.choice([little_memory, reader_gone, full_device, slow_reader, input_cut, killed])
    case = Case(program, folder, chance, most=300 if way is little_memory else 4)
    return way.__name__, way(case, chance)


def little_memory(case, chance):
    enough = least_memory(case)
    status, output, messages = run_within(case, enough - chance.randrange(1, 60) * PAGE)
    if status == LOADER:
        return status
    require(status in (0, 1, 5), f"little memory: status {status}")
    if status == 5:
        require(messages.endswith(b"bedkeep: no memory\n"), "little memory: no line says so")
    elif NO_MEMORY not in messages:
        require((status, output, messages) == (case.status, case.output, case.messages), "little memory: another answer")
    require(output == b"" or output.endswith(b"\n"), "little memory: a part of a line")
    return status


def least_memory(case):
    """The least bytes of memory with which the script runs as if undisturbed, or nearly so."""
    low, high = 0, 64 * 1024 * 1024
    while high - low > PAGE:
        middle = (low + high) // 2
        if run_within(case, middle) == (case.status, case.output, case.messages):
            high = middle
        else:
            low = middle
    return high


def run_within(case, most):
    """A run with so many bytes of memory. LOADER if the system has too few to start the program."""
    process = case.start(stdout=subprocess.PIPE, preexec_fn=lambda: resource.setrlimit(resource.RLIMIT_AS, (most, most)))
    output, messages = process.communicate(case.script, timeout=LONGEST)
    if process.returncode == LOADER or process.returncode == -signal.SIGSEGV and messages == b"":
        return LOADER, b"", b""
    require(not LINE.sub(b"", messages), f"little memory: a line of no kind: {messages[-300:]!r}")
    return process.returncode, output, messages


def reader_gone(case, chance):
    read, write = os.pipe()
    process = case.start(stdout=write)
    os.close(write)
    at = chance.randrange(len(case.script))
    process.stdin.write(case.script[:at])
    process.stdin.flush()
    time.sleep(0.01)
    os.close(read)
    status, _, messages = finish(process, case.script[at:])
    if status == 4:
        require(messages.endswith(b"bedkeep: output cannot be written\n"), "a reader gone: no line says so")
        require(case.messages.startswith(messages[: messages.rindex(b"bedkeep")]), "a reader gone: other messages")
    else:
        require((status, messages) == (case.status, case.messages), f"a reader gone: status {status}")
    return status


def full_device(case, chance):
    with open("/dev/full", "wb") as device:
        status, _, messages = finish(case.start(stdout=device), case.script)
    if case.output:
        require(status == 4 and messages.endswith(b"bedkeep: output cannot be written\n"), f"a full device: status {status}")
    else:
        require((status, messages) == (case.status, case.messages), f"a full device and no output: status {status}")
    return status


def slow_reader(case, chance):
    process = case.start(stdout=subprocess.PIPE)
    feeder = threading.Thread(target=feed, args=(process, case.script, chance.randrange(1, 400), 0.0005))
    feeder.start()
    output = b""
    with stopped_after(LONGEST, process):
        while piece := os.read(process.stdout.fileno(), chance.randrange(1, 300)):
            output += piece
            time.sleep(0.0003)
    feeder.join()
    process.stdin = None
    status, _, messages = finish(process, None)
    require((status, output, messages) == (case.status, case.output, case.messages), "a slow reader: another answer")
    return status


def input_cut(case, chance):
    at = chance.randrange(len(case.script) + 1)
    cut = case.script[:at]
    status, output, messages = case.run(cut)
    require(status in (0, 1), f"a cut input: status {status}")
    _, before, told = case.run(cut[: cut.rfind(b"\n") + 1])
    require(case.output.startswith(before) and output.startswith(before), "a cut input: lines before it print something else")
    require(case.messages.startswith(told) and messages.startswith(told), "a cut input: lines before it have other messages")
    return status


def killed(case, chance):
    process = case.start(stdout=subprocess.PIPE)
    feeder = threading.Thread(target=feed, args=(process, case.script, chance.randrange(1, 200), 0.001))
    feeder.start()
    timer = threading.Timer(chance.random() * 0.05, process.terminate)
    timer.start()
    with stopped_after(LONGEST, process):
        output = process.stdout.read()
        messages = process.stderr.read()
        status = process.wait()
    timer.join()
    feeder.join()
    require(status in (case.status, -signal.SIGTERM), f"killed: status {status}")
    require(case.output.startswith(output) and case.messages.startswith(messages), "killed: another beginning")
    if status == case.status:
        require((output, messages) == (case.output, case.messages), "killed too late: another answer")
    return status


def feed(process, script, size, seconds):
    """Gives the script in pieces of this size."""
    try:
        for at in range(0, len(script), size):
            process.stdin.write(script[at : at + size])
            process.stdin.flush()
            time.sleep(seconds)
        process.stdin.close()
    except (BrokenPipeError, OSError):
        pass


# ------------------------------------------------------------------ files and scripts


def write_files(folder, chance, records):
    """Writes a genome file, two BED files, the first of fewer than so many records, and a FASTA file. The options that name some of them."""
    def path(name, text):
        place = os.path.join(folder, name)
        with open(place, "w") as file:
            file.write(text)
        return place

    def rows(most):
        return "".join("\t".join(record(chance)) + "\n" for _ in range(chance.randrange(most)))

    words = ["-g", path("sizes", "".join(f"{name}\t{length}\n" for name, length in SEQUENCES))]
    words += ["-i", path("first.bed", rows(records))]
    if chance.random() < 0.8:
        words += ["-b", path("second.bed", rows(30))]
    if chance.random() < 0.5:
        bases = (f">{name}\n{''.join(chance.choice('ACGTN') for _ in range(length))}\n" for name, length in SEQUENCES[:2])
        words += ["-fi", path("bases.fa", "".join(bases))]
    return words


def record(chance):
    """The columns of a record, mostly a sound one."""
    name, length = chance.choice(SEQUENCES[:2])
    start = chance.randrange(length - 1)
    stop = min(length, start + chance.randrange(1, 30))
    return name, str(start), str(stop)


def region(chance):
    """The three fields of a region, mostly a sound one, of one position or of many."""
    name, start, stop = record(chance)
    if chance.random() < 0.2:
        return chance.choice([*(name for name, _ in SEQUENCES), "chr3"]), chance.choice([start, "", "x"]), chance.choice([stop, "0", "91", "1e9"])
    return name, start, chance.choice([stop, str(int(start) + 1), str(dict(SEQUENCES)[name])])


def any_lines(chance, most):
    """Lines of all commands."""
    for _ in range(chance.randrange(1, most)):
        yield any_line(chance).encode()


def any_line(chance):
    name = chance.choice("abcdef")
    columns = "\t".join(record(chance))
    return chance.choice([
        lambda: f"add\t{columns}", lambda: f"add\t{columns}", lambda: f"remove\t{columns}",
        lambda: f"replace\t{columns}\t" + "\t".join(record(chance)), lambda: f"addb\t{columns}", lambda: f"removeb\t{columns}",
        lambda: f"replaceb\t{columns}\t" + "\t".join(record(chance)), lambda: f"resize\tchr{chance.randrange(4)}\t{chance.randrange(260)}",
        lambda: f"open\t{name}\t{chance.choice(VIEWS)}", lambda: f"open\t{name}\t{chance.choice(VIEWS)}", lambda: f"print\t{name}",
        lambda: f"print\t{name}", lambda: "printall", lambda: f"show\t{name}\t" + "\t".join(region(chance)), lambda: "showall\t" + "\t".join(region(chance)),
        lambda: f"close\t{name}", lambda: "# a note", lambda: "",
        lambda: f"add\tchr1\t{chance.choice(['-1', '5', 'x'])}\t{chance.choice(['5', '999', ''])}", lambda: "paint\ta",
    ])()


def plain_lines(chance, most):
    """Lines of `add` and `remove`, and prints of a merge and of its regions, over an empty track."""
    yield b"# plain"
    yield b"open\tm\tmerge"
    kept = []
    for _ in range(chance.randrange(1, most)):
        at = chance.random()
        if at < 0.5:
            kept.append("\t".join(record(chance)))
            yield f"add\t{kept[-1]}".encode()
        elif at < 0.7:
            yield f"remove\t{chance.choice(kept) if kept and chance.random() < 0.8 else 'chr2	1	2'}".encode()
        elif at < 0.8:
            yield f"add\tchr{chance.randrange(4)}\t{chance.randrange(40)}\t{chance.choice([3, 20, 90, 91, 201])}".encode()
        elif at < 0.9:
            yield "\t".join([chance.choice(["show\tm"] * 5 + ["show\tn", "showall"]), *region(chance)]).encode()
        else:
            yield b"print\tm"


# ------------------------------------------------------------------ a plain reference


def reference(script):
    """What a script of plain lines prints, and its messages, over an empty track."""
    records, output, messages = [], [], []
    ranks = {name: rank for rank, (name, _) in enumerate(SEQUENCES)}
    for number, line in enumerate(script.decode().splitlines(), 1):
        word, *fields = line.split("\t")
        if word == "print":
            output += map(row_text, merged(records))
            continue
        if word in ("show", "showall"):
            why = region_fault(word, fields)
            if why is not None:
                messages.append(f"line {number}: {why}\n")
                continue
            output += ["#m\n"] if word == "showall" else []
            output += map(row_text, in_region(merged(records), *fields[-3:]))
            continue
        if word not in ("add", "remove"):
            continue
        why = fault(fields, ranks)
        row = (ranks[fields[0]], int(fields[1]), int(fields[2])) if why is None else None
        if why is None and word == "remove" and row not in records:
            why = "no such record"
        if why is not None:
            messages.append(f"line {number}: {why}\n")
        elif word == "add":
            records.append(row)
        else:
            records.remove(row)
    return "".join(output).encode(), "".join(messages).encode()


def fault(fields, ranks):
    """Why the columns are no record."""
    name, start, stop = fields
    if name not in ranks:
        return "unknown sequence"
    if int(start) >= int(stop):
        return "start not below end"
    return "end past the sequence's end" if int(stop) > SEQUENCES[ranks[name]][1] else None


def region_fault(word, fields):
    """Why the fields after a command are no region of the view m."""
    name, start, stop = fields[-3:]
    if word == "show" and fields[0] != "m":
        return "no such view"
    for text, what in (start, "start"), (stop, "end"):
        if not re.fullmatch("[0-9]{1,10}", text):
            return f"{what} is not a number"
    if int(start) >= int(stop):
        return "start not below end"
    if name not in dict(SEQUENCES):
        return "unknown sequence"
    return "end past the sequence's end" if int(stop) > dict(SEQUENCES)[name] else None


def in_region(rows, name, start, stop):
    """The rows that share a position with a region."""
    positions = set(range(int(start), int(stop)))
    return [row for row in rows if row[0] == name and not positions.isdisjoint(range(row[1], row[2]))]


def row_text(row):
    return "\t".join(map(str, row)) + "\n"


def merged(records):
    """The rows of a merge, position by position: book-ended records are one block."""
    rows = []
    for rank, (name, length) in enumerate(SEQUENCES):
        joined = [False] * (length + 1)
        for _, start, stop in (row for row in records if row[0] == rank):
            for position in range(start, stop):
                joined[position] = True
        begun = None
        for position in range(length + 1):
            if joined[position] and begun is None:
                begun = position
            if not joined[position] and begun is not None:
                rows.append((name, begun, position))
                begun = None
    return rows


if __name__ == "__main__":
    main()

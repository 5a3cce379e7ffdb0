#!/usr/bin/env python3
"""Looks at how the built program's work grows: a body that is quadratic, or that gives up above some size, is seen here. It takes less
than a minute.

    scripts/test/growth.py build/bedkeep
    scripts/test/growth.py build/bedkeep --only deep          what has the word in its name

Each shape is run at a size n and at 4n. Twice as much work may take at most 2.6 times as long, so 4n at most 6.8 times as long as n: that
leaves room for noise of 30 % and for a logarithm, and none for a square. What is compared is the processor time above that of an empty run,
the least of five. The size n is found by doubling, until a run takes 20 ms: so no speed is asked for, on no machine. What takes too long is
measured again, up to five times, before it counts.

Sizes that have a limit near them are given, and there the rows are compared with rows that are made here, never by the program. Then the
calls that read are counted; each file is given as a named pipe; and the bytes that the program holds are measured.

Status 1 if something grows faster, or if a run fails, hangs or prints something else.
"""
import fcntl
import functools
import math
import os
import resource
import select
import subprocess
import sys
import tempfile
import threading
from pathlib import Path

from trials import Wrong, begin, parser_of, require, stopped_after

# Seconds of processor time that the smaller run of a shape takes, above those of an empty run.
FLOOR = 0.02
# How much longer twice as much work may take.
TWICE = 2.6
RUNS, SERIES = 5, 6
# Seconds of processor time that any run may take. A run that hangs takes none, and is stopped after some seconds of waiting.
MOST_SECONDS, MOST_WAITING = 60, 120
FIRST, LARGEST = 1_000, 500_000
# The five views of docs/BENCHMARKS.md.
FIVE_VIEWS = ["merge", "merge -d 100", "complement", "cluster", "genomecov -bg"]
# Views whose rows in a region take no more than what lies near it.
REGION_VIEWS = ["merge", "complement", "genomecov -bg", "intersect", "intersect -v", "intersect -c", "subtract", "records"]


def opens(views):
    return "".join(f"open\t{name}\t{view}\n" for name, view in zip("abcdefgh", views))


OPEN_FIVE = opens(FIVE_VIEWS)


# ------------------------------------------------------------------ files


def lines(form, rows):
    """Lines of one form, given without its LF, for rows of numbers."""
    return "".join(map(f"{form}\n".__mod__, rows))


def in_no_order(rows):
    """The same rows in another order, the same each time, in which hardly any follows the one before it."""
    count = len(rows)
    step = int(count * 0.618) | 1
    while math.gcd(step, count) > 1:
        step += 2
    return [rows[at * step % count] for at in range(count)]


def spread(size, past=0):
    """Intervals in order, 300 bases from one start to the next, of which one in ten reaches the next."""
    return [(start, start + (60 if start % 3_000 else 320)) for start in range(past, past + size * 300, 300)]


def genome(size):
    return f"big\t{size * 300 + 1_000}\n"


def bed(rows):
    return lines("big\t%d\t%d", rows)


def shuffled_file(size):
    return {"g": genome(size), "a": bed(in_no_order(spread(size))), "b": bed(in_no_order(spread(size, past=30)))}


def reversed_file(size):
    return {"g": genome(size), "a": bed(spread(size)[::-1]), "b": bed(spread(size, past=30)[::-1])}


def contigs(size):
    """A record on each of many sequences, in no order."""
    numbers = range(size)
    return {"g": lines("contig_%d\t900", numbers), "a": lines("contig_%d\t10\t500", in_no_order(numbers))}


def long_names(size):
    """The same with names of 64 bytes that differ only in the last seven."""
    name = "s" * 57 + "%07d"
    numbers = range(size)
    return {"g": lines(f"{name}\t900", numbers), "a": lines(f"{name}\t10\t500", in_no_order(numbers))}


# The fast hasher of the standard library: what it begins with, and what it multiplies by. It has a number for the length, and one for each
# byte.
HASH, MULTIPLIER = 0x243f6a8885a308d3, 0x9e3779b97f4a7c15
LOW = (1 << 64) - 1


def mixed(hashed, number, size):
    """The hash after a number of so many bytes."""
    product = (hashed ^ number) * (MULTIPLIER ^ 2 * size)
    return product & LOW ^ product >> 64


@functools.lru_cache
def colliding(count):
    """So many names of eight bytes. A map that hashes them in that way looks for all of them from its front on, and passes those that it has."""
    found, number = [], 0
    while len(found) < count:
        name = "%07d" % number
        hashed = mixed(HASH, 8, 8)
        for byte in name.encode():
            hashed = mixed(hashed, byte * 0x010101, 1)
        for last in range(33, 127):
            end = mixed(hashed, last * 0x010101, 1)
            if (end ^ end >> 32) % 16_384 < 256:
                found.append(name + chr(last))
        number += 1
    return found[:count]


def colliding_names(size):
    return {"g": "".join(f"{name}\t900\n" for name in colliding(size)), "a": ""}


def colliding_headers(size):
    return {"g": "big\t4\n", "a": "big\t1\t3\n", "f": "".join(f">{name}\nAC\n" for name in colliding(size)) + ">big\nACGT\n"}


def headers(size):
    """Many sequences of bases, in no order."""
    numbers = range(size)
    return {"g": lines("contig_%d\t4", numbers), "a": lines("contig_%d\t1\t3", numbers),
            "f": lines(">contig_%d of many\nACGT", in_no_order(numbers))}


def long_and_deep(size):
    """Beside spread records a second file with one that is as long as half of them, and with many at one place, which one record reaches."""
    place = size * 300
    deep = [(place + number % 100, place + 100 + number % 200) for number in range(size)]
    return {"g": genome(size), "a": bed([*spread(size), (place + 50, place + 60)]), "b": bed([(0, size * 150), *spread(size), *deep])}


def deep_in_both(size):
    """Records that overlap all those of the second file."""
    return {"g": genome(size), "a": bed((start, start + 2 * size) for start in range(size)),
            "b": bed((start, start + 2 * size + start % 7) for start in range(size))}


def nested(size):
    """Short records beside a second file whose records are each within the one before."""
    return {"g": genome(size), "a": bed((start, start + 1) for start in range(0, 2 * size, 2)),
            "b": bed((start, 2 * size - start) for start in range(size))}


def sorted_file(size):
    return {"g": genome(size), "a": bed(spread(size)), "b": bed(spread(size, past=30))}


def one_block(size):
    """Records each of which reaches the next."""
    return {"g": genome(size), "a": bed((start, start + 150) for start in range(0, size * 100, 100)), "b": ""}


def empty_files(size):
    return {"g": genome(size), "a": "", "b": ""}


def far_apart(size):
    """Records that don't reach one another."""
    return {"g": genome(size), "a": bed((start, start + 60) for start in range(0, size * 300, 300)), "b": ""}


def no_record(_):
    return {"g": "big\t1000\n", "a": ""}


# ------------------------------------------------------------------ scripts


def edits(word, rows):
    return lines(f"{word}\tbig\t%d\t%d", rows)


def prints(view):
    return lambda _: f"open\tv\t{view}\nprint\tv\n"


def edits_all_over(file):
    """Records all over the track, or the second file, that are added and removed again, in another order."""
    def script(size):
        rows = in_no_order([(start + 20, start + 90) for start, _ in spread(size)[::4]])
        return OPEN_FIVE + edits(f"add{file}", rows) + edits(f"remove{file}", rows[::-1]) + "printall\n"
    return script


def edits_and_prints(size):
    """Records within one block that are added, with a print after each. A block is printed at once, and takes long to be built again."""
    rows = in_no_order([(start + 20, start + 90) for start in range(0, size * 100, 1_000)])
    return "open\tv\tmerge\n" + lines("add\tbig\t%d\t%d\nprint\tv", rows)


def resizes(size):
    length = size * 300 + 1_000
    return OPEN_FIVE + lines("resize\tbig\t%d", range(length, length + size)) + "printall\n"


def shows(size):
    """Regions all over the track, in no order, with the rows that each view has there. `cluster` isn't among them: it counts all blocks before."""
    return opens(REGION_VIEWS) + lines("showall\tbig\t%d\t%d", in_no_order([(start, start + 500) for start, _ in spread(size)[::4]]))


def only_adds(place):
    """Records of a kind that are added to nothing."""
    return lambda size: OPEN_FIVE + edits("add", in_no_order(place(size))) + "printall\n"


def adds_and_removals(place):
    """Records of a kind that are added to nothing, and removed again, in another order."""
    def script(size):
        rows = in_no_order(place(size))
        return OPEN_FIVE + edits("add", rows) + edits("remove", rows[::-1]) + "printall\n"
    return script


def side_by_side(size):
    return [(3 * number, 3 * number + 2) for number in range(size)]


def tiled(size):
    return [(3 * number, 3 * number + 3) for number in range(size)]


def one_in_another(size):
    return [(number, 2 * size - number) for number in range(size)]


def copies(size):
    return [(10, 20)] * size


def reaching_adds(size):
    """Additions to every fourth of the records that are far apart, which then reach further."""
    return "open\tv\tmerge\n" + edits("add", in_no_order([(start + 20, start + 90) for start in range(0, size * 300, 1_200)])) + "print\tv\n"


def reaching_rows(size):
    return bed((start, start + (60 if start % 1_200 else 90)) for start in range(0, size * 300, 300))


def long_script_lines(size):
    """Lines of so many bytes: notes, and edits of records with long names, of which one is left."""
    names = [letter * (size - len("remove\tbig\t10\t20\t")) for letter in "abcdefgh"]
    notes = ["#" * size] * 32
    made = [f"{word}\tbig\t10\t20\t{name}" for word in ("add", "remove") for name in names]
    return "\n".join([*notes, *made, f"add\tbig\t10\t20\t{long_name(size)}", "open\tv\trecords", "print\tv", ""])


def long_name(size):
    return "n" * (size - len("add\tbig\t10\t20\t"))


def long_script_rows(size):
    return f"big\t10\t20\t{long_name(size)}\n"


# ------------------------------------------------------------------ shapes

SESSION = "session -g g -i a -b b"


class Shape:
    """Arguments, and what files and script are at a size. If a size is given, it is not sought, and the rows of the larger run may be given too."""

    def __init__(self, name, arguments, files, script=None, size=None, times=4, rows=None):
        self.name, self.arguments, self.files, self.script = name, arguments, files, script
        self.size, self.times, self.rows = size, times, rows

    def most(self):
        """How much longer the larger run may take."""
        return TWICE ** math.log2(self.times)


def of_two_files(name, files):
    """Runs and sessions of views of two files. `intersect` has a row for each pair, so it comes only where there are few."""
    for view in ["intersect"] * (files is long_and_deep) + ["intersect -c", "intersect -u", "subtract"]:
        yield Shape(f"{name}: {view}", f"{view} -g g -a a -b b", files)
        yield Shape(f"{name}: session {view}", SESSION, files, prints(view))


SHAPES = [
    Shape("shuffled file: merge", "merge -g g -i a", shuffled_file),
    Shape("shuffled file: cluster", "cluster -g g -i a", shuffled_file),
    Shape("shuffled file: intersect", "intersect -g g -a a -b b", shuffled_file),
    Shape("shuffled file: session records", SESSION, shuffled_file, prints("records")),
    Shape("reversed file: merge", "merge -g g -i a", reversed_file),
    Shape("reversed file: cluster", "cluster -g g -i a", reversed_file),
    Shape("reversed file: subtract", "subtract -g g -a a -b b", reversed_file),
    Shape("reversed file: session records", SESSION, reversed_file, prints("records")),
    Shape("contigs in no order: merge", "merge -g g -i a", contigs),
    Shape("contigs in no order: session cluster", "session -g g -i a", contigs, prints("cluster")),
    Shape("long names: merge", "merge -g g -i a", long_names),
    Shape("names that collide: merge", "merge -g g -i a", colliding_names, size=16_000),
    Shape("headers that collide: getfasta", "getfasta -g g -bed a -fi f", colliding_headers, size=16_000),
    Shape("headers in no order: getfasta", "getfasta -g g -bed a -fi f", headers),
    *of_two_files("a long record and a deep place", long_and_deep),
    *of_two_files("deep in both", deep_in_both),
    *of_two_files("nested", nested),
    Shape("edits all over", SESSION, sorted_file, edits_all_over("")),
    Shape("edits all over the second file", SESSION, sorted_file, edits_all_over("b")),
    Shape("edits and prints", SESSION, one_block, edits_and_prints),
    Shape("shows all over", SESSION, sorted_file, shows),
    Shape("resizes", SESSION, sorted_file, resizes),
    Shape("adds at one place", SESSION, empty_files, only_adds(side_by_side)),
    Shape("removals at one place", SESSION, empty_files, adds_and_removals(side_by_side)),
    Shape("adds that tile", SESSION, empty_files, only_adds(tiled)),
    Shape("removals that tile", SESSION, empty_files, adds_and_removals(tiled)),
    Shape("nested adds", SESSION, empty_files, only_adds(one_in_another)),
    Shape("nested removals", SESSION, empty_files, adds_and_removals(one_in_another)),
    Shape("adds of copies", SESSION, empty_files, only_adds(copies)),
    Shape("removals of copies", SESSION, empty_files, adds_and_removals(copies)),
    Shape("a session above 1,000,000 records", SESSION, far_apart, reaching_adds, size=63_125, times=16, rows=reaching_rows),
    Shape("script lines of 1,048,576 bytes", "session -g g -i a -width 4", no_record, long_script_lines, size=262_144, rows=long_script_rows),
]


# ------------------------------------------------------------------ runs


class Runs:
    """Runs of a program, in folders with files."""

    def __init__(self, program, folder):
        self.program = program
        self.folder = Path(folder)
        # Processor time of an empty run.
        self.empty = 0
        self.write("empty", {"g": "big\t10\n", "a": "", "b": ""})
        self.empty = min(self.run(SESSION, "empty")[0] for _ in range(RUNS))

    def write(self, name, files):
        """Writes files into a folder of this name."""
        folder = self.folder / name
        folder.mkdir(exist_ok=True)
        for file, text in files.items():
            (folder / file).write_bytes(text if isinstance(text, bytes) else text.encode())
        return folder

    def write_shape(self, shape, size):
        """The folder of a shape at a size. Its files, but not its script, stay for other shapes that have the same."""
        name = f"{shape.files.__name__} {size}"
        if not (self.folder / name).exists():
            self.write(name, shape.files(size))
        self.write(name, {"script": shape.script(size) if shape.script else ""})
        return name

    def start(self, arguments, folder, **given):
        process = subprocess.Popen([self.program, *arguments.split()], cwd=folder, **given)
        resource.prlimit(process.pid, resource.RLIMIT_CPU, (MOST_SECONDS, MOST_SECONDS))
        return process

    def run(self, arguments, name, rows=None):
        """Seconds of processor time, above those of an empty run, and calls that read, of a run that must do all and print these rows."""
        folder = self.folder / name
        script, output = folder / "script", os.devnull if rows is None else folder / "rows"
        with open(script if script.exists() else os.devnull, "rb") as given, open(output, "wb") as printed, tempfile.TemporaryFile() as said:
            process = self.start(arguments, folder, stdin=given, stdout=printed, stderr=said)
            with stopped_after(MOST_WAITING, process):
                os.waitid(os.P_PID, process.pid, os.WEXITED | os.WNOWAIT)
            calls = reads_of(process.pid)
            _, status, used = os.wait4(process.pid, 0)
            process.returncode = os.waitstatus_to_exitcode(status)
            said.seek(0)
            messages = said.read(200)
        # The system has the sum of both exactly, and only estimates which part of it was its own.
        seconds = used.ru_utime + used.ru_stime
        require((process.returncode, messages) == (0, b""),
                f"`{arguments}` ends with status {process.returncode} after {seconds:.1f} s of processor time: {messages.decode()}")
        require(rows is None or output.read_bytes() == rows.encode(), f"`{arguments}` prints other rows")
        return seconds - self.empty, calls

    def least(self, arguments, name, enough=0):
        """The least seconds of some runs. No more are made once they are few enough, or twice too many."""
        least = math.inf
        for _ in range(RUNS):
            least = min(least, self.run(arguments, name)[0])
            if enough and not enough < least < 2 * enough:
                break
        return least


def reads_of(process):
    """How many calls that read a process has made. It has ended, and nobody has waited for it."""
    with open(f"/proc/{process}/io", encoding="ascii") as file:
        return int(dict(line.split(":") for line in file)["syscr"])


def look_at(runs, shape):
    """Requires that a shape takes in proportion; says what it takes."""
    small = find_size(runs, shape)
    size, folder = shape.size, runs.write_shape(shape, shape.size)
    larger = runs.write_shape(shape, shape.times * size)
    if shape.rows:
        runs.run(shape.arguments, larger, rows=shape.rows(shape.times * size))
    for _ in range(SERIES):
        small = runs.least(shape.arguments, folder)
        large = runs.least(shape.arguments, larger, enough=shape.most() * small)
        if large <= shape.most() * small:
            break
    took = f"{size:,} in {small * 1000:.0f} ms, {shape.times * size:,} in {large * 1000:.0f} ms: {large / small:.1f} times"
    require(large <= shape.most() * small, f"{took}, and may be {shape.most():.1f} times")
    return took


def find_size(runs, shape):
    """Finds the size at which a run takes long enough, unless it is given. The seconds that it took."""
    if shape.size:
        return runs.run(shape.arguments, runs.write_shape(shape, shape.size))[0]
    shape.size = FIRST
    while True:
        seconds = runs.run(shape.arguments, runs.write_shape(shape, shape.size))[0]
        if seconds >= FLOOR or shape.size >= LARGEST:
            return seconds
        shape.size *= 2 if seconds > FLOOR / 3 else 4


# ------------------------------------------------------------------ how files are read


def files_of_all_kinds(size):
    """A genome file, both BED files, and a FASTA file, and a script that prints views of each, with its rows."""
    length = size * 300 + 1_000
    rows = [(start, start + 60) for start in range(0, size * 300, 300)]
    files = {"g": f"big\t{length}\n" + lines("contig_%d\t900", range(size)), "a": bed(rows), "b": bed((start + 60, stop + 60) for start, stop in rows),
             "f": f">big\n{'A' * length}\n", "script": "# a note\n" * size + "open\tr\trecords\nopen\tv\tintersect -v\nopen\tf\tgetfasta -tab\nprintall\n"}
    bases = lines(f"big:%d-%d\t{'A' * 60}", rows)
    return files, f"#r\n{bed(rows)}#v\n{bed(rows)}#f\n{bases}"


ALL_FILES = "session -g g -i a -b b -fi f"


def few_calls(runs):
    """Files and script are read in pieces of 4 KiB or more."""
    files, rows = files_of_all_kinds(50_000)
    folder = runs.write("calls", files)
    _, calls = runs.run(ALL_FILES, "calls", rows=rows)
    size = sum((folder / file).stat().st_size for file in files)
    require(calls <= size / 4_096 + 100, f"{calls:,} calls read {size:,} bytes")
    return f"{calls:,} calls read {size:,} bytes"


def named_pipes(runs):
    """Each file, and then all, may be a named pipe that is opened once, and read to its end."""
    files, rows = files_of_all_kinds(4_000)
    for piped in ["g", "a", "b", "f", "gabf"]:
        folder = runs.write(f"pipes {piped}", {file: text for file, text in files.items() if file not in piped})
        for file in piped:
            os.mkfifo(folder / file)
        writers = [threading.Thread(target=give, args=(folder / file, files[file].encode())) for file in piped]
        for writer in writers:
            writer.start()
        try:
            runs.run(ALL_FILES, folder.name, rows=rows)
        finally:
            # A writer waits for as long as nobody opens its pipe.
            for file in piped:
                os.close(os.open(folder / file, os.O_RDONLY | os.O_NONBLOCK))
            for writer in writers:
                writer.join()
    return "each file may be one"


def give(path, text):
    try:
        with open(path, "wb") as file:
            file.write(text)
    except BrokenPipeError:
        pass


# ------------------------------------------------------------------ memory


def one_long_name(size):
    """Lines that are long beside what is held of them."""
    name = "s" * 300
    return {"g": f"{name}\t{size * 300 + 1_000}\n", "a": lines(f"{name}\t%d\t%d", spread(size))}


def one_sequence(size):
    return {"g": genome(size), "a": bed(spread(size))}


def moved_to_the_end(size):
    """Nine records in ten are removed, and as many others added in the last tenth of the sequence; of these too, three times in all."""
    script, rows, end = "", spread(size), size * 270
    for _ in range(3):
        gone = [row for number, row in enumerate(rows) if number % 10]
        rows = [(start, start + 20) for start in range(end, end + len(gone) * 11, 11)]
        script, end = script + edits("remove", gone) + edits("add", rows), rows[-1][1]
    return script + prints("records")(size)


def added_in_no_order(size):
    return edits("add", in_no_order(side_by_side(size))) + prints("records")(size)


def named(size):
    """Records of four columns with long names."""
    return {"g": genome(size), "a": lines(f"big\t%d\t%d\t{'a' * 60}", spread(size))}


def renamed(size):
    """Each record gets another name three times; the view is opened after that."""
    names = [letter * 60 for letter in "abcd"]
    renames = (f"replace\tbig\t{start}\t{stop}\t{old}\tbig\t{start}\t{stop}\t{new}\n"
               for old, new in zip(names, names[1:]) for start, stop in spread(size))
    return "".join(renames) + prints("records")(size)


def mostly_unknown_bases(size):
    """So many bytes of bases, a tenth of them of a sequence of the genome."""
    known = size // 10
    return {"g": f"big\t{known}\n", "a": "big\t0\t10\n", "f": f">other\n{'C' * (size - known)}\n>big\n{'A' * known}\n"}


def mostly_unnamed_bases(size):
    """So many bytes of bases of the genome's sequences, hardly any of one that a record is on."""
    known = size // 100
    return {"g": f"other\t{size - known}\nbig\t{known}\n", "a": lines("big\t%d\t%d\tn\t0\t+", [(start, start + 10) for start in range(0, 10_000)]),
            "f": f">other\n{'C' * (size - known)}\n>big\n{'A' * known}\n"}


# The most bytes that may be held for each record or byte: 30 to 80 % more than are held, and far fewer than a text that is kept.
MEMORY = [
    ("a run of merge", "merge -g g -i a", one_long_name, None, "VmHWM", 21),
    ("a run of cluster", "cluster -g g -i a", one_long_name, None, "VmHWM", 21),
    ("a session", "session -g g -i a", one_long_name, prints("records"), "VmHWM", 45),
    ("a session with merge", "session -g g -i a", one_long_name, prints("merge"), "VmHWM", 60),
    ("a session that removes and adds", "session -g g -i a", one_sequence, moved_to_the_end, "VmHWM", 66),
    ("a session that adds in no order", SESSION, empty_files, added_in_no_order, "VmHWM", 27),
    ("a run of cluster with names", "cluster -g g -i a", named, None, "VmHWM", 106),
    ("a session that renames and then opens a view", "session -g g -i a", named, renamed, "VmRSS", 132),
    ("bases that no record can name", "session -g g -i a -fi f", mostly_unknown_bases, prints("getfasta"), "VmRSS", 0.2),
    ("bases that no record of a run names", "getfasta -g g -bed a -fi f", mostly_unnamed_bases, None, "VmHWM", 0.05),
]


def held(runs, arguments, folder, what):
    """Bytes that a run holds, or has held at most, once it has begun to print."""
    # A small pipe keeps a run from its end.
    reader, writer = os.pipe()
    fcntl.fcntl(writer, fcntl.F_SETPIPE_SZ, 4_096)
    with open(reader, "rb", buffering=0) as rows, runs.start(arguments, folder, stdin=subprocess.PIPE, stdout=writer, bufsize=0) as process:
        os.close(writer)
        process.stdin.write((folder / "script").read_bytes())
        is_heard = select.select([rows], [], [], MOST_WAITING)[0] and rows.read(1)
        if not is_heard:
            process.kill()
        require(is_heard, f"`{arguments}` prints nothing")
        with open(f"/proc/{process.pid}/status", encoding="ascii") as file:
            found = [line.split()[1] for line in file if line.startswith(f"{what}:")]
        process.kill()
    require(found, f"`{arguments}` ends too early")
    return int(found[0]) * 1_024


def memory(runs):
    """Bytes held for each record, or byte, beyond some."""
    found = []
    for name, arguments, files, script, what, most in MEMORY:
        small, large = (2_000_000, 22_000_000) if files in (mostly_unknown_bases, mostly_unnamed_bases) else (20_000, 120_000)
        sizes = [held(runs, arguments, runs.write(f"{name} {size}", {**files(size), "script": script(size) if script else ""}), what)
                 for size in (small, large)]
        each = (sizes[1] - sizes[0]) / (large - small)
        found.append(f"{name}: {each:.2f}")
        require(each <= most, f"{name} holds {each:.2f} bytes for each, and may hold {most}")
    return "; ".join(found)


CHECKS = [("calls that read", few_calls), ("named pipes", named_pipes), ("bytes held for each record or byte", memory)]


def main():
    words = parser_of(__doc__)
    words.add_argument("--only", default="", help="what has this word in its name")
    wanted = begin(words)
    checks = [*((shape.name, lambda runs, shape=shape: look_at(runs, shape)) for shape in SHAPES), *CHECKS]
    checks = [check for check in checks if wanted.only in check[0]]
    failed = 0
    with tempfile.TemporaryDirectory() as folder:
        runs = Runs(wanted.program, folder)
        for name, check in checks:
            try:
                print(f"{name}: {check(runs)}", flush=True)
            except Wrong as wrong:
                failed += 1
                print(f"{name}: {wrong}", file=sys.stderr, flush=True)
    if failed or not checks:
        sys.exit(f"{failed} of {len(checks)} shapes and checks are wrong")
    print(f"all {len(checks)} shapes and checks grow as they may")


if __name__ == "__main__":
    main()

#!/usr/bin/env python3
"""Times a view printed by bedkeep, in a session or alone, beside bedtools with the same words.

    make build
    python3 scripts/bench/views.py [FOLDER] [--view WORDS ..] [--records N ..] [--columns N ..] [--order WORD ..]

Writes genome and BED files into FOLDER (a temporary folder if none is
given), the same bytes each time: a file for each number of records, each
number of columns and each order asked for, and what is there already is used again. Runs both programs in turn over
each, with standard output thrown away, and prints the least and the median
time of each, their ratios, and the most memory that each held. A shuffled
file is sorted by `bedtools sort` in front of the command. Before that both
outputs are compared; if they differ the script stops with status 1.
`genomecov -d` runs over one sequence, of 250 bases for each record.
Intersect and subtract take a second file of `--second` records, with `-sorted`
on the side of bedtools; with `--long` one more record of it covers all of chr1,
with `--long-first` one more record of the first file.
With `--alone` bedkeep runs the one subcommand, and else a session that opens the view and prints it.
With `--limit` the program `limit.rs` beside this script is compiled (by `rustc`) and runs in turn with them: how fast a program could
be that promises nothing, except that it prints no row before the last byte was read. It has `merge`, and alone also `cluster`,
`intersect` and `subtract`, of sorted files of three or six columns.
"""

import argparse
import contextlib
import hashlib
import itertools
import multiprocessing
import os
import platform
import random
import shlex
import shutil
import statistics
import subprocess
import sys
import tempfile
import time

TOP = os.path.dirname(os.path.dirname(os.path.dirname(os.path.abspath(__file__))))
SEED = 20
MACHINE = f"{os.cpu_count()} processors, {platform.machine()}"
LIMIT = os.path.join(TOP, "scripts", "bench", "limit.rs")
LIMIT_VIEWS = ("merge", "cluster", "intersect", "subtract")
VIEWS = ["merge", "merge -d 100", "complement", "cluster", "merge -c 4 -o collapse", "merge -c 5 -o sum", "merge -c 1,2 -o count,max", "genomecov -bg", "genomecov -bga", "genomecov -d",
         "intersect", "intersect -u", "intersect -v", "intersect -c", "intersect -wa", "intersect -wb", "intersect -wa -wb", "subtract", "subtract -A", "records"]
TWO_FILES = ("intersect", "subtract")
CHROMOSOMES = [
    ("chr1", 249250621), ("chr2", 243199373), ("chr3", 198022430), ("chr4", 191154276),
    ("chr5", 180915260), ("chr6", 171115067), ("chr7", 159138663), ("chr8", 146364022),
    ("chr9", 141213431), ("chr10", 135534747), ("chr11", 135006516), ("chr12", 133851895),
    ("chr13", 115169878), ("chr14", 107349540), ("chr15", 102531392), ("chr16", 90354753),
    ("chr17", 81195210), ("chr18", 78077248), ("chr19", 59128983), ("chr20", 63025520),
    ("chr21", 48129895), ("chr22", 51304566), ("chrX", 155270560), ("chrY", 59373566),
]


def main():
    wanted = read_words()
    version = subprocess.run(["bedtools", "--version"], capture_output=True, text=True).stdout.strip()
    print(f"{wanted.runs} runs each, {version}, {MACHINE}")
    print("| view | records | columns | order | bedkeep | bedtools | ratio of medians | bedkeep's bytes a record | bedtools' | limit | its ratio |")
    print("|---|---|---|---|---|---|---|---|---|---|---|")
    with folder_of(wanted) as folder:
        if wanted.limit:
            compile_limit(os.path.join(folder, "limit"))
        for case in itertools.product(wanted.view, wanted.records, wanted.columns, wanted.order):
            run_case(wanted, folder, *case)


def run_case(wanted, folder, view, records, columns, order):
    name = f"{records}_{columns}_{order}{'_one' if view == 'genomecov -d' else ''}"
    genome, track, script = (os.path.join(folder, f"{name}.{ending}") for ending in ("sizes", "bed", "script"))
    second = os.path.join(folder, "second.bed")
    if not os.path.exists(track):
        in_own_process(write_data, genome, track, view, records, columns, order, wanted.long_first)
    write_script(script, view)
    beside = ["-b", second] if view.startswith(TWO_FILES) else []
    if beside and not os.path.exists(second):
        in_own_process(write_second, second, wanted.second, wanted.long)
    # each program: its words, and the file that is its standard input
    programs = {
        "bedkeep": bedkeep_run(wanted, view, genome, track, beside, script),
        "bedtools": (["sh", "-c", bedtools_line(view, genome, track, second, order)], os.devnull),
    }
    if wanted.limit and order == "sorted" and columns in (3, 6) and view in (LIMIT_VIEWS if wanted.alone else ("merge",)):
        kind = view if wanted.alone else "session"
        programs["limit"] = [os.path.join(folder, "limit"), kind, genome, track, *beside[1:]], os.devnull
    compare(settled(programs) if view == "records" else programs)
    report(view, records, columns, order, *measure(programs, wanted.runs))


def compile_limit(program):
    flags = ["--edition", "2021", "-C", "opt-level=3", "-C", "panic=abort", "-C", "codegen-units=1", "-C", "target-cpu=x86-64-v2"]
    subprocess.run(["rustc", *flags, "-o", program, LIMIT], check=True)


def in_own_process(write, *words):
    """Writes in a process of its own, so that this one stays small: a child begins with the memory of its parent."""
    writer = multiprocessing.get_context("spawn").Process(target=write, args=words)
    writer.start()
    writer.join()


def bedkeep_run(wanted, view, genome, track, beside, script):
    """The words of bedkeep for a view of a track, and the file that is its standard input."""
    if not wanted.alone:
        return [wanted.program, "session", "-g", genome, "-i", track, *beside], script
    first = "-a" if beside else "-i"
    return [wanted.program, *view.split(), "-g", genome, first, track, *beside], os.devnull


def bedtools_line(view, genome, track, second, order):
    """The command of bedtools for a view of a track."""
    if view == "records":
        return f"bedtools sort -g {genome} -i {track}"
    sort, track = ("", track) if order == "sorted" else (f"bedtools sort -i {track} | ", "-")
    if view.startswith(TWO_FILES):
        return f"{sort}bedtools {view} -sorted -a {track} -b {second}"
    sizes = f" -g {genome}" if view.startswith(("complement", "genomecov")) else ""
    return f"{sort}bedtools {view} -i {track}{sizes}"


def read_words():
    words = parser_of(__doc__, runs=7)
    words.add_argument("--view", nargs="+", choices=VIEWS, default=["merge"])
    words.add_argument("--records", type=int, nargs="+", default=[1_000_000])
    words.add_argument("--columns", type=int, nargs="+", choices=[3, 4, 5, 6], default=[3])
    words.add_argument("--second", type=int, default=200_000, help="records of the second file")
    words.add_argument("--long", action="store_true", help="one more record of the second file covers all of chr1")
    words.add_argument("--long-first", action="store_true", help="one more record of the first file covers all of chr1")
    words.add_argument("--alone", action="store_true", help="a run of the one subcommand instead of a session")
    words.add_argument("--limit", action="store_true", help="the limit program beside them")
    words.add_argument("--order", nargs="+", choices=["sorted", "shuffled"], default=["sorted"])
    return begin(words, "bedtools")


# ------------------------------------------------------------------ what the other benchmarks begin with too


def parser_of(text, runs):
    """The arguments that each benchmark has, after its description."""
    words = argparse.ArgumentParser(description=text.splitlines()[0])
    words.add_argument("folder", nargs="?", help="where the data is written (default: a temporary folder)")
    words.add_argument("--runs", type=int, default=runs, help="runs of each program")
    words.add_argument("--program", default=os.path.join(TOP, "build", "bedkeep"))
    return words


def begin(words, *others):
    """The arguments that were given, if the program and those beside it are there."""
    wanted = words.parse_args()
    if not os.access(wanted.program, os.X_OK):
        sys.exit(f"{wanted.program} is not there: run `make build` first")
    for other in others:
        if shutil.which(other) is None:
            sys.exit(f"{other} is not installed")
    return wanted


@contextlib.contextmanager
def folder_of(wanted):
    """The folder for the data: the one that was given, or a temporary one."""
    with tempfile.TemporaryDirectory() as temporary:
        folder = wanted.folder or temporary
        os.makedirs(folder, exist_ok=True)
        yield folder


# ------------------------------------------------------------------ the data


def write_data(genome, track, view, count, columns, order, long=False):
    chromosomes = [("chr1", 250 * count)] if view == "genomecov -d" else CHROMOSOMES
    with open(genome, "w") as file:
        file.writelines(f"{name}\t{length}\n" for name, length in sorted(chromosomes))
    rows = enumerate([*places(count, chromosomes), *([(0, 0, chromosomes[0][1])] if long else [])])
    if order == "sorted":
        rows = sorted(rows, key=lambda row: (chromosomes[row[1][0]][0], *row[1][1:], f"gene_{row[0]}"))
    with open(track, "w") as file:
        for number, (rank, start, stop) in rows:
            beside = [f"gene_{number}", str(number % 1000), "+-"[number % 2]][:columns - 3]
            file.write("\t".join([chromosomes[rank][0], str(start), str(stop), *beside]) + "\n")


def write_script(script, view):
    """A script that opens the view and prints it."""
    with open(script, "w") as file:
        file.write(f"open\tm\t{view}\nprint\tm\n")


def write_second(second, count, long):
    rows = [(CHROMOSOMES[rank][0], start, stop) for rank, start, stop in places(count, seed=SEED + 1)]
    if long:
        rows.append(("chr1", 0, CHROMOSOMES[0][1]))
    with open(second, "w") as file:
        file.writelines(f"{name}\t{start}\t{stop}\n" for name, start, stop in sorted(rows))


def places(count, chromosomes=CHROMOSOMES, seed=SEED):
    """Records of 125 to 875 bases, spread evenly over all chromosomes."""
    chance = random.Random(seed)
    lengths = [length for _, length in chromosomes]
    for rank in chance.choices(range(len(lengths)), weights=lengths, k=count):
        bases = chance.randint(125, 875)
        start = chance.randrange(lengths[rank] - bases)
        yield rank, start, start + bases


# ------------------------------------------------------------------ the runs


def compare(programs):
    """Stops if the outputs differ. Also brings the file into the page cache."""
    found = {name: digest_of(*program) for name, program in programs.items()}
    if len(set(found.values())) > 1:
        sys.exit(f"the outputs differ (digest, bytes): {found}")


def settled(programs):
    """The programs with their lines sorted, since `bedtools sort` leaves records of one start in any order."""
    return {name: (["sh", "-c", f"{shlex.join(words)} | LC_ALL=C sort"], given) for name, (words, given) in programs.items()}


def digest_of(words, given):
    digest, size = hashlib.sha256(), 0
    with open(given, "rb") as standard_input, \
            subprocess.Popen(words, stdin=standard_input, stdout=subprocess.PIPE) as running:
        while piece := running.stdout.read(1 << 20):
            digest.update(piece)
            size += len(piece)
    stop_unless_done(words, running.returncode)
    return digest.hexdigest(), size


def measure(programs, runs):
    """Seconds of each run, the programs taking turns, and the most bytes that each held in one more run."""
    seconds = {name: [] for name in programs}
    for _ in range(runs):
        for name, (words, given) in programs.items():
            with open(given, "rb") as standard_input:
                begun = time.perf_counter()
                running = subprocess.Popen(words, stdin=standard_input, stdout=subprocess.DEVNULL)
                status = running.wait()
                seconds[name].append(time.perf_counter() - begun)
            stop_unless_done(words, status)
    return seconds, {name: most_held(*program) for name, program in programs.items()}


def most_held(words, given):
    """The most bytes that a run held, or of its processes the one that held the most. They are asked for while it runs: what
    the system says of a process that has ended (ru_maxrss) counts what its parent held when it was begun."""
    most = 0
    with open(given, "rb") as standard_input:
        running = subprocess.Popen(words, stdin=standard_input, stdout=subprocess.DEVNULL)
        while running.poll() is None:
            most = max(most, *map(held, family(running.pid)))
            time.sleep(0.001)
    stop_unless_done(words, running.returncode)
    return most


def family(process):
    """A process and all that it began, as far as they are there."""
    try:
        with open(f"/proc/{process}/task/{process}/children") as file:
            return [process, *(one for child in file.read().split() for one in family(int(child)))]
    except OSError:
        return [process]


def held(process):
    """The most bytes that a process has held up to now, since it runs the program that it runs; 0 if it has ended."""
    try:
        with open(f"/proc/{process}/status") as file:
            return max((int(line.split()[1]) * 1024 for line in file if line.startswith("VmHWM:")), default=0)
    except OSError:
        return 0


def stop_unless_done(words, status):
    if status != 0:
        sys.exit(f"status {status}: {' '.join(words)}")


# ------------------------------------------------------------------ the report


def report(view, records, columns, order, seconds, most):
    times = {name: f"{milliseconds(min(runs))}, {milliseconds(statistics.median(runs))}" for name, runs in seconds.items()}
    ratios = {name: f"{statistics.median(runs) / statistics.median(seconds['bedtools']):.2f}" for name, runs in seconds.items()}
    print(f"| {view} | {records:,} | {columns} | {order} | {times['bedkeep']} | {times['bedtools']} | {ratios['bedkeep']} "
          f"| {most['bedkeep'] / records:.0f} | {most['bedtools'] / records:.1f} | {times.get('limit', '')} | {ratios.get('limit', '')} |", flush=True)


def milliseconds(value):
    return f"{value * 1000:.0f} ms"


if __name__ == "__main__":
    main()

#!/usr/bin/env python3
"""Times each subcommand of bedkeep over files of many shapes, as ratios to the time over a spread file.

    make build
    python3 scripts/bench/shapes.py [FOLDER] [--records N] [--second N] [--runs N] [--shape NAME ..] [--view WORDS ..]

Writes genome, BED and FASTA files into FOLDER (a temporary folder if none
is given), the same bytes each time. All shapes have the same number of records. Each
view is printed by a run of its subcommand and by a session, and by bedtools, if that is installed, from
the same records sorted. The table has the seconds over the spread file, and for each
other shape the ratio to them. A time is the least of the runs. A run that takes longer
than `--most` seconds is stopped, and its row says so.

A ratio of bedkeep above 5 is listed at the end, and the script stops with status 1, unless
SLOW has the shape and the view.
"""

import os
import random
import shutil
import subprocess
import sys
import threading
import time

from views import CHROMOSOMES, MACHINE, SEED, TWO_FILES, begin, folder_of, parser_of, places

VIEWS = ["merge", "merge -s", "merge -c 4 -o collapse", "cluster", "complement", "genomecov -bg",
         "intersect", "intersect -u", "intersect -v", "intersect -c", "intersect -wa", "intersect -wb", "intersect -wa -wb",
         "subtract", "subtract -A", "getfasta"]
MOST_RATIO = 5
# sequences of the genome file of the shape that has many
SEQUENCES = 1_000_000
# shapes whose file isn't sorted
UNSORTED = ("shuffled", "one start")
# shapes and views that are known to be slow: a run of `intersect -c` takes about five times as long over a deep place, and a run takes
# half a second for the names of the genome file, ten times what its records take
SLOW = {
    "a deep place in both": ["intersect -c"],
    "many sequences": [view for view in VIEWS if view != "getfasta"],
}


def main():
    wanted = read_words()
    beside = shutil.which("bedtools") is not None and not wanted.without_bedtools
    print(f"{wanted.records:,} records beside {wanted.second:,}, six columns, the least of {wanted.runs} runs, "
          f"{MACHINE}\n")
    print("| shape | view | run | session | bedtools |\n|---|---|---|---|---|")
    with folder_of(wanted) as folder:
        slow = run_all(wanted, folder, beside)
    unnamed = [f"{shape}, {view}: {ratio:.1f}" for shape, view, ratio in slow if view not in SLOW.get(shape, [])]
    if unnamed:
        sys.exit("above 5 and not known to be slow:\n" + "\n".join(unnamed))


def run_all(wanted, folder, beside):
    """Prints a row for each shape and view. The shape, view and greatest ratio of those that are slow."""
    spread, slow = {}, []
    for shape in ["spread", *wanted.shape]:
        files = write_files(folder, shape, wanted.records, wanted.second)
        for view in wanted.view:
            if view not in views_of(shape):
                continue
            seconds = [least(words, given, wanted) for words, given in programs(wanted, view, files, beside)]
            if shape == "spread":
                spread[view] = seconds
                row = [f"{each:.2f} s" if each else "over" for each in seconds]
            else:
                ratios = [each / first if each and first else None for each, first in zip(seconds, spread[view])]
                row = [f"{each:.1f}" if each else f"over {wanted.most} s" for each in ratios]
                worst = max(each or float("inf") for each in ratios[:2])
                slow += [(shape, view, worst)] if worst > MOST_RATIO else []
            print(f"| {shape} | `{view}` | {' | '.join(row)}{'' if beside else ' | '} |", flush=True)
    return slow


def read_words():
    words = parser_of(__doc__, runs=3)
    words.add_argument("--records", type=int, default=400_000)
    words.add_argument("--second", type=int, default=200_000, help="records of the second file")
    words.add_argument("--most", type=int, default=60, help="seconds after which a run is stopped")
    words.add_argument("--shape", nargs="+", choices=list(SHAPES), default=list(SHAPES)[1:])
    words.add_argument("--view", nargs="+", choices=VIEWS, default=VIEWS)
    words.add_argument("--without-bedtools", action="store_true")
    return begin(words)


def views_of(shape):
    """The views that are timed over a shape."""
    if shape == "short lines":
        return ["getfasta"]
    if shape in ("nested", "a deep place in both"):
        # The others have a row for each of billions of overlaps, or of gaps.
        rows_of_overlaps = ["intersect", "intersect -wa", "intersect -wb", "intersect -wa -wb"]
        rows_of_gaps = ["subtract"] if shape == "nested" else []
        return [view for view in VIEWS[:-1] if view not in rows_of_overlaps + rows_of_gaps]
    return VIEWS if shape == "spread" else VIEWS[:-1]


def programs(wanted, view, files, beside):
    """The words of each program, and the file that is its standard input."""
    genome, bed, in_order, second, bases, fasta = files
    script = os.path.join(os.path.dirname(genome), "script")
    with open(script, "w") as file:
        file.write(f"open\tm\t{view}\nprint\tm\n")
    if view == "getfasta":
        yield [wanted.program, view, "-g", bases, "-bed", fasta + ".bed", "-fi", fasta], os.devnull
        yield [wanted.program, "session", "-g", bases, "-i", fasta + ".bed", "-fi", fasta], script
    elif view.startswith(TWO_FILES):
        yield [wanted.program, *view.split(), "-g", genome, "-a", bed, "-b", second], os.devnull
        yield [wanted.program, "session", "-g", genome, "-i", bed, "-b", second], script
    else:
        yield [wanted.program, *view.split(), "-g", genome, "-i", bed], os.devnull
        yield [wanted.program, "session", "-g", genome, "-i", bed], script
    if not beside:
        return
    if view == "getfasta":
        yield ["bedtools", "getfasta", "-fi", fasta, "-bed", fasta + ".bed"], os.devnull
    elif view.startswith(TWO_FILES):
        yield ["bedtools", *view.split(), "-sorted", "-a", in_order, "-b", second], os.devnull
    else:
        sizes = ["-g", genome] if view.startswith(("complement", "genomecov")) else []
        yield ["bedtools", *view.split(), "-i", in_order, *sizes], os.devnull


def least(words, given, wanted):
    """The least seconds of the runs, nothing if one takes too long."""
    found = []
    for _ in range(wanted.runs):
        seconds, status, late = timed(words, given, wanted.most)
        if late:
            return None
        if status != 0:
            sys.exit(f"status {status}: {' '.join(words)}")
        found.append(seconds)
    return min(found)


def timed(words, given, most):
    """The seconds of one run, its status, and whether it was stopped."""
    late = threading.Event()

    def stop():
        late.set()
        process.kill()

    begun = time.perf_counter()
    with open(given, "rb") as standard_input:
        process = subprocess.Popen(words, stdin=standard_input, stdout=subprocess.DEVNULL)
    # A wait with a limit of time looks only every 50 ms, so a timer stops a run that takes too long.
    timer = threading.Timer(most, stop)
    timer.start()
    status = process.wait()
    seconds = time.perf_counter() - begun
    timer.cancel()
    return seconds, status, late.is_set()


# ------------------------------------------------------------------ the shapes


def spread(count):
    return [(CHROMOSOMES[rank][0], start, stop) for rank, start, stop in places(count)]


def shuffled(count):
    return spread(count)


def one_start(count):
    return [("chr1", 1000, 1500)] * count


def nested(count):
    return [("chr1", number, 200_000_000 - number) for number in range(count)]


def one_block(count):
    return [("chr1", number * 100, number * 100 + 150) for number in range(count)]


def many_sequences(count):
    return [(f"contig{number * SEQUENCES // count}", 10, 500) for number in range(count)]


def deep_place(count):
    return [("chr1", 99_950_000 + number * 7 % 90_000, 99_950_100 + number * 7 % 90_000 + number % 500) for number in range(count)]


def beside_spread(count):
    return [(CHROMOSOMES[rank][0], start, stop) for rank, start, stop in places(count, seed=SEED + 1)]


def with_long(rows):
    return [*rows, ("chr1", 0, CHROMOSOMES[0][1])]


def with_ten_long(rows):
    return [*rows, *(("chr1", 1000 * number, CHROMOSOMES[0][1] - 1000 * number) for number in range(10))]


def deep(rows):
    half = len(rows) // 2
    return rows[:half] + [("chr1", 100_000_000 - number, 100_001_000 + number % 1000) for number in range(len(rows) - half)]


# the records of the first file and of the second, by their number
SHAPES = {
    "spread": (spread, beside_spread),
    "shuffled": (shuffled, beside_spread),
    "one start": (one_start, beside_spread),
    "copies": (lambda count: spread(count // 100) * 100, beside_spread),
    "nested": (nested, beside_spread),
    "one block": (one_block, beside_spread),
    "a long record": (lambda count: with_long(spread(count)), beside_spread),
    "a long second record": (spread, lambda count: with_long(beside_spread(count))),
    "ten long second records": (spread, lambda count: with_ten_long(beside_spread(count))),
    "a deep second file": (spread, lambda count: deep(beside_spread(count))),
    "a deep place in both": (deep_place, lambda count: deep(beside_spread(count))),
    "many sequences": (many_sequences, lambda count: many_sequences(count)),
    "short lines": (spread, beside_spread),
}


def write_files(folder, shape, count, second_count):
    """The files of a shape: genome, first BED, the same sorted, second BED sorted; and a genome and a FASTA file of its own for getfasta."""
    first, second = SHAPES[shape]
    rows = [(*row, f"name_{number}", str(number % 1000), "+-"[number % 2]) for number, row in enumerate(first(count))]
    if shape == "copies":
        rows = [(*row[:3], "name", "0", "+") for row in rows]
    others = second(second_count)
    contigs = sorted(f"contig{number}" for number in range(SEQUENCES)) if shape == "many sequences" else []
    genome, bed, in_order, beside, bases, fasta = (
        os.path.join(folder, f"{shape.replace(' ', '_')}.{ending}") for ending in ("sizes", "bed", "sorted.bed", "second.bed", "bases", "fa"))
    with open(genome, "w") as file:
        file.writelines(f"{name}\t{length}\n" for name, length in [(name, 600) for name in contigs] or sorted(CHROMOSOMES))
    write_rows(in_order, sorted(rows))
    write_rows(beside, sorted(others))
    if shape in UNSORTED:
        random.Random(SEED).shuffle(rows)
        write_rows(bed, rows)
    else:
        shutil.copy(in_order, bed)
    if shape in ("spread", "short lines"):
        write_fasta(bases, fasta, 50 * count, count, 60 if shape == "spread" else 1)
    return genome, bed, in_order, beside, bases, fasta


def write_rows(path, rows):
    with open(path, "w") as file:
        file.writelines("\t".join(map(str, row)) + "\n" for row in rows)


def write_fasta(bases, fasta, length, count, width):
    """One sequence in lines of so many bases, its genome file, and records of 125 to 875 bases on it."""
    with open(bases, "w") as file:
        file.write(f"one\t{length}\n")
    chance = random.Random(SEED)
    line = "".join(chance.choice("ACGT") for _ in range(width)) + "\n"
    with open(fasta, "w") as file:
        file.write(">one\n")
        for _ in range(length // width // 1000):
            file.write(line * 1000)
        rest = length - length // width // 1000 * 1000 * width
        file.write(line * (rest // width) + line[:rest % width])
    write_rows(fasta + ".bed", sorted(("one", start, stop) for _, start, stop in places(count, [("one", length)])))


if __name__ == "__main__":
    main()

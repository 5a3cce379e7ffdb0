#!/usr/bin/env python3
"""Times the bases of records, printed by a session of bedkeep or by a run of getfasta alone, beside bedtools getfasta and
samtools faidx.

    make build
    python3 scripts/bench/fasta.py [FOLDER] [--alone] [--view WORDS ..] [--bases N] [--records N] [--runs N]

Writes a genome file, a FASTA file of four chromosomes in lines of 60 bases, a
BED file of six columns and the same places as regions into FOLDER (a temporary folder
if none is given), the same bytes each time. A session loads the files, opens
`getfasta` and prints it; with `--alone` it is a run of that subcommand. bedtools runs over the same FASTA file with an index
file beside it, and over a second name of it without one, whose index each run
makes again; samtools has the index. The outputs of bedkeep and bedtools are compared
first; if they differ the script stops with status 1. samtools writes other
headers and short lines, and no strands, so it is only timed, beside the plain view.
Standard output is thrown away. For each program the least and the median time,
the ratio of bedkeep's median to its own, and the most memory that it held.
"""

import itertools
import os
import random
import statistics
import subprocess

from views import MACHINE, begin, compare, folder_of, in_own_process, measure, milliseconds, parser_of

SEED = 22
VIEWS = ["getfasta", "getfasta -s", "getfasta -tab", "getfasta -s -tab"]
LINE = 60
# the share of all bases that are on each chromosome
CHROMOSOMES = [("chr1", 0.31), ("chr2", 0.27), ("chr3", 0.23), ("chr4", 0.19)]
# what each random byte gives: mostly capitals, a quarter small letters, some N
LETTERS = (b"ACGT" * 47 + b"acgt" * 16).ljust(256, b"N")


def main():
    wanted = read_words()
    with folder_of(wanted) as folder:
        in_own_process(write_data, folder, wanted.bases, wanted.records)
        size = os.path.getsize(os.path.join(folder, "indexed.fa"))
        print(f"{wanted.records:,} records, a FASTA file of {size:,} bytes, {wanted.runs} runs each, "
              f"{version('bedtools')}, {version('samtools')}, {MACHINE}")
        print("| view | program | least and median | bedkeep's median to its own | most memory | bytes a byte of FASTA |")
        print("|---|---|---|---|---|---|")
        for view in wanted.view:
            run_case(wanted, folder, view, size)


def read_words():
    words = parser_of(__doc__, runs=7)
    words.add_argument("--alone", action="store_true", help="runs of the one subcommand, without a session")
    words.add_argument("--view", nargs="+", choices=VIEWS, default=VIEWS[:3])
    words.add_argument("--bases", type=int, default=200_000_000)
    words.add_argument("--records", type=int, default=70_000)
    return begin(words, "bedtools", "samtools")


def version(program):
    """The first line of what a program says of its version; further lines of samtools are not all UTF-8."""
    return subprocess.run([program, "--version"], capture_output=True).stdout.splitlines()[0].decode()


def run_case(wanted, folder, view, size):
    genome, track, regions, indexed, bare, script = (
        os.path.join(folder, name) for name in ("sizes", "records.bed", "regions", "indexed.fa", "bare.fa", "script"))
    with open(script, "w") as file:
        file.write(f"open\tf\t{view}\nprint\tf\n")
    # each program: its words, and the file that is its standard input
    if wanted.alone:
        ours = ([wanted.program, *view.split(), "-g", genome, "-bed", track, "-fi", indexed], os.devnull)
    else:
        ours = ([wanted.program, "session", "-g", genome, "-i", track, "-fi", indexed], script)
    programs = {
        "bedkeep": ours,
        "bedtools, index there": (["bedtools", *view.split(), "-fi", indexed, "-bed", track], os.devnull),
        # it says each time that it makes the index
        "bedtools, no index": (["sh", "-c", f"rm -f '{bare}.fai'; exec bedtools {view} -fi '{bare}' -bed '{track}' 2> /dev/null"], os.devnull),
    }
    compare(programs)
    if view == "getfasta":
        programs["samtools faidx -r"] = (["samtools", "faidx", "-r", regions, indexed], os.devnull)
    report(view, size, *measure(programs, wanted.runs))


# ------------------------------------------------------------------ the data


def write_data(folder, bases, records):
    chromosomes = [(name, int(bases * share)) for name, share in CHROMOSOMES]
    with open(os.path.join(folder, "sizes"), "w") as file:
        file.writelines(f"{name}\t{length}\n" for name, length in chromosomes)
    chance = random.Random(SEED)
    write_bases(folder, chromosomes, chance)
    write_records(folder, sorted(places(records, chromosomes, chance)))


def write_bases(folder, chromosomes, chance):
    """The FASTA file under two names; beside one of them is its index."""
    indexed, bare = (os.path.join(folder, name) for name in ("indexed.fa", "bare.fa"))
    with open(indexed, "wb") as file:
        for name, length in chromosomes:
            file.write(f">{name} made for a benchmark\n".encode())
            for part in parts(length):
                bases = chance.randbytes(part).translate(LETTERS)
                file.writelines(bases[start:start + LINE] + b"\n" for start in range(0, part, LINE))
    if os.path.exists(bare):
        os.remove(bare)
    os.link(indexed, bare)
    subprocess.run(["samtools", "faidx", indexed], check=True)


def parts(length):
    """A length in parts of whole lines, of which only the last may be shorter."""
    most = LINE * 100_000
    return itertools.chain(itertools.repeat(most, length // most), [length % most] if length % most else [])


def write_records(folder, rows):
    with open(os.path.join(folder, "records.bed"), "w") as track, open(os.path.join(folder, "regions"), "w") as regions:
        for rank, start, stop, name, strand in rows:
            sequence = CHROMOSOMES[rank][0]
            track.write(f"{sequence}\t{start}\t{stop}\t{name}\t0\t{strand}\n")
            regions.write(f"{sequence}:{start + 1}-{stop}\n")


def places(count, chromosomes, chance):
    """Records of 100 to 5,000 bases, spread evenly over all chromosomes, and half of them on each strand."""
    lengths = [length for _, length in chromosomes]
    for number, rank in enumerate(chance.choices(range(len(lengths)), weights=lengths, k=count)):
        bases = chance.randint(100, 5_000)
        start = chance.randrange(lengths[rank] - bases)
        yield rank, start, start + bases, f"gene_{number}", "+-"[number % 2]


# ------------------------------------------------------------------ the report


def report(view, size, seconds, most):
    ours = statistics.median(seconds["bedkeep"])
    for name, runs in seconds.items():
        times = f"{milliseconds(min(runs))}, {milliseconds(statistics.median(runs))}"
        ratio = "" if name == "bedkeep" else f"{ours / statistics.median(runs):.2f}"
        print(f"| `{view}` | {name} | {times} | {ratio} | {most[name] / 1e6:.0f} MB | {most[name] / size:.2f} |", flush=True)


if __name__ == "__main__":
    main()

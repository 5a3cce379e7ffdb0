"""What bedtools has and bedkeep doesn't. That nothing is left out is checked by the help of bedtools, that bedkeep refuses it by running it."""

import functools
import re
import subprocess

from comparison import formats, programs, table

# options that all subcommands of bedtools have and bedkeep hasn't
SHARED = ["-nobuf", "-iobuf"]
OPERATIONS = ["absmin", "absmax", "mean", "median", "mode", "antimode", "stdev", "sstdev", "distinct_sort_num", "distinct_sort_num_desc", "distinct_only",
              "count_distinct", "first", "last"]
SUBCOMMANDS = ["annotate", "bamtobed", "bamtofastq", "bed12tobed6", "bedpetobam", "bedtobam", "closest", "coverage", "expand", "fisher", "flank", "groupby", "igv",
               "jaccard", "links", "makewindows", "map", "maskfasta", "multicov", "multiinter", "nuc", "overlap", "pairtobed", "pairtopair", "random", "reldist",
               "sample", "shift", "shuffle", "slop", "sort", "spacing", "split", "summary", "tag", "unionbedg", "window"]


@functools.lru_cache(maxsize=None)
def missing_of(subcommand):
    """The options that the help of bedtools has for a subcommand and bedkeep's table hasn't, in the order of the help."""
    found = re.findall(r"(?m)^\s+(-[A-Za-z0-9]+\+?)\s", help_of([subcommand, "-h"]))
    there = {option.name for option in table.RUNS[subcommand].options}
    return [option for option in dict.fromkeys(found) if option not in there and option not in SHARED]


def fault(desk):
    """What is wrong with the lists above, or with an option that isn't refused; or None."""
    found = re.findall(r"(?m)^    ([a-z0-9]+) +\S", help_of(["--help"]))
    subcommands = [run.name for run in table.SHARED]
    if sorted(found) != sorted([*SUBCOMMANDS, *subcommands]):
        return f"bedtools has other subcommands: {sorted(set(found) ^ {*SUBCOMMANDS, *subcommands})}"
    for subcommand in subcommands:
        for option in [*missing_of(subcommand), *SHARED]:
            if not refused(desk, subcommand, (option,)):
                return f"bedkeep {subcommand} {option} isn't refused"
    operations = [operation for operation in OPERATIONS if not refused(desk, "merge", ("-c", "1", "-o", operation))]
    subcommands = [subcommand for subcommand in SUBCOMMANDS if not refused(desk, subcommand, ())]
    return f"bedkeep has {', '.join(operations + subcommands)}" if operations or subcommands else None


def help_of(words):
    done = subprocess.run(["bedtools", *words], capture_output=True, text=True)
    return done.stdout + done.stderr


def refused(desk, subcommand, options):
    files = {name: {"sizes": b"chr1\t9\n", "s.fa": b">chr1\nACGTACGTA\n"}.get(name, b"chr1\t2\t5\n") for name in formats.files_of(subcommand)}
    return desk.ours(files, subcommand, options) == programs.Run(2, b"", b"bedkeep: bad options\n")


def rows():
    """The first cell of each row that the table of BEDTOOLS.md must have, and the names in that row."""
    yield "other subcommands", SUBCOMMANDS
    for run in table.SHARED:
        yield f"`{run.name}`", missing_of(run.name)
    yield "operations of `merge`", OPERATIONS
    yield "all of them", SHARED

#!/usr/bin/env python3
"""Runs bedkeep and bedtools over the same generated files, and sorts out where their outputs differ and why.

    make build
    python3 scripts/compare/with_bedtools.py build/bedkeep [--seed N] [--cases N] [--jobs N] [--write docs/bedtools-report.md]

A case is a set of files, a subcommand and its options. It is in one of four classes: the same bytes; the same rows in another order;
different; refused by both. Where the outputs aren't the same, reasons that are known must explain the whole difference: those of
scripts/compare/comparison/reasons.py and refusals.py. A case that they don't explain is printed with its files, and the status is 1. With --write the
report is written if every case is explained, the same each time for a seed and a number of cases. docs/BEDTOOLS.md is only read: it must name
each reason, and each subcommand and option of bedtools that bedkeep lacks.
"""

import argparse
import functools
import multiprocessing
import os
import random
import resource
import shutil
import subprocess
import sys
import tempfile

sys.dont_write_bytecode = True
from comparison import examples, inputs, missing, page, programs, sorting  # noqa: E402

# bytes of memory that a run may have
MEMORY = 4 * 1024**3
# cases without a known reason that are printed, and bytes of files from which on a case is no example
SHOWN, TOO_LONG = 3, 2000
GUIDE = os.path.join(os.path.dirname(os.path.realpath(__file__)), "..", "..", "docs", "BEDTOOLS.md")


def main():
    wanted = read_words()
    program = os.path.realpath(wanted.program)
    if not os.access(program, os.X_OK):
        sys.exit(f"{wanted.program} is not there: run `make build` first")
    if shutil.which("bedtools") is None:
        sys.exit("bedtools is not installed")
    with open(GUIDE, encoding="utf-8") as file:
        fault = page.fault_of(file.read())
    if fault:
        sys.exit(fault)
    tally = page.Tally()
    with tempfile.TemporaryDirectory() as folder, multiprocessing.Pool(wanted.jobs, limit_memory) as pool:
        desk = functools.partial(new_desk, program, folder)
        fault = missing.fault(desk())
        if fault:
            sys.exit(fault)
        run_cases(pool, desk, wanted, tally)
        smaller = functools.partial(shrink, desk)
        if tally.unknown:
            sys.exit(unknown_text(tally, pool.map(smaller, tally.unknown[:SHOWN])))
        print(page.summary(tally))
        if wanted.write:
            shrunk = pool.map(smaller, [found for _, found in tally.examples()], chunksize=1)
            text = page.text(tally, shrunk, wanted, version([program, "--version"]), version(["bedtools", "--version"]))
            with open(wanted.write, "w", encoding="utf-8") as file:
                file.write(text)


def read_words():
    words = argparse.ArgumentParser(description=__doc__.splitlines()[0])
    words.add_argument("program")
    words.add_argument("--seed", type=int, default=1)
    words.add_argument("--cases", type=int, default=40_000)
    words.add_argument("--jobs", type=int, default=os.cpu_count(), help="runs side by side")
    words.add_argument("--write", metavar="FILE", help="the report to write")
    return words.parse_args()


def limit_memory():
    """Of each program that is run, and no core file if one crashes."""
    resource.setrlimit(resource.RLIMIT_AS, (MEMORY, MEMORY))
    resource.setrlimit(resource.RLIMIT_CORE, (0, 0))


def version(words):
    return subprocess.run(words, capture_output=True, text=True).stdout.split("\n")[0].strip()


def new_desk(program, folder):
    return programs.Desk(program, tempfile.mkdtemp(dir=folder))


def run_cases(pool, desk, wanted, tally):
    """Inputs in rounds, until there are as many cases as are wanted, or enough without a known reason."""
    number, step = 0, 8 * wanted.jobs
    while tally.count < wanted.cases and len(tally.unknown) < SHOWN:
        for cases in pool.map(functools.partial(try_inputs, desk, wanted.seed), range(number, number + step), chunksize=1):
            for found in cases[:wanted.cases - tally.count]:
                tally.take(found)
        number += step


def try_inputs(new, seed, number):
    """Every subcommand and its options over the inputs of a number. Only what may be shown keeps its files and outputs."""
    kind, given = inputs.inputs_of(seed, number)
    desk = new()
    words = inputs.options_of(given, random.Random(f"{seed} {number} options"))
    cases = [sorting.sort_case(desk, kind, given.files, given.order, subcommand, options) for subcommand, options in words]
    shutil.rmtree(desk.folder)
    return [found if found.reasons is None or found.reasons and page.size(found) < TOO_LONG else bare(found) for found in cases]


def bare(found):
    return found._replace(files=None, ours=None, theirs=None)


def shrink(new, found):
    desk = new()
    smaller = examples.shrink(desk, found)
    shutil.rmtree(desk.folder)
    return smaller


def unknown_text(tally, shrunk):
    """Cases without a known reason, made smaller, with their files and both outputs."""
    parts = [f"{len(tally.unknown)} of {tally.count} cases have no known reason"]
    for found in shrunk:
        parts.append(f"\n{found.kind}:\n  " + "\n  ".join(page.commands(found)))
        parts += [f"  {name}: {text!r}" for name, text in found.files.items()]
        parts += [f"  {name}: status {run.status}, {run.output!r}, {run.message!r}" for name, run in (("bedkeep", found.ours), ("bedtools", found.theirs))]
    return "\n".join(parts)


if __name__ == "__main__":
    main()

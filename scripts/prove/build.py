#!/usr/bin/env python3
"""Proves and builds the program, its crates side by side, and leaves it in crates/bedkeep/out/.

    scripts/prove/build.py

All proofs are left in the folders out/ of the crates, 10 GB, and what was proved there before, by this script or by `rt check`, isn't
proved again. A crate is proved by `rt lib` once those that it uses are, first the one with most work in the chain above it: with all
processors if nothing else can go on, or else with half of them. Each has a folder of its own meanwhile, since `rt` locks all crates
below the one that it works on.

RT names Rattle's command if it isn't on the path.
"""

import os
import re
import shutil
import subprocess
import sys
import tempfile
from concurrent.futures import FIRST_COMPLETED, ThreadPoolExecutor, wait

from crates import below, uses_in

TOP = os.path.dirname(os.path.dirname(os.path.dirname(os.path.abspath(__file__))))
RT = shutil.which(os.environ.get("RT", "rt"))
PROGRAM = "bedkeep"
# The stored run of the program, whose output `make test` compares: `rt run` proves, builds and runs.
RUN = ["session", "-g", "data/sizes", "-i", "data/empty.bed"]
# A check takes up to 4.2 GB.
BYTES_OF_A_CHECK = 5_000_000_000


def main():
    if not RT:
        sys.exit(f"{os.environ.get('RT', 'rt')}, the command of the Rattle toolchain, is not there")
    named = uses_in(f"{TOP}/crates.txt")
    uses = {crate: named[crate] for crate in {PROGRAM} | below(PROGRAM, named)}
    work = {crate: lines_of(crate) for crate in uses}
    order = sorted(sorted(uses), key=lambda crate: -chain_above(crate, uses, work))
    with tempfile.TemporaryDirectory() as room:
        return prove_all(order, uses, lambda crate, jobs: prove(room, crate, below(crate, uses), jobs))


def prove_all(order, uses, prove_one):
    """Proves crates, each once those that it uses are proved, the first ones of the order first. Gives a status."""
    proved, failed, running = set(), set(), {}
    with ThreadPoolExecutor() as pool:
        while running or not failed and len(proved) < len(uses):
            begun = {crate for crate, _ in running.values()}
            ready = [it for it in order if it not in proved | begun and uses[it] <= proved and not failed]
            for crate in ready:
                jobs = share(sum(jobs for _, jobs in running.values()), len(ready) == 1)
                if jobs > 0:
                    running[pool.submit(prove_one, crate, jobs)] = crate, jobs
            for it in wait(running, return_when=FIRST_COMPLETED).done:
                crate, _ = running.pop(it)
                (proved if it.result() else failed).add(crate)
                print(f"{crate} {'proved' if it.result() else 'NOT PROVED'}", flush=True)
    return 1 if failed else 0


def share(busy, is_alone):
    """How many processors the next crate gets, beside crates that have so many."""
    with open("/proc/meminfo", encoding="ascii") as file:
        memory = 1024 * int(re.search(r"MemTotal:\s+(\d+)", file.read())[1])
    usable = max(min(len(os.sched_getaffinity(0)), memory // BYTES_OF_A_CHECK), 1)
    if is_alone and busy == 0:
        return usable
    return min(max(usable // 2, 1), usable - busy)


def chain_above(crate, uses, work):
    """How many lines the longest chain of crates has that wait for each other, from this one on."""
    return work[crate] + max((chain_above(it, uses, work) for it in uses if crate in uses[it]), default=0)


def lines_of(crate):
    count = 0
    for part in ("src", "specs", "proofs"):
        for at, _, names in os.walk(f"{TOP}/crates/{crate}/{part}"):
            for name in names:
                with open(f"{at}/{name}", "rb") as file:
                    count += file.read().count(b"\n")
    return count


def prove(room, crate, libraries, jobs):
    """Proves a crate in a folder of its own, over proved libraries. Gives whether it is proved."""
    folder, made = f"{room}/{crate}", f"{TOP}/crates/{crate}/out"
    at = f"{folder}/crates/{crate}"
    os.makedirs(folder)
    subprocess.run([f"{TOP}/scripts/prove/copy_crates.sh", folder, crate], check=True)
    for library in libraries:
        shutil.copytree(f"{TOP}/crates/{library}/out/rlib", f"{folder}/crates/{library}/out/rlib", copy_function=link)
    if os.path.isdir(made):
        shutil.move(made, f"{at}/out")
    try:
        return run(crate, at, jobs)
    finally:
        if os.path.isdir(f"{at}/out"):
            shutil.move(f"{at}/out", made)
        shutil.rmtree(folder)


def link(file, to):
    """Makes a second name of a file, or a copy on another disk."""
    try:
        os.link(file, to)
    except OSError:
        shutil.copy2(file, to)


def run(crate, at, jobs):
    """Proves and builds the crate of a folder. What `rt` writes is printed if that fails."""
    is_program = crate == PROGRAM
    words = ["run", "--jobs", str(jobs), "--", *RUN] if is_program else ["lib", "--jobs", str(jobs)]
    with open(f"{at}/stdin" if is_program else os.devnull, "rb") as given:
        ran = subprocess.run([os.path.realpath(RT), *words], cwd=at, stdin=given, stdout=subprocess.PIPE, stderr=subprocess.STDOUT)
    if ran.returncode:
        sys.stderr.write(f"== {crate}\n{ran.stdout.decode(errors='replace')}")
    return ran.returncode == 0


if __name__ == "__main__":
    sys.exit(main())

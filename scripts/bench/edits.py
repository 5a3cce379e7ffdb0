#!/usr/bin/env python3
"""Times edits of a session of bedkeep over a track of a million records.

    make build
    python3 scripts/bench/edits.py [FOLDER] [--of WHAT] [--view WORDS ..] [--records N] [--columns N ..] [--edits N] [--at PLACES]

Writes a genome file, a BED file and two scripts into FOLDER (a temporary
folder if none is given), the same bytes each time. One script opens
views and nothing else; the other opens them and then adds a number of records and
removes them again, in another order. The time of an edit is the difference of
the two runs. At the end both print the views, and the script stops with
status 1 if what they print differs.

The edits are those of the track, or, with `--of second`, of a second file that
has the same records. With `--of lengths` they make the first sequence longer and
then as long as it was: first N times longer by one base, and then N times shorter.
With `--of shows` they are no edits, but a `show` of each view in turn, of a region
with ten records.

The records that are added are all over the genome. With `--at one-place` they are
beside one another in the first sequence, and are added in no order; with
`--at ascending` they are there too, and are added from the first to the last.
"""

import os
import random
import statistics
import subprocess
import sys
import time

from views import CHROMOSOMES, MACHINE, VIEWS, begin, folder_of, parser_of, places, stop_unless_done, write_data

SEED = 21
MOST_RECORDS = 4_000_000


def main():
    wanted = read_words()
    if wanted.records + wanted.edits > MOST_RECORDS:
        sys.exit(f"a track takes at most {MOST_RECORDS:,} records, and the adds are {wanted.edits:,} of them")
    print(f"{wanted.records:,} records, {2 * wanted.edits:,} edits of the {wanted.of} ({wanted.at}), {wanted.runs} runs each, "
          f"{MACHINE}")
    print(f"Open views: {', '.join(wanted.view)}")
    print("| columns | without edits | with edits | edits a second |")
    print("|---|---|---|---|")
    with folder_of(wanted) as folder:
        for columns in wanted.columns:
            run_case(wanted, folder, columns)


def read_words():
    words = parser_of(__doc__, runs=5)
    words.add_argument("--of", choices=["track", "second", "lengths", "shows"], default="track", help="what is edited")
    words.add_argument("--view", nargs="+", choices=VIEWS, default=["merge"], help="the views that are open")
    words.add_argument("--records", type=int, default=1_000_000)
    words.add_argument("--columns", type=int, nargs="+", choices=[3, 4, 5, 6], default=[3, 6])
    words.add_argument("--edits", type=int, default=200_000, help="how many adds, and how many removes")
    words.add_argument("--at", choices=["all-over", "one-place", "ascending"], default="all-over", help="where the added records lie, and in which order they come")
    return begin(words)


def run_case(wanted, folder, columns):
    genome, track, idle, busy = (os.path.join(folder, name) for name in ("sizes", "sorted.bed", "idle", "busy"))
    write_data(genome, track, "merge", wanted.records, columns, "sorted")
    opened = "".join(f"open\tv{place}\t{view}\n" for place, view in enumerate(wanted.view))
    with open(idle, "w") as file:
        file.write(opened + "printall\n")
    words = [wanted.program, "session", "-g", genome, "-i", track]
    if wanted.of == "lengths":
        write_lengths(busy, opened, wanted.edits)
    elif wanted.of == "shows":
        write_shows(busy, opened, wanted)
    else:
        write_edits(busy, opened, wanted.edits, columns, "b" if wanted.of == "second" else "", wanted.at)
    if wanted.of == "second":
        words += ["-b", track]
    still, moved = printed(words, idle), printed(words, busy)
    if not (moved.endswith(still) if wanted.of == "shows" else moved == still):
        sys.exit("what the scripts print differs")
    seconds = {idle: [], busy: []}
    for _ in range(wanted.runs):
        for script, runs in seconds.items():
            runs.append(timed(words, script))
    still, moved = (statistics.median(runs) for runs in seconds.values())
    print(f"| {columns} | {still * 1000:.0f} ms | {moved * 1000:.0f} ms | {2 * wanted.edits / (moved - still):,.0f} |", flush=True)


def write_lengths(script, opened, edits):
    name, length = CHROMOSOMES[0]
    with open(script, "w") as file:
        file.write(opened)
        file.writelines(f"resize\t{name}\t{length + more}\n" for more in range(1, edits + 1))
        file.writelines(f"resize\t{name}\t{length + more}\n" for more in reversed(range(edits)))
        file.write("printall\n")


def write_shows(script, opened, wanted):
    chance = random.Random(SEED)
    found = sorted(places(wanted.records))
    with open(script, "w") as file:
        file.write(opened)
        for number in range(2 * wanted.edits):
            place = chance.randrange(len(found) - 10)
            rank, start, stop = found[place]
            last = found[place + 9]
            end = last[2] if last[0] == rank else stop
            file.write(f"show\tv{number % len(wanted.view)}\t{CHROMOSOMES[rank][0]}\t{start}\t{end}\n")
        file.write("printall\n")


def write_edits(script, opened, edits, columns, file_word, at):
    chance = random.Random(SEED)
    rows = []
    for number, (rank, start, stop) in enumerate(places_to_edit(edits, at, chance)):
        others = [f"gene_{number}", str(number % 1000), "+-"[number % 2]][:columns - 3]
        rows.append("\t".join([CHROMOSOMES[rank][0], str(start), str(stop), *others]))
    with open(script, "w") as file:
        file.write(opened)
        file.writelines(f"add{file_word}\t{row}\n" for row in rows)
        chance.shuffle(rows)
        file.writelines(f"remove{file_word}\t{row}\n" for row in rows)
        file.write("printall\n")


def places_to_edit(edits, at, chance):
    """The places of the records that are added, in the order of the script."""
    if at == "all-over":
        # the same places as in the track, and others: some records get a copy
        return [(rank, start + 7 * (number % 2 == 0), stop + 7 * (number % 2 == 0))
                for number, (rank, start, stop) in enumerate(places(edits))]
    middle = CHROMOSOMES[0][1] // 2
    found = [(0, middle + 3 * number, middle + 3 * number + 2) for number in range(edits)]
    if at == "one-place":
        chance.shuffle(found)
    return found


def printed(words, script):
    with open(script, "rb") as given:
        done = subprocess.run(words, stdin=given, stdout=subprocess.PIPE)
    stop_unless_done(words, done.returncode)
    return done.stdout


def timed(words, script):
    with open(script, "rb") as given:
        begun = time.perf_counter()
        done = subprocess.run(words, stdin=given, stdout=subprocess.DEVNULL)
        seconds = time.perf_counter() - begun
    stop_unless_done(words, done.returncode)
    return seconds


if __name__ == "__main__":
    main()

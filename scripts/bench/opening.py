#!/usr/bin/env python3
"""Times the opening of views over a track, a print after an edit, and an edit within one large block.

    make build
    python3 scripts/bench/opening.py [FOLDER] [--view WORDS ..] [--records N] [--columns N] [--block N]

Writes `sizes` and `sorted.bed` into FOLDER (a temporary folder if none is given); a `sorted.bed` that is there
already is used with its `sizes`, so --records has to be the number of its records.

For each view the session is run twice in turn, with a script that opens it and
with an empty one. The difference of the two is the time of the opening, and the
difference of the most memory that both held, over the number of records, the
bytes a record. Next a `merge` view is printed once more after an edit, beside
`bedtools merge` of the whole file. Then a track of one block of `--block` records: 100 records are
added and removed again under `merge -c 4 -o collapse` and under `merge`, whose
results are made again at each edit.
"""

import os
import statistics

from views import MACHINE, VIEWS, begin, folder_of, measure, parser_of, write_data

EDITS = 100


def main():
    wanted = read_words()
    with folder_of(wanted) as folder:
        print(f"{wanted.records:,} records of {wanted.columns} columns, {wanted.runs} runs each, {MACHINE}")
        print("| view | opening | bytes a record |")
        print("|---|---|---|")
        time_openings(wanted, folder)
        time_print(wanted, folder)
        print(f"\nOne block of {wanted.block:,} records, {EDITS} adds and {EDITS} removes:\n")
        print("| view | an edit |")
        print("|---|---|")
        for view in ["merge", "merge -c 4 -o collapse"]:
            time_block(wanted, folder, view)


def read_words():
    words = parser_of(__doc__, runs=3)
    words.add_argument("--view", nargs="+", choices=VIEWS, default=["merge", "merge -d 100", "complement", "cluster", "genomecov -bg"])
    words.add_argument("--records", type=int, default=4_000_000)
    words.add_argument("--columns", type=int, choices=[3, 4, 5, 6], default=3)
    words.add_argument("--block", type=int, default=100_000, help="how many records the one block has")
    return begin(words)


def time_openings(wanted, folder):
    genome, track, empty = (os.path.join(folder, name) for name in ("sizes", "sorted.bed", "empty"))
    if not os.path.exists(track):
        write_data(genome, track, "merge", wanted.records, wanted.columns, "sorted")
    open(empty, "w").close()
    words = [wanted.program, "session", "-g", genome, "-i", track]
    for view in wanted.view:
        opens = written(folder, "opens", f"open\tv\t{view}\n")
        seconds, most = measure({"with": (words, opens), "without": (words, empty)}, wanted.runs)
        time = statistics.median(seconds["with"]) - statistics.median(seconds["without"])
        print(f"| {view} | {time * 1000:.0f} ms | {(most['with'] - most['without']) / wanted.records:.0f} |", flush=True)


def time_print(wanted, folder):
    genome, track = (os.path.join(folder, name) for name in ("sizes", "sorted.bed"))
    words = [wanted.program, "session", "-g", genome, "-i", track]
    with open(track) as rows:
        row = rows.readline()
    edited = written(folder, "edited", f"open\tv\tmerge\nremove\t{row}")
    printed = written(folder, "printed", f"open\tv\tmerge\nremove\t{row}print\tv\n")
    theirs = ["bedtools", "merge", "-i", track]
    seconds, _ = measure({"printed": (words, printed), "edited": (words, edited), "bedtools": (theirs, os.devnull)}, wanted.runs)
    median = {name: statistics.median(times) for name, times in seconds.items()}
    time = median["printed"] - median["edited"]
    print(f"\nA print of `merge` after an edit: {time * 1000:.0f} ms; `bedtools merge` of the file: {median['bedtools'] * 1000:.0f} ms", flush=True)


def time_block(wanted, folder, view):
    genome = written(folder, "block.sizes", f"chr1\t{20 * wanted.block + 1000}\n")
    rows = (f"chr1\t{20 * place}\t{20 * place + 25}\tgene_{place}\n" for place in range(wanted.block))
    track = written(folder, "block.bed", "".join(rows))
    edits = [f"chr1\t{20 * place + 7}\t{20 * place + 17}\tedit_{place}\n" for place in range(0, wanted.block, wanted.block // EDITS)]
    opens = f"open\tv\t{view}\n"
    moved = written(folder, "moved", opens + "".join(f"add\t{row}" for row in edits) + "".join(f"remove\t{row}" for row in edits))
    still = written(folder, "still", opens)
    words = [wanted.program, "session", "-g", genome, "-i", track]
    seconds, _ = measure({"moved": (words, moved), "still": (words, still)}, wanted.runs)
    time = statistics.median(seconds["moved"]) - statistics.median(seconds["still"])
    print(f"| {view} | {time / (2 * len(edits)) * 1000:.3f} ms |", flush=True)


def written(folder, name, text):
    path = os.path.join(folder, name)
    with open(path, "w") as file:
        file.write(text)
    return path


if __name__ == "__main__":
    main()

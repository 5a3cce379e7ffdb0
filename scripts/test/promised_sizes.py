#!/usr/bin/env python3
"""Runs the built program at the limits of docs/FORMAT.md: over files of 4,000,000 and 10,000,000 records, with one more that is let
through or refused with its line, and with scripts of 4,000,000 lines. A body that gives up below a limit is seen here. What is to be
printed is known by how the files are made, never by the program. It takes half a minute, and 300 MB below TMPDIR.

    scripts/test/promised_sizes.py build/bedkeep

Status 1 if a run prints anything else, or has another message or status.
"""
import resource
import subprocess
import sys
import tempfile
from pathlib import Path

from trials import begin, parser_of

SECONDS = 120
# The bytes of stack that a run has.
STACK = 1 << 20
# The limit on records and lines if none is given.
DEFAULT = 4_000_000
# In a text for a thousand lines, @ is the number of the thousand. A position has four digits after it.
THOUSANDS = range(1, DEFAULT // 1_000 + 1)
GENOME = b"big\t4000000000\n"
LAST = b"big\t3999999990\t4000000000"
# The first of them shares a position with RECORDS, and the second none.
FEW = [b"big~20000094~20000096", b"big~20000095~20000100", LAST]


def for_each(text, thousands):
    return (text.replace(b"@", b"%d" % thousand) for thousand in thousands)


def place(start, end):
    return b"big\t@%04d\t@%04d" % (start, end)


# Ten records in a row reach one another, and the next ten don't reach them.
RECORDS = [(10 * number, 10 * number + (5 if number % 10 == 9 else 12)) for number in range(1_000)]
BLOCKS = [(start, start + 95) for start in range(0, 10_000, 100)]
RESTS = [b"\tn%d\t%d\t%c" % (number % 10, number % 10, b"+-."[number % 3]) for number in range(1_000)]
PLACES = b"".join(place(*record) + b"\n" for record in RECORDS)
ROWS = b"".join(place(*block) + b"\n" for block in BLOCKS)


def lines(*rows):
    return b"".join(row.replace(b"~", b"\t") + b"\n" for row in rows)


def write(folder, records):
    """The genome file, and a first file of these pieces."""
    (folder / "g").write_bytes(GENOME)
    with open(folder / "a", "wb") as file:
        file.writelines(records)


def add_to(folder, records):
    with open(folder / "a", "ab") as file:
        file.write(records)


def three_columns(folder):
    """As many records as the default limit lets through, and one more, in the first file and in the second."""
    write(folder, for_each(PLACES, THOUSANDS))
    rows = b"".join(for_each(ROWS, THOUSANDS))
    yield "the default limit of records", "merge -g g -i a", b"", 0, b"", rows
    add_to(folder, b"# one more\n" + LAST + b"\n")
    (folder / "few").write_bytes(lines(*FEW))
    refused = b"bedkeep: a: line %d: too many\n" % (DEFAULT + 2)
    for words in "merge -g g -i a", "session -g g -i a", "session -g g -i few -b a":
        yield f"a record over the default limit: {words}", words, b"", 3, refused, b""
    # A block is split, two become one, and one goes. The track is full from line 3 to line 5.
    script = lines(b"open~m~merge", b"replace~big~10000050~10000062~big~10000050~10000055", b"add~big~20000095~20000100", b"add~big~1~2",
                   b"remove~" + LAST, b"remove~" + LAST, b"print~m")
    for was, now in ([b"big~10000000~10000095"], [b"big~10000000~10000055", b"big~10000060~10000095"]), (
            [b"big~20000000~20000095", b"big~20000100~20000195"], [b"big~20000000~20000195"]):
        rows = rows.replace(lines(*was), lines(*now))
    yield "edits of three columns", f"session -g g -i a -limit {DEFAULT + 2}", script, 1, b"line 4: track is full\nline 6: no such record\n", rows
    script = lines(b"open~v~intersect -u", b"print~v", b"addb~big~20000095~20000100", b"addb~big~1~2", b"print~v")
    yield "edits of the second file", f"session -g g -i few -b a -limit {DEFAULT + 2}", script, 1, b"line 4: track is full\n", (
        lines(FEW[0], FEW[2], *FEW))


def six_columns(folder):
    """The same with names, scores and strands, the last record first."""
    thousand = lines(*(place(*record) + rest for record, rest in zip(RECORDS[::-1], RESTS[::-1])))
    write(folder, [lines(LAST + b"~m~7~+"), *for_each(thousand, THOUSANDS[::-1])])
    names = b",".join(b"n%d" % number for number in range(10))
    rows = b"".join(for_each(ROWS.replace(b"\n", b"\t%s\t45\n" % names), THOUSANDS)) + lines(LAST + b"~m~7")
    script = lines(b"open~m~merge -c 4,5 -o collapse,sum", b"add~big~20000090~20000095~new~7~-", b"add~big~1~2~n~0~.", b"print~m")
    yield "an edit of six columns", f"session -g g -i a -limit {DEFAULT + 2}", script, 1, b"line 3: track is full\n", (
        rows.replace(lines(b"big~20000000~20000095~%s~45" % names), lines(b"big~20000000~20000095~%s,new~52" % names)))


def long_scripts(folder):
    """As many lines as the default limit lets through, of which six in ten leave a record, all over the track; and one more."""
    write(folder, [])
    adds = [lines(b"add~" + place(*record)) for record in RECORDS]
    tens = b"".join(b"".join(adds[at : at + 7]) + b"# a note\n\n" + adds[at + 4].replace(b"add", b"remove") for at in range(0, 1_000, 10))
    # The last of a thousand lines is refused instead.
    thousand = tens[: tens.rindex(b"remove")] + lines(b"add~big~@0009~@0009")
    thousands = THOUSANDS[:-1]
    in_no_order = [thousands[at * 1_237 % len(thousands)] for at in range(len(thousands))]
    script = lines(b"open~m~merge") + b"".join(for_each(thousand, in_no_order)) + b"#\n" * 998 + lines(b"print~m")
    # The fifth of ten records isn't there, except at the end of a thousand, and the last three never were.
    rows = b"".join(lines(place(at, at + 42), place(at + 50, at + 72)) for at in range(0, 9_900, 100)) + lines(place(9_900, 9_972))
    wanted = b"".join(for_each(rows, thousands))
    messages = b"".join(b"line %d: start not below end\n" % (1_000 * number + 1) for number in thousands)
    yield "the default limit of lines", "session -g g -i a", script, 1, messages, wanted
    yield "a line over the default limit", "session -g g -i a", script + b"print\tm\n", 4, messages + b"bedkeep: input too long\n", wanted


def greater_limit(folder):
    """A limit of ten million, and a file that has one record more."""
    thousands = range(1, 10_001)
    write(folder, for_each(PLACES, thousands))
    words = "merge -g g -i a -limit 10000000"
    yield "a limit of ten million", words, b"", 0, b"", b"".join(for_each(ROWS, thousands))
    add_to(folder, LAST)
    yield "a record over a limit of ten million", words, b"", 3, b"bedkeep: a: line 10000001: too many\n", b""


def is_right(program, folder, name, words, script, *wanted):
    """Whether a run has this status, these messages and these rows; says so if it hasn't."""
    def limit():
        resource.setrlimit(resource.RLIMIT_STACK, (STACK, STACK))

    (folder / "script").write_bytes(script)
    with open(folder / "script", "rb") as given, open(folder / "rows", "wb") as rows:
        done = subprocess.run([program, *words.split()], cwd=folder, stdin=given, stdout=rows, stderr=subprocess.PIPE, preexec_fn=limit, timeout=SECONDS)
    found = done.returncode, done.stderr, (folder / "rows").read_bytes()
    if found != wanted:
        print(f"{name}: status {found[0]} for {wanted[0]}, {found[1][-200:]} for {wanted[1][-200:]}, {len(found[2])} bytes of rows for {len(wanted[2])}",
              file=sys.stderr)
    return found == wanted


def main():
    program = begin(parser_of(__doc__)).program
    results = []
    for kind in three_columns, six_columns, long_scripts, greater_limit:
        with tempfile.TemporaryDirectory() as folder:
            results += [is_right(program, Path(folder), *run) for run in kind(Path(folder))]
    if not all(results):
        sys.exit(f"{results.count(False)} of {len(results)} runs at the limits are wrong")
    print(f"all {len(results)} runs at the limits print what they are to print")


if __name__ == "__main__":
    main()

#!/usr/bin/env python3
"""Runs the built program over files that are cut after each number of bytes.

    scripts/test/cuts.py build/bedkeep

What is left of a genome file or a BED file says the entries of its whole lines. If it ends within a line, that line says one more
entry, or none, or it has a fault, which is reported with its number. No earlier line can have a fault. What is left of a FASTA
file is sound, or its fault is one that only its end can show: one of its last line, which is cut, or the wrong length of its last
sequence, reported with the line of that sequence's header.

A BED file is read in each way that the program has: its places alone (merge), its records in their text (cluster), and the records
of a session. Whole files and one in so many cuts come through pipes too, three bytes at each read. Status 1 if a run prints
anything else.
"""
import concurrent.futures
import contextlib
import functools
import itertools
import os
import re
import subprocess
import sys
import tempfile
import threading
from pathlib import Path

from trials import begin, parser_of

SECONDS = 60
PIECE = 3
# One in so many cuts comes in pieces. It is no multiple of their size, so a file's cuts end everywhere in a piece.
EVERY = 7
SIZES = "chr1\t100\nchr2\t50\nchr3\t0\ns\t10\nu\t5\nbig\t1000000\n"
RANKS = {line.split("\t")[0]: rank for rank, line in enumerate(SIZES.splitlines())}

# Beside each file is a mark for each of its lines: e if it says an entry, - if it says none.
GENOMES = [
    (SIZES, "eeeeee"),
    ("chr1\t100\nchr2\t50\nchr3\t0\n", "eee"),
    ("s\t10\nu\t5\n", "ee"),
    ("big\t1000000\n", "e"),
    ("chr1\t100\t6\t60\t61\n", "e"),
    ("chrom\tsize\nchr1\t100", "-e"),
    ("# hg38\r\n\r\nchr1\t248956422\r\nchr10\t4000000000\r\nchr2\t0\r\n", "--eee"),
    ("\n#\nchr1\t0000000007\tx\ty\n\nchrom\tsize\nM\t1", "--e--e"),
    ("h\t4000000000\n", "e"),
]
BEDS = [
    ("chr1\t1\t2\nchr2\t3\t50\n", "ee"),
    ("#c\nchr2\t5\t9\ta\nchr1\t30\t40\tb\n", "-ee"),
    ("chr1\t1\t2\r\nchr1\t7\t8", "ee"),
    ("browser position\n\n", "--"),
    ("track name=x\n#c\n\nchr1\t10\t20\tn 1\t0\nchr2\t0010\t0020\tm\t0.5", "---ee"),
    ("browser hide all\r\ntrack\r\nchr1\t10\t20\tx\t7\t-\r\n\r\nchr1\t0\t100\ty\t0\t+\r\n#\r\nchr2\t5\t9\tz\t.\t.\r\n", "--e-e-e"),
    ("chr1\t10\t20\ta\t0\t+\nchr1\t12\t40\td\t0\t.\nchr1\t25\t35\te\t0\t-", "eee"),
    ("chr1\t10\t20\ta\t5\nchr1\t11\t20\tb\t.\nchr1\t12\t20\ta\t-7\nchr1\t13\t20\tc\t007\n", "eeee"),
    ("chr1\t10\t20\tx\t7\t-\n", "e"),
    ("chr1\t12\t14\nchr1\t13\t16\n", "ee"),
    ("s\t2\t6\tn\t0\t-\ns\t9\t10\tn\t0\t-\nu\t0\t5\tn\t0\t+\n", "eee"),
    ("big\t0\t5\n", "e"),
    ("chr2\t5\t9\nchr1\t30\t40\nchr1\t10\t35\n", "eee"),
    ("track name=x\nbrowser\n\n#c", "----"),
    ("", ""),
    ("".join(f"big\t{at * 1000}\t{at * 1000 + 10}\n" for at in range(40)), "e" * 40),
]
FASTAS = [
    ">u\nTTTTA\n>x only here\nCC\nC\n>s\nACGTN\nacgtR\n>z",
    ">s first of all\r\nACGT\r\nNacgt\r\nR\r\n\r\n>sx\r\n>z\tempty\r\n\r\n>u S 5\r\nTT\r\nTTA\r\n",
    "\n\r\n>z\n>s\nACGTNacg\n\n\ntR\n>name of none\nAC>GT\n>u\nTTTTA",
    ">zu\nAC\n>z\n>u a > and a CR: \r.\nTTTT\nA\n>s\nA\nC\nG\nT\nN\nacgt\nR\n>us\nA\n",
    ">s test\nACGT\nNacg\ntR\n",
]
FASTA_SIZES = "s\t10\nu\t5\nz\t0\n"
WHOLE = {"s": "ACGTNacgtR", "u": "TTTTA", "z": ""}
AT_THE_END = ["bad name", "repeated name", "bases before a header", "bad base"]

# One file of each kind, worked out by hand: up to how many bytes, and the fault, or None.
GENOME_BY_HAND = "chr1\t100\nchr2\t50\n", [
    (0, None), (4, "line 1: wrong number of columns"), (5, "line 1: bad length"), (9, None),
    (13, "line 2: wrong number of columns"), (14, "line 2: bad length"), (17, None),
]
BED_BY_HAND = "chr1\t10\t20\nchr1\t30\t40\n", [
    (0, None), (7, "line 1: wrong number of columns"), (8, "line 1: end is not a number"), (9, "line 1: start not below end"), (11, None),
    (18, "line 2: wrong number of columns"), (19, "line 2: end is not a number"), (20, "line 2: start not below end"), (22, None),
]
FASTA_BY_HAND = ">u 5\r\nTTT\r\nTA\r\n>ux\nAC\n>z\n>s\nACGTNacgtR\n", [
    # No byte, and a header without a name.
    (0, None), (1, "line 1: bad name"),
    # The name of a sequence of five bases, and up to three of them. A CR at the end is no base.
    (9, "line 1: length differs from the genome"), (10, "line 2: bad base"), (12, "line 1: length differs from the genome"),
    (13, None), (14, "line 3: bad base"), (15, None),
    # A header without a name, the name of the sequence before, and one that the genome lacks.
    (16, "line 4: bad name"), (17, "line 4: repeated name"), (22, None),
    # A sequence of no base, and one of ten.
    (23, "line 6: bad name"), (25, None), (26, "line 7: bad name"), (37, "line 7: length differs from the genome"), (39, None),
]


def write_pieces(pipe, text):
    """Writes a text into a pipe that keeps pieces apart, and closes it."""
    with contextlib.suppress(BrokenPipeError), open(pipe, "wb", buffering=0) as file:
        for at in range(0, len(text), PIECE):
            file.write(text[at : at + PIECE])


@contextlib.contextmanager
def in_pieces(text):
    """A pipe whose reader gets a text in pieces, one at each read."""
    reader, writer = os.pipe2(os.O_DIRECT | os.O_CLOEXEC)
    thread = threading.Thread(target=write_pieces, args=(writer, text))
    thread.start()
    try:
        yield reader
    finally:
        os.close(reader)
        thread.join()


def first_read(text):
    """What the first read of a text in pieces gives."""
    with in_pieces(text) as pipe:
        return os.read(pipe, len(text))


class Runs:
    """Runs of the program in folders of their own, whose files are files, or pipes that give them in pieces."""

    def __init__(self, program, top, pieces):
        self.program, self.pieces, self.numbers = program, pieces, itertools.count()
        self.top = Path(top, "pipes" if pieces else "files")

    def run(self, words, files, script=b""):
        """The rows of a run, and the fault that it reports of a file, if any."""
        folder = Path(self.top, str(next(self.numbers)))
        folder.mkdir(parents=True)
        with contextlib.ExitStack() as stack:
            pipes = []
            for name, text in files.items():
                if self.pieces:
                    pipes.append(stack.enter_context(in_pieces(text.encode())))
                    Path(folder, name).symlink_to(f"/dev/fd/{pipes[-1]}")
                else:
                    Path(folder, name).write_bytes(text.encode())
            done = subprocess.run([self.program, *words.split()], cwd=folder, input=script, capture_output=True, timeout=SECONDS,
                                  pass_fds=pipes)
        fault = re.fullmatch(rb"bedkeep: \w: (line [0-9]+: .*)\n", done.stderr)
        if (done.returncode, bool(fault), bool(done.stderr)) not in ((0, False, False), (3, True, True)):
            raise ValueError(f"status {done.returncode}, {done.stderr}")
        return done.stdout.decode(), fault and fault.group(1).decode()


def rows_of(lines):
    """The rows of a genome's gaps, which name each sequence of these lines that has a base."""
    fields = [line.rstrip("\r").split("\t") for line in lines]
    return "".join(f"{row[0]}\t0\t{int(row[1])}\n" for row in fields if int(row[1]))


def places_of(lines):
    """Rank, start, stop and the whole of each line, in the order of a track."""
    rows = [line.rstrip("\r").split("\t") for line in lines]
    return sorted((RANKS[row[0]], int(row[1]), int(row[2]), row) for row in rows)


def joined(lines):
    """Blocks of lines: the sequence, start and stop of each, and the lines."""
    blocks = []
    for rank, start, stop, row in places_of(lines):
        if blocks and blocks[-1][0] == rank and start <= blocks[-1][2]:
            blocks[-1][2] = max(blocks[-1][2], stop)
            blocks[-1][4].append((start, stop, row))
        else:
            blocks.append([rank, start, stop, row[0], [(start, stop, row)]])
    return blocks


def merged(lines):
    return "".join(f"{block[3]}\t{block[1]}\t{block[2]}\n" for block in joined(lines))


def clustered(lines):
    return "".join("\t".join([row[0], str(start), str(stop), *row[3:], str(number)]) + "\n"
                   for number, block in enumerate(joined(lines), 1) for start, stop, row in block[4])


def genome_rows(runs, text):
    return runs.run("complement -g g -i a", {"g": text, "a": ""})


def places_rows(runs, text):
    return runs.run("merge -g g -i a", {"g": SIZES, "a": text})


def text_rows(runs, text):
    return runs.run("cluster -g g -i a", {"g": SIZES, "a": text})


def session_rows(runs, text):
    return runs.run("session -g g -i a", {"g": SIZES, "a": text}, b"open\tk\tcluster\nprint\tk\n")


def bases_rows(runs, text):
    sequences = "".join(f"{name}\t0\t{len(bases)}\n" for name, bases in WHOLE.items() if bases)
    return runs.run("getfasta -tab -g g -bed a -fi f", {"g": FASTA_SIZES, "a": sequences, "f": text})


def is_whole(runs, text, read, rows, marks):
    """Whether a file that is not cut is read as it is to be."""
    return read(runs, text) == (rows([line for line, mark in zip(text.split("\n"), marks) if mark == "e"]), None)


def is_cut(runs, cut, read, rows, marks):
    """Whether a cut text is read as it is to be."""
    *whole, last = cut.split("\n")
    entries = [line for line, mark in zip(whole, marks) if mark == "e"]
    found, fault = read(runs, cut)
    if fault:
        return bool(last) and not found and fault.startswith(f"line {len(whole) + 1}: ")
    if found == rows(entries):
        return True
    # A line that is cut is read like a whole one.
    return bool(last) and marks[len(whole)] == "e" and found == rows([*entries, last])


def is_fasta_cut(runs, cut):
    """Whether a cut FASTA file is read as it is to be: each row has all bases of a sequence that the file has."""
    found, fault = bases_rows(runs, cut)
    lines = cut.split("\n")
    if not fault:
        return all(row in [f"{name}:0-{len(bases)}\t{bases}" for name, bases in WHOLE.items()] for row in found.splitlines())
    headers = [number for number, line in enumerate(lines, 1) if line.startswith(">")]
    last = [f"line {len(lines)}: {text}" for text in AT_THE_END] if lines[-1] else []
    return not found and fault in [*last, *(f"line {number}: length differs from the genome" for number in headers[-1:])]


def has_fault(runs, cut, read, fault):
    """Whether a cut text has this fault, or none."""
    return read(runs, cut)[1] == fault


def cuts_by_hand(text, wanted):
    """Each cut of a text, and the fault that it is to have."""
    first = 0
    for last, fault in wanted:
        yield from ((text[:size], fault) for size in range(first, last + 1))
        first = last + 1
    if first != len(text) + 1:
        raise ValueError("the cuts of a file end before it does")


def checks(every):
    """Whole texts and one in so many cuts of each, and what is to be so of them."""
    beds = [(places_rows, merged), (text_rows, clustered), (session_rows, clustered)]
    for texts, ways in (GENOMES, [(genome_rows, rows_of)]), (BEDS, beds):
        for (text, marks), (read, rows) in itertools.product(texts, ways):
            yield text, functools.partial(is_whole, read=read, rows=rows, marks=marks)
            for size in range(len(text), -1, -every):
                yield text[:size], functools.partial(is_cut, read=read, rows=rows, marks=marks)
    for text in FASTAS:
        for size in range(len(text), -1, -every):
            yield text[:size], is_fasta_cut
    for ways, hand in ([genome_rows], GENOME_BY_HAND), ([places_rows, text_rows, session_rows], BED_BY_HAND), ([bases_rows], FASTA_BY_HAND):
        for read, (cut, fault) in itertools.product(ways, list(cuts_by_hand(*hand))[::-every]):
            yield cut, functools.partial(has_fault, read=read, fault=fault)


def main():
    program = begin(parser_of(__doc__)).program
    if first_read(b"abcd") != b"abc":
        sys.exit("pipes don't keep pieces apart here")
    wrong = 0
    with tempfile.TemporaryDirectory() as top, concurrent.futures.ThreadPoolExecutor(os.cpu_count()) as pool:
        whole, pieces = Runs(program, top, False), Runs(program, top, True)
        results = [(text, "", pool.submit(check, whole, text)) for text, check in checks(1)]
        results += [(text, " in pieces", pool.submit(check, pieces, text)) for text, check in checks(EVERY)]
        for text, how, result in results:
            try:
                why = None if result.result() else "other rows or another fault"
            except ValueError as error:
                why = error
            if why:
                print(f"{text!r}{how}: {why}", file=sys.stderr)
                wrong += 1
    if wrong:
        sys.exit(f"{wrong} of {len(results)} files that are cut are read otherwise")
    print(f"all {len(results)} files that are cut are read as they are to be")


if __name__ == "__main__":
    main()

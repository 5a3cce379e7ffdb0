"""Runs the two programs over files, and shows the commands."""

import hashlib
import os
import subprocess
from collections import namedtuple

from comparison import formats

# seconds that a run may take
LONGEST = 10
TIMED_OUT = 124
# the subcommands of bedtools that want sorted records
SORTED = ("merge", "cluster", "complement", "genomecov")
SORTS = {"sort": "LC_ALL=C sort -k1,1 -k2,2n a.bed", "bedtools sort": "bedtools sort -i a.bed -g sizes"}
ENVIRONMENT = dict(os.environ, LC_ALL="C")

Run = namedtuple("Run", "status output message")
# What is asked of bedtools. `ties` says that records of one start are put into track order after the sort, `split` that the strands are
# merged one by one; `after` are functions on the output.
Asked = namedtuple("Asked", "files order subcommand options ties split after")


def our_words(subcommand, options):
    """The words of bedkeep after its name."""
    files = {"intersect": ["-a", "a.bed", "-b", "b.bed"], "subtract": ["-a", "a.bed", "-b", "b.bed"], "getfasta": ["-bed", "a.bed", "-fi", "s.fa"]}
    return [subcommand, "-g", "sizes", *files.get(subcommand, ["-i", "a.bed"]), *options]


def their_words(subcommand, options, first):
    """The words of bedtools after its name."""
    if subcommand in ("intersect", "subtract"):
        return [subcommand, "-a", "a.bed", "-b", "b.bed", *options]
    if subcommand == "getfasta":
        return [subcommand, "-fi", "s.fa", "-bed", "a.bed", *options]
    return [subcommand, "-i", first, *(["-g", "sizes"] if subcommand in ("complement", "genomecov") else []), *options]


def their_lines(subcommand, options, order):
    """The command lines that a user of bedtools writes."""
    first = "sorted.bed" if order and subcommand in SORTED else "a.bed"
    sort = [f"{SORTS[order]} > sorted.bed"] if first == "sorted.bed" else []
    return sort + [" ".join(["bedtools", *their_words(subcommand, options, first)])]


class Desk:
    """A temporary folder with one more for each set of files."""

    def __init__(self, program, folder):
        self.program, self.folder, self.kept = program, folder, {}

    def ours(self, files, subcommand, options):
        return self.run([self.program, *our_words(subcommand, options)], self.folder_of(files))

    def theirs(self, asked):
        """The text of what is asked of bedtools; None if it refuses, or if what comes after can't be done."""
        runs = self.split_runs(asked) if asked.split else [self.plain_run(asked)]
        text = None if any(run.status for run in runs) else b"".join(run.output for run in runs)
        for change in asked.after:
            text = None if text is None else change(text)
        return text

    def plain_run(self, asked):
        folder = self.folder_of(asked.files, asked.order, asked.ties)
        first = "sorted.bed" if asked.order and asked.subcommand in SORTED else "a.bed"
        return self.run(["bedtools", *their_words(asked.subcommand, asked.options, first)], folder)

    def split_runs(self, asked):
        """Each strand of each sequence by itself, in the order of the input."""
        with open(os.path.join(self.folder_of(asked.files, asked.order, asked.ties), "sorted.bed" if asked.order else "a.bed"), "rb") as file:
            lines = file.read().splitlines(True)
        rest, runs = [option for option in asked.options if option != "-s"], []
        for name in dict.fromkeys(line.split(b"\t")[0] for line in lines if b"\t" in line):
            part = b"".join(line for line in lines if line.startswith(name + b"\t"))
            for strand in "+-":
                runs.append(self.run(["bedtools", *their_words("merge", ["-S", strand, *rest], "a.bed")], self.folder_of({"a.bed": part})))
        return runs

    def folder_of(self, files, order="", ties=False):
        """The folder of these files, with sorted.bed if they are to be sorted."""
        key = hashlib.sha256(repr((sorted(files.items()), order, ties)).encode()).hexdigest()
        if key not in self.kept:
            self.kept[key] = folder = os.path.join(self.folder, str(len(self.kept)))
            os.mkdir(folder)
            for name, text in files.items():
                write(os.path.join(folder, name), text)
            if order:
                run = self.run(["sh", "-c", SORTS[order]], folder)
                write(os.path.join(folder, "sorted.bed"), with_ties(run.output, files) if ties else run.output)
        return self.kept[key]

    def run(self, words, folder):
        try:
            done = subprocess.run(words, cwd=folder, env=ENVIRONMENT, stdin=subprocess.DEVNULL, capture_output=True, timeout=LONGEST)
        except subprocess.TimeoutExpired:
            return Run(TIMED_OUT, b"", b"it doesn't end")
        return Run(done.returncode, done.stdout, done.stderr)


def write(path, text):
    with open(path, "wb") as file:
        file.write(text)


def with_ties(text, files):
    """Sorted records, those of one sequence and start in track order; sequences stay in the order in which they are."""
    key, places = formats.track_key(formats.genome_of(files["sizes"])), {}
    lines = [line for line in text.splitlines(True) if formats.is_record(line.rstrip(b"\r\n"))]
    for line in lines:
        places.setdefault(line.split(b"\t")[0], len(places))
    columns = {line: line.rstrip(b"\r\n").split(b"\t") for line in lines}
    return b"".join(sorted(lines, key=lambda line: (places[columns[line][0]], key(columns[line])[1:])))


def refused(run):
    """bedtools refuses: by its status, or by a message that says so while its status is 0."""
    return run.status != 0 or b"ERROR" in run.message

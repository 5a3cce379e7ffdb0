"""What the tests share: a folder of files for each, and the program that BEDKEEP names."""
import contextlib
import io
import os
import signal
import subprocess
import sys
import tempfile
import unittest
from pathlib import Path
from unittest import mock

import bedkeep
from bedkeep import commands
from bedkeep.commands.core import opened
from bedkeep.commands.prompt import Curator
from bedkeep.commands.prompt_files import Given

PROGRAM = os.environ["BEDKEEP"]
os.environ["PYTHONPATH"] = str(Path(bedkeep.__file__).parent.parent)  # of what a test starts
EXAMPLES = Path(__file__).resolve().parent.parent.parent / "examples"

# A shell starts what it runs in the background with interrupts ignored, and so are those of Python then.
signal.signal(signal.SIGINT, signal.default_int_handler)


class Case(unittest.TestCase):
    """A test in a folder of its own, with a small genome, a track of four columns and a mask."""

    def setUp(self):
        folder = tempfile.TemporaryDirectory()
        self.addCleanup(folder.cleanup)
        self.folder = Path(folder.name)
        self.sizes = self.file("sizes", "chr1\t1000\nchr2\t500\n")
        self.genes = self.file("genes.bed", "chr1\t100\t200\tgeneA\nchr1\t300\t400\tgeneB\n")
        self.mask = self.file("mask.bed", "chr1\t150\t350\n")
        self.bases = self.file("bases.fa", ">chr1\n" + "ACGTT" * 200 + "\n>chr2\n" + "G" * 500 + "\n")

    def file(self, name, text):
        path = self.folder / name
        path.write_bytes(text if isinstance(text, bytes) else text.encode())
        return path

    def script(self, name, text):
        """A program of the shell, for the argument `program`."""
        path = self.file(name, f"#!/bin/bash\n{text}\n")
        path.chmod(0o755)
        return path

    def session(self, **options):
        session = bedkeep.Session(self.sizes, self.genes, **options)
        self.addCleanup(session.end)
        return session

    def refused(self, reason, number=1):
        """A context in which a line has to be refused for this reason."""
        return self.assertRaisesRegex(bedkeep.Refused, f"^line {number}: {reason}: ")

    def refuses(self, reason, call, *words):
        """That a call is refused for this reason."""
        with self.refused(reason):
            call(*words)

    def failure(self, kind, call, *words, **options):
        """What a call raises, which has to be of this kind."""
        with self.assertRaises(kind) as caught:
            call(*words, **options)
        return caught.exception

    def each(self, call, cases):
        """That a call gives each answer. cases: the words of a call, and the answer"""
        for *words, answer in cases:
            with self.subTest(words):
                self.assertEqual(call(*words), answer)

    def listed(self, call, cases):
        """The same of a call with one word that answers with a list."""
        self.each(call, ((word, answer) for word, *answer in cases))


class Prompt(Case):
    """A test of the prompt over the files of the folder."""

    def typed(self, *lines, words=None, status=0):
        """What the prompt prints for these lines, after what it says at its begin."""
        words = list(map(str, words or (self.sizes, self.genes, self.mask)))
        outcome = Outcome("curate", *words, typed=lines)
        self.assertEqual(outcome.status, status)
        listed = (outcome.out + outcome.err).splitlines()
        begin = next((at + 1 for at, line in enumerate(listed) if line.endswith("lists the commands")), 0)
        return listed[begin + (not status and "--script" not in words):]


class Prompted(Case):
    """A test of a prompt with a script, in this process."""

    def setUp(self):
        super().setUp()
        self.path = self.folder / "corrections"

    @contextlib.contextmanager
    def prompt(self, *answers, asked=True, genes=None, views=("merge",), second=None, **options):
        """A prompt, as a call that types lines and returns what it says, or without a line what it says at its begin.

        answers: to its questions, in their order; asked: whether somebody is there to be asked
        """
        left = list(answers)
        with contextlib.ExitStack() as stack:
            given = Given(str(self.sizes), str(genes or self.genes), second, script=str(self.path), **options)
            core = opened(given, list(views), stack)
            curator = Curator(core, (lambda _: left.pop(0)) if asked else None)

            def says(*lines):
                said = io.StringIO()
                with contextlib.redirect_stdout(said):
                    for line in lines or [None]:
                        curator.begin() if line is None else curator.run(line)
                return said.getvalue().splitlines()

            says.session, says.curator = core.session, curator
            yield says
        self.assertEqual(left, [])

    def has(self, *script):
        """That the script has these lines, with spaces for TABs."""
        self.assertEqual(self.path.read_text(), script_of("\n".join([*script, ""])) if script else "")


class Corrected(Case):
    """A test of commands over the texts of a BED file and of a script."""

    def corrected(self, command, bed, script, *words):
        """What a command printed, with its rows, and its messages without the script's name. Spaces are TABs in both texts."""
        self.bed, corrections = self.file("given.bed", tabs(bed)), self.file("corrections", script_of(script))
        outcome = Outcome(command, self.sizes, self.bed, corrections, *words)
        outcome.rows = outcome.out.replace("\t", " ").split("\n")[:-1]
        outcome.messages = [line.replace(f"{corrections}: ", "") for line in outcome.err.split("\n")[:-1]]
        outcome.track, outcome.said = (outcome.status, outcome.rows), (outcome.status, outcome.messages)
        outcome.carried = (*outcome.track, outcome.messages)
        return outcome


class Repository:
    """A git repository in a folder, with the settings of nobody."""

    def __init__(self, folder, branch="main"):
        self.folder = folder
        self.git("init", "-q", "-b", branch)

    def git(self, *words, **more):
        alone = {name: value for name, value in os.environ.items() if not name.startswith("GIT_")}
        given = {**alone, "GIT_CONFIG_GLOBAL": os.devnull, "GIT_CONFIG_NOSYSTEM": "1", **more}
        return subprocess.run(["git", "-C", self.folder, *words], env=given, stdout=subprocess.PIPE, check=True).stdout.decode().strip()

    def by(self, name, *words, date="2026-01-01T00:00:00+0000"):
        """What somebody does."""
        who = {f"GIT_{role}_{what}": value for role in ("AUTHOR", "COMMITTER") for what, value in (("NAME", name), ("EMAIL", "x@y"))}
        return self.git(*words, **who, GIT_AUTHOR_DATE=date)

    def commit(self, name, **date):
        """Commits all there is, and returns the commit."""
        self.git("add", "-A")
        self.by(name, "commit", "-q", "--allow-empty", "-m", "x", **date)
        return self.git("rev-parse", "--short=10", "HEAD")


class Outcome:
    """What a command printed, on standard output and on standard error, and its status. typed: the lines of standard input"""

    def __init__(self, *words, typed=None):
        out, err = io.TextIOWrapper(io.BytesIO(), "utf-8", "surrogateescape", newline=""), io.StringIO()
        lines = sys.stdin if typed is None else io.StringIO("".join(f"{line}\n" for line in typed))
        with contextlib.redirect_stdout(out), contextlib.redirect_stderr(err), mock.patch("sys.stdin", lines):
            try:
                self.status = commands.main([str(word) for word in words])
            except SystemExit as end:
                self.status = end.code
        out.flush()
        self.out = out.buffer.getvalue().decode("utf-8", "surrogateescape")
        self.err = err.getvalue()
        self.gave, self.failed = (self.status, self.out), (self.status, self.err)
        self.all = (self.status, self.out, self.err)


def line(text):
    """A line with TABs for spaces."""
    return "\t".join(text.split())


def lines(*texts):
    """The same of several."""
    return list(map(line, texts))


def tabs(text):
    """The text of a file of such lines."""
    return "".join(f"{one}\n" for one in lines(*text.strip().split("\n")))


def script_of(text):
    """The text of a script with TABs for the spaces of its lines, and not for those of comments."""
    return "".join((line if line.startswith("#") else line.replace(" ", "\t")) + "\n" for line in text.removesuffix("\n").split("\n"))


def printed(*words, **options):
    """The rows of a run, as lists of text."""
    run = subprocess.run([PROGRAM, *map(str, words)], stdout=subprocess.PIPE, check=True, **options)
    return [row.split("\t") for row in run.stdout.decode().split("\n")[:-1]]


def texts(rows):
    """Rows of the package as lists of text."""
    return [["." if column is None else str(column) for column in row] for row in rows]


def children():
    """The processes that this one started and that haven't ended, or nobody waited for."""
    return Path(f"/proc/self/task/{os.getpid()}/children").read_text().split()


def many(folder, count, length=10 ** 9):
    """The files of a genome of one sequence and of so many records of four columns, in their order."""
    sizes, bed = folder / "long", folder / "many.bed"
    sizes.write_text(f"chr1\t{length}\n")
    bed.write_text("".join(f"chr1\t{10 * number}\t{10 * number + 15}\tg{number % 100}\n" for number in range(count)))
    return sizes, bed

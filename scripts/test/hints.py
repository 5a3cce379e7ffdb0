#!/usr/bin/env python3
"""Makes the mistakes of tests/mistakes.tsv with the built program and BEDKEEP_HINTS=always.

    python3 scripts/test/hints.py build/bedkeep

Below the fixed line are one to three lines, which name the word, the value or the kind of the file, and what to do. If that is a command
over a file or a script, it has to mend it. Each row of the table of hints has to be seen.
"""
import contextlib
import gzip
import os
import pty
import re
import shlex
import subprocess
import sys
import tempfile
from pathlib import Path

TOP = Path(__file__).resolve().parent.parent.parent
BASES = b">chr1\n" + b"A" * 1000 + b"\n"
FILES = {
    "sizes": b"chr1\t1000\nchr2\t500\nchrM\t100\n",
    "bare.sizes": b"1\t1000\n2\t500\n",
    "low.sizes": b"chr1\t10\t1000\nchr2\t1\t500\n",
    "zero.sizes": b"chr1\t0\t1000\nchr2\t0\t500\n",
    "a.bed": b"chr1\t10\t20\nchr1\t15\t30\nchr2\t1\t9\n",
    "six.bed": b"chr1\t10\t20\ta\t2.5\t+\nchr1\t15\t30\tb\t1.5\t-\n",
    "empty.bed": b"",
    "bare.bed": b"1\t10\t20\n",
    "far.bed": b"chr1\t10\t20\t%s\n" % (b"x" * 4000) * 300 + b"chr1 10 20 x\n",
    "wide": b"chr1\t10\tx" + b"y" * 200 + b"\n",
    "a.bed.gz": gzip.compress(b"chr1\t10\t20\n"),
    "a.bam": b"\x1f\x8b\x08\x04\0\0\0\0\0\xff\x06\0BC\x02\0\0\0",
    "sound.fa": BASES,
    "bare.fa": BASES.replace(b"chr1", b"1 one"),
    "gz.fa": gzip.compress(BASES),
    "script": b"open\tm\tmerge\nprint\tm\n",
}
# A run over a file of each kind, and the option before it.
RUNS = {"bed": ("merge -g sizes -i {}", "-i"), "genome": ("complement -g {} -i empty.bed", "-g"),
        "fasta": ("getfasta -g sizes -bed six.bed -fi {}", "-fi"), "run": ("{}", "-i")}
# The arguments of a run, what it reads, from a file or a pipe, and where it writes.
RUN = re.compile(r"(.*?)(?: <(\|?) (.*?))?(?: > (\S+))?")
# Commands of hints over a file, and what they call that.
COMMANDS = re.compile(r"(?:(?<=: )|(?<=; )|(?<=  ))((?:awk|sed|tr|cut|zcat)\b.*? (FILE|GENOME))\b")


def read_table():
    """The rows of the table: where, what is typed, the status, the fixed line, the parts of the hint."""
    for line in (TOP / "tests" / "mistakes.tsv").read_text(encoding="utf-8").splitlines():
        if not line.startswith("#"):
            where, typed, status, fixed, parts = line.split("\t")
            yield where, typed, int(status), fixed, parts.split(" | ") if parts else []


def unescaped(text):
    return text.encode().decode("unicode_escape").encode("latin-1")


class Trial:
    """Runs of the program in a folder of its own, and what was wrong with them."""

    def __init__(self, program):
        self.program = program
        self.count = self.mended = self.wrong = 0
        self.seen = []

    def require(self, holds, *about):
        if not holds:
            self.wrong += 1
            print(*about, file=sys.stderr)

    def run(self, words, hints="always", **options):
        """The status and standard error."""
        options = {"stdout": subprocess.DEVNULL, **({} if "input" in options else {"stdin": subprocess.DEVNULL}), **options}
        done = subprocess.run([self.program, *words], stderr=subprocess.PIPE, check=False,
                              env={**os.environ, "BEDKEEP_HINTS": hints}, **options)
        return done.returncode, done.stderr.decode()

    def run_at_terminal(self, words, hints=""):
        """The same if standard input and standard error are a terminal, at which nothing is typed."""
        leader, follower = pty.openpty()
        os.write(leader, b"\x04")
        process = subprocess.Popen([self.program, *words], stdin=follower, stdout=subprocess.DEVNULL, stderr=follower,
                                   env={**os.environ, "BEDKEEP_HINTS": hints})
        os.close(follower)
        text = b""
        with contextlib.suppress(OSError):
            while piece := os.read(leader, 65536):
                text += piece
        os.close(leader)
        return process.wait(), text.replace(b"\r\n", b"\n").decode()

    def says(self, words, status, line, parts, **options):
        """One mistake. Without parts there is no hint. The hint below its line."""
        self.count += 1
        found = self.run(words, **options)
        hint = found[1].removeprefix(line)
        lines = hint.splitlines()
        self.require(found[0] == status and found[1].startswith(line) and all(part in hint for part in parts) and len(lines) <= 3
                     and bool(lines) == bool(parts) and all(one.startswith("  ") and one.isprintable() for one in lines),
                     words, found, "wanted", status, line, parts)
        self.seen += lines
        return hint

    def try_table(self):
        for where, typed, status, line, parts in read_table():
            if where in RUNS:
                self.try_run(where, typed, status, line, parts)
            else:
                self.try_line(where, typed, status, line, parts)

    def try_run(self, where, typed, status, line, parts):
        """A run by its arguments, or one over a damaged file. A command of the hint writes a file with which the run ends well."""
        form, option = RUNS[where]
        if where != "run" and not os.path.exists(typed):
            Path("typed").write_bytes(unescaped(typed))
            typed = "typed"
        words, pipe, source, output = RUN.fullmatch(form.format(typed)).groups()
        words = shlex.split(words)
        about = "" if where == "run" else f"{typed}: "
        with open(output or os.devnull, "wb") as rows, open(source if source and not pipe else os.devnull, "rb") as script:
            given = {"input": FILES.get(source, unescaped(source))} if pipe else {"stdin": script}
            hint = self.says(words, status, f"bedkeep: {about}{line}\n" if line else "", parts, stdout=rows, **given)
        for command, called in COMMANDS.findall(hint) if status in (0, 3) and not pipe else ():
            place = words.index("-g" if called == "GENOME" else option) + 1
            if called == "FILE" or where == "run":
                again = shlex.join([self.program, *words[:place], "mended", *words[place + 1:]])
                self.shell(f"{command.replace(called, words[place])} > mended && {again} | grep ''")

    def try_line(self, files, typed, status, line, parts):
        """The refused last line of a script over files. A command of the hint writes a script of which no line is refused."""
        text = unescaped(typed) + b"\n"
        Path("typed").write_bytes(text)
        words = ["session", "-g", "sizes", "-i", *files.split()]
        number = text.count(b"\n")
        hint = self.says(words, status, f"line {number}: {line}\n", parts, input=text)
        for command, called in COMMANDS.findall(hint):
            if called == "FILE":
                self.shell(f"{command.replace(called, 'typed')} > mended && {shlex.join([self.program, *words])} < mended")

    def shell(self, script):
        """A script of a shell, which has to end well."""
        self.mended += 1
        done = subprocess.run(["bash", "-o", "pipefail", "-c", script], capture_output=True, check=False)
        self.require(done.returncode == 0, script, done)

    def try_many_lines(self):
        """Three lines of a kind have a whole hint, and later ones their field. A line `?` has none, and the count begins again after it."""
        message = "line {}: unknown sequence\n  field 2: ".format
        hint, asked = "the genome file has no chr9: cut -f1 GENOME prints its names\n", "line 6: no such command or wrong fields\n"
        wanted = "".join(message(n) + (hint if n < 4 else "chr9\n") for n in range(1, 6)) + asked + message(8) + hint
        script = b"add\tchr9\t1\t2\n" * 5 + b"?\n" + b"# " + b"x" * 9000 + b"\nadd\tchr9\t1\t2\n"
        found = self.run(["session", "-g", "sizes", "-i", "a.bed"], input=script)
        self.require(found == (1, wanted), "many lines", found)

    def try_wishes(self):
        """Hints that aren't wanted, those at a terminal, and a wish that means nothing, which is itself a mistake."""
        line, session = "bedkeep: bad options\n", ["session", "-g", "sizes", "-i", "a.bed"]
        typed = "  a session reads its script here; python3 -m bedkeep curate is made for typing (see bedkeep session --help)\n"
        wish = "  BEDKEEP_HINTS is always or never, and not 1\n"
        for found, wanted in ((self.run(["merge"], ""), (2, line)), (self.run_at_terminal(["merge"], "never"), (2, line)),
                              (self.run_at_terminal(["merge"]), self.run(["merge"])), (self.run(["merge"], "1"), (2, wish + line)),
                              (self.run_at_terminal(session), (0, typed)), (self.run_at_terminal(["session", "--help"]), (0, ""))):
            self.require(found == wanted, "found", found, "wanted", wanted)
        self.seen += [typed, wish]

    def look_for_rows(self):
        """Each row of the table of hints was seen."""
        rows = (TOP / "crates/iv_hints/src/rows.rt").read_text(encoding="utf-8").split('r#"')[1].split("\n")
        for text in (row.split(" | ", 2)[2] for row in rows if row.count(" | ") > 1):
            pattern = re.compile(".*".join(map(re.escape, text.split("`")[::2])))
            if text != "`rule`":
                self.require(any(pattern.search(line) for line in self.seen), "no mistake has the hint", repr(text))


def main():
    trial = Trial(os.path.abspath(sys.argv[1]))
    with tempfile.TemporaryDirectory() as folder:
        os.chdir(folder)
        for name, text in FILES.items():
            Path(name).write_bytes(text)
        os.mkdir("folder")
        trial.try_table()
        trial.try_many_lines()
        trial.try_wishes()
        trial.look_for_rows()
        os.chdir("/")
    print(f"{trial.count} mistakes, {trial.mended} commands of hints that mend them, {trial.wrong} wrong")
    sys.exit(1 if trial.wrong else 0)


main()

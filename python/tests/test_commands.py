import gzip
import io
import os
import re
import subprocess
import sys
import time
from unittest import mock

import bedkeep
from bedkeep import commands, program
from bedkeep.commands.loading import CLEAR, in_command, loading
from helpers import EXAMPLES, PROGRAM, Case, Outcome, tabs


def started(*words, **options):
    """The desk as a process of its own."""
    return subprocess.run([sys.executable, "-m", "bedkeep", *map(str, words)], capture_output=True, **options)


class CommandLine(Case):
    def test_help_and_what_is_no_command(self):
        for words in ["--help"], ["-h"], ["help"]:
            outcome = Outcome(*words)
            self.assertEqual((outcome.status, outcome.err), (0, ""))
            for command in commands.COMMANDS:
                self.assertIn(f"\n    {command} ", outcome.out)
        for words, message in ([], "no command\n"), (["aply"], "no such command: aply, is apply meant?\n"), (["x"], "no such command: x\n"):
            outcome = Outcome(*words)
            self.assertEqual((outcome.status, outcome.out), (2, ""))
            self.assertTrue(outcome.err.startswith(message))
        for command in "apply", "diff", "replay", "curate":
            self.assertEqual((Outcome(command, "--help").status, Outcome(command, "--no-such").status), (0, 2))

    def test_the_version(self):
        """That of the program too if it is another one."""
        old, absent, version = self.script("old", "echo bedkeep 0.9.1"), self.folder / "absent", bedkeep.__version__
        for program, said in ((PROGRAM, ""), (self.script("other", "exit 1"), ""), (absent, f"no program '{absent}': "),
                              (old, f"the program {old} is of version 0.9.1, and the package of {version}\n")):
            with self.subTest(program), mock.patch.dict(os.environ, BEDKEEP=str(program)):
                outcome = Outcome("--version")
                self.assertEqual(outcome.gave, (0, f"bedkeep {version}\n"))
                self.assertTrue(outcome.err.startswith(said) and bool(outcome.err) == bool(said))

    def test_the_man_page_has_each_command(self):
        page = (EXAMPLES.parent / "man/bedkeep-desk.1").read_text()
        self.assertEqual(re.findall(r"^\.It Cm (\w+) .*\n(.*)$", page, re.M), list(commands.COMMANDS.items()))
        self.assertEqual({int(status) for status in re.findall(r"^\.It (\d+)$", page, re.M)}, {0, 1, 2, commands.INTERRUPTED, commands.CLOSED})

    def test_installed_it_is_beside_the_program(self):
        def make(target):
            subprocess.run(["make", "-s", "-C", EXAMPLES.parent, target, f"PROGRAM={PROGRAM}", f"DESTDIR={self.folder}/to"], check=True)

        make("install")
        script = self.file("corrections", "remove\tchr1\t100\t200\tgeneA\n")
        done = subprocess.run([self.folder / "to/usr/local/bin/bedkeep-desk", "apply", self.sizes, self.genes, script], cwd="/",
                              capture_output=True, env={"PATH": os.environ["PATH"]})
        self.assertEqual((done.returncode, done.stdout, done.stderr), (0, b"chr1\t300\t400\tgeneB\n", b""))
        make("uninstall")
        self.assertEqual([name for _, _, names in os.walk(self.folder / "to") for name in names], [])

    def test_an_interrupt_leaves_nothing(self):
        with mock.patch("bedkeep.commands.input_files.Inputs.carry", side_effect=KeyboardInterrupt):
            outcome = Outcome("apply", self.sizes, self.genes, self.file("corrections", ""), "-o", self.folder / "corrected.bed")
        self.assertEqual((outcome.status, outcome.err, os.path.exists(self.folder / "corrected.bed")), (130, "interrupted\n", False))

    def test_an_output_that_cannot_be_written(self):
        """That is said once, and not at all if nobody reads it."""
        script = self.file("corrections", "remove\tchr1\t100\t201\tgeneA\n")
        environment = {name: text for name, text in os.environ.items() if name != "PYTHONUNBUFFERED"}
        reader, unread = os.pipe()
        os.close(reader)
        with open(unread, "wb") as closed, open("/dev/full", "wb") as full:
            for words in (["--help"], ["--version"], ["apply", "--help"], ["apply", self.sizes, self.genes, script, "-o", "-"],
                          ["replay", self.sizes, self.genes, script], ["diff", self.genes, self.file("new.bed", "")], ["curate", self.sizes, self.genes]):
                for output, status, said in (closed, 141, b""), (full, 2, b"standard output: no space left on device\n"):
                    with self.subTest(words, output=output.name):
                        run = subprocess.run([sys.executable, "-m", "bedkeep", *map(str, words)], stdin=subprocess.DEVNULL, stdout=output,
                                             stderr=subprocess.PIPE, env=environment)
                        self.assertEqual((run.returncode, run.stderr), (status, said))
        words = [sys.executable, "-m", "bedkeep", "apply", self.sizes, self.genes, self.file("none", ""), "-o", self.folder / "corrected.bed"]
        run = subprocess.run(["bash", "-c", '"$@" >&-', "bash", *map(str, words)], stderr=subprocess.PIPE)
        self.assertEqual((run.returncode, run.stderr, (self.folder / "corrected.bed").read_bytes()), (0, b"", self.genes.read_bytes()))

    def test_it_runs_as_a_module(self):
        run = started("--help")
        self.assertEqual((run.returncode, run.stdout.decode()), (0, Outcome("--help").out))
        run = started("diff", self.genes, "no-such-file")
        self.assertEqual((run.returncode, run.stdout, run.stderr), (2, b"", b"no-such-file: no such file\n"))


class Terminal(io.StringIO):
    def isatty(self):
        return True


class Loading(Case):
    """One line at a terminal, while files are read that take long."""

    LINE = f"loading genes.bed{CLEAR}"

    def setUp(self):
        super().setUp()
        slow = self.script("slow", f'sleep 0.4\nexec {PROGRAM} "$@"')
        self.words = self.sizes, self.genes, self.file("corrections", "")
        for patch in (mock.patch.dict(os.environ, BEDKEEP=str(slow), TERM="xterm"), mock.patch("bedkeep.commands.loading.SOON", 0.1)):
            patch.start()
            self.addCleanup(patch.stop)

    def test_it_is_shown_and_taken_away(self):
        page = self.folder / "page.html"
        with mock.patch("io.StringIO", Terminal):
            for words in ["apply", *self.words], ["replay", *self.words], ["review", *self.words, "-o", page]:
                outcome = Outcome(*words)
                self.assertEqual((outcome.status, outcome.err[:len(self.LINE)]), (0, self.LINE))
                self.assertNotIn("loading", outcome.err.replace(self.LINE, ""))
            with mock.patch("bedkeep.commands.loading.SOON", 60):
                self.assertEqual(Outcome("apply", *self.words).err, "")

    def test_only_a_person_gets_it(self):
        """Nobody who calls a function, reads a pipe, or has a terminal that can't take a line away."""
        self.assertEqual(Outcome("apply", *self.words).err, "")
        with mock.patch("sys.stderr", Terminal()) as terminal:
            bedkeep.apply(*self.words, self.folder / "corrected.bed")
            self.assertEqual(terminal.getvalue(), "")
        with mock.patch("io.StringIO", Terminal), mock.patch.dict(os.environ, TERM="dumb"):
            self.assertEqual(Outcome("apply", *self.words).err, "")

    def test_a_terminal_that_hangs_up(self):
        with mock.patch("sys.stderr", Terminal()) as terminal, self.assertRaises(SystemExit), in_command(), loading("x"):
            time.sleep(0.3)
            terminal.write = mock.Mock(side_effect=OSError)
            sys.exit(129)

    def test_it_fits_into_a_line(self):
        for name, shown in ("-", "standard input"), ("a/b\x1b[2Jc", "b?[2Jc"), ("x" * 99, "x" * 71):
            with self.subTest(name), mock.patch("sys.stderr", Terminal()) as terminal, in_command(), loading(name):
                time.sleep(0.3)
            self.assertEqual(terminal.getvalue(), f"loading {shown}{CLEAR}")


class Apply(Case):
    def setUp(self):
        super().setUp()
        self.corrected = self.folder / "corrected.bed"

    def apply(self, *words):
        return Outcome("apply", self.sizes, *words, "-o", self.corrected)

    def test_headers_stay_and_refused_lines_are_listed(self):
        bed = self.file("tracked.bed", "# genes\ntrack name=x\r\nchr1\t300\t400\tgeneB\nchr1\t0100\t200\tgeneA\n#end\n")
        script = self.file("corrections", tabs("replace chr1 100 200 geneA chr1 100 250 geneA\nremove chr1 300 401 geneB\n"
                                               "add chr2 1 2 x").replace("remove", "# why\nremove"))
        more = self.file("more", tabs("open v merge\nprint v\nadd chr2 1 2"))
        self.assertEqual(self.apply(bed, script, more).all, (1, "", f"{script}: line 3: no such record: chr1 300 401 geneB\n"
                                                                    f"{more}: line 3: wrong number of columns: 3 fields; 4 are needed\n"))
        self.assertEqual(self.corrected.read_bytes().decode(), "# genes\ntrack name=x\r\n" + tabs(
            "chr1 300 400 geneB\nchr2 1 2 x\nchr1 100 250 geneA") + "#end\n")
        self.apply(bed, script, "--sorted")
        self.assertEqual(self.corrected.read_text(), "# genes\ntrack name=x\n#end\n" + tabs(
            "chr1 100 250 geneA\nchr1 300 400 geneB\nchr2 1 2 x"))

    def test_a_file_without_a_record_has_the_width_of_what_is_added(self):
        empty, second = self.file("empty.bed", "# nothing yet\n"), self.file("second.bed", "")
        for rows in "chr1 1 2", "chr1 1 2 x 0 +\nchr1 1 3 x 0 +", "chr1 1 2 x 0 + 1 2 0":
            script = self.file("corrections", tabs("\n".join(f"add {row}" for row in rows.split("\n"))) + tabs("add chr1 5 6 a\naddb chr1 5 6"))
            words = self.sizes, empty, script, "-b", second
            self.assertEqual(Outcome("apply", *words).gave, (1, "# nothing yet\n" + tabs(rows)))
            self.assertEqual((Outcome("replay", *words).status, Outcome("review", *words, "-o", self.folder / "page.html").status), (1, 1))
        self.assertEqual(Outcome("apply", self.sizes, empty, script, "-b", second, "-b", self.mask).status, 1)
        self.assertEqual(self.apply(empty, self.file("corrections", "")).status, 0)

    def test_bytes_that_are_no_text(self):
        bed = self.file("bytes.bed", b"#\xff\nchr1\t1\t2\t\xff\xfe\n")
        script = self.file("corrections", b"replace\tchr1\t1\t2\t\xff\xfe\tchr1\t1\t3\t\xfe\nadd\tchr1\t1\t2\tx\r\r\n")
        self.assertEqual(self.apply(bed, script).err, f"{script}: line 2: bad name: 'x\\r' (name, field 5)\n")
        self.assertEqual(self.corrected.read_bytes(), b"#\xff\nchr1\t1\t3\t\xfe\n")

    def test_the_functions_of_the_package(self):
        script = self.file("corrections", "# why\nremove\tchr1\t1\t2\tx\nadd\tchr1\t100\t200\tgeneA\nremove\tchr1\t300\t400\tgeneB\n")
        said = [f"{script}: line 2: no such record: chr1 1 2 x", f"{script}: line 3: already there: chr1 100 200 geneA"]
        for strict, corrections in (True, script), (False, [script]):
            refused, messages, is_written = bedkeep.apply(self.sizes, self.genes, corrections, self.corrected, strict=strict)
            self.assertEqual([(one.number, one.reason, one.line) for one in refused], [(2, "no such record", "remove\tchr1\t1\t2\tx")])
            self.assertEqual((messages, is_written, self.corrected.exists()), (said, not strict, not strict))
        self.assertEqual(bedkeep.diff(self.genes, self.corrected), ["", "remove\tchr1\t300\t400\tgeneB"])
        self.assertEqual([finding.kind for finding in bedkeep.replay(self.sizes, self.genes, script).findings], ["already so", "already there", "fits"])

    def test_each_command_has_the_greatest_limit(self):
        script = self.file("corrections", "add\tchr1\t1\t2\tx\n")
        for command, module in ("apply", "input_files"), ("replay", "input_files"), ("curate", "core"), ("review", "input_files"):
            files = [self.sizes, self.genes, *([] if command == "curate" else [script])]
            with mock.patch(f"bedkeep.commands.{module}.MOST", 1):
                outcome = Outcome(command, *files, *(["-o", self.folder / "page.html"] if command == "review" else []))
            self.assertEqual((outcome.status, outcome.err.split("\n")[0]), (2, f"{self.genes}: line 2: too many (status 3)"))
        self.assertEqual(program.MOST, 100_000_000)

    def test_an_input_is_never_written_over(self):
        """Also through a link, or a path through a folder that isn't there."""
        script, link, lost = self.file("corrections", ""), self.folder / "link", self.folder / "lost"
        astray = self.folder / "missing" / ".." / self.genes.name
        link.symlink_to(self.genes)
        lost.symlink_to(astray)
        before = [path.read_bytes() for path in (self.sizes, self.genes, script)]
        for names, said in (((self.genes, link, script, self.sizes), "an input is never written over"), ((astray, lost), "no such folder")):
            for name in names:
                outcome = Outcome("apply", self.sizes, self.genes, script, "-o", name)
                self.assertEqual((outcome.status, [path.read_bytes() for path in (self.sizes, self.genes, script)]), (2, before))
                self.assertIn(said, outcome.err)

    def test_standard_output_has_one_file(self):
        words = self.sizes, self.genes, self.file("corrections", "")
        for more, said in ((["apply", *words, "--refused", "-"], "only one file can be standard output"),
                           (["replay", *words, "--refused", "-"], "--refused needs a file, since the report is on standard output"),
                           (["replay", *words, "--mend", "-"], "--mend needs a file, since the report is on standard output"),
                           (["review", *words, "-o", "-"], "-o needs a file, since others come beside the page")):
            self.assertEqual(Outcome(*more).all, (2, "", f"{said}\n"))

    def test_nothing_is_written_unless_all_is(self):
        self.corrected.write_text("as before\n")
        script, missing, packed = self.file("corrections", ""), self.folder / "missing", gzip.compress(self.genes.read_bytes())
        damaged, short = self.file("damaged.bed", "chr1\t1\t2\nchr1\t2\t1\n"), self.file("short.gz", gzip.compress(b"chr1\t5\t6\nchr1\t2\n"))
        for bed, corrections, said in (
                (damaged, script, "line 2: start not below end \\(status 3\\)\n  line 2, field 2: .*\n  the start 2 isn't below the end 1"),
                (short, script, "line 2: wrong number of columns \\(status 3\\)\n  line 2: .*\n  columns of this line: 2"),
                (missing, script, ""), (self.file("cut.gz", packed[:-9]), script, ""), (self.genes, missing, None),
                (self.genes, self.file("bad.gz", packed[:12] + b"\0\xff" + packed[14:]), None)):
            outcome = self.apply(bed, corrections)
            self.assertEqual((outcome.status, self.corrected.read_text()), (2, "as before\n"))
            self.assertRegex(outcome.err, f"^{corrections if said is None else bed}: {said or ''}")
        self.assertEqual([name for name in os.listdir(self.folder) if name.startswith(".")], [])

    def test_a_device_is_written_and_no_file_made_of_it(self):
        pipe = self.folder / "pipe"
        os.mkfifo(pipe)
        with subprocess.Popen(["cat", pipe], stdout=subprocess.PIPE) as reader:
            status = Outcome("apply", self.sizes, self.genes, self.file("corrections", ""), "-o", pipe).status
            self.assertEqual((status, reader.communicate()[0]), (0, self.genes.read_bytes()))
        self.assertTrue(pipe.is_fifo())

    def test_packed_files_and_standard_input(self):
        packed = [self.file(f"{path.name}.gz", gzip.compress(path.read_bytes())) for path in (self.sizes, self.genes)]
        script = b"add\tchr2\t1\t2\tx\n"
        corrections = self.file("corrections.gz", gzip.compress(script))
        expected = self.genes.read_text() + "chr2\t1\t2\tx\n"
        self.assertEqual(Outcome("apply", *packed, corrections).out, expected)
        for words, given in (
            ([self.sizes, self.genes, "-"], script), ([self.sizes, self.genes, "-"], gzip.compress(script)),
            ([self.sizes, "-", corrections], self.genes.read_bytes()), (["-", *packed[1:], corrections], self.sizes.read_bytes()),
        ):
            run = started("apply", *words, input=given)
            self.assertEqual((run.returncode, run.stdout.decode(), run.stderr), (0, expected, b""))
        self.assertEqual(Outcome("apply", self.sizes, "-", "-").failed, (2, "only one file can be standard input\n"))


class Reports(Case):
    def setUp(self):
        super().setUp()
        self.release = self.file("release", tabs("chr1 10 30 a 5 +\nchr1 50 60 b 1 +"))
        self.corrections = self.file("corrections", "# why\nopen\tv\tmerge\n" + tabs(
            "replace chr1 10 30 a 4 + chr1 11 30 a 4 +\nremove chr1 50 60 b 1 +\nremove chr1 50 60 b 1 +\n"
            "replace chr1 11 30 a 4 + chr1 11 31 a 4 +\nadd chr1 5 6\nremove chr1 7 8 c 0 +"))

    def replay(self, *words):
        return Outcome("replay", self.sizes, self.release, self.corrections, *words)

    def test_the_report(self):
        name = self.corrections
        self.assertEqual(self.replay().out, f"""\
{name}: line 3: changed
    asked   chr1  10  30  a  4  +
    there   chr1  10  30  a  5  +
                             ^
    mended  replace\tchr1\t10\t30\ta\t5\t+\tchr1\t11\t30\ta\t5\t+
{name}: line 5: taken out by line 4
    asked   chr1  50  60  b  1  +
{name}: line 6: changed
    asked   chr1  11  30  a  4  +
    there   chr1  11  30  a  5  +
                             ^
    mended  replace\tchr1\t11\t30\ta\t5\t+\tchr1\t11\t31\ta\t5\t+
{name}: line 7: bad line (wrong number of columns: 3 fields; 6 are needed)
    add\tchr1\t5\t6
{name}: line 8: already so (no record like it is there)
    asked   chr1  7  8  c  0  +
2 changed, 1 fits, 1 taken out, 1 bad line, 1 already so
""")

    def test_the_table(self):
        rows = [row.split("\t") for row in self.replay("--tsv").out.split("\n")[:-1]]
        self.assertEqual([",".join(row[1:5]) for row in rows], [
            "line,class,by,differs", "3,changed,,score", "5,taken out,4,", "6,changed,3,score", "7,bad line,,", "8,already so,,"])
        self.assertEqual(rows[1][5:], ["chr1 10 30 a 4 +", "chr1 10 30 a 5 +", "replace chr1 10 30 a 5 + chr1 11 30 a 5 +", ""])
        self.assertEqual({len(row) for row in rows}, {9})

    def test_mend_and_statuses(self):
        mend = self.folder / "mend"
        self.assertEqual(self.replay("--mend", mend).status, 1)
        text = mend.read_text()
        self.assertEqual(text.replace("\t", " "), """# why
open v merge
# was: replace chr1 10 30 a 4 + chr1 11 30 a 4 +
replace chr1 10 30 a 5 + chr1 11 30 a 5 +
remove chr1 50 60 b 1 +
remove chr1 50 60 b 1 +
# was: replace chr1 11 30 a 4 + chr1 11 31 a 4 +
replace chr1 11 30 a 5 + chr1 11 31 a 5 +
add chr1 5 6
# dropped: remove chr1 7 8 c 0 +
""")
        self.assertEqual((self.replay("--mend", mend).all, mend.read_text()), ((2, "", f"{mend} is there already\n"), text))
        self.corrections.write_text(self.corrections.read_text().split("remove")[0])
        self.assertEqual(self.replay("--ignore", "score").status, 0)
        self.assertEqual(self.replay("--ignore", "start").status, 2)

    def test_copies(self):
        line, mend, more = tabs("add chr1 50 60 b 1 +"), self.folder / "mend", self.folder / "more"
        self.corrections.write_text(line)
        outcome = self.replay("--mend", mend)
        self.assertEqual((outcome.status, mend.read_text()), (0, f"# dropped: {line}"))
        self.assertIn("line 1: already there\n", outcome.out)
        self.assertEqual((self.replay("--copies", "--mend", more).gave, more.read_text()), ((0, "1 fits\n"), line))
        self.corrections.write_text("# nothing\n")
        self.assertEqual(self.replay().out, "no corrections\n")

    def test_lines_of_two_files(self):
        other = self.file("other", tabs("replace chr1 11 30 a 4 + chr1 11 30 b 4 +\nremove chr1 50 60 b 1 +"))
        self.corrections.write_text(tabs("replace chr1 10 30 a 5 + chr1 11 30 a 5 +\nremove chr1 50 60 b 1 +"))
        self.assertIn(f"{other}: line 2: taken out by line 2 of {self.corrections}\n", self.replay(other).out)

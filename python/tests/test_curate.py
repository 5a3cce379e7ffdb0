import contextlib
import gzip
import io
import os
import pathlib
import pty
import re
import select
import subprocess
import sys
import time
from unittest import mock

from bedkeep.commands import curate
from bedkeep.commands.prompt_help import HELP
from helpers import Outcome, Prompt, Prompted, lines, script_of


class Curate(Prompt):
    def command(self, *words):
        return [sys.executable, "-S", "-m", "bedkeep", "curate", *map(str, words)]

    def environment(self):
        return {**os.environ, "TERM": "dumb"}

    def test_edits(self):
        self.assertEqual(
            self.typed("add chr1  390 500 geneC", "add\tchr1\t1\t2\twith space", "", "remove chr1 300 401 geneB", "ad chr1 1 2",
                       "removeb chr1 1 2", "addb chr2 1 2", "resize chr2 600", "replace chr9 1 2 x chr1 1 2 x", "intersect -c"),
            ["done", "done", "refused: no such record", "   1 takes: remove chr1 300 400 geneB (end 1 base earlier)",
             "refused: ad is no command: is add meant?", "   1 takes: add chr1 1 2", "   `help` lists the commands",
             "refused: no such record", "done", "done", "refused: unknown sequence",
             *self.hints("replace chr9 1 2 x chr1 1 2 x"),
             "chr1\t1\t2\twith space\t0", "chr1\t100\t200\tgeneA\t1", "chr1\t300\t400\tgeneB\t1", "chr1\t390\t500\tgeneC\t0"])

    def hints(self, line):
        """What a session says of a refused line besides the reason, without the number of the field, as the prompt shows it."""
        with self.session() as session:
            hints = [hint for refused in session.edit(["\t".join(line.split())]) for hint in refused.hint]
        self.assertTrue(hints)
        return ["   " + re.sub(r"^field \d+: ", "", hint) for hint in hints]

    def test_a_refused_line_has_the_hints_of_a_session(self):
        for line, reason in (("add 1 10 20 x", "unknown sequence"), ("add chr1 10 2000 x", "end past the sequence's end"),
                             ("add chr1 20 10 x", "start not below end"), ("add chr1 x 20 y", "start is not a number"),
                             ("resize chr1", "no such command or wrong fields"), ("resize chr1 50", "records past the new end")):
            with self.subTest(line):
                said = [one for one in self.typed(line) if " takes: " not in one]
                self.assertEqual(said, [f"refused: {reason}", *self.hints(line)])
        hints = self.hints("replace chr1 100 200 geneA chr1 100 2000 geneA")
        self.assertEqual(self.typed("set end geneA 2000")[1:-2], ["refused: end past the sequence's end", *hints])
        self.assertRegex("\n".join(self.typed("merge -x")), "^refused: bad options\n.*-x")

    def test_lines_that_the_prompt_does_not_know(self):
        self.listed(self.typed, (
                ("add chr1 10 20", "refused: wrong number of columns", "   4 columns are needed: chromosome, start, end, name",
                 "   1 takes: add chr1 10 20 ."),
                ("replace chr1 100 200 geneA chr1 100 250", "refused: wrong number of columns",
                 "   replace has 4 columns of the old record, and then 4 of the new one: chromosome, start, end, name"),
                ("add chr1:11-20 x", "refused: wrong number of columns", "   4 columns are needed: chromosome, start, end, name",
                 "   1 takes: add chr1 10 20 x"),
                ("closest geneA", "refused: closest is no command: is near meant?", "   1 takes: near geneA", "   `help` lists the commands"),
                ("quux", "refused: quux is no command", "   `help` lists the commands"),
                ("1", "refused: 1 is no command", "   `help` lists the commands"),
                ("undo x", "undo takes the last correction back, and undo NUMBER that one; `history` has the numbers"),
                ("undo 2", "there is no correction 2 that could be taken back"),
                ("redo 2", "redo does one correction again: write it again for the next one"),
                ("redo", "nothing to do again"), ("why", "why TEXT: the reason for the last correction"), ("why so", "nothing to take back"),
                ("take", "no line needs a decision"), ("later", "no line needs a decision"), ("next", "no line needs a decision")))

    def test_a_record_to_remove_by_its_name_or_its_place(self):
        self.assertEqual(
            self.typed("remove geneA", "remove chr1:301-400", "undo", "remove chr1 300 400", "remove geneX", "remove chr1:1-5", "undo",
                       "remove GENEB", "add chr1 5 9 geneB", "remove geneB", "remove gene B", "records"),
            ["named geneA: chr1 100 200 geneA", "done", "at chr1:301-400, from 1: chr1 300 400 geneB", "done",
             "undone: remove chr1 300 400 geneB", "at chr1 300 400, from 0: chr1 300 400 geneB", "done",
             "no record has geneX in its name, and the genome has no geneX; it has chr1, chr2", "no record is at chr1:1-5, from 1",
             "undone: remove chr1 300 400 geneB", "no record is named GENEB; named GENEB in any case:",
             "chr1\t300\t400\tgeneB", "   1 takes: remove chr1 300 400", "done",
             "2 records are named geneB: give the place of one, or all its columns",
             "chr1\t5\t9\tgeneB", "chr1\t300\t400\tgeneB", "   1 takes: remove chr1 5 9", "   2 takes: remove chr1 300 400",
             "refused: wrong number of columns",
             "   4 columns are needed: chromosome, start, end, name", "chr1\t5\t9\tgeneB", "chr1\t300\t400\tgeneB"])

    def test_undo_save_script_help(self):
        saved, script = self.folder / "saved.bed", self.folder / "script file"
        said = self.typed("# why", "add chr1 1 2 x", "remove chr1 1 2 x", "undo", "script", f"save {saved}", f"script {script}",
                          "undo", "undo", "save", "merge -x", "help", f"save {self.folder}/absent/x")
        self.assertEqual(said[:10], [
            "done", "done", "undone: remove chr1 1 2 x", "# why", "add\tchr1\t1\t2\tx", "saved", "written",
            "undone: add chr1 1 2 x", "nothing to take back", "save FILE: the file's name is missing; save --sorted FILE has the track's order"])
        self.assertEqual(said[10], "refused: bad options")
        self.assertEqual("\n".join(said[12:-1]), HELP)
        self.assertEqual(said[-1], f"{self.folder}/absent: no such folder")
        self.assertEqual(saved.read_text(), "chr1\t1\t2\tx\nchr1\t100\t200\tgeneA\nchr1\t300\t400\tgeneB\n")
        self.assertEqual(script.read_text(), "# why\nadd\tchr1\t1\t2\tx\n")

    def test_quit_asks_once_for_edits_that_are_not_written(self):
        asked, add = "The edits aren't written: save FILE, script FILE, or quit again.", "add chr1 1 2 x"
        for typed, *said in (
                (["quit"],), ([add, "quit", "undo", "quit"], "done", asked, f"undone: {add}"), ([add, "quit", "quit"], "done", asked),
                ([add, f"save {self.folder}/x", "quit"], "done", "saved")):
            self.assertEqual(self.typed(*typed, "undo"), said)

    def test_show_says_what_a_place_was_taken_for(self):
        """The answers of `show` that said "no record is there" of a record that is there."""
        there = "chr1\t100\t200\tgeneA"
        self.listed(lambda place: self.typed(f"show {place}".strip()), (
                ("chr1:101-150", "chr1:101-150, from 1:", there), ("chr1:200", "chr1:200, one base, from 1:", there),
                ("chr1:100", "chr1:100, one base, from 1: no record is there"), ("chr1 100 101", "chr1 100 101, from 0:", there),
                ("chr1 99 100", "chr1 99 100, from 0: no record is there"), ("chr1\t100\t101", "chr1 100 101, from 0:", there),
                ("chr1:1,000-2,000", "chr1:1000-2000, from 1, cut at the end of chr1, 1000: no record is there"),
                ("chr1:1001-2000", "chr1:1001-2000 begins past the end of chr1, which has 1000 bases"),
                ("chr1", "chr1, all 1000 bases:", there, "chr1\t300\t400\tgeneB"), ("chr2", "chr2, all 500 bases: no record is there"),
                ("1:100-200", "the genome has no 1, and has chr1"), ("chr1:200-100", "chr1:200-100: the start 200 is above the end 100"),
                ("geneA", "named geneA, at chr1 100 200, from 0:", there), ("GENEa", "named GENEa in any case, at chr1 100 200, from 0:", there),
                ("eneB", "with eneB in the name, at chr1 300 400, from 0:", "chr1\t300\t400\tgeneB"),
                ("gene", "with gene in the name:", there, "chr1\t300\t400\tgeneB"),
                ("chr9", "no record has chr9 in its name, and the genome has no chr9; it has chr1, chr2"),
                ("", "a place is chr1:101-200 (from 1), chr1 100 200 (from 0), chr1:150 (one base) or chr1"),
                ("chr1:,-5", "no record has chr1:,-5 in its name, and a place is chr1:101-200 (from 1), chr1 100 200 (from 0), "
                             "chr1:150 (one base) or chr1")))
        self.assertEqual(self.typed("resize chr1 2000", "show chr1:1001-2,000")[1:], ["chr1:1001-2000, from 1: no record is there"])

    def test_find_in_any_case_and_by_a_part(self):
        rows = lines("chr1 10 15 uc002yip.1", "chr1 20 25 UC002YIP.1", "chr1 30 35 uc002yip.12", "chr1 40 45 x")
        genes, (one, upper, twelve, x) = self.file("named.bed", "\n".join(rows)), rows
        self.assertEqual(
            self.typed("find uc002yip.1", "find Uc002yip.12", "find 002YIP", "find chr1:41-45", "find nobody", words=(self.sizes, genes)),
            ["named uc002yip.1:", one, "named uc002yip.1 in any case:", upper, "with uc002yip.1 in the name:", twelve,
             "named Uc002yip.12 in any case:", twelve, "with 002YIP in the name:", one, upper, twelve,
             "chr1:41-45, from 1:", x, "no record has nobody in its name, and the genome has no nobody; it has chr1, chr2"])

    def test_near(self):
        far, near = "chr1\t300\t400\tgeneB", "chr1\t100\t200\tgeneA"
        self.assertEqual(self.typed("near chr1:1-10", "near chr1 500 600", "near geneB", "near chr2", "near chr9:1-2"),
                         ["near chr1:1-10, from 1:", near, far, "near chr1 500 600, from 0:", far, near,
                          "near named geneB, at chr1 300 400, from 0:", far, near, "near chr2, all 500 bases: chr2 has no record",
                          "the genome has no chr9; it has chr1, chr2"])

    def test_set(self):
        self.assertEqual(
            self.typed("set end geneA 250", "set name chr1:301-400 geneX", "set start chr1 300 400 310", "set end GENEa 1,000",
                       "set end eneX 410", "records", "script"),
            ["named geneA: chr1 100 200 geneA", "done", "at chr1:301-400, from 1: chr1 300 400 geneB", "done",
             "at chr1 300 400, from 0: chr1 300 400 geneX", "done", "named GENEa in any case: chr1 100 250 geneA", "done",
             "with eneX in the name: chr1 310 400 geneX", "done", "chr1\t100\t1000\tgeneA", "chr1\t310\t410\tgeneX",
             "replace\tchr1\t100\t200\tgeneA\tchr1\t100\t250\tgeneA", "", "replace\tchr1\t300\t400\tgeneB\tchr1\t300\t400\tgeneX",
             "", "replace\tchr1\t300\t400\tgeneX\tchr1\t310\t400\tgeneX", "",
             "replace\tchr1\t100\t250\tgeneA\tchr1\t100\t1000\tgeneA", "",
             "replace\tchr1\t310\t400\tgeneX\tchr1\t310\t410\tgeneX"])

    def test_set_that_cannot_be_done(self):
        columns = "the columns are chromosome, start, end, name"
        usage = "set COLUMN RECORD VALUE, such as set end geneA 250 or set end chr1:101-200 250"
        there = "chr1\t100\t200\tgeneA"
        self.listed(lambda line: self.typed(line, "script"), (
                ("set end geneA 200", "named geneA: chr1 100 200 geneA", "nothing changes"),
                ("set end geneA 0200", "named geneA: chr1 100 200 geneA", "nothing changes"),
                ("set end geneA", usage), ("set", usage), ("set name geneA new name", usage),
                ("set score geneA 5", f"score is no column of this file; {columns}"),
                ("set end geneQ 5", "no record has geneQ in its name, and the genome has no geneQ; it has chr1, chr2"),
                ("set start geneA 900", "named geneA: chr1 100 200 geneA", "refused: start not below end",
                 "   the start 900 isn't below the end 200: exchange the two, if that is meant",
                 "   1 takes: replace chr1 100 200 geneA chr1 200 900 geneA"),
                ("set end chr1:100-200 250", "no record is at chr1:100-200, from 1; from 0 one is, chr1 100 200:", there,
                 "   1 takes: set end chr1 100 200 250"),
                ("set end chr1:1-50 250", "no record is at chr1:1-50, from 1; near it:", there, "chr1\t300\t400\tgeneB"),
                ("set end chr2:1-50 250", "no record is at chr2:1-50, from 1"),
                ("set end 1:101-200 250", "the genome has no 1, and has chr1"),
                ("set end gene 250", "2 records are with gene in the name: give the place of one, or all its columns", there,
                 "chr1\t300\t400\tgeneB", "   1 takes: set end chr1 100 200 250", "   2 takes: set end chr1 300 400 250")))

    def test_the_rows_of_a_view_at_a_place(self):
        self.assertEqual(
            self.typed("merge -d 100 chr1:251", "merge chr1 250 251", "intersect -c chr1:1,01-1,50", "complement chr1:400-1,001",
                       "merge chr2", "merge -d 100 geneA", "merge chr1:5 -d 100", "merge 1:5-6", "merge geneA chr1 chr2"),
            ["chr1:251, one base, from 1:", "chr1\t100\t400", "chr1 250 251, from 0: no row is there", "chr1:101-150, from 1:",
             "chr1\t100\t200\tgeneA\t1", "chr1:400-1001, from 1, cut at the end of chr1, 1000:", "chr1\t400\t1000",
             "chr2, all 500 bases: no row is there", "named geneA, at chr1 100 200, from 0:", "chr1\t100\t400",
             "chr1:5, one base, from 1: no row is there", "the genome has no 1, and has chr1",
             "merge has its options after it, and one place or name: geneA chr1 chr2"])

    def test_no_file_is_written_over(self):
        kept, link = self.file("kept", "mine\n"), self.folder / "link.bed"
        link.symlink_to(self.genes)
        before = self.genes.read_bytes()
        asked = f"{kept} is there already: the same line once more writes over it"
        refused = "{} is a file of this prompt, which isn't written over"
        self.assertEqual(self.typed("add chr1 1 2 x", f"save {kept}", f"script {kept}", f"save {self.genes}", f"save {link}",
                                    f"script {self.sizes}", f"save {link}", f"review {self.genes}"),
                         ["done", asked, asked, *(refused.format(path) for path in (self.genes, link, self.sizes, link, self.genes))])
        self.assertEqual((kept.read_text(), self.genes.read_bytes()), ("mine\n", before))
        self.assertEqual(self.typed("add chr1 1 2 x", f"save {kept}", f"save {kept}", f"save {kept}", f"script {kept}"),
                         ["done", asked, "saved", "saved", "written"])
        self.assertEqual(kept.read_text(), "add\tchr1\t1\t2\tx\n")

    def test_many_rows_are_cut(self):
        said = self.typed(*(f"add chr1 {2 * number} {2 * number + 1} x" for number in range(50)), "cluster")
        self.assertEqual(said[50 + 40:], [".. and 12 more rows"])

    def test_a_session_that_cannot_begin(self):
        self.assertEqual(self.typed(words=(self.sizes, "absent"), status=2), ["absent: cannot be read (status 4)", "  there is no such file: ls shows those that there are"])

    def test_as_a_process(self):
        run = subprocess.run(self.command(self.sizes, self.genes), input=b"find geneA\n", stdout=subprocess.PIPE,
                             env=self.environment(), timeout=60, check=True)
        self.assertEqual(run.stdout,
                         b"2 records of 4 columns; `help` lists the commands\n"
                         b"without --script FILE the edits are in memory alone: `script FILE` or `save FILE` writes them\n"
                         b"named geneA:\nchr1\t100\t200\tgeneA\n")

    @contextlib.contextmanager
    def terminal(self, *words, end=b"quit\n"):
        """A prompt at a terminal, as a call that types a text and returns what is shown until something was; then `end` has to end it."""
        process, terminal = pty.fork()
        if process == 0:
            os.execve(sys.executable, self.command(*words), self.environment())
        self.addCleanup(os.close, terminal)

        def types(text, wanted):
            said, until = b"", time.monotonic() + 60
            os.write(terminal, text)
            while wanted not in said:
                self.assertLess(time.monotonic(), until, said)
                if select.select([terminal], [], [], 5)[0]:
                    said += os.read(terminal, 1000)
                elif not said:  # A key that comes before the prompt is ready can be lost.
                    os.write(terminal, text)
            return said

        yield types
        ended = (0, None)
        while not ended[0]:
            os.write(terminal, end)
            time.sleep(0.1)
            ended = os.waitpid(process, os.WNOHANG)
        self.assertEqual(ended[1], 0)

    def test_at_a_terminal(self):
        """A prompt, an interrupt that drops a line, and Ctrl-D."""
        with self.terminal(self.sizes, self.genes, end=b"\x04") as types:
            self.assertIn(b"2 records of 4 columns", types(b"", b"bedkeep> "))
            for text, wanted in ((b"add chr1 7", b"add chr1 7"), (b"\x03", b"bedkeep> "), (b"add chr1 1 2 x\n", b"why? "), (b"\n", b"done"),
                                 (b"quit\n", b"quit again.\r\nbedkeep> ")):
                types(text, wanted)

    def test_reasons_and_a_paste_at_a_terminal(self):
        """Of four pasted lines two were done, and the other two became their reasons."""
        script = self.folder / "corrections"
        with self.terminal(self.sizes, self.genes, "--script", script) as types:
            for text, wanted in ((b"", b"bedkeep> "), (b"add chr1 1 2 x\n", b"why? "), (b"the track lacks it\n", b"bedkeep> "),
                                 (b"remove chr1 1 2 y\n", b"bedkeep> "), (b"remove chr1 1 2 x\n", b"why? "), (b"\x04", b"bedkeep> ")):
                types(text, wanted)
            said = types(b"add chr1 1 2 x\nadd chr1 3 4 x\nset end geneA 250\nremove chr1 300 400 geneB\n\nfind nobody\n",
                         b"no record has nobody in its name")
        self.assertEqual(said.count(b"no reason is kept for the line above, since a command came"), 3)
        self.assertEqual(script.read_text(), script_of(
            "# the track lacks it\nadd chr1 1 2 x\n\nremove chr1 1 2 x\n\nadd chr1 1 2 x\n\nadd chr1 3 4 x\n\n"
            "replace chr1 100 200 geneA chr1 100 250 geneA\n\nremove chr1 300 400 geneB"))

    def test_names_of_any_bytes_in_any_locale(self):
        genes = self.file("bytes.bed", b"chr1\t1\t2\tg\xc3\xa8ne\nchr1\t3\t4\tg\xe8ne\n")
        for locale in {"LC_ALL": "C"}, {"LC_ALL": "C", "PYTHONUTF8": "0", "PYTHONCOERCECLOCALE": "0"}, {"PYTHONIOENCODING": "ascii"}:
            with self.subTest(locale):
                run = subprocess.run(self.command(self.sizes, genes), input=b"records\nfind g\xe8ne\n", stdout=subprocess.PIPE,
                                     stderr=subprocess.STDOUT, env={**self.environment(), **locale}, timeout=60, check=True)
                self.assertEqual(run.stdout.split(b"\n")[2:-1], [b"chr1\t1\t2\tg\xc3\xa8ne", b"chr1\t3\t4\tg\xe8ne", b"named g\xe8ne:",
                                                              b"chr1\t3\t4\tg\xe8ne"])

    def test_the_second_file(self):
        """It is -b, as in each command, or the third word."""
        rows = self.typed("intersect -u", words=(self.sizes, self.genes, self.mask))
        self.assertEqual(self.typed("intersect -u", words=(self.sizes, self.genes, "-b", self.mask)), rows)
        self.assertEqual(rows, ["chr1\t100\t200\tgeneA", "chr1\t300\t400\tgeneB"])
        self.assertEqual(self.typed(words=(self.sizes, self.genes, self.mask, "-b", self.genes), status=2),
                         [f"two second files: {self.genes} and {self.mask}"])

    def test_a_script_in_the_place_of_the_second_file(self):
        script = self.file("corrections", "# why\nadd\tchr1\t1\t2\tx\n")
        self.assertEqual(self.typed(words=(self.sizes, self.genes, script), status=2),
                         [f"{script} is a script of corrections, which comes after --script"])


class Kept(Prompted):
    """The script that a prompt appends to, in this process."""

    def test_reasons_and_undo(self):
        """A line without a reason comes after an empty line; the reason of a refused line isn't that of the next one."""
        with self.prompt("the track lacks it", "", "") as says:
            self.assertEqual(says(), [])
            shown = [f"   merge: nothing -> chr1 {start} {start + 1}" for start in (1, 3, 5)]
            self.assertEqual(says("add chr1 1 2 x", "add chr1 3 4 x", "# typed", "# twice", "add chr1 5 6 x"),
                             [row for one in shown for row in (one, "done")])
            first = "# the track lacks it", "add chr1 1 2 x", "", "add chr1 3 4 x"
            self.has(*first, "# typed", "# twice", "add chr1 5 6 x")
            self.assertEqual(says("script"), self.path.read_text().splitlines())
            says("undo")
            self.has(*first)
            self.assertEqual(says("# too short", "add chr1 1 2 1 2", "add chr1 7 8 x")[2:],
                             ["   1 takes: add chr1 1 2 1", "   its reason isn't kept for the next line", "   merge: nothing -> chr1 7 8", "done"])
            self.has(*first, "", "add chr1 7 8 x")
            self.assertEqual(says("# a look between", "show chr1:1-2", "add chr1 9 10 x")[-1], "done")
            self.has(*first, "", "add chr1 7 8 x", "# a look between", "add chr1 9 10 x")
            says("why it is new", "undo", "why seen in the cells")
            self.has(*first, "# seen in the cells", "add chr1 7 8 x")
            self.assertEqual(says("undo", "undo", "undo", "undo")[-1], "nothing to take back")
            self.has()
            self.assertEqual(says("script"), [])
            says("# for nothing")
            says.curator.leave()
        with self.prompt(asked=False) as says:
            says("# of the next day", "add chr1 1 2 x")
        self.has("# for nothing", "", "# of the next day", "add chr1 1 2 x")

    def test_the_reason_of_a_refused_line(self):
        """It went to the next accepted line."""
        with self.prompt(asked=False) as says:
            says("# geneA is too short", "set end geneA 9999999", "set end geneB 450")
            says("# no such gene", "set end geneQ 5", "remove chr1 300 450 geneB", "# a typo", "ad chr1 1 2 x", "add chr1 1 2 x")
        self.has("replace chr1 300 400 geneB chr1 300 450 geneB", "", "remove chr1 300 450 geneB", "", "add chr1 1 2 x")

    def test_a_command_is_never_a_reason(self):
        """A paste of four lines at the terminal made two edits, and reasons of the other two."""
        said = "no reason is kept for the line above, since a command came; `why TEXT` gives it one"
        with self.prompt("add chr1 3 4 y", "# so", "set end geneA 250", "It ends there.") as says:
            one, other = "   merge: nothing -> chr1 1 2", "   merge: nothing -> chr1 3 4"
            self.assertEqual(says("add chr1 1 2 x"), [one, said, "done", other, said, "done"])
            self.assertEqual(says("add chr1 5 6 z"), ["   merge: nothing -> chr1 5 6", "done"])
            self.assertEqual(says("add chr1 7 8 z"), ["   merge: nothing -> chr1 7 8", said, "done", "named geneA: chr1 100 200 geneA",
                                                      "   merge: chr1 100 200 -> chr1 100 250", "done"])
        self.has("add chr1 1 2 x", "", "add chr1 3 4 y", "# so", "add chr1 5 6 z", "", "add chr1 7 8 z", "# It ends there.",
                 "replace chr1 100 200 geneA chr1 100 250 geneA")

    def test_it_goes_on(self):
        """On another day the inverse of a line is a paragraph of its own, with the reason of the line, or the line itself."""
        before = "# why\r\nadd\tchr1\t1\t2\tx\nshow\tm\tchr1\t1\t2\nremove\tchr1\t7\t8\tx\n\nresize\tchr2\t600"
        self.path.write_bytes(before.encode())
        with self.prompt(asked=False) as says:
            self.assertEqual(says(), [f"{self.path}: line 4: no such record: chr1 7 8 x",
                                          f"{self.path}: 2 done again, 1 refused"])
            self.assertEqual(self.path.read_bytes(), before.encode())
            self.assertEqual(says("script"), ["# why", "add\tchr1\t1\t2\tx", "", "resize\tchr2\t600"])
            says("add chr1 8 9 y", "undo", "add chr1 6 7 y", "undo", "undo")
            self.assertEqual(says("script"), ["# why", "add\tchr1\t1\t2\tx"])
            says("undo", "undo")
            self.assertEqual((len(says.session), says("script")), (2, []))
        after = "\n# taken back: resize chr2 600\nresize\tchr2\t500\n# taken back: why\nremove\tchr1\t1\t2\tx\n"
        self.assertEqual(self.path.read_bytes(), (before + after).encode())
        with self.prompt(asked=False) as says:
            self.assertEqual(len(says.session), 2)
            says("# of another gene", "undo")
        after += "# taken back: of another gene\nadd\tchr1\t1\t2\tx\n"
        self.assertEqual(self.path.read_bytes(), (before + after).encode())

    def test_no_script_is_no_script(self):
        """`--script other.bed` appended to any BED file."""
        for text, said in (("chr1\t5\t9\tx\n", "line 1 is no correction, so nothing is appended to this file: chr1\t5\t9\tx"),
                           ("track name=a\nchr1\t5\t9\n", "line 1 is no correction, so nothing is appended to this file: track name=a"),
                           ("# mine\n\nadd\tchr1\t1\t2\tx\nadd chr1 5 9 x\n", "line 4 has spaces for TABs: add chr1 5 9 x")):
            self.path.write_text(text)
            outcome = Outcome("curate", self.sizes, self.genes, "--script", self.path, typed=["remove chr1 100 200 geneA"])
            self.assertEqual((outcome.all, self.path.read_text()), ((2, "", f"{self.path}: {said}\n"), text))

    def test_a_packed_script(self):
        """Lines are appended to it, which would be no part of what gzip packed."""
        packed = gzip.compress(b"add\tchr1\t1\t2\tx\n")
        for path, said in ((self.file("script.gz", packed), "so its name doesn't end in .gz"), (self.file("script", packed), "gunzip it first"),
                           (self.folder / "new.bgz", "so its name doesn't end in .bgz")):
            outcome = Outcome("curate", self.sizes, self.genes, "--script", path, typed=["add chr1 1 2 y"])
            self.assertEqual((outcome.status, outcome.out), (2, ""))
            self.assertIn(said, outcome.err)
            self.assertEqual(path.read_bytes() if path.exists() else packed, packed)

    def test_no_empty_file_is_left(self):
        with self.prompt(asked=False):
            self.assertTrue(self.path.exists())
        self.assertFalse(self.path.exists())

    def test_a_script_that_was_changed_meanwhile(self):
        with self.prompt(asked=False) as says:
            says("add chr1 1 2 x")
            with self.path.open("a") as file:
                file.write("# mine")
            self.assertEqual(says("why so"), [f"{self.path}: its last line isn't of this prompt, so the reason isn't there"])
            self.assertEqual(says("undo"), ["undone: add chr1 1 2 x"])
        self.has("add chr1 1 2 x", "# mine", "", "# taken back: add chr1 1 2 x", "remove chr1 1 2 x")

    def test_an_interrupt_of_an_edit(self):
        with self.prompt(asked=False) as says, mock.patch.object(says.session, "edit_seen", side_effect=KeyboardInterrupt):
            self.assertEqual(says("# why", "add chr1 1 2 x"), ["interrupted", "   its reason isn't kept for the next line"])

    def test_review(self):
        pages = []

        def write_page(genome, bed, scripts, page, second, copies, leave_blocks):
            self.assertFalse(copies or leave_blocks)
            pages.append((genome, bed, page, second, pathlib.Path(scripts[0]).read_text()))
            pathlib.Path(page).touch()

        page, module = f"{self.path}.html", mock.Mock(write_page=write_page)
        with mock.patch.dict("sys.modules", {"bedkeep.review.output": module}), mock.patch("webbrowser.open") as browser:
            with self.prompt(asked=False) as says:
                self.assertEqual(says("add chr1 1 2 x", "review", "review"), ["done", f"written: {page}", f"written: {page}"])
                browser.assert_not_called()
                says.curator._ask = lambda _: ""
                self.assertEqual(says(f"review {self.path}"), [f"{self.path} is a file of this prompt, which isn't written over"])
            with self.prompt() as says:
                self.assertEqual(says("review", "review"), [f"{page} is there already: the same line once more writes over it",
                                                            f"written: {page}"])
                browser.assert_called_once_with(f"file://{page}")
            Outcome("curate", self.sizes, self.genes, typed=["add chr1 7 8 z", "review"])
        given = str(self.sizes), str(self.genes)
        self.assertEqual([(*given, page, None, "add\tchr1\t1\t2\tx\n")] * 3 +
                         [(*given, f"{self.genes}.html", None, "add\tchr1\t7\t8\tz\n")], pages)

    def test_the_command_line(self):
        words = "curate", self.sizes, self.genes, "--script"
        said = "2 records of 4 columns; `help` lists the commands\ndone\n"
        self.assertEqual(Outcome(*words, self.path, typed=["add chr1 1 2 x", "# later", "quit"]).gave, (0, said))
        self.has("add chr1 1 2 x", "# later", "")
        for script, message in (self.genes, f"{self.genes} is a file of this session"), (self.folder, "it is a folder"):
            outcome = Outcome(*words, script)
            self.assertEqual((outcome.status, message in outcome.err), (2, True))

    def test_an_answer_that_is_none(self):
        for given, answer in (KeyboardInterrupt, None), (EOFError, ""), (["so"], "so"):
            with mock.patch("builtins.input", side_effect=given), contextlib.redirect_stdout(io.StringIO()):
                self.assertEqual(curate.Typed().answer("why? "), answer)

    def test_lines_that_come_at_once(self):
        """A terminal may hand in a paste of several lines as one."""
        with mock.patch("builtins.input", side_effect=["add chr1 1 2 x\nso\nquit", EOFError]):
            typed = curate.Typed()
            lines = typed.lines()
            self.assertEqual([next(lines), typed.answer("why? "), *lines], ["add chr1 1 2 x", "so", "quit"])

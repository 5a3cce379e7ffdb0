"""Scripts of corrections: reasons, groups and markers; and what comes of their lines."""
import gzip
import subprocess
import sys
from unittest import mock

import bedkeep
from bedkeep.commands import CLOSED
from bedkeep.commands.carry import Carrier
from bedkeep.commands.corrections import read_text
from bedkeep.commands.three_way import Version, merge
from bedkeep.script import is_marker
from helpers import Case, Corrected, Outcome, tabs


class Paragraphs(Case):
    """A reason is the block of comments directly above a paragraph."""

    def reasons(self, text):
        return [(line.text, line.comments, bool(line.group)) for line in read_text(text) if line.is_run]

    def test_a_reason_holds_to_the_next_comment_or_empty_line(self):
        self.assertEqual(self.reasons("# one\n#two\nadd\ta\nadd\tb\n\nadd\tc\n# three\nadd\td\n# four\n\nadd\te"), [
            ("add\ta", ("one", "two"), False), ("add\tb", ("one", "two"), False), ("add\tc", (), False), ("add\td", ("three",), False),
            ("add\te", (), False)])

    def test_markers_are_no_reasons_and_end_no_paragraph(self):
        """What a program wrote above a line, in this form or an older one, and a line that is commented out."""
        markers = ["# was: replace\ta", "# conflict: base chr1 1 2", "# dropped: add\tc", "# moved, was: replace\ta",
                   "# no record like it is there: remove\ta", "# replace\ta", "#remove\tb", "# fits but for, was: x"]
        for marker in markers:
            self.assertTrue(is_marker(marker), marker)
            self.assertEqual(self.reasons(f"# why\n{marker}\nadd\ta\n{marker}\nadd\tb\n"),
                             [("add\ta", ("why",), False), ("add\tb", ("why",), False)])
            self.assertEqual(self.reasons(f"# lacks geneC\n{marker}\n# A was cut\nadd\ta\n"), [("add\ta", ("A was cut",), False)])
        for reason in "# it was: cut", "# geneB ends later", "#", "# add", "# remove geneB", "# A conflict: B":
            self.assertFalse(is_marker(reason), reason)

    def test_a_group_is_a_paragraph_below_together(self):
        lines = read_text("# together: one gene\nadd\ta\n# was: x\nopen\tv\tmerge\nadd\tb\n\nadd\tc\n# why\n# together: of two\nadd\td\n#together:\nadd\te")
        runs = [line for line in lines if line.is_run]
        self.assertEqual([[one.text for one in line.group.lines] if line.group else None for line in runs], [
            ["add\ta", "add\tb"], ["add\ta", "add\tb"], None, ["add\td"], ["add\te"]])
        self.assertEqual([line.comments for line in runs], [("one gene",), ("one gene",), (), ("why", "of two"), ()])
        self.assertEqual(runs[3].heading, ("# why", "# together: of two"))
        self.assertEqual([line.number for line in read_text("\nadd\tx", "more", 7)], [8, 9])


class Commands(Corrected):
    """What must not happen, each with its own files and commands."""

    def setUp(self):
        super().setUp()
        self.sizes = self.file("sizes", "chr1\t1000\n")

    def mended(self, bed, script, *words):
        """What `replay --mend` writes, line by line with spaces for TABs, its status, and the rows of what `apply` makes of it."""
        mend = self.folder / "mend"
        mend.unlink(missing_ok=True)
        status = self.corrected("replay", bed, script, "--mend", mend, *words).status
        again = Outcome("apply", self.sizes, self.bed_of(bed), mend)
        return mend.read_text().replace("\t", " ").split("\n")[:-1], status, again.out.replace("\t", " ").split("\n")[:-1], again.status

    def bed_of(self, text):
        return self.file("again.bed", tabs(text))

    def test_no_other_record_is_removed(self):
        script = "# isoA is an artefact\nremove chr1 100 200 isoA\nreplace chr1 500 600 g2 chr1 500 620 g2\n"
        self.assertEqual(self.mended("chr1 100 200 isoB\nchr1 500 600 g2", script), (
            script.replace("remove", "# dropped: remove").splitlines(), 1, ["chr1 100 200 isoB", "chr1 500 620 g2"], 0))
        for bed, script in ("chr1 150 260", "remove chr1 100 200"), ("chr1 900 950 MIR1", "remove chr1 100 200 MIR1"):
            self.assertEqual(self.mended(bed, script), ([f"# dropped: {script}"], 1, [bed], 0))
        self.assertIn("one of its name is at chr1 900 950", self.corrected("replay", bed, script).out)

    def test_a_mended_line_moves_along_or_is_a_conflict(self):
        script = "replace chr1 500 600 g2 chr1 490 600 g2\n"
        self.assertEqual(self.mended("chr1 530 630 g2", script), (
            ["# was: replace chr1 500 600 g2 chr1 490 600 g2", "replace chr1 530 630 g2 chr1 520 630 g2"], 1, ["chr1 520 630 g2"], 0))
        self.assertEqual(self.mended("chr1 510 600 g2", f"# begins earlier\n{script}add chr1 1 2 x\n"), ([
            "# begins earlier", "# conflict: base chr1 500 600 g2 (start 500)", "# conflict: mine chr1 490 600 g2 (start 490)",
            "# conflict: theirs chr1 510 600 g2 (start 510)", "# replace chr1 500 600 g2 chr1 490 600 g2", "add chr1 1 2 x"], 1,
            ["chr1 1 2 x", "chr1 510 600 g2"], 0))
        self.assertEqual(self.mended("chr1 510 600 g2", "add chr1 500 600 g2"), ([
            "# conflict: the file has one of its name there", "# conflict: mine chr1 500 600 g2 (start 500)",
            "# conflict: theirs chr1 510 600 g2 (start 510)", "# add chr1 500 600 g2"], 1, ["chr1 510 600 g2"], 0))

    def test_what_apply_makes(self):
        """A line that adds what is there isn't done; but what was taken out may come back."""
        c, after, together = "chr1 390 500 geneC", "chr1 391 500 geneC", "# together: two\n"
        a, shorter, other = "chr1 100 200 A", "chr1 110 200 A", "chr1 150 300 A"
        wide, followed = f"{a} 0 + 100 200 0 1 100 0", f"{shorter} 0 + 110 200 0 1 90 0"
        for bed, script, status, rows, *messages in (
                (c, f"add {c}\nadd chr1 0390 500 geneC", 0, c, f"line 1: already there: {c}", f"line 2: already there: {c}"),
                (c, f"add {after}", 1, c, f"line 1: there with another start: {c}", f"  this would fit: replace {c} {after}"),
                ("chr1 390 500", "add chr1 391 500", 0, "chr1 390 500\nchr1 391 500"),  # without a name it may be another one
                ("chr1 390 500 .", "add chr1 391 500 .", 0, "chr1 390 500 .\nchr1 391 500 ."),
                # Among copies, and beside a record of its name.
                (f"{c}\n{c}\nchr1 400 500 geneC", f"remove {c}\nadd {c}\nadd {c}", 0, f"{c}\n{c}\nchr1 400 500 geneC",
                 f"line 3: already there: {c}"),
                (a, f"{together}replace {a} chr1 100 150 A\nadd chr1 140 200 A", 0, "chr1 100 150 A\nchr1 140 200 A"),
                # As the undo of another day writes it: beside a record of its name that overlaps.
                (f"{a}\n{other}", f"replace {a} {shorter}\nremove {shorter}\nadd {shorter}\nadd {shorter}", 0, f"{shorter}\n{other}",
                 f"line 4: already there: {shorter}"),
                # With the columns after the sixth that followed.
                (wide, f"{together}replace {a} 0 + {shorter} 0 +\nadd {followed}", 0, followed, f"line 3: already there: {shorter} 0 +"),
                # A group is done whole or not at all.
                (f"{a}\nchr1 300 400 B", "# together: split\nremove chr1 300 400 B\nadd chr1 101 200 A\nremove chr1 3O 400 C", 1,
                 f"{a}\nchr1 300 400 B", "line 2: not done, since line 3 is refused", f"line 3: there with another start: {a}",
                 f"  this would fit: replace {a} chr1 101 200 A", "line 4: start is not a number: '3O' (start, field 3)"),
                ("chr1 1 2 x", "add chr1:10-20 x", 1, "chr1 1 2 x",
                 "line 1: wrong number of columns: 2 fields; 4 are needed; chr1:10-20 is three fields")):
            with self.subTest(script=script):
                self.assertEqual(self.corrected("apply", bed, script).carried, (status, rows.split("\n"), messages))
        self.assertEqual(self.corrected("apply", c, f"add {after}\nadd {c}", "--copies").track, (0, [c, c, after]))

    def test_columns_after_the_sixth_count(self):
        """A line that gives them names a record by all of them; the next release's are merged field by field."""
        old, mine = "chr1 100 200 g 0 + 120 180 0 2 10,20, 0,80,", "chr1 100 200 g 5 + 120 180 0 2 10,20, 0,80,"
        release = "chr1 100 200 g 0 + 110 190 0 3 10,30,20, 0,40,80,"
        script = f"replace {old} {mine}\n"
        outcome = self.corrected("apply", release, script)
        self.assertEqual(outcome.track, (1, [release]))
        self.assertIn("no such record: chr1 100 200 g 0 +: the record is there with thickStart 110 instead of 120", outcome.messages[0])
        merged = release.replace("g 0", "g 5")
        self.assertEqual(self.mended(release, script), ([f"# was: {script[:-1]}", f"replace {release} {merged}"], 1, [merged], 0))
        self.assertEqual(self.corrected("apply", release, f"remove {old}\n").track, (1, [release]))
        both = mine.replace("120 180", "130 180")
        lines, status, rows, _ = self.mended(release, f"replace {old} {both}\n")
        self.assertEqual((lines[1], lines[-1], status, rows),
                         (f"# conflict: mine {both} (thickStart 130)", f"# replace {old} {both}", 1, [release]))

    def test_a_shift_that_the_release_made_too(self):
        """It isn't done twice, also in a chain."""
        for bed, script in (
                ("chr1 141 161\nchr1 175 196", "replace chr1 175 195 chr1 171 191\nreplace chr1 171 191 chr1 141 161"),
                ("chr1 40 90 b", "replace chr1 37 87 e chr1 28 78 e\nreplace chr1 28 78 e chr1 37 87 e\n"
                                 "replace chr1 37 87 e chr1 37 87 b\nreplace chr1 37 87 b chr1 40 90 b"),
                ("chr1 110 210 g 7", "replace chr1 100 200 g 5 chr1 110 210 g 5")):
            dropped = [f"# dropped: {line}" for line in script.split("\n")]
            self.assertEqual(self.mended(bed, script), (dropped, 1, bed.split("\n"), 0))

    def test_a_group_is_done_whole_or_not_at_all(self):
        added, other = "chr1 1 2 x", "chr1 300 400 B"
        script = f"# together: one gene\nreplace chr1 100 200 A chr1 100 400 A\nremove {other}\n\nadd {added}"
        self.assertEqual(self.corrected("apply", f"chr1 100 210 A\n{other}", script).carried, (1, [added, "chr1 100 210 A", other], [
            "line 2: no such record: chr1 100 200 A", "line 3: not done, since line 2 is refused"]))
        self.assertEqual(self.corrected("apply", f"chr1 100 200 A\n{other}", script).track, (0, [added, "chr1 100 400 A"]))
        self.assertEqual(self.mended(f"chr1 100 410 A\n{other}", script), ([
            "# together: one gene", "# conflict: base chr1 100 200 A (end 200)", "# conflict: mine chr1 100 400 A (end 400)",
            "# conflict: theirs chr1 100 410 A (end 410)", "# replace chr1 100 200 A chr1 100 400 A",
            "# conflict: not done, since line 2 isn't", f"# remove {other}", "", f"add {added}"], 1, [added, "chr1 100 410 A", other], 0))
        self.assertEqual(self.mended(f"chr1 90 200 A\n{other}", script), ([
            "# together: one gene", "# was: replace chr1 100 200 A chr1 100 400 A", "replace chr1 90 200 A chr1 90 400 A",
            f"remove {other}", "", f"add {added}"], 1, [added, "chr1 90 400 A"], 0))

    def test_reasons_stay_with_their_lines(self):
        lines, *_ = self.mended("chr1 100 200 A\nchr1 390 500 geneC", "# lacks geneC\nadd chr1 390 500 geneC\n# A was cut\n"
                                "replace chr1 100 200 A chr1 100 210 A\n")
        self.assertEqual(lines, ["# lacks geneC", "# dropped: add chr1 390 500 geneC", "", "# A was cut",
                                 "replace chr1 100 200 A chr1 100 210 A"])
        reasons = [(line.text, line.comments) for line in read_text("\n".join(lines)) if line.is_run]
        self.assertEqual(reasons, [("replace chr1 100 200 A chr1 100 210 A", ("A was cut",))])

    def test_reasons_of_several_files(self):
        first, second = self.file("first", "# one\nremove\tchr1\t1\t9\tx\n"), self.file("second", "add\tchr1\t5\t6\ty\n")
        mend = self.folder / "mend"
        Outcome("replay", self.sizes, self.bed_of("chr1 20 30 z"), first, second, "--mend", mend)
        self.assertEqual(mend.read_text(), "# one\n# dropped: remove\tchr1\t1\t9\tx\n\nadd\tchr1\t5\t6\ty\n")


class Exchanges(Case):
    """Many lines cost few exchanges with the program."""

    def asked(self, bed, script, **options):
        """How many exchanges a script of edits costs, and how many of its lines were done."""
        lines = read_text(script)
        with bedkeep.Session(self.sizes, self.file("bed", bed), wide=True) as session:
            with mock.patch.object(session._talk, "ask", wraps=session._talk.ask) as ask:
                Carrier(session, **options).carry(lines)
                return ask.call_count, sum(line.is_done for line in lines)

    def test_batches(self):
        bed = "".join(f"chr1\t{n}\t{n + 3}\tg{n}\n" for n in range(400))
        edits = "".join(f"replace\tchr1\t{n}\t{n + 3}\tg{n}\tchr1\t{n}\t{n + 4}\tg{n}\n" for n in range(300))
        adds = "".join(f"add\tchr1\t{n + 100}\t{n + 110}\tg{n}\n" for n in range(200))
        exchanges, done = self.asked(bed, edits + adds)
        self.assertLessEqual(exchanges, 4)
        self.assertEqual(done, 500)
        exchanges, done = self.asked(bed, "add\tchr2\t1\t5\tx\nremove\tchr2\t1\t5\tx\n" * 3)
        self.assertEqual(done, 6)

    def test_reasons_become_those_of_the_session(self):
        """Without those of lines that aren't done; two paragraphs stay apart."""
        script = "# a\nadd\tchr1\t1\t2\tx\nadd\tchr1\t2\t3\tx\n\nadd\tchr1\t3\t4\tx\n# b\n# was: y\nremove\tchr1\t9\t99\tq\n# c\nadd\tchr1\t1\t2\tx\n"
        with bedkeep.Session(self.sizes, self.genes, wide=True) as session:
            Carrier(session).carry(read_text(script))
            self.assertEqual([(line.text, line.comments) for line in read_text(session.script()) if line.is_run], [
                ("add\tchr1\t1\t2\tx", ("a",)), ("add\tchr1\t2\t3\tx", ("a",)), ("add\tchr1\t3\t4\tx", ())])


class Options(Case):
    """What `apply` writes, and where it says what."""

    def setUp(self):
        super().setUp()
        self.out = self.folder / "out.bed"
        self.script = self.file("script", tabs("add chr1 100 200 geneA\nremove chr1 1 2 x\nreplace chr1 300 400 geneB chr1 300 410 geneB"))

    def apply(self, *words):
        return Outcome("apply", self.sizes, self.genes, self.script, "-o", self.out, *words)

    def test_strict_writes_nothing(self):
        """If a line is refused, or there already, or done with a warning."""
        self.assertEqual((self.apply("--strict").status, self.out.exists()), (1, False))
        self.script.write_text(tabs("add chr1 100 200 geneA"))
        said = f"{self.script}: line 1: already there: chr1 100 200 geneA\nnothing is written\n"
        self.assertEqual((self.apply("--strict").failed, self.out.exists()), ((1, said), False))
        self.assertEqual((self.apply().status, self.out.read_text()), (0, self.genes.read_text()))
        self.genes.write_text(tabs("chr1 100 200 a 0 + 100 200 0 2 10,10 0,90"))
        self.script.write_text(tabs("replace chr1 100 200 a 0 + chr1 100 195 a 0 +"))
        self.assertEqual(self.apply().status, 0)
        self.script.write_text(tabs("replace chr1 100 200 a 0 + chr1 100 150 a 0 +"))
        outcome = self.apply()
        self.assertEqual(outcome.status, 1)
        self.assertIn("  this would fit: replace chr1 100 200 a 0 + 100 200 0 2 10,10 0,90 chr1 100 110 a 0 + 100 110 0 1 10 0\n", outcome.err)
        outcome = self.apply("--leave-blocks")
        self.assertEqual((outcome.status, outcome.err.count("done, but"), self.out.read_text().count("150")), (0, 1, 1))
        self.out.unlink()
        self.assertEqual((self.apply("--leave-blocks", "--strict").status, self.out.exists()), (1, False))

    def test_refused_lines_alone_in_a_file(self):
        listed = self.folder / "listed"
        outcome = self.apply("--refused", listed)
        self.assertEqual((outcome.status, listed.read_text()), (0, f"{self.script}: line 2: no such record: chr1 1 2 x\n"))
        self.assertEqual(outcome.err.count("\n"), 2)
        for command, status in (("replay", 0), ("review", 0), ("apply", 1)):
            words = ["-o", self.folder / "written"] if command != "replay" else []
            strict = ["--strict"] if status else []  # Nothing is written then.
            self.assertEqual(Outcome(command, self.sizes, self.genes, self.script, *words, *strict, "--refused", listed).status, status)
        self.assertEqual(self.apply().status, 1)
        self.script.write_text("")
        self.assertEqual((self.apply("--refused", listed).status, listed.read_text()), (0, ""))
        self.assertEqual(self.apply("--refused", self.genes).failed, (2, f"{self.genes}: an input is never written over\n"))

    def test_what_cannot_be_written_is_named(self):
        self.assertEqual(Outcome("apply", self.sizes, self.genes, self.script, "-o", "/dev/full").err, "/dev/full: no space left on device\n")
        with mock.patch("os.fsync", side_effect=OSError(5, "Input/output error")):
            self.assertEqual((self.apply().failed, self.out.exists()), ((2, f"{self.out}: input/output error\n"), False))
        none = self.folder / "none.bed"
        self.assertEqual(Outcome("apply", self.sizes, none, self.script).failed, (2, f"{none}: no such file\n"))

    def test_a_mended_script_is_whole_or_not_there(self):
        mend, words = self.folder / "mend", ("replay", self.sizes, self.genes, self.script, "--mend")
        with mock.patch("os.fsync", side_effect=OSError(28, "No space left on device")):
            self.assertEqual(Outcome(*words, mend).failed, (2, f"{mend}: no space left on device\n"))
        self.assertFalse(mend.exists())
        self.assertEqual(Outcome(*words, "/dev/full").failed, (2, "/dev/full is there already\n"))

    def test_nobody_reads_the_output(self):
        many = self.file("many.bed", "".join(f"chr1\t{n}\t{n + 1}\tname\n" for n in range(900)) * 100)
        for words in ["apply", self.sizes, many, self.script], ["replay", self.sizes, self.genes, self.script, "--tsv"]:
            process = subprocess.Popen([sys.executable, "-m", "bedkeep", *map(str, words)], stdout=subprocess.PIPE, stderr=subprocess.PIPE)
            process.stdout.close()
            self.assertNotIn(b"pipe", process.stderr.read())
            process.stderr.close()
            self.assertEqual(process.wait(), CLOSED)

    def test_a_file_of_another_format(self):
        """The program knows it by its columns, of which it is given six otherwise."""
        text = "##fileformat=VCFv4.2\n#CHROM\tPOS\tID\tREF\tALT\tQUAL\tFILTER\tINFO\nchr1\t100\trs1\tA\tG\t.\tPASS\t.\n"
        other, page = self.file("other.bed", text), self.folder / "page.html"
        for words in (["apply", self.sizes, other, self.script], ["apply", self.sizes, self.genes, self.script, "-b", other],
                      ["replay", self.sizes, other, self.script], ["review", self.sizes, other, self.script, "-o", page],
                      ["curate", self.sizes, other], ["desk", self.sizes, other, "--no-browser"],
                      ["diff", self.genes, other], ["diff", self.file("packed.gz", gzip.compress(text.encode())), other]):
            outcome = Outcome(*words)
            self.assertEqual(outcome.gave, (2, ""))
            self.assertRegex(outcome.err, r"(?s)(other\.bed|packed\.gz): line .*looks like VCF.*awk")


class Merges(Case):
    """A three-way merge of one record."""

    BASE = ("chr1", "100", "200", "g", "0", "+")
    TAIL = "\t100\t200\t0\t1\t100\t0"
    TEXT = "\tx\ty\tz\t1\t2\t3"  # no BED12

    def merged(self, mine, theirs, base=TAIL):
        """The version that comes of it, or the fields of the conflict, or why else it is one."""
        merged = merge(Version(self.BASE, base), Version(*mine), Version(*theirs), {"chr1": 1000})
        return merged.version or merged.unlike or merged.note

    def test_columns_of_another_format_are_one_field(self):
        renamed = (*self.BASE[:3], "h", *self.BASE[4:])
        self.assertEqual(self.merged((renamed, self.TAIL), (self.BASE, self.TEXT)), (renamed, self.TEXT))
        self.assertEqual(self.merged((renamed, self.TEXT), (self.BASE, self.TAIL)), (renamed, self.TEXT))
        self.assertEqual(self.merged((renamed, self.TAIL.replace("\t0\t1", "\t9\t1")), (self.BASE, self.TEXT)),
                         ("columns from the seventh on",))
        self.assertEqual(self.merged((renamed, self.TAIL), ((*self.BASE[:3], "i", *self.BASE[4:]), self.TEXT)), ("name",))

    def test_a_base_without_the_columns_after_the_sixth(self):
        """What both have is so; else nobody knows who changed it."""
        longer = ("chr1", "100", "210", "g", "0", "+")
        self.assertEqual(self.merged((longer, "\t7\ta"), (self.BASE, "\t7\ta"), None), (longer, "\t7\ta"))
        self.assertEqual(self.merged((longer, "\t7\ta"), (self.BASE, "\t7\tb"), None), ("column_8",))

    def test_what_cannot_be_merged(self):
        self.assertEqual(self.merged((("chr1", "5", "200", *self.BASE[3:]), self.TAIL), (("chr1", "0", "100", *self.BASE[3:]), self.TAIL)),
                         "the start would be -95")
        later = ("chr1", "125", "200", *self.BASE[3:]), "\t125\t200\t0\t1\t75\t0"
        self.assertEqual(self.merged((self.BASE, "\t100\t200\t0\t2\t20,70\t0,30"), later), "the blocks are not within the record")

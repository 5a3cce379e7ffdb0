"""`log`: what became of each record, by which lines, why, by whom and when."""
import gzip
import os
import shutil
import unittest

import bedkeep
from bedkeep.script import is_reason, is_signature, signature
from helpers import Corrected, Outcome, Repository, line, lines

BED = "chr1 100 200 geneA\nchr1 300 400 geneB\nchr2 10 20 geneC"
A, B, C = BED.split("\n")
TITLES = "sequence start end name score strand what was line reason author date commit"
ADA = "# signed: Ada L 2026-03-01T12:00:00+01:00"
BO = "# signed: Bo 2026-04-05T09:10:11-03:30"


class Records(Corrected):
    """Each case is of a script, and of the rows after the heading."""

    def logged(self, script, *rows, bed=BED, words=(), status=0, err=()):
        out = self.corrected("log", bed, script, *words)
        self.assertEqual((out.status, out.messages), (status, [*err]))
        self.assertEqual([row.replace(f"{self.folder}/corrections:", "") for row in out.rows[1:]], [*rows])
        return out

    def test_what_became_of_records(self):
        """They come in the order of the genome; one that is followed through several lines has one row."""
        for script, *rows in (
                ("",), ("# nothing",), ("resize chr1 2000",),
                (f"# one\n# of it\nreplace {A} chr1 100 250 geneA", f"chr1 100 250 geneA . . changed {A} 3 one of it . . ."),
                (f"remove {C}\n\n# new\nadd chr1 50 60 x", "chr1 50 60 x . . added . 4 new . . .", f"{C} . . removed {C} 1 . . . ."),
                (f"# why\nreplace {A} chr1 90 200 geneA\n# more\nremove chr1 90 200 geneA", f"chr1 90 200 geneA . . removed {A} 2;4 why;more .;. .;. .;."),
                ("add chr1 1 2 x\nreplace chr1 1 2 x chr1 1 3 x", "chr1 1 3 x . . added . 1;2 .;. .;. .;. .;."),
                # One that was removed and comes back is the same one.
                (f"replace {A} chr1 90 200 geneA\nremove chr1 90 200 geneA\nadd chr1 90 200 geneA",
                 f"chr1 90 200 geneA . . changed {A} 1;2;3 .;.;. .;.;. .;.;. .;.;."),
                (f"# together: split\nreplace {A} chr1 100 150 a\nadd chr1 150 200 b",
                 f"chr1 100 150 a . . changed {A} 2 split . . .", "chr1 150 200 b . . added . 3 split . . ."),
                # Two that exchange their places.
                (f"replace {A} chr1 300 400 geneA\nreplace {B} chr1 100 200 geneB",
                 f"chr1 100 200 geneB . . changed {B} 2 . . . .", f"chr1 300 400 geneA . . changed {A} 1 . . . .")):
            with self.subTest(script):
                self.logged(script, *rows)

    def test_what_is_as_it_was(self):
        """It has no row, however many lines came and went; how many there are is said beside."""
        moved = "chr1 100 250 geneA"
        for script, count in ((f"replace {A} {moved}\nreplace {moved} {A}", 1), (f"remove {A}\nadd {A}", 1),
                              ("add chr1 1 2 x\nremove chr1 1 2 x", 1), (f"replace {A} {A}\nremove {B}\nadd {B}", 2),
                              (f"replace {A} {moved}\nremove {moved}\nadd {A}", 1)):
            with self.subTest(script):
                self.logged(script, err=[f"records that end as they began, and have no row: {count}"])

    def test_equal_records(self):
        """A line is about the one that changed last, and of those that were removed the last one comes back."""
        two = f"{A}\n{A}\n{B}"
        changed = f"{B} . . changed {A} 1 . . . ."
        self.logged(f"replace {A} {B}", changed, bed=two)
        self.logged(f"replace {A} {B}\nremove {B}", f"{B} . . removed {A} 1;2 .;. .;. .;. .;.", bed=two)
        self.logged(f"remove {A}\nremove {A}\nadd {A}", f"{A} . . removed {A} 1 . . . .", bed=two,
                    err=["records that end as they began, and have no row: 1"])

    def test_refused_lines_have_no_row(self):
        out = self.logged(f"# no\nremove chr1 1 2 x\nremove {A}\nadd {B}\nremoveb chr1 150 350", f"{A} . . removed {A} 3 no . . .", status=1,
                          words=("-b", self.mask, "--refused", self.folder / "refused"),
                          err=["line 2: no such record: chr1 1 2 x", f"line 4: already there: {B}"])
        self.assertEqual((self.folder / "refused").read_text(), out.err.split("\n")[0] + "\n")

    def test_columns_after_the_sixth(self):
        """They follow, and are in the first record and in a column of their own."""
        self.logged("replace chr1 100 200 a 0 + chr1 100 210 a 0 +\nadd chr1 5 9 a%b;\vc 7 - x 8",
                    "chr1 5 9 a%b;\vc 7 - added . 2 . . . . x 8",
                    "chr1 100 210 a 0 + changed chr1 100 200 a 0 + y 9 1 . . . . y 9", bed="chr1 100 200 a 0 + y 9")

    def test_texts(self):
        """What would be read as a separator is escaped."""
        self.bed = self.file("bed", "chr1\t10\t20\tgene A\t5\t+\tx y\t%\n")
        script = self.file("a;b", "# 50 % of it; or\ta\x0b third, at least\\\nremove\tchr1\t10\t20\tgene A\t5\t+\n")
        out = Outcome("log", self.sizes, self.bed, script)
        self.assertEqual(out.out.split("\n")[1].split("\t"), [
            "chr1", "10", "20", "gene A", "5", "+", "removed", "chr1 10 20 gene%20A 5 + x%20y %25", f"{self.folder}/a%3Bb:2",
            "50 %25 of it%3B or%09a%0B third, at least\\", ".", ".", ".", "x%20y %25"])
        out = Outcome("log", self.sizes, self.bed, script, "--gff3")
        self.assertEqual(out.out.split("\n")[:-1], ["##gff-version 3", "\t".join([
            "chr1", "bedkeep", "region", "11", "20", "5", "+", ".",
            f"Name=gene A;what=removed;was=chr1:11-20 gene A 5 + x y %25;lines={self.folder}/a%3Bb:2;"
            "reason=50 %25 of it%3B or%09a%0B third%2C at least\\;rest=x y %25"])])

    def test_gff3(self):
        """Places are from 1 with the end, and what isn't known of all lines is left out."""
        self.sizes = self.file("sizes", "chr 1,~é\t1000\n")
        for script, *rows in (("",), ("# a=b\nreplace chr_1 9 20 . 1e3 . chr_1 9 21 . 1e3 .\nreplace chr_1 9 21 . 1e3 . chr_1 0 21 . x .",
                                      "chr%201%2C%7E%C3%A9 bedkeep region 1 21 . . . what=changed;was=chr 1%2C~é:10-20 . 1e3 .;lines=:2,:3;reason=a%3Db,a%3Db"),
                              ("add chr_1 5 6 . 1e3 -", "chr%201%2C%7E%C3%A9 bedkeep region 6 6 1e3 - . what=added;lines=:1")):
            with self.subTest(script):
                bed, corrections = (self.file(name, "\n".join(row if row.startswith("#") else row.replace(" ", "\t") for row in text.split("\n"))
                                              .replace("chr_1", "chr 1,~é") + "\n") for name, text in (("b", "chr_1 9 20 . 1e3 ."), ("s", script)))
                out = Outcome("log", self.sizes, bed, corrections, "--gff3", "-o", self.folder / "out")
                self.assertEqual(out.all, (0, "", ""))
                found = (self.folder / "out").read_text().replace(str(corrections), "").replace("\t", " ")
                self.assertEqual(found, "".join(f"{row}\n" for row in ["##gff-version 3", *rows]))

    def test_files(self):
        script = self.file("script", "")
        self.assertEqual(Outcome("log", self.sizes, self.genes, script, "-o", script).failed, (2, f"{script}: an input is never written over\n"))
        self.assertEqual(Outcome("log", self.sizes, self.genes, script).all, (0, TITLES.replace(" ", "\t") + "\n", ""))

    def test_from_python(self):
        script = self.file("script", f"# why\n{line(f'remove {A}')}\n")
        [entry] = bedkeep.log(self.sizes, self.genes, script)
        self.assertEqual((entry.what, entry.was, entry.now, entry.last), ("removed", line(A), None, line(A)))
        self.assertEqual([(one.place, one.comments, one.author.name) for one in entry.lines], [(2, ("why",), "")])


class Signed(Corrected):
    """Signatures of scripts."""

    def test_their_form(self):
        os.environ["TZ"] = "XYZ-1:30"
        self.addCleanup(os.environ.pop, "TZ")
        for name in "Ada", "Ada L. von 2026-01-01T00:00:00+00:00", "é\udc80", "#":
            text = signature(name)
            self.assertTrue(is_signature(text) and not is_reason(text), text)
            self.assertRegex(text, r"^# signed: .* \d{4}-\d\d-\d\dT\d\d:\d\d:\d\d[+-]\d\d:\d\d$")
        for name in "", " ", " Ada", "Ada ", "A\tB", "A\nB", "A\rB", "A\0B":
            self.assertRaises(ValueError, signature, name)
        for text in ("# signed: Ada", "# signed: 2026-03-01T12:00:00+01:00", "# signed: Ada 2026-03-01", "#signed: Ada 2026-03-01T12:00:00+01:00",
                     "# signed: Ada 2026-03-01T12:00:00", "# signed: Ada 2026-03-01T12:00:00+01:00 x"):
            self.assertTrue(is_reason(text) and not is_signature(text), text)

    def test_whose_they_are(self):
        """One is of the lines of its paragraph, which it begins, and no reason."""
        for script, *expected in (
                ([ADA, "# why", "1", "2"], "why|Ada L", "why|Ada L"), ([ADA, "1", "2"], "|Ada L", "|Ada L"),
                (["# why", "1", ADA, "2"], "why|", "|Ada L"), ([ADA, "# why", "1", "", "2"], "why|Ada L", "|"),
                ([ADA, "# why", "1", "# other", "2"], "why|Ada L", "other|"), (["# lost", ADA, "1"], "|Ada L"),
                ([ADA, BO, "1"], "|Bo"), ([ADA, "# a", "# b", "# was: x", "1"], "a b|Ada L"), ([ADA, "", "1"], "|"),
                ([ADA, "# together: both", "1", "2", BO, "3"], "both|Ada L", "both|Ada L", "|Bo"),
                ([ADA, "# why", "# dropped: add\tx", "# no more", "1"], "no more|")):
            with self.subTest(script):
                text = "\n".join(f"add\tchr1\t{row}\t{row}5" if row.isdigit() else row for row in script)
                for ending in "\n", "\r\n":
                    listed = bedkeep.log(self.sizes, self.file("empty", ""), self.file("script", text.replace("\n", ending)))
                    self.assertEqual([f"{' '.join(one.comments)}|{one.author.name}" for entry in listed for one in entry.lines], expected)

    @unittest.skipUnless(shutil.which("git"), "no git")
    def test_a_signature_and_git(self):
        """The author and the date are those of the signature, the commit is git's."""
        repository = Repository(self.folder)
        first, moved, back = lines(f"replace {A} chr1 90 200 geneA", "replace chr1 90 200 geneA chr1 90 210 geneA", f"remove {B}")
        script = self.file("corrections", f"# a\n{first}\n{ADA}\n# b\n{moved}\n")
        self.assertEqual(self.authors(script), ["|", "Ada L|2026-03-01T12:00:00+01:00"])
        one = repository.commit("Émile <x>", date="2026-01-02T03:04:05+0545")
        self.file("corrections", script.read_bytes() + f"{back}\n".encode())
        self.assertEqual(Outcome("log", self.sizes, self.genes, script).out.split("\n")[1:3], ["\t".join(row) for row in (
            [*"chr1 90 210 geneA . . changed".split(), A, f"{script}:2;{script}:5", "a;b", "Émile x;Ada L",
             "2026-01-02T03:04:05+05:45;2026-03-01T12:00:00+01:00", f"{one};{one}"],
            [*f"{B} . . removed".split(), B, f"{script}:6", "b", "Ada L", "2026-03-01T12:00:00+01:00", "not committed"])])
        two = repository.commit("Bo", date="2026-01-03T03:04:05-0300")
        self.assertEqual(self.authors(script, "commit"), [one, one, two])
        linked = self.folder / "sub" / "linked"
        linked.parent.mkdir()
        linked.symlink_to(script)
        self.assertEqual(self.authors(linked, "commit"), [one, one, two])
        # Other lines than those that git knows: packed, with other ends, or no file.
        packed = self.file("packed", gzip.compress(script.read_bytes()))
        repository.commit("Cy", date="2026-01-03T03:04:05-0300")
        self.assertEqual(self.authors(packed, "commit"), ["", "", ""])
        windows = self.file("windows", script.read_bytes().replace(b"\n", b"\r\n"))
        three = repository.commit("Cy", date="2026-01-03T03:04:05+9900")
        self.assertEqual(self.authors(windows, "commit"), [three] * 3)
        os.environ["PATH"], path = str(self.folder), os.environ["PATH"]
        self.addCleanup(os.environ.update, PATH=path)
        self.assertEqual(self.authors(script, "commit"), ["", "", ""])

    def authors(self, script, column=None):
        listed = bedkeep.log(self.sizes, self.genes, script)
        found = {one.place: one.author for entry in listed for one in entry.lines}
        return [getattr(author, column) if column else f"{author.name}|{author.date}" for _, author in sorted(found.items())]

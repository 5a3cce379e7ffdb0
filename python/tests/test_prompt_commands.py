"""The commands of the prompt that make lines of a script: merge, split, shift, rename, and set over columns after the sixth."""
import io
from unittest import mock

from helpers import Outcome, Prompt, lines, script_of, tabs


class Kept(Prompt):
    """A prompt with a script, over records that a test sets."""

    records = ()

    def setUp(self):
        super().setUp()
        self.genes = self.file("genes.bed", tabs("\n".join(self.records)))
        self.corrections = self.folder / "corrections"
        self.words = self.sizes, self.genes, "--script", self.corrections

    def makes(self, typed, *script, said=()):
        """That the prompt writes these lines for what is typed, and says this first. `apply` of them has to make what `save` did."""
        saved = self.folder / "saved"
        saved.unlink(missing_ok=True)
        self.corrections.unlink(missing_ok=True)
        found = self.typed(*([typed] if isinstance(typed, str) else typed), f"save {saved}", words=self.words)
        self.assertEqual(found[:len(said)], [*said])
        written = script_of("\n".join([*script, ""])) if script else ""
        self.assertEqual(self.corrections.read_text() if self.corrections.exists() else "", written)
        if script and saved.exists():
            self.assertEqual(Outcome("apply", self.sizes, self.genes, self.corrections).all, (0, saved.read_text(), ""))
        return found


class Together(Kept):
    """Commands of several lines: one paragraph each, done whole or not at all, and taken back at once."""

    records = ("chr1 100 200 geneA 5 +", "chr1 150 260 geneB 7 .", "chr1 300 400 geneB 0 -", "chr2 10 20 geneA 0 +", "chr2 30 40 . 0 .")
    a, b = records[:2]
    joined = f"replace {a} chr1 100 260 geneA 5 +", f"remove {b}"

    def test_merge(self):
        self.makes(["# one gene", "merge chr1:101-200 chr1 150 260"], "# together: one gene", *self.joined, said=[
            f"at chr1:101-200, from 1: {self.a}", f"at chr1 150 260, from 0: {self.b}", "one record: chr1 100 260 geneA 5 +",
            "name geneA is kept, and geneB isn't", "score 5 is kept, and 7 isn't", "done: 2 lines together", "saved"])
        self.makes("merge chr1 300 400 chr1 150 260", "# together: merge chr1 300 400 chr1 150 260",
                   "replace chr1 300 400 geneB 0 - chr1 150 400 geneB 0 -", f"remove {self.b}")
        self.makes(["# together: as one", "merge chr1:101-200 chr1 150 260"], "# together: as one", *self.joined)
        said = self.makes(["merge chr1:101-200 chr1:151-260", "undo"])
        self.assertEqual(said[-3:-1], [f"undone: {line}" for line in self.joined])

    def test_what_cannot_be_done(self):
        shift = "shift REGION BY, such as shift chr1:101-200 10 or shift chr1 -5"
        other = ["no record is named geneb; named geneb in any case:", *lines(*self.records[1:3])]
        for line, *said in (
                ("merge chr1:101-200 chr2:11-20", "they are on two sequences, chr1 and chr2"),
                ("merge chr1:101-200 chr1 300 400", "they are on two strands: set the strand of one first, if that is meant"),
                ("merge chr1:101-200 chr1 100 200", f"both are {self.a}"),
                ("merge geneA chr1:101-200", "2 records are named geneA: give the place of one, or all its columns"),
                ("merge geneQ chr1:101-200", "no record has geneQ in its name, and the genome has no geneQ; it has chr1, chr2"),
                *((f"split chr1:101-200 {at}", f"at chr1:101-200, from 1: {self.a}", f"{at} isn't between 100 and 200")
                  for at in ("100", "200", "x", "chr1:150")),
                ("split geneA", "split RECORD AT, such as split geneA 150"),
                ("shift chr1 -101", f"{self.a} would begin at -1"), ("shift chr1 0", "nothing changes"),
                ("shift chr1", shift), ("shift chr1 x", shift), ("shift chr1 +-1", shift), ("shift geneb 3", *other),
                ("shift gene 3", "no record is named gene; with gene in the name:"),
                ("shift chr2:1-5 3", "chr2:1-5, from 1: 0 records are wholly within"),
                ("shift chr1 700", "chr1, all 1000 bases: 3 records are wholly within",
                 "refused: end past the sequence's end in replace chr1 300 400 geneB 0 - chr1 1000 1100 geneB 0 -"),
                ("rename geneB geneB", "nothing changes"), ("rename geneB", "rename OLD NEW, such as rename geneA geneX"),
                ("rename geneb x", *other, "   1 takes: rename chr1 150 260 x", "   2 takes: rename chr1 300 400 x"),
                ("rename zzz x", "no record has zzz in its name, and the genome has no zzz; it has chr1, chr2")):
            with self.subTest(line):
                self.makes(line, said=said)

    def test_split(self):
        self.makes(["split chr1:101-200 1,60", "# two", "split chr2 30 40 31"],
                   "# together: split chr1:101-200 1,60", f"replace {self.a} chr1 100 160 geneA.1 5 +", "add chr1 160 200 geneA.2 5 +",
                   "# together: two", "replace chr2 30 40 . 0 . chr2 30 31 . 0 .", "add chr2 31 40 . 0 .", said=[
                       f"at chr1:101-200, from 1: {self.a}", "part 1: chr1 100 160 geneA.1 5 +", "part 2: chr1 160 200 geneA.2 5 +",
                       "done: 2 lines together"])

    def test_shift(self):
        self.makes(["# a patch", "shift chr1:101-260 10"], "# together: a patch", f"replace {self.b} chr1 160 270 geneB 7 .",
                   f"replace {self.a} chr1 110 210 geneA 5 +",
                   said=["chr1:101-260, from 1: 2 records are wholly within", "done: 2 lines together"])
        self.makes("shift chr1 90 210 -5", f"replace {self.a} chr1 95 195 geneA 5 +",
                   said=["chr1 90 210, from 0: 1 record is wholly within", "1 more overlaps it, and stays", "done"])
        self.makes("shift geneA 5", "# together: shift geneA 5", "replace chr2 10 20 geneA 0 + chr2 15 25 geneA 0 +",
                   f"replace {self.a} chr1 105 205 geneA 5 +", said=["named geneA: 2 records", "done: 2 lines together"])

    def test_rename(self):
        self.makes(["# its name in the paper", "rename geneB TP53"], "# together: its name in the paper",
                   f"replace {self.b} chr1 150 260 TP53 7 .", "replace chr1 300 400 geneB 0 - chr1 300 400 TP53 0 -",
                   said=["named geneB: 2 records", "done: 2 lines together"])
        self.corrections.unlink()
        self.typed("rename\tgeneB\tnew name", words=self.words)
        renamed = self.genes.read_text().replace("geneB", "new name")
        self.assertEqual(Outcome("apply", self.sizes, self.genes, self.corrections).out, renamed)

    def test_lines_that_are_typed_together(self):
        """As in a script: they are done whole or not at all, once the paragraph ends."""
        above, wrong = ("# together: one gene", "# of two"), "remove chr1 150 261 geneB 7 ."
        for end, *after in ("",), ("records",), ("# another", "# another", ""), ("quit",):
            with self.subTest(end):
                self.makes([*above, *self.joined, end], *above, *self.joined, *after, said=["done: 2 lines together"])
        self.corrections.unlink()
        with mock.patch("sys.stdin", io.StringIO("\n".join([*above, *self.joined]))):
            self.assertEqual(Outcome("curate", *self.words).failed, (0, ""))
        self.assertEqual(self.corrections.read_text(), script_of("\n".join([*above, *self.joined])))
        said = self.makes([above[0], self.joined[0], wrong, "", "undo"], said=[
            f"refused: no such record in {wrong}", f"   1 takes: {self.joined[0]}; {self.joined[1]} (end 1 base earlier)"])
        self.assertEqual(said[-3:-1], ["   its reason isn't kept for the next line", "nothing to take back"])
        self.makes([*above, self.joined[0], wrong, "", "1"], *above, *self.joined)

    def test_a_group_on_another_day(self):
        group = "# together: one gene", *self.joined
        self.makes(["# one gene", "merge chr1:101-200 chr1 150 260"], *group)
        self.assertEqual(self.typed("undo", "records", words=self.words),
                         [*(f"undone: {line}" for line in self.joined), *lines(*self.records)])
        self.assertEqual(self.corrections.read_text(), script_of("\n".join([
            *group, "# together: taken back: one gene", f"add {self.b}", f"replace chr1 100 260 geneA 5 + {self.a}"])))
        self.assertEqual(Outcome("apply", self.sizes, self.genes, self.corrections).gave, (0, self.genes.read_text()))
        self.assertEqual(self.typed("undo", "redo", "undo", "records", words=self.words)[-4:],
                         lines("chr1 100 260 geneA 5 +", *self.records[2:]))

    def test_what_is_there_is_not_added_again(self):
        add = "add chr1 300 400 geneB 0 -"
        self.makes(["# lacks it", add], said=[
            "already there, so nothing is done: chr1 300 400 geneB 0 -", "   its reason isn't kept for the next line"])
        self.corrections.write_text(script_of(f"# lacks it\n{add}"))
        self.assertEqual(self.typed(words=self.words), [])
        self.assertEqual(self.typed("undo", words=(*self.words, "--copies")), [f"undone: {add}"])


class Blocks(Kept):
    """The same over a file of twelve columns: exons and the coding part go along."""

    g, h = "chr1 100 200 g 0 + 120 180 0 2 10,20, 0,80,", "chr1 190 300 h 0 + 190 190 0 2 20,20, 0,90,"
    copies = "chr1 500 600 c 0 - 500 500 0 1 100, 0,", "chr1 500 600 c 0 - 500 500 7 1 100, 0,"
    records = g, h, *copies

    def test_merge(self):
        self.makes("merge g h", "# together: merge g h",
                   f"replace {self.g} chr1 100 300 g 0 + 120 180 0 3 10,30,20, 0,80,180,", f"remove {self.h}")

    def test_merge_of_records_without_a_coding_part(self):
        """It begins and ends at the new start."""
        i, j = "chr1 300 400 i 0 + 300 300 0 1 100 0", "chr1 200 320 j 0 + 200 200 0 1 120 0"
        self.genes.write_text(tabs(f"{i}\n{j}\nchr1 10 30 k 0 + 10 10 0 2 5,5 0,9"))
        self.makes("merge i j", "# together: merge i j", f"replace {i} chr1 200 400 i 0 + 200 200 0 1 200 0", f"remove {j}")
        self.makes("merge i k", said=["the blocks of chr1 10 30 k 0 + 10 10 0 2 5,5 0,9 can't hold"])

    def test_split(self):
        """Between two exons, and within one."""
        self.makes("split g 150", "# together: split g 150", f"replace {self.g} chr1 100 110 g.1 0 + 100 100 0 1 10, 0,",
                   "add chr1 180 200 g.2 0 + 180 180 0 1 20, 0,")
        self.makes("split g 105", "# together: split g 105", f"replace {self.g} chr1 100 105 g.1 0 + 100 100 0 1 5, 0,",
                   "add chr1 105 200 g.2 0 + 120 180 0 2 5,20, 0,75,")

    def test_shift_and_set(self):
        """Blocks begin and end the record, so its ends move along."""
        old = "replace chr1 100 200 g 0 +"
        for typed, line, row in (
                ("shift g -50", f"{old} chr1 50 150 g 0 +", "chr1 50 150 g 0 + 70 130 0 2 10,20, 0,80,"),
                ("set end g 210", f"{old} chr1 100 210 g 0 +", "chr1 100 210 g 0 + 120 180 0 2 10,30, 0,80,"),
                ("set thickEnd g 190", f"replace {self.g} {self.g.replace('180', '190')}", self.g.replace("180", "190")),
                ("set blocks g 90-110,150-170,180-210", f"replace {self.g} chr1 90 210 g 0 + 120 180 0 3 20,20,30, 0,60,90,",
                 "chr1 90 210 g 0 + 120 180 0 3 20,20,30, 0,60,90,")):
            with self.subTest(typed):
                named = "named g: 1 record" if "shift" in typed else f"named g: {self.g}"
                self.makes(["# why", typed], "# why", line, said=[named, "done"])
                self.assertEqual(self.typed("find g", words=self.words), ["named g:", *lines(row)])

    def test_what_cannot_be_set(self):
        """A record that would be cut has an offer, or is done with a warning."""
        for line, *said in (
                ("set thickEnd g 180", f"named g: {self.g}", "nothing changes"),
                ("set blocks g 100-110;180-200", "blocks are START-END,START-END such as 100-200,300-400, and not 100-110;180-200"),
                ("set end g 105", f"named g: {self.g}", "refused: the end 105 is within block 1 of 2",
                 f"   1 takes: replace {self.g} chr1 100 105 g 0 + 100 100 0 1 5, 0,"),
                ("set summit g 5", "summit is no column of this file; the columns are chromosome, start, end, name, score, strand, "
                                   "thickStart, thickEnd, itemRgb, blocks")):
            with self.subTest(line):
                self.makes(line, said=said)
        self.assertIn("done, but ", self.typed("set end g 105", words=(*self.words, "--leave-blocks"))[1])

    def test_copies_that_differ_after_the_sixth_column(self):
        said = ["2 records differ from column 7 on alone: give all columns of one", *lines(*self.copies)]
        self.assertEqual(self.typed("remove c", "set end c 610", words=self.words), [*said, *said])
        self.makes("\t".join(["remove", *lines(self.copies[1])]), f"remove {self.copies[1]}")

    def test_a_wrong_number_of_columns(self):
        self.assertEqual(self.typed("add chr1 1 2 x 0 + 1", words=self.words)[1],
                         "   6 columns are needed: chromosome, start, end, name, score, strand, or all 12")


class Peaks(Kept):
    """The same over a file of ten columns, the last of which counts from the start."""

    p = "chr1 100 200 p 500 . 7.5 12.1 9.9 50"
    records = p,

    def test_the_summit(self):
        self.makes("set summit p 160", f"replace {self.p} {self.p[:-2]}60")
        self.makes("split p 150", "# together: split p 150", f"replace {self.p} chr1 100 150 p.1 500 . 7.5 12.1 9.9 -1",
                   "add chr1 150 200 p.2 500 . 7.5 12.1 9.9 0")
        self.makes("set start p 120", "replace chr1 100 200 p 500 . chr1 120 200 p 500 .")
        self.assertEqual(self.typed("find p", words=self.words), ["named p:", *lines("chr1 120 200 p 500 . 7.5 12.1 9.9 30")])

import gzip
import os
from unittest import mock

import bedkeep
from bedkeep.wide import cut
from helpers import Case, Corrected, tabs

BED12 = """chr1 100 200 geneA 0 + 110 190 255,0,0 2 20,30, 0,70,
chr1 300 400 geneB 7 - 300 400 0 1 100 0
chr1 300 400 geneB 7 - 300 300 0 3 10,10,10 0,40,90
chr2 5 50 geneC 0 . 10 20 0,0,0 1 45, 0,"""
PEAKS = """chr1 100 200 peak1 0 . 5.5 -1 2.25 99
chr1 300 400 peak2 7 . 1e3 -1 -1 -1"""


class Applied(Corrected):
    def test_untouched_lines_come_as_they_are(self):
        for bed in BED12, f"#one\n\n{PEAKS}\ntrack":
            self.assertEqual(self.corrected("apply", bed, "add chr1 1 2 x 0 +\nremove chr1 1 2 x 0 +").track, (0, bed.split("\n")))

    def test_lines_of_another_number_of_columns(self):
        gene = "replace chr2 5 50 geneC 0 ."
        for line, said in (
                ("add chr1 1 2 x 0 + 1", "wrong number of columns: 7 fields; 6 or 12 are needed"),
                ("remove chr1 1 2", "wrong number of columns: 3 fields; 6 or 12 are needed"),
                ("replace chr1 1 2 chr1 1 3", "wrong number of columns: 6 fields; 12, 18 or 24 are needed"),
                (f"{gene} chr9 5 50 geneC 0 . 1 2 3 4 5 6", "unknown sequence: 'chr9' (new chromosome, field 8)"),
                (f"{gene} 10 20 0,0,0 1 45, 0, chr2 5 5 geneC 0 . 1 2 3 4 5 6", "start not below end: '5' (new start, field 15)"),
                (f"{gene} 10 20 0,0,0 1 45, 0, chr2 5 5 geneC 0 .", "start not below end: '5' (new start, field 15)")):
            self.assertEqual(self.corrected("apply", BED12, line).messages, [f"line 1: {said}"])
        for row, said in (("chr1 1 2 x 0 +", "wrong number of columns\n$"),
                          ("chr1 9 2 x 0 + 1 2 0 1 1 0", "start not below end \\(status 3\\)\n  line 5, field 2: ")):
            outcome = self.corrected("apply", f"{BED12}\n{row}", "")
            self.assertEqual(outcome.status, 2)
            self.assertRegex(outcome.err, f"^{self.bed}: line 5: {said}")


class Sessions(Case):
    def wide(self, text, **options):
        self.bed = self.genes = self.file("wide.bed", text)
        return self.session(wide=True, **options)

    def lines(self, session):
        return [" ".join(map(str, row)) for row in session.records()]

    def answers(self, session, lines):
        """Why lines are refused, with the hints, of lines with spaces."""
        return [(one.number, one.reason, [text.replace("\t", " ") for text in one.hint]) for one in session.edit(tabs(lines))]

    def test_edits_and_undo(self):
        second = self.file("second.bed.gz", gzip.compress(tabs("chr1 150 350 m 0 + x").encode()))
        with self.wide(tabs(BED12), second=second) as session:
            looks = [self.lines(session)]
            self.assertEqual(looks[0], BED12.split("\n"))
            first = session.records()[0]
            self.assertEqual((first.start, first.column_7, first.column_12, len(session)), (100, "110", "0,70,", 4))
            session.remove(first)
            self.assertNotIn(first, session)
            session.add(first)
            self.assertIn(first, session)
            self.assertEqual([session.undo().split("\t")[0], session.undo().split("\t")[0], self.lines(session)], ["add", "remove", looks[0]])
            for line in ("replace chr1 300 400 geneB 7 - chr1 300 390 geneB 7 -", "remove chr1 300 400 geneB 7 -", "resize chr2 600",
                         "add chr2 8 9 own 0 + 8 9 0 1 1 0", "replace chr2 5 50 geneC 0 . chr2 5 9 new 0 . 5 9 0 1 4 0",
                         "removeb chr1 150 350 m 0 +", "addb chr1 150 350 m 0 + y"):
                self.assertEqual(session.edit(["# why", tabs(line)]), [])
                looks.append(self.lines(session))
            self.assertEqual(looks[-1], [BED12.split("\n")[0], "chr1 300 390 geneB 7 - 300 390 0 1 90 0", "chr2 5 9 new 0 . 5 9 0 1 4 0",
                                         "chr2 8 9 own 0 + 8 9 0 1 1 0"])
            self.assertEqual([tuple(row)[3] for row in session.region("chr2")], ["new", "own"])
            script = session.script()
            session.save(self.folder / "saved.bed")
            self.assertEqual(sorted((self.folder / "saved.bed").read_text().split("\n")), sorted(tabs("\n".join(looks[-1])).split("\n")))
            for look in reversed(looks[:-1]):
                session.undo()
                self.assertEqual(self.lines(session), look)
        with bedkeep.Session(self.sizes, self.bed, second, wide=True) as again:
            self.assertEqual((again.edit(script), self.lines(again)), ([], looks[-1]))

    def test_a_line_of_all_columns_names_a_record_by_all(self):
        first, second, third = "chr1 100 200 g 0 + 120 180 0 2 10,20, 0,80,", "chr1 100 200 g 0 + 110 190 0 3 10,30,20, 0,40,80,", "chr2 1 2 x 0 + 1 2 0 1 1, 0,"
        with self.wide(tabs(f"{second}\n{third}")) as session:
            hint = ("the record is there with thickStart 110 instead of 120, thickEnd 190 instead of 180, blockCount 3 instead of 2, "
                    "blockSizes 10,30,20, instead of 10,20,, blockStarts 0,40,80, instead of 0,80,")
            self.assertEqual(self.answers(session, f"remove {first}\nreplace {first} {first.replace(' 0 +', ' 5 +')}\nremove {second}"),
                             [(1, "no such record", [hint]), (2, "no such record", [hint])])
            self.assertEqual(self.lines(session), [third])
            self.assertEqual(session.undo(), tabs(f"remove {second}").rstrip("\n"))
            self.assertNotIn(first.split(), session)
            self.assertIn(second.split(), session)
            self.assertIn(second.split()[:6], session)

    def test_what_no_rule_keeps_valid_is_refused_with_a_line_that_would_fit(self):
        lines = """replace chr1 100 200 geneA 0 + chr1 100 185 geneA 0 +
replace chr1 100 200 geneA 0 + chr1 130 200 geneA 0 +
replace chr1 100 200 geneA 0 + 110 190 255,0,0 2 20,30, 0,70, chr1 115 195 geneA 0 +
add chr2 1 9 x 0 + 1 9 0 2 8 0
replace chr2 5 50 geneC 0 . chr2 5 60 geneC 0 . 10 20 0,0,0 1 45, 0,
add chr2 1 9 x 0 + a b c d e f
replace chr2 5 50 geneC 0 . chr2 5 25 geneC 1001 ."""
        gene = BED12.split("\n")[0]
        expected = [
            (1, "thickEnd 190 is outside of the record", [
                f"replace {gene} chr1 100 185 geneA 0 + 110 185 255,0,0 2 20,15, 0,70,"]),
            (2, "the start 130 is between blocks 1 and 2 of 2", [
                f"replace {gene} chr1 170 200 geneA 0 + 170 190 255,0,0 1 30, 0,"]),
            (3, "thickStart 110 is outside of the record", [
                f"replace {gene} chr1 115 195 geneA 0 + 115 190 255,0,0 2 5,25, 0,55,"]),
            (4, "blockCount 2 is not the number of blocks", []),
            (5, "blocks end 45 after the start, the record 55", [
                "replace chr2 5 50 geneC 0 . 10 20 0,0,0 1 45, 0, chr2 5 60 geneC 0 . 10 20 0,0,0 1 55, 0,"]),
            (6, "the columns from the seventh on are not those of BED12", []), (7, "score 1001 is not from 0 to 1000", [])]
        with self.wide(tabs(BED12)) as session:
            self.assertEqual(self.answers(session, lines), expected)
            self.assertEqual((self.lines(session), session.script()), (BED12.split("\n"), ""))
            for _, _, hint in expected:
                if hint:
                    self.assertEqual(session.edit(tabs(hint[0])), [])
                    session.undo()
        with self.wide(tabs(BED12), leave_blocks=True) as session:
            self.assertEqual([refused[:2] for refused in self.answers(session, lines)], [(number, "no such record") for number in (2, 3, 7)])
            self.assertEqual([text for _, text in session.warnings()], [expected[place][1] for place in (0, 3, 4, 5)])
            self.assertIn("chr1 100 185 geneA 0 + 110 190 255,0,0 2 20,30, 0,70,", self.lines(session))

    def test_warnings_of_a_line_that_is_undone_go(self):
        lines = ["remove chr2 5 50 geneC 0 .", "replace chr1 100 200 geneA 0 + chr1 100 180 geneA 0 +", "add chr2 1 9 x 0 + 1 9 0 2 8 0"]
        with self.wide(tabs(BED12), leave_blocks=True) as session:
            for number, line in enumerate(lines):
                self.assertEqual(session.edit(["# why", tabs(line)]), [])
                self.assertEqual(len(session.warnings()), number)
            self.assertEqual(session.warnings()[0][0], tabs(lines[1]).rstrip("\n"))
            for left in 1, 0, 0:
                session.undo()
                self.assertEqual(len(session.warnings()), left)
            self.assertEqual(self.lines(session), BED12.split("\n"))

    def test_a_record_that_was_invalid_comes_back(self):
        """What the file has is never refused, whatever is wrong with it."""
        row = "chr1 100 200 g 1001 + 10 20 0 2 10,20, 0,70,"
        with self.wide(tabs(f"{row}\nchr2 1 2 x 0 + 1 2 0 1 1 0")) as session:
            self.assertEqual(self.answers(session, f"remove {row}\nadd {row}\nreplace {row} chr1 100 200 h 2000 +\nreplace chr1 100 200 h 2000 + {row}"), [])
            self.assertEqual(self.lines(session)[0], row)
        with self.wide(tabs("chr1 100 200 g 1001 + 3 20\nchr2 1 2 x 0 + 1 2")) as session:  # two counts, and no coding part
            self.assertEqual(self.answers(session, "add chr1 100 200 h 2000 + 1 2\nreplace chr2 1 2 x 0 + chr2 1 2 x 3000 +"), [])

    def test_the_summit_of_a_peak(self):
        with self.wide(tabs(PEAKS)) as session:
            self.assertEqual(self.answers(session, """replace chr1 100 200 peak1 0 . chr1 100 199 peak1 0 .
replace chr1 100 200 peak1 0 . chr1 120 210 peak1 0 .
replace chr1 120 210 peak1 0 . chr1 130 220 peak1 0 .
replace chr1 300 400 peak2 7 . chr1 300 310 peak2 7 .
add chr2 1 2 x 0 ."""), [(1, "the summit at base 199 is outside of the record", [
                "replace chr1 100 200 peak1 0 . 5.5 -1 2.25 99 chr1 100 199 peak1 0 . 5.5 -1 2.25 -1"])])
            self.assertEqual(self.lines(session), ["chr1 130 220 peak1 0 . 5.5 -1 2.25 79", "chr1 300 310 peak2 7 . 1e3 -1 -1 -1",
                                                   "chr2 1 2 x 0 . 0 -1 -1 -1"])

    def test_a_wide_second_file(self):
        second = self.file("second.bed", tabs("chr1 150 350 m 0 + x\nchr1 150 350 m 0 + y"))
        with self.wide("chr1\t1\t2\n", second=second) as session:
            self.assertEqual(self.answers(session, "removeb chr1 150 350 m 0 + y\nremoveb chr1 150 350 m 0 + y\nadd chr1 3 4"),
                             [(2, "no such record", ["the record is there with column 7 x instead of y"])])
            self.assertEqual((session.columns(), session.columns(True), session.tails(("chr1", 150, 350, "m", 0, "+"), True)), (3, 7, ["\tx"]))
            self.assertEqual([session.undo(), session.undo()], ["add\tchr1\t3\t4", tabs("removeb chr1 150 350 m 0 + y").rstrip("\n")])
            self.assertEqual(session.tails(("chr1", 150, 350, "m", 0, "+"), True), ["\tx", "\ty"])

    def test_a_file_without_a_record(self):
        with self.wide("# none\n", width=12) as session:
            self.assertEqual(self.answers(session, "add chr1 1 5 x 0 +\nadd chr1 6 9 y 0 + 6 9 0 1 3 0\nadd chr1 1 5"),
                             [(3, "wrong number of columns", ["3 columns, and the track has 12: all are written, or the first 6"])])
            self.assertEqual(self.lines(session), ["chr1 1 5 x 0 + 1 5 0 1 4 0", "chr1 6 9 y 0 + 6 9 0 1 3 0"])

    def test_lines_that_the_program_refuses_where_that_wasnt_expected(self):
        """The track is full, which nobody but the program knows: the same as line by line."""
        block = "100 200 g 0 + 100 200 0 2 10,20, 0,80,"
        others = [f"chr2 {start} {start + 1} o 0 + {start} {start + 1} 0 1 1 0" for start in range(98)]
        lines = tabs(f"""add chr1 1 2 x 0 +
replace chr1 1 2 x 0 + chr1 1 3 x 0 +
remove chr1 {block}
add chr1 1 2 x 0 +
replace chr1 1 2 x 0 + chr1 1 4 x 0 +
add chr1 1 2 y 0 +
remove chr1 1 2 y 0 +
resize chr1 5000
replace chr1 100 200 g 0 + chr1 100 2000 g 0 +""").split("\n")[:-1]
        for step in 1, 2, 5, 100:
            with self.subTest(step=step), self.wide(tabs("\n".join([f"chr1 {block}", "chr1 100 200 g 0 + 100 200 0 1 100 0", *others])),
                                                    limit=100) as session:
                refused = []
                for begin in range(0, len(lines), step):
                    refused += [(begin + one.number, one.reason) for one in session.edit(lines[begin:begin + step])]
                self.assertEqual(refused, [(1, "track is full"), (2, "no such record"), (6, "track is full"), (7, "no such record")])
                self.assertEqual(self.lines(session)[:2], ["chr1 1 4 x 0 + 1 4 0 1 3 0", "chr1 100 2000 g 0 + 100 2000 0 1 1900 0"])
                while session.script():
                    session.undo()
                self.assertEqual(self.lines(session)[:3], [f"chr1 {block}", "chr1 100 200 g 0 + 100 200 0 1 100 0", others[0]])

    def test_the_file_itself_is_not_written(self):
        with self.wide(tabs(BED12)) as session:
            self.assertIn(str(self.bed), repr(session))
            self.assertRaises(ValueError, session.save, self.bed)
        with self.assertRaisesRegex(bedkeep.Damaged, f"^{self.folder}/wide.bed: line 2: start not below end"):
            self.wide(tabs("chr1 1 2 x 0 + y\nchr1 2 1 x 0 + y"))

    def test_a_file_of_six_columns_and_many_copies(self):
        with self.wide(self.genes.read_text()) as session:
            session.replace(("chr1", 100, 200, "geneA"), ("chr1", 100, 250, "geneA"))
            session.undo()
            self.assertEqual((session.records(), session.warnings()), ([("chr1", 100, 200, "geneA"), ("chr1", 300, 400, "geneB")], []))
        self.assertEqual(self.session().warnings(), [])
        with self.wide("".join(f"chr1\t1\t2\tx\t0\t+\t{number}\n" for number in range(20000))) as session:
            self.assertEqual([int(row.column_7) for row in session.records()], list(range(20000)))

    def test_no_copy_of_a_file_stays(self):
        with mock.patch("tempfile.tempdir", str(self.folder)):
            session = self.wide(tabs(BED12))
            begun = set(os.listdir(self.folder))
            session.end()
        self.assertEqual([name[:8] for name in begun - set(os.listdir(self.folder))], ["bedkeep-"])


class Parts(Case):
    def test_what_may_be_cut_in_two_ways(self):
        for line, width, tail in (("c 1 3 n 0 + g h i c 1 x n 0 +", 9, "\tg\th\ti"),  # neither is well
                                  ("1 100 200 x . + c 1 5 6 n . +", 7, "\tc")):  # or chromosome c, from 1 to 5
            self.assertEqual(cut("replace", line.split(), width).old_tail, tail)

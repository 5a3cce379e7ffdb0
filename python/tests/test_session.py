import gzip
import os
import pickle
import random
import signal
import subprocess
import sys
import threading
import time
from pathlib import Path
from unittest import mock

import bedkeep
from bedkeep.conversation import Exchange
from bedkeep.files import whole
from bedkeep.interrupts import ending_in_order
from bedkeep.printed_rows import Reader
from bedkeep.script import Script
from helpers import EXAMPLES, Case, children, many


class Edits(Case):
    def test_records_as_columns_and_as_one_sequence(self):
        with self.session() as session:
            session.add("chr2", 5, 10, "x")
            session.add(("chr2", 5, 10, "x"))
            session.add(["chr2", "7", "9", "y"])
            session.remove("chr2", 5, 10, "x")
            first = session.records()[0]
            session.replace(first, first._replace(end=250))
            self.assertEqual(session.records(), [
                ("chr1", 100, 250, "geneA"), ("chr1", 300, 400, "geneB"), ("chr2", 5, 10, "x"), ("chr2", 7, 9, "y")])

    def test_the_width_is_that_of_the_file(self):
        for width in range(3, 7):
            line = "\t".join(["chr1", "1", "2", "n", "0", "+"][:width])
            bed = self.file("width.bed", f"# a comment\n{line}\n")
            with bedkeep.Session(self.sizes, bed) as session:
                self.assertEqual((session.width, session.records()[0]._fields), (width, bedkeep.printed_rows.RECORD[:width]))
            with bedkeep.Session(self.sizes, os.devnull, width=width) as session:
                self.assertEqual((session.width, session.records()), (width, []))

    def test_edits_of_the_second_file(self):
        with self.session(second=self.mask) as session:
            session.add_second("chr1", 0, 110)
            session.remove_second("chr1", 150, 350)
            session.replace_second(("chr1", 0, 110), ("chr1", 0, 120))
            self.assertEqual(session.view("intersect"), [("chr1", 100, 120, "geneA")])
            for record, there, net in (("chr1", 0, 120), True, 1), (("chr1", 150, 350), False, -1), (("chr1", 0, 110), False, 0):
                self.assertEqual((session.has_second(record), session.net(record, second=True), session.net(record)), (there, net, 0))
            self.refuses("no such record", session.remove_second, "chr1", 150, 350)
        with self.session() as session, self.refused("no second file"):
            self.assertFalse(session.has_second(("chr1", 0, 110)))
            session.add_second("chr1", 0, 110)

    def test_what_a_refusal_says(self):
        with self.session() as session:
            refused = session.edit("remove\tchr1\t100\t201\tgeneA\nadd\tchr1\t1\t2\n")
            self.assertRegex(" ".join(refused[0].hint), "geneA.*replay")
            self.assertRegex(" ".join(refused[1].hint), "4 columns.*3")
            refused = self.failure(bedkeep.Refused, session.view, "mrege -d 5")
            self.assertEqual(refused.line, "mrege -d 5")
            self.assertRegex(refused.hint[0], "merge")
            refused = self.failure(bedkeep.Refused, session.remove, "chr1", 1, 2, "x")
            self.assertEqual((refused.reason, refused.number, refused.line), ("no such record", 1, "remove\tchr1\t1\t2\tx"))
            self.assertIsInstance(refused, bedkeep.Error)
            self.assertEqual(str(pickle.loads(pickle.dumps(refused))), str(refused))

    def test_a_refused_edit_changes_nothing(self):
        with self.session() as session:
            before = session.records()
            for call, reason, *records in (
                (session.add, "end past the sequence's end", ("chr1", 1, 1001, "x")), (session.add, "unknown sequence", ("chr9", 1, 2, "x")),
                (session.add, "start not below end", ("chr1", 2, 2, "x")), (session.add, "wrong number of columns", ("chr1", 1, 2)),
                (session.add, "start is not a number", ("chr1", "1.5", 2, "x")), (session.add, "bad name", ("chr1", 1, 2, "")),
                (session.remove, "no such record", ("chr1", 100, 200, "geneB")),
                (session.replace, "no such record", ("chr1", 1, 2, "x"), ("chr1", 1, 3, "x")),
            ):
                self.refuses(reason, call, *records)
            self.assertEqual((session.records(), session.script()), (before, ""))

    def test_no_field_can_become_another_line(self):
        with self.session() as session:
            for name in "x\tadd", "x\nadd\tchr1\t1\t2\tx", "x\r":
                self.assertRaises(ValueError, session.add, "chr1", 1, 2, name)
            self.assertRaises(ValueError, session.edit, ["add\tchr1\t1\t2\tx\nadd\tchr1\t1\t2\ty"])
            self.assertEqual(len(session.records()), 2)

    def test_bytes_of_any_encoding(self):
        bed = self.file("bytes.bed", b"chr1\t1\t2\t\xff\xfe\x85\nchr1\t3\t4\t\xe2\x80\xa8\x1c\n")
        with bedkeep.Session(self.sizes, bed) as session:
            session.add(session.records()[0])
            session.save(self.folder / "saved.bed")
        self.assertEqual((self.folder / "saved.bed").read_bytes(),
                         b"chr1\t1\t2\t\xff\xfe\x85\n" * 2 + b"chr1\t3\t4\t\xe2\x80\xa8\x1c\n")


class Scripts(Case):
    def test_many_edits_at_once(self):
        with self.session() as session:
            refused = session.edit(
                "# geneA ends later\r\nreplace\tchr1\t100\t200\tgeneA\tchr1\t100\t250\tgeneA\r\n\n"
                "remove\tchr1\t300\t401\tgeneB\nhelp\nadd\tchr2\t1\t2\tlast")
            self.assertEqual([(one.number, one.reason, one.line) for one in refused], [
                (4, "no such record", "remove\tchr1\t300\t401\tgeneB"), (5, "no such command or wrong fields", "help")])
            self.assertEqual(session.script(), "# geneA ends later\nreplace\tchr1\t100\t200\tgeneA\tchr1\t100\t250\tgeneA\n\n"
                                               "add\tchr2\t1\t2\tlast\n")
            self.assertEqual(session.edit(iter(["add\tchr2\t3\t4\tx\n", "bad"]))[0].number, 2)
            self.assertEqual((session.edit([]), session.edit("")), ([], []))
            after = session.records()
        with self.session() as again:
            self.assertEqual((again.edit(session.script()), again.records()), ([], after))

    def test_an_open_file(self):
        with self.session() as session, open(EXAMPLES / "first" / "corrections") as corrections:
            self.assertEqual([(one.number, one.reason) for one in session.edit(corrections)], [(6, "no such record")])

    def test_views_are_no_edits(self):
        with self.session() as session:
            for line in "open\tm\tmerge", "close\tm", "print\tm", "printall", "show\tm\tchr1\t1\t2", "showall\tchr1\t1\t2":
                self.assertRaises(ValueError, session.edit, ["add\tchr1\t1\t2\tx", line])
            self.assertEqual(session.script(), "")

    def test_undo_takes_each_edit_back(self):
        def look():
            return session.records(), session.view("intersect -wb"), session.view("complement")

        with self.session(second=self.mask) as session:
            looks = [look()]
            for edit, words in (
                (session.add, ("chr1", 5, 6, "x")), (session.remove, ("chr1", 100, 200, "geneA")),
                (session.replace, (("chr1", 300, 400, "geneB"), ("chr2", 1, 500, "y"))),
                (session.add_second, ("chr1", 380, 390)), (session.remove_second, ("chr1", 150, 350)),
                (session.replace_second, (("chr1", 380, 390), ("chr2", 5, 6))), (session.resize, ("chr2", 700)),
                (session.resize, ("chr2", 900)), (session.resize, ("chr1", 450)),
            ):
                edit(*words)
                looks.append(look())
            session.edit(["# no edit", ""])
            for before in reversed(looks[:-1]):
                session.undo()
                self.assertEqual(look(), before)
            self.assertEqual(session.script(), "# no edit\n\n")
            self.assertRaises(IndexError, session.undo)

    def test_undo_of_resize_over_a_genome_file_with_comments(self):
        self.sizes = self.file("sizes", "#chr1\t7\nchrom\tsize\nchr1\t1000\tmore\r\nchr2\t500\r\nchrom\t70\n")
        with self.session() as session:
            for chromosome, length in ("chr2", 400), ("chr1", 900), ("chrom", 60):
                session.resize(chromosome, length)
            for _ in range(3):
                session.undo()
            self.assertEqual([row.end for row in session.view("complement")], [100, 300, 1000, 500, 70])

    def test_undo_of_resize_over_a_genome_file_from_a_pipe(self):
        reader, writer = os.pipe()
        os.write(writer, b"chr1\t1000\n")
        os.close(writer)
        with bedkeep.Session(f"/dev/fd/{reader}", self.genes) as session:
            session.resize("chr1", 2000)
            session.resize("chr1", 3000)
            for length in 2000, 1000:
                session.undo()
                self.assertEqual(session.lengths, {"chr1": length})
        os.close(reader)


class Reasons(Case):
    def test_a_line_without_a_reason_begins_after_an_empty_line(self):
        with self.session() as session:
            session.add("chr1", 1, 2, "a")
            session.add("chr1", 1, 2, "b")
            session.explain("why b")
            session.add("chr1", 1, 2, "c")
            session.add("chr1", 1, 2, "d")
            session.edit("# why e and f\nadd\tchr1\t1\t2\te\nadd\tchr1\t1\t2\tf\n")
            session.edit(["add\tchr1\t1\t2\tg"])
            before = session.script()
            self.assertEqual(before.replace("add\tchr1\t1\t2\t", ""), "a\n# why b\nb\n\nc\nd\n# why e and f\ne\nf\n\ng\n")
            session.explain("why g")
            self.assertTrue(session.script().endswith("f\n# why g\nadd\tchr1\t1\t2\tg\n"))
            session.undo()
            self.assertEqual(session.script(), before[:-len("\nadd\tchr1\t1\t2\tg\n")])
            session.add("chr1", 1, 2, "g")
            self.assertEqual(session.script(), before)
            with self.session() as again:
                self.assertEqual((again.edit(before), again.script()), ([], before))

    def test_the_reason_of_a_refused_line_goes_with_it(self):
        with self.session() as session:
            session.edit("# no such record\nremove\tchr1\t1\t2\tx\n# why y\nadd\tchr1\t1\t2\ty\nremove\tchr1\t1\t2\tx\n"
                         "# no such record\nremove\tchr1\t1\t2\tx\n\nadd\tchr1\t1\t2\tz\n# kept\n\n")
            self.assertEqual(session.script(), "# why y\nadd\tchr1\t1\t2\ty\n\nadd\tchr1\t1\t2\tz\n# kept\n\n")


class Together(Case):
    join = ["replace\tchr1\t100\t200\tgeneA\tchr1\t100\t400\tgeneA", "remove\tchr1\t300\t400\tgeneB"]

    def test_all_or_none(self):
        with self.session() as session:
            before = session.records()
            wrong = "remove\tchr1\t300\t401\tgeneB"
            refused = self.failure(bedkeep.Refused, session.edit_together, [self.join[0], wrong], "one gene")
            self.assertEqual((refused.reason, refused.number, refused.line), ("no such record", 2, wrong))
            self.assertEqual((session.records(), session.script()), (before, ""))
            session.add("chr2", 1, 2, "x")
            session.edit_together(self.join, "one gene\nby its exons")
            session.add("chr2", 1, 2, "y")
            self.assertEqual(session.script(), "\n".join([
                "add\tchr2\t1\t2\tx", "# together: one gene", "# by its exons", *self.join, "", "add\tchr2\t1\t2\ty", ""]))
            session.undo()
            self.assertEqual(session.inverse(), "add\tchr1\t300\t400\tgeneB\nreplace\tchr1\t100\t400\tgeneA\tchr1\t100\t200\tgeneA\n")
            session.explain("said later")
            self.assertIn("# by its exons\n# said later\nreplace", session.script())
            self.assertEqual(session.undo(), "\n".join(self.join))
            self.assertEqual((session.records()[:2], session.script()), (before, "add\tchr2\t1\t2\tx\n"))
            for lines in ["# a comment"], ["", self.join[0]]:
                self.assertRaises(ValueError, session.edit_together, lines)

    def test_a_group_that_cannot_be_taken_back(self):
        """If memory runs out in the middle of it nobody knows what is there, so the session is cut off."""
        with self.session() as session:
            session.edit_together(self.join)
            refused = bedkeep.Refused("no memory", 1, "add\tchr1\t300\t400\tgeneB")
            with mock.patch.object(session, "_send", return_value=[refused]), self.refused("no memory"):
                session.undo()
            self.assertRaises(bedkeep.Ended, session.records)
            self.assertEqual(session.script(), "\n".join(["# together:", *self.join, ""]))

    def test_groups_of_a_script(self):
        text = ["# why", "remove\tchr1\t1\t2\tx", "# together: one", "add\tchr2\t1\t2\ta", "remove\tchr1\t1\t2\tx", "add\tchr2\t1\t2\tb",
                "", "add\tchr2\t1\t2\tc", "# a reason", "# together: two", *self.join, "# again", "remove\tchr1\t1\t2\tx"]
        with self.session() as session:
            self.assertEqual([(one.number, one.reason, one.line) for one in session.edit(text)], [
                (2, "no such record", text[1]), (4, "not done, since line 5 is refused", text[3]), (5, "no such record", text[4]),
                (6, "not done, since line 5 is refused", text[5]), (14, "no such record", text[13])])
            self.assertEqual(session.records(), [("chr1", 100, 400, "geneA"), ("chr2", 1, 2, "c")])
            self.assertEqual(session.script(), "\n".join([*text[7:12], ""]))
            session.undo()
            self.assertEqual((session.script(), len(session)), (text[7] + "\n", 3))

    def test_markers_are_no_reasons(self):
        """They begin no paragraph and end none."""
        add, was = [f"add\tchr2\t1\t2\t{name}" for name in "abcdef"], "# was: add\tchr2\t1\t3\ta"
        text = ["#together: both", was, add[0], was, add[1], "", "# why", add[2], was, add[3], "", was, add[4]]
        with self.session() as session:
            session.edit(text)
            self.assertEqual(session.script(), "\n".join([*text, ""]))
            session.edit(["# dropped: more", add[5]])
            self.assertEqual(session.script(), "\n".join([*text, "# dropped: more", add[5], ""]))
            for name in "fedc":
                self.assertEqual(session.undo(), f"add\tchr2\t1\t2\t{name}")
            session.edit([was, add[5]])
            self.assertEqual(session.script(), "\n".join([*text[:6], was, add[5], ""]))
            session.undo()
            self.assertEqual((session.undo(), session.script()), ("\n".join(add[:2]), ""))
            session.edit(["# why", add[2]])
            session.edit([was, add[3]])
            self.assertEqual(session.script(), "\n".join(["# why", add[2], "", was, add[3], ""]))
            self.assertEqual([one.number for one in session.edit([*text[:4], "remove\tchr1\t1\t2\tx"])], [3, 5])

    def test_a_signature_begins_a_paragraph(self):
        """It goes with its lines, and the reason of the ones above doesn't hold for them."""
        ada, bo = (f"# signed: {name} 2026-03-01T12:00:00+01:00" for name in ("Ada", "Bo"))
        add, wrong = [f"add\tchr2\t1\t2\t{name}" for name in "abcdef"], "remove\tchr2\t1\t2\tx"
        with bedkeep.Session(self.sizes, self.genes) as session:
            session.edit([bo, "# lost", wrong, ada, "# together: both", add[0], add[1], bo, add[2], wrong, ada, "# together: no", add[3], wrong])
            first = [ada, "# together: both", add[0], add[1], bo, add[2]]
            self.assertEqual(session.script(), "\n".join([*first, ""]))
            session.edit([ada, add[3]])
            session.explain("why")
            self.assertEqual(session.script(), "\n".join([*first, ada, "# why", add[3], ""]))
            session.edit([bo, add[4]])
            for left in [*first, ada, "# why", add[3]], first, first[:4]:
                session.undo()
                self.assertEqual(session.script(), "\n".join([*left, ""]))
            self.assertEqual(session.undo().split("\n"), add[:2])
            self.assertEqual(session.script(), "")

    def test_lengths_in_a_group(self):
        with self.session() as session:
            session.edit_together(["resize\tchr2\t600", "resize\tchr2\t700", "add\tchr2\t650\t700\tx"])
            session.resize("chr2", 800)
            self.assertEqual((session.length("chr2"), session.undo(), session.length("chr2")), (800, "resize\tchr2\t800", 700))
            self.assertEqual(session.inverse(), "remove\tchr2\t650\t700\tx\nresize\tchr2\t600\nresize\tchr2\t500\n")
            session.undo()
            self.assertEqual((session.length("chr2"), session.script()), (500, ""))
        self.assertRaises(bedkeep.Ended, session.records)


class Views(Case):
    def test_open_rows_close(self):
        with self.session() as session:
            session.open("m", "merge  -d 100 -c 4,1 -o collapse,count")
            row = session.rows("m")[0]
            self.assertEqual((row, row.start, row.collapse_4, row.count_1), (("chr1", 100, 400, "geneA,geneB", 2), 100, "geneA,geneB", 2))
            self.refuses("view name taken", session.open, "m", "cluster")
            session.close("m")
            for reason, call, *words in (("no such view", session.rows, "m"), ("no such view", session.close, "m"),
                                         ("bad view name", session.open, "", "merge"), ("bad options", session.open, "m", "merge -x")):
                self.refuses(reason, call, *words)
            self.assertRaises(ValueError, session.open, "m", "merge\n")

    def test_a_view_stays_open(self):
        with self.session() as session:
            self.assertEqual(session.view("merge -d 100"), [("chr1", 100, 400)])
            session.remove("chr1", 300, 400, "geneB")
            with mock.patch.object(session, "open") as opened:
                self.assertEqual(session.view(" merge  -d 100"), [("chr1", 100, 200)])
            opened.assert_not_called()
            self.refuses("bad options", session.view, "merge -x")
            self.refuses("no second file", session.view, "intersect")

    def test_more_views_than_can_be_open(self):
        with self.session() as session:
            session.open("mine", "merge")
            for distance in range(100):
                self.assertEqual(len(session.view(f"merge -d {distance}")), 2)
            self.assertEqual(session.rows("mine"), [("chr1", 100, 200), ("chr1", 300, 400)])
            session.close("view:100")
            self.assertEqual((len(session.view("merge -d 99")), len(session.records())), (2, 2))

    def test_the_names_and_numbers_of_each_view(self):
        coding = self.file("coding.bed", "chr1\t10\t20\ta\t7\t+\nchr1\t15\t30\tb\t2.5\t-\n")
        with bedkeep.Session(self.sizes, coding, second=self.mask, fasta=self.bases) as session:
            session.add_second("chr1", 0, 12)
            record = ("chr1", 10, 20, "a", "7", "+")
            fields = ("chromosome", "start", "end", "name", "score", "strand")
            second = ("second_chromosome", "second_start", "second_end")
            for words, names, row in (
                ("merge", fields[:3], ("chr1", 10, 30)), ("merge -s", fields[:3], ("chr1", 10, 20)),
                ("merge -s -c 5", (*fields[:3], "sum_5"), ("chr1", 10, 20, 7)),
                ("merge -o max -c 05", (*fields[:3], "max_5"), ("chr1", 10, 30, None)),
                ("merge -c 4 -o count,distinct", (*fields[:3], "count_4", "distinct_4"), ("chr1", 10, 30, 2, "a,b")),
                ("merge -c 4,4 -o count", (*fields[:3], "count_4", "_4"), ("chr1", 10, 30, 2, 2)),
                ("cluster", (*fields, "block"), (*record, 1)), ("complement", fields[:3], ("chr1", 0, 10)),
                ("genomecov -bg", (*fields[:3], "depth"), ("chr1", 10, 15, 1)),
                ("genomecov -bga", (*fields[:3], "depth"), ("chr1", 0, 10, 0)),
                ("genomecov -d", ("chromosome", "position", "depth"), ("chr1", 1, 0)),
                ("intersect", fields, ("chr1", 10, 12, "a", "7", "+")), ("intersect -wa", fields, record),
                ("intersect -u", fields, record), ("intersect -v", fields, ("chr1", 15, 30, "b", "2.5", "-")),
                ("intersect -c", (*fields, "hits"), (*record, 1)),
                ("intersect -wa -wb", (*fields, *second), (*record, "chr1", 0, 12)),
                ("intersect -wb", (*fields, *second), ("chr1", 10, 12, "a", "7", "+", "chr1", 0, 12)),
                ("subtract", fields, ("chr1", 12, 20, "a", "7", "+")),
                ("subtract -A", fields, ("chr1", 15, 30, "b", "2.5", "-")),
                ("getfasta", (*fields[:3], "bases"), ("chr1", 10, 20, "ACGTTACGTT")),
                ("getfasta -tab -s", (*fields[:3], "strand", "bases"), ("chr1", 10, 20, "+", "ACGTTACGTT")),
            ):
                with self.subTest(words):
                    found = session.view(words)[0]
                    self.assertEqual((found, found._fields), (row, names))
                    self.assertEqual([type(one) for one in found], [type(one) for one in row])
                    self.assertEqual(pickle.loads(pickle.dumps(found)), found)
            self.assertEqual(session.view("getfasta -s")[1], ("chr1", 15, 30, "-", "AACGTAACGTAACGT"))

    def test_the_rows_of_a_region(self):
        """Rows that share a position with it, whole; of intersect, subtract and getfasta those of records that do so."""
        bed = self.file("some.bed", "chr1\t10\t20\ta\nchr1\t15\t30\tb\nchr1\t40\t50\tc\nchr2\t10\t20\td\n")
        mask = self.file("cuts.bed", "chr1\t12\t14\nchr1\t45\t46\n")
        a, b, c = ("chr1", 10, 20, "a"), ("chr1", 15, 30, "b"), ("chr1", 40, 50, "c")
        with bedkeep.Session(self.sizes, bed, second=mask, fasta=self.bases) as session:
            for words, start, end, rows in (
                ("records", 0, 10, []), ("records", 19, 20, [a, b]), ("merge -c 4 -o collapse", 5, 11, [("chr1", 10, 30, "a,b")]),
                ("cluster", 41, 42, [(*c, 2)]), ("genomecov -d", 14, 16, [("chr1", 15, 1), ("chr1", 16, 2)]),
                ("intersect -wb", 49, 50, [("chr1", 45, 46, "c", "chr1", 45, 46)]), ("getfasta", 49, 1000, [("chr1", 40, 50, "ACGTTACGTT")]),
            ):
                with self.subTest(words, start=start, end=end):
                    found = session.show(words, "chr1", start, end)
                    self.assertEqual(found, rows)
                    whole = session.view(words)[0]
                    for row in found:
                        self.assertEqual((type(row), [*map(type, row)]), (type(whole), [*map(type, whole)]))
            self.assertEqual(session.show("cluster", "chr2", 0, 500), [("chr2", 10, 20, "d", 3)])

    def test_a_region_follows_each_edit(self):
        with self.session() as session:
            self.assertEqual(session.show("merge -d 100", "chr1", 399, 400), [("chr1", 100, 400)])
            session.remove("chr1", 300, 400, "geneB")
            with mock.patch.object(session, "open") as opened:
                self.assertEqual(session.show("merge  -d 100", "chr1", 199, 200), [("chr1", 100, 200)])
                self.assertEqual(session.show("merge -d 100", "chr1", "0200", 300), [])
            opened.assert_not_called()
            session.resize("chr2", 600)
            self.assertEqual(session.show("complement", "chr2", 599, 600), [("chr2", 0, 600)])
            self.assertEqual(session.script(), "remove\tchr1\t300\t400\tgeneB\nresize\tchr2\t600\n")

    def test_regions_that_are_refused(self):
        with self.session() as session:
            for region, reason in (
                (("chr1", -1, 5), "start is not a number"), (("chr1", 0, "x"), "end is not a number"),
                (("chr3", 5, 5), "start not below end"), (("chr3", 0, 1001), "unknown sequence"),
                (("chr1", 0, 1001), "end past the sequence's end"),
            ):
                refused = self.failure(bedkeep.Refused, session.show, "merge", *region)
                self.assertEqual((refused.reason, refused.line), (reason, "\t".join(["show", "view:1", *map(str, region)])))
                self.assertTrue(refused.hint)
            self.refuses("bad options", session.show, "merge -x", "chr1", 0, 1)
            self.refuses("no second file", session.show, "intersect", "chr9", 0, 1)
            self.assertRaises(TypeError, session.show, "merge", "chr1", 0, 1.5)
            self.assertEqual(session.show("merge", "chr1", 0, 1000), [("chr1", 100, 200), ("chr1", 300, 400)])


class Saving(Case):
    def test_a_saved_file_is_the_track(self):
        target, link = self.folder / "corrected.bed", self.folder / "link.bed"
        target.write_text("old\n")
        target.chmod(0o640)
        link.symlink_to(target)
        with self.session(second=self.mask) as session:
            session.add("chr2", 3, 4, "12")
            session.add("chr2", 3, 4, "12")
            session.save(link)
            self.assertEqual(target.read_text(), "".join("\t".join(map(str, row)) + "\n" for row in session.records()))
            self.assertEqual(target.stat().st_mode & 0o777, 0o640)
            self.assertTrue(link.is_symlink())
            session.save(str(self.folder / "new.bed"))
        with bedkeep.Session(self.sizes, target) as again:
            self.assertEqual(again.records(), session_records(session, self))


def session_records(session, case):
    """The records that the session's script leaves, from a new session."""
    with case.session() as again:
        again.edit(session.script())
        return again.records()


class Ends(Case):
    def test_what_keeps_a_session_from_beginning(self):
        damaged = self.file("damaged: line 7: x.bed", "chr1\t1\t2\nchr1\t5\t3\n")
        said = self.failure(bedkeep.Damaged, bedkeep.Session, self.sizes, damaged)
        self.assertEqual((said.file, said.line, said.reason, said.status), (str(damaged), 2, "start not below end", 3))
        self.assertEqual(str(pickle.loads(pickle.dumps(said))), str(said))
        for error, status, message, options in (
            (bedkeep.BadOptions, 2, "bad options", {"width": 9}),
            (bedkeep.InputOutput, 4, f"{self.folder}: cannot be read", {"second": self.folder}),
            (bedkeep.Damaged, 3, f"{self.genes}: line 1: bases before a header", {"fasta": self.genes}),
        ):
            said = self.failure(error, self.session, **options)
            self.assertEqual((said.status, said.message, isinstance(said, bedkeep.Ended)), (status, message, True))
        self.assertRaises(ValueError, bedkeep.Session, self.sizes, "/dev/stdin")

    def test_files_that_a_wide_session_takes(self):
        eight = self.file("eight.bed", "chr1\t1\t2\tx\t0\t+\t1\t2\n")
        packed = self.file("eight.bed.gz", gzip.compress(eight.read_bytes()))
        for bed, second in (packed, None), (eight, None), (self.genes, eight):
            self.assertRaisesRegex(bedkeep.Ended, "wide=True", bedkeep.Session, self.sizes, bed, second)
            bedkeep.Session(self.sizes, bed, second, wide=True).close()
        other = self.file("other.vcf", "chr1\t100\trs1\tA\tG\t.\tPASS\t.\n")
        for wide in False, True:
            said = self.failure(bedkeep.Damaged, bedkeep.Session, self.sizes, other, wide=wide)
            self.assertEqual((said.reason, said.file), ("wrong number of columns", str(other)))

    def test_where_the_program_is(self):
        for program in self.folder / "absent", self.sizes:
            self.assertRaises(bedkeep.NotFound, self.session, program=program)
        with mock.patch.dict(os.environ, BEDKEEP="absent"), self.assertRaises(bedkeep.NotFound):
            self.session()
        (self.folder / "bedkeep").symlink_to(os.environ["BEDKEEP"])
        with mock.patch.dict(os.environ, PATH=str(self.folder), BEDKEEP=""):
            self.assertEqual(len(self.session().records()), 2)
        with mock.patch.dict(os.environ, PATH="", BEDKEEP=""), mock.patch("sys.executable", str(self.folder / "python")):
            self.assertEqual(len(self.session().records()), 2)
            self.assertRaises(bedkeep.NotFound, self.session, program="bedkeeper")

    def test_a_program_of_another_version(self):
        """What it doesn't know may be why it refuses something."""
        old = self.script("old", '[ "$1" != --version ] || exec echo bedkeep 0.9.1\n'
                                 '[ "$1" != merge ] || { echo "bedkeep: no such option" >&2; exit 2; }\nexec "$BEDKEEP" "$@"')
        said = f"the program {old} is of version 0.9.1, and the package of {bedkeep.__version__}"
        failure = self.failure(bedkeep.BadOptions, bedkeep.merge, self.sizes, self.genes, program=old)
        self.assertEqual(str(failure), f"no such option (status 2): {said}")
        for program, hinted in (old, True), (None, False):
            with self.session(program=program) as session:
                unknown, absent = session.edit(["frob\tchr1", "remove\tchr1\t1\t2\tx"])
                self.assertEqual((said in str(unknown), said in absent.hint), (hinted, False))

    def test_no_memory(self):
        program = self.script("small", 'ulimit -v 8000\nexec "$BEDKEEP" "$@"')
        self.sizes, self.genes = many(self.folder, 300_000)
        said = self.failure(bedkeep.NoMemory, self.session, program=program)
        self.assertEqual((said.status, said.message), (5, "no memory"))

    def test_a_line_that_is_too_long(self):
        with self.session() as session:
            session.add("chr1", 1, 2, "x")
            said = self.failure(bedkeep.InputOutput, session.add, "chr1", 1, 2, "x" * (1 << 20))
            self.assertEqual((said.status, said.message), (4, "input too long"))
            self.assertEqual(session.script(), "add\tchr1\t1\t2\tx\n")

    def test_killed_between_two_calls(self):
        with self.session() as session:
            session.add("chr1", 1, 2, "x")
            os.kill(session._talk._process.pid, signal.SIGKILL)
            for call in session.records, session.records, lambda: session.edit(["add\tchr1\t1\t2\tx"] * 100_000), session.undo:
                said = self.failure(bedkeep.Ended, call)
                self.assertEqual((said.status, said.message), (-9, "ended by signal 9"))
            self.assertEqual(session.script(), "add\tchr1\t1\t2\tx\n")

    def test_killed_in_the_middle_of_an_answer(self):
        with self.session() as session:
            session.edit(f"add\tchr1\t{number % 900}\t1000\tx" for number in range(100_000))
            session.open("all", "cluster")
            rows = Reader.rows

            def kill_first(reader, lines):
                os.kill(session._talk._process.pid, signal.SIGKILL)
                return rows(reader, lines)

            with mock.patch.object(Reader, "rows", kill_first), self.assertRaises(bedkeep.Ended):
                session.rows("all")

    def test_a_closed_session(self):
        for name in "end", "close":
            session = self.session()
            session.add("chr1", 1, 2, "x")
            for _ in range(2):
                getattr(session, name)()
            for call in session.records, lambda: session.save(self.folder / "saved.bed"):
                self.assertRaisesRegex(bedkeep.Ended, "the session is closed", call)
            self.assertFalse((self.folder / "saved.bed").exists())
            self.assertEqual(session.script(), "add\tchr1\t1\t2\tx\n")

    def test_a_fork_does_not_hold_up_the_end(self):
        """A process that was forked has the pipe to the program too, so the program doesn't see its end."""
        with mock.patch("bedkeep.conversation.SECONDS", 0.2), self.session() as session:
            child = os.fork()
            if child == 0:
                time.sleep(20)
                os._exit(0)
            session.end()
        os.kill(child, signal.SIGKILL)
        os.waitpid(child, 0)

    def test_an_error_of_the_caller_ends_the_session(self):
        with self.assertRaises(ZeroDivisionError), self.session() as session:
            1 / 0
        self.assertIsNotNone(session._talk._process.poll())


class Interrupted(Case):
    """An interrupt comes by os.kill, at a place that a patch chooses."""

    def interrupt(self, times=1):
        for _ in range(times):
            os.kill(os.getpid(), signal.SIGINT)

    def interrupted(self, call, *words, name="write", times=1):
        """Makes a call; the first call of this method of an exchange is followed by interrupts."""
        method, calls = getattr(Exchange, name), []

        def patched(*words):
            result = method(*words)
            if not calls:
                calls.append(name)
                self.interrupt(times)
            return result

        with mock.patch.object(Exchange, name, patched):
            self.assertRaises(KeyboardInterrupt, call, *words)

    def test_while_rows_come(self):
        with self.session() as session:
            session.edit(f"add\tchr1\t{number % 900}\t1000\tx" for number in range(100_000))
            self.interrupted(session.view, "cluster", name="rows")
            session.add("chr2", 1, 2, "x")
            self.assertEqual(len(session.records()), 100_003)

    def test_while_edits_are_sent(self):
        with self.session() as session:
            lines = [f"add\tchr1\t{number % 900}\t1000\tx{number}" for number in range(100_000)]
            self.interrupted(session.edit, lines)
            done = session.script().splitlines()
            self.assertEqual(done, lines[:len(done)])
            self.assertTrue(0 < len(done) < len(lines))
            self.assertEqual(len(session.records()), 2 + len(done))
            session.undo()
            self.assertEqual(len(session.records()), 1 + len(done))

    def test_a_second_one_closes_the_session(self):
        with self.session() as session:
            self.interrupted(session.edit, ("add\tchr1\t1\t2\tx" for _ in range(100_000)), times=2)
            self.assertRaises(bedkeep.Ended, session.records)
        self.assertEqual(signal.getsignal(signal.SIGINT), signal.default_int_handler)

    def test_while_the_script_is_put_in_order(self):
        class Text(str):
            def split(self, *words):
                os.kill(os.getpid(), signal.SIGINT)
                return super().split(*words)

        script = Script({})
        script.add("add\tchr1\t1\t2\n")
        script.add(Text("add\tchr1\t3\t4\n"))
        self.assertRaises(KeyboardInterrupt, script.lines)
        self.assertEqual(script.lines(), ["add\tchr1\t1\t2", "add\tchr1\t3\t4"])

    def test_at_any_moment(self):
        """Interrupts come every few milliseconds; the script always has just what was done."""
        chance = random.Random(3)
        session, interrupts = self.session(), 0
        handler = signal.signal(signal.SIGALRM, lambda *_: signal.raise_signal(signal.SIGINT))
        self.addCleanup(signal.signal, signal.SIGALRM, handler)
        for _ in range(200):
            try:
                signal.setitimer(signal.ITIMER_REAL, chance.random() * 0.01)
                chance.choice([
                    lambda: session.edit(f"add\tchr1\t{number}\t1000\tx" for number in range(chance.randrange(500))),
                    lambda: session.add("chr2", chance.randrange(100), 200, "y"),
                    lambda: session.script() and session.undo(),
                    session.records, lambda: session.view(f"merge -d {chance.randrange(70)}"),
                ])()
                time.sleep(0.01)
            except KeyboardInterrupt:
                interrupts += 1
        self.assertGreater(interrupts, 50)
        self.assertEqual(session_records(session, self), session.records())

    def test_while_it_loads(self):
        """The first interrupt ends the program, which has answered nothing yet."""
        alarm = threading.Timer(0.3, self.interrupt)
        alarm.start()
        begun = time.monotonic()
        interrupt = self.failure(KeyboardInterrupt, self.session, program=self.script("slow", "exec sleep 60"))
        self.assertTrue(interrupt.__suppress_context__)
        self.assertLess(time.monotonic() - begun, 30)
        alarm.join()
        self.assertEqual(children(), [])

    def test_a_group_is_done_whole(self):
        lines = [f"add\tchr1\t{number % 900}\t1000\tx{number}" for number in range(5_000)]
        with self.session() as session:
            self.interrupted(session.edit_together, lines, "all")
            self.assertEqual(len(session.script().splitlines()), 5_001)
            self.interrupted(session.undo)
            self.assertEqual((session.script(), len(session)), ("", 2))
            self.interrupted(session.edit_together, [*lines, "remove\tchr1\t1\t2\tx"])
            self.assertEqual((session.script(), len(session)), ("", 2))

    def test_from_another_thread(self):
        with self.session() as session:
            found = []
            thread = threading.Thread(target=lambda: found.append(len(session.records())))
            thread.start()
            thread.join()
            self.assertEqual(found, [2])


def is_running(number):
    """Whether a process of this number is there that hasn't ended."""
    try:
        return Path(f"/proc/{number}/stat").read_text().rpartition(")")[2].split()[0] not in "ZX"
    except OSError:
        return False


class Stopped(Case):
    """Other signals end a command as an exit does."""

    def run_until(self, is_begun, number, *words, **environment):
        """The status of Python with these words, which gets a signal once it has begun."""
        # A child ignores the signals that its parent ignores, and `nohup` ignores this one.
        process = subprocess.Popen([sys.executable, *map(str, words)], env={**os.environ, **environment}, stderr=subprocess.DEVNULL,
                                   preexec_fn=lambda: signal.signal(signal.SIGHUP, signal.SIG_DFL))
        while not is_begun():
            self.assertIsNone(process.poll())
            time.sleep(0.01)
        process.send_signal(number)
        return process.wait()

    def test_no_partial_file_is_left(self):
        code = ("import sys, time\nfrom bedkeep.files import whole\nfrom bedkeep.interrupts import ending_in_order\n"
                "with ending_in_order(), whole(sys.argv[1]) as file:\n    file.write(b'x' * 100_000)\n    time.sleep(60)\n")
        out = self.folder / "out"
        out.mkdir()

        def is_begun():
            return any(path.stat().st_size for path in out.iterdir())

        for number in signal.SIGTERM, signal.SIGHUP:
            self.assertEqual(self.run_until(is_begun, number, "-c", code, out / "corrected.bed"), 128 + number)
            self.assertEqual(os.listdir(out), [])

    def test_no_folder_is_left(self):
        temporary, packed = self.folder / "temporary", self.file("genes.bed.gz", gzip.compress(self.genes.read_bytes()))
        temporary.mkdir()
        words = ["-m", "bedkeep", "apply", self.sizes, packed, self.file("none", ""), "-o", self.folder / "corrected.bed"]
        begun = self.folder / "begun"
        slow = self.script("slow", f"touch {begun}\nexec sleep 60")
        status = self.run_until(begun.exists, signal.SIGTERM, *words, TMPDIR=str(temporary), BEDKEEP=str(slow))
        self.assertEqual((status, os.listdir(temporary)), (128 + signal.SIGTERM, []))

    def test_the_handlers_are_put_back(self):
        handler = signal.signal(signal.SIGHUP, signal.SIG_IGN)
        self.addCleanup(signal.signal, signal.SIGHUP, handler)
        with ending_in_order():
            self.assertEqual(signal.getsignal(signal.SIGHUP), signal.SIG_IGN)
            self.assertNotEqual(signal.getsignal(signal.SIGTERM), signal.SIG_DFL)
        self.assertEqual(signal.getsignal(signal.SIGTERM), signal.SIG_DFL)

    def test_a_load_ends_too(self):
        """The program would read a large file to its end before it saw that nobody is there any more."""
        begun = self.folder / "begun"
        slow = self.script("slow", f"read line\necho $$ > {begun}.new\nmv {begun}.new {begun}\nexec sleep 60")
        code = "import sys, bedkeep\nbedkeep.Session(*sys.argv[1:])"
        for number in signal.SIGTERM, signal.SIGHUP, signal.SIGINT:
            for status, words in ((-number, ["-c", code, self.sizes, self.genes]),
                                  (128 + number, ["-m", "bedkeep", "apply", self.sizes, self.genes, self.file("none", "")])):
                self.assertEqual(self.run_until(begun.exists, number, *words, BEDKEEP=str(slow)), status)
                program = int(begun.read_text())
                begun.unlink()
                for _ in range(500):
                    if not is_running(program):
                        break
                    time.sleep(0.01)
                self.assertFalse(is_running(program))


class Written(Case):
    """A file is there whole, or not at all, and what is raised has its name."""

    def test_failures_have_the_name_that_was_given(self):
        none, kept = self.file("none", ""), self.file("kept", "old")
        folder = self.folder / "folder"
        folder.mkdir()
        for path, message in ("/dev/full", "No space left on device"), (none / "x", "no such folder"), ("/proc/self/x", "No such file"):
            with self.subTest(path), self.assertRaisesRegex(OSError, message) as caught, whole(path) as file:
                file.write(b"x")
            self.assertIn(caught.exception.filename, (str(path), str(none)))
        with self.assertRaises(OSError) as caught, whole(folder / "x") as file:
            raise OSError(28, "No space left on device")
        self.assertEqual((caught.exception.filename, os.listdir(folder)), (str(folder / "x"), []))
        with self.assertRaises(OSError) as caught, whole(folder / "x") as file:
            open(self.folder / "absent")
        self.assertEqual(caught.exception.filename, str(self.folder / "absent"))
        with self.assertRaisesRegex(bedkeep.Error, "kept is there already"), whole(kept, new=True):
            pass
        with self.assertRaises(OSError), whole(folder / "new", new=True):
            raise OSError(28, "No space left on device")
        self.assertEqual((kept.read_text(), os.listdir(folder)), ("old", []))
        with whole(folder / "new", new=True) as file:
            file.write(b"x")
        self.assertEqual(os.listdir(folder), ["new"])

    def test_a_packed_file(self):
        """It is in blocks: each has its size in an extra field BC, and the last one is empty."""
        self.genes.write_text("# h\n" + "".join(f"chr1\t{number % 900}\t{number % 900 + 1}\tg{number}\n" for number in range(20_000)))
        for name in "saved.bed.gz", "saved.bgz":
            with self.session() as session:
                session.save(self.folder / name)
            packed = (self.folder / name).read_bytes()
            self.assertEqual(gzip.decompress(packed), self.genes.read_bytes())
            sizes = []
            while packed:
                self.assertEqual((packed[:4], packed[10:16]), (b"\x1f\x8b\x08\x04", b"\x06\0BC\x02\0"))
                size = int.from_bytes(packed[16:18], "little") + 1
                sizes.append(int.from_bytes(packed[size - 4:size], "little"))
                packed = packed[size:]
            self.assertEqual((sum(sizes), sizes[-1]), (self.genes.stat().st_size, 0))
            self.assertTrue(all(0 < size < 1 << 16 for size in sizes[:-1]) and len(sizes) > 3)
        with bedkeep.Session(self.sizes, self.folder / "saved.bgz", wide=True) as session:
            session.save(self.folder / "saved.bed")
        self.assertEqual((self.folder / "saved.bed").read_bytes(), self.genes.read_bytes())


class Large(Case):
    def test_a_million_rows(self):
        self.sizes, self.genes = many(self.folder, 1_000_000)
        with self.session() as session:
            with mock.patch.object(session, "_print_track", side_effect=AssertionError):
                self.assertEqual(len(session), 1_000_000)
                near = session.near("chr1", 5_000_003, 5_000_015)
                self.assertEqual([row.start for row in near], [5_000_000, 5_000_010, 4_999_990])
                self.assertEqual(len(session.find("g77")), 10_000)
            records = session.records()
            self.assertEqual((len(records), records[-1]), (1_000_000, ("chr1", 9_999_990, 10_000_005, "g99")))
            del records
            session.save(self.folder / "saved.bed")
        self.assertEqual((self.folder / "saved.bed").read_bytes(), self.genes.read_bytes())

    def test_rows_longer_than_a_pipe(self):
        bases = "ACGTN" * 600_000
        self.sizes = self.file("sizes", f"chr1\t{len(bases)}\n")
        with self.session(fasta=self.file("bases.fa", f">chr1\n{bases}\n")) as session:
            session.edit(f"add\tchr1\t{number}\t{len(bases)}\tx{number}" for number in range(50_000))
            session.edit(f"remove\tchr1\t{number}\t{len(bases)}\tx{number}" for number in range(1, 50_000))
            self.assertEqual(session.view("getfasta")[0].bases, bases)
            session.edit(f"add\tchr1\t5\t6\tx{number}" for number in range(50_000))
            self.assertEqual(len(session.view("merge -c 4 -o distinct")[0].distinct_4.split(",")), 50_002)

    def test_the_limit(self):
        self.genes = self.file("many.bed", "".join(f"chr1\t{start}\t{start + 5}\tg\n" for start in range(40)))
        self.assertRaisesRegex(bedkeep.Damaged, "too many", self.session, limit=39)
        for limit in 40, 41:
            with self.session(limit=limit) as session, self.refused("track is full"):
                for start in range(limit - 39):
                    session.add("chr1", start, 900, "more")
            self.assertEqual(session.script().count("add"), limit - 40)

    def test_small_pieces(self):
        """The message that ends an answer can be read before the last rows are."""
        with self.session() as session, mock.patch("bedkeep.conversation.PIECE", 7):
            session.edit(f"add\tchr1\t{number}\t1000\tx" for number in range(99))
            self.assertEqual((len(session.records()), session.view("merge")), (101, [("chr1", 0, 1000)]))

    def test_more_messages_than_a_pipe_holds(self):
        with self.session() as session:
            refused = session.edit(["remove\tchr1\t1\t2\tx", "add\tchr1\t1\t2\ty"] * 50_000)
            self.assertEqual([one.number for one in refused], list(range(1, 100_000, 2)))
            self.assertEqual({one.reason for one in refused}, {"no such record"})
            self.assertEqual(len(session.records()), 50_002)

"""What a session shows of all its views at once, and around an edit that it does or only tries."""
from unittest import mock

from helpers import Case, line, tabs, texts

A, B = "chr1\t100\t200\tgeneA", "chr1\t300\t400\tgeneB"
LONGER = f"replace\t{A}\tchr1\t100\t300\tgeneA"
BACK = f"replace\tchr1\t100\t300\tgeneA\t{A}"


class Seen(Case):
    def setUp(self):
        super().setUp()
        self.viewed = self.session()
        self.viewed.open("m", "merge")
        self.viewed.open("r", "records")

    def records(self):
        return ["\t".join(row) for row in texts(self.viewed.records())]

    def asked(self, lines, *region, keep=False):
        """What `edit_seen` saw, and by how many exchanges with the program."""
        with mock.patch.object(self.viewed._talk, "ask", side_effect=self.viewed._talk.ask) as asks:
            return self.viewed.edit_seen(lines, region, keep=keep), asks.call_count

    def test_all_views_of_a_region(self):
        self.assertEqual(self.viewed.show_all("chr1", 150, 350), {"merge": "chr1\t100\t200\nchr1\t300\t400\n", "records": f"{A}\n{B}\n"})
        self.assertEqual(self.viewed.show_all("chr1", 200, 300), {"merge": "", "records": ""})
        self.viewed.close("m")
        self.assertEqual(self.viewed.show_all("chr1", 350, 351), {"records": f"{B}\n"})
        self.assertEqual(self.session().show_all("chr1", 0, 10), {})
        self.refuses("unknown sequence", self.viewed.show_all, "chr9", 0, 1)

    def test_rows_around_an_edit(self):
        for keep in False, True:
            seen, asks = self.asked([LONGER], "chr1", 99, 301, keep=keep)
            self.assertEqual((seen.refused, seen.inverse, seen.warnings, asks), ([], [BACK], [], 2 - keep))
            self.assertEqual(seen.before, {"merge": "chr1\t100\t200\nchr1\t300\t400\n", "records": f"{A}\n{B}\n"})
            self.assertEqual(seen.after, {"merge": "chr1\t100\t400\n", "records": f"chr1\t100\t300\tgeneA\n{B}\n"})
            self.assertEqual((self.records()[0] != A, self.viewed.script()), (keep, f"{LONGER}\n" * keep))
        seen, _ = self.asked(["resize\tchr2\t600"], "chr2", 0, 10)
        self.assertEqual((seen.inverse, self.viewed.length("chr2")), (["resize\tchr2\t500"], 500))
        self.assertEqual(self.viewed.edit_seen(["resize\tchr2\t600"]).before, {})
        self.assertEqual(self.viewed.edit_seen(["resize\tchr2\t600"], ("chr2", 590, 700)).after, {})

    def test_what_is_refused(self):
        for keep in False, True:
            seen, asks = self.asked([f"replace\tchr1\t1\t2\tx\t{A}", LONGER, "add\tchr1\t5\t4\tx"], "chr1", 0, 400, keep=keep)
            self.assertEqual([(one.reason, one.number) for one in seen.refused], [("no such record", 1), ("start not below end", 3)])
            self.assertEqual((asks, self.records()[0] == A), (2 - keep, not keep))
        self.assertEqual(self.viewed.inverse(), f"{BACK}\n")

    def test_lines_that_are_done_together(self):
        together = ["# together: x", f"remove\t{A}", f"replace\t{B}\tchr1\t1\t2\tgeneB"]
        seen, asks = self.asked(together, "chr1", 0, 400)
        self.assertEqual((seen.refused, seen.after["records"], self.records(), asks), ([], "chr1\t1\t2\tgeneB\n", [A, B], 2))
        for keep in False, True:
            seen, _ = self.asked([*together, "remove\tchr1\t1\t2\tx"], "chr1", 0, 400, keep=keep)
            self.assertEqual([one.number for one in seen.refused], [2, 3, 4])
            self.assertEqual((seen.after, self.records(), self.viewed.script()), (seen.before, [A, B], ""))
        for lines in [*together, "", "add\tchr1\t1\t2\tx"], ["print\tm"]:
            self.assertRaises(ValueError, self.viewed.edit_seen, lines)

    def test_columns_after_the_sixth_and_the_second_file(self):
        self.genes = self.file("wide.bed", tabs("chr1 100 200 a 0 + 100 200"))
        self.viewed = self.session(second=self.mask, wide=True)
        self.viewed.open("s", "subtract")
        for keep in False, True:
            seen, _ = self.asked([line("replace chr1 100 200 a 0 + chr1 110 210 a 0 +")], "chr1", 0, 300, keep=keep)
            self.assertEqual(seen.inverse, [line("replace chr1 110 210 a 0 + 110 210 chr1 100 200 a 0 + 100 200")])
            self.assertEqual(seen.after, {"subtract": "chr1\t110\t150\ta\t0\t+\n"})
        seen, _ = self.asked(["removeb\tchr1\t150\t350"], "chr1", 0, 300)
        self.assertEqual((seen.inverse, seen.after), (["addb\tchr1\t150\t350"], {"subtract": "chr1\t110\t210\ta\t0\t+\n"}))
        self.assertTrue(self.viewed.has_second(("chr1", 150, 350)))
        self.assertEqual(self.viewed.inverse_of(0, 1), [self.viewed.inverse().rstrip("\n")])
        self.assertEqual((self.viewed.format(), self.viewed.format(second=True)), ("BED8", ""))

    def test_a_view_is_opened_once(self):
        self.assertEqual((self.viewed.watch("merge"), self.viewed.watch("merge  -d 10")), ("merge", "merge -d 10"))
        self.assertEqual(list(self.viewed.show_all("chr1", 0, 1)), ["merge", "records", "merge -d 10"])
        self.refuses("bad options", self.viewed.watch, "merge -q")

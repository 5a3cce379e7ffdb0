"""The prompt over a worklist, offers that a number takes, and corrections that are taken back by their numbers."""
from helpers import Outcome, Prompted, line, tabs

HEAD = "`take` does this, `drop REASON` leaves the line out, and any other correction is taken instead"


class Reasons(Prompted):
    """What is seen before a reason is given."""

    def test_what_changes_comes_before_the_question(self):
        with self.prompt("it ends later", None, "") as says:
            self.assertEqual(says("set end geneA 350"), ["named geneA: chr1 100 200 geneA",
                                                         "   merge: chr1 100 200, chr1 300 400 -> chr1 100 400", "done"])
            self.assertEqual(says("remove geneB"), ["named geneB: chr1 300 400 geneB", "   merge: chr1 100 400 -> chr1 100 350", "nothing is done"])
            self.assertEqual(says("resize chr2 600"), ["done"])
        self.has("# it ends later", "replace chr1 100 200 geneA chr1 100 350 geneA", "", "resize chr2 600")

    def test_each_view_and_columns_that_follow(self):
        """These weren't typed, so they are shown."""
        with self.prompt("", "", views=["merge -d 50", "intersect"], second=str(self.mask)) as says:
            self.assertEqual(says("add chr1 200 300 x")[0], "   merge -d 50: chr1 100 200, chr1 300 400 -> chr1 100 400")
            self.assertEqual(says("addb chr1 100 110"), ["   intersect: nothing -> chr1 100 110 geneA", "done"])
        self.path.unlink()
        old, new = "chr1 100 200 g 0 + 100 200 0 1 100, 0,", "chr1 100 210 g 0 + 100 210 0 1 110, 0,"
        with self.prompt("", genes=self.file("wide.bed", tabs(old)), views=()) as says:
            self.assertEqual(says("set end g 210")[1], f"   records: {old} -> {new}")

    def test_a_refused_line_is_not_asked_about(self):
        with self.prompt("so") as says:
            self.assertEqual(says("remove chr1 100 201 geneA"),
                             ["refused: no such record", "   1 takes: remove chr1 100 200 geneA (end 1 base earlier)"])
            self.assertEqual(says("1"), ["   merge: chr1 100 200 -> nothing", "done"])
            self.assertEqual(says("add chr1 300 400 geneB"), ["already there, so nothing is done: chr1 300 400 geneB"])
        self.has("# so", "remove chr1 100 200 geneA")

    def test_what_another_program_appended(self):
        with self.prompt("", "") as says:
            says("add chr1 1 2 x")
            with self.path.open("a") as file:
                file.write("add\tchr1\t3\t4\ty\n")
            self.assertEqual(says("add chr1 5 6 z"), ["   merge: nothing -> chr1 5 6", "done",
                                                      f"{self.path}: another program appended: add chr1 3 4 y"])
            self.assertEqual(says("history y"), ["2: done: add chr1 3 4 y"])


class Back(Prompted):
    """Corrections are taken back by their numbers."""

    def test_an_earlier_one(self):
        with self.prompt("one", "two", "three") as says:
            says("add chr1 1 2 x", "set end geneA 250", "set end geneA 260")
            self.assertEqual(says("history"), [
                "1: done: add chr1 1 2 x # one", "2: done: replace chr1 100 200 geneA chr1 100 250 geneA # two",
                "3: done: replace chr1 100 250 geneA chr1 100 260 geneA # three"])
            self.assertEqual(says("undo 2"), ["correction 3 stands on it: three"])
            self.assertEqual(says("# it is there", "undo 1"), ["undone: add chr1 1 2 x"])
            self.assertEqual(says("undo 1"), ["there is no correction 1 that could be taken back"])
            self.assertEqual(says("history x"), ["1: taken back: add chr1 1 2 x # one", "4: done: remove chr1 1 2 x # taken back: it is there"])
            self.assertEqual(says("undo"), ["undone: remove chr1 1 2 x"])
            self.assertEqual(says("undo 3", "undo 2"), ["undone: replace chr1 100 250 geneA chr1 100 260 geneA",
                                                        "undone: replace chr1 100 200 geneA chr1 100 250 geneA"])
        self.has("# one", "add chr1 1 2 x")

    def test_many_lines_and_rows(self):
        genes = self.file("many.bed", "".join(f"chr1\t{at}\t{at + 5}\tg\n" for at in range(0, 60, 10)))
        with self.prompt("", "", genes=genes) as says:
            says("rename g h")
            self.assertEqual(says("history"), ["1: done: replace chr1 0 5 g chr1 0 5 h and 5 more # rename g h"])
            self.assertEqual(says("undo")[-1], ".. and 3 more lines")
            self.assertEqual(says("add chr1 0 60 all")[0], "   merge: chr1 0 5, chr1 10 15, chr1 20 25, 3 more -> chr1 0 60")


class Decisions(Prompted):
    """Lines of a script for an earlier release."""

    old = tabs("""replace chr1 100 200 geneA chr1 100 250 geneA
replace chr1 300 400 geneB chr1 300 450 geneB
replace chr1 700 800 geneQ chr1 700 810 geneQ
add chr1 500 600 geneC""").replace("replace", "# it ends later\nreplace").replace("add", "# new\nadd")
    moved = "replace\tchr1\t90\t200\tgeneA\tchr1\t90\t250\tgeneA"

    def setUp(self):
        super().setUp()
        self.genes = self.file("release.bed", "chr1\t90\t200\tgeneA\nchr1\t300\t420\tgeneB\n")
        self.corrections = self.file("old", self.old)
        self.options = {"replayed": [str(self.corrections)]}

    def applied(self):
        return Outcome("apply", self.sizes, self.genes, self.path)

    def test_each_decision(self):
        with self.prompt("its gene was withdrawn", **self.options) as says:
            self.assertEqual(says(), [f"{self.path}: 1 done again, 0 refused", "3 of 4 need a decision; `next` shows one"])
            self.assertEqual(says("take", "drop x"), ["no line is in hand; `next` shows one that needs a decision"] * 2)
            self.assertEqual(says("next"), [
                "   # it ends later", f"{self.corrections}: line 2: moved", "    asked   chr1  100  200  geneA",
                "    there   chr1  90   200  geneA", "                  ^^^", f"    mended  {self.moved}",
                "   merge: chr1 90 200 -> chr1 90 250", HEAD])
            self.assertEqual(says("take"), ["done", "2 of 4 need a decision; `next` shows one"])
            said = says("next")
            self.assertEqual(said[1], f"{self.corrections}: line 4: conflict (both changed end)")
            self.assertEqual(said[-1], "   1 takes: replace chr1 300 420 geneB chr1 300 450 geneB (as the line has it)")
            self.assertEqual(says("take"), ["no line fits as it is: write another one, or drop REASON"])
            self.assertEqual(says("set end geneB 460")[-2:], ["done", "1 of 4 needs a decision; `next` shows one"])
            self.assertEqual(says("next")[-1], "   1 takes: add chr1 700 810 geneQ (as a new record)")
            self.assertEqual(says("drop"), ["0 of 4 need a decision"])
            self.assertEqual(says("next"), ["no line needs a decision"])
        old = self.old.splitlines()
        self.assertEqual(self.path.read_text().splitlines(), [
            *old[6:], "# it ends later", f"# was: {old[1]}", self.moved, "# it ends later", f"# was: {old[3]}",
            line("replace chr1 300 420 geneB chr1 300 460 geneB"), "# it ends later", "# its gene was withdrawn", f"# dropped: {old[5]}"])
        self.assertEqual(self.applied().failed, (0, ""))
        with self.prompt(**self.options) as says:  # On another day.
            self.assertEqual(says()[1:], ["0 of 4 need a decision"])

    def test_a_line_that_is_left_for_now(self):
        with self.prompt("", "too long", **self.options) as says:
            said = [says.curator.prompt for line in ("next", "later") if not says(line)[99:]]
            self.assertEqual(said, ["line 2> ", "bedkeep> "])
            self.assertEqual(says("add chr1 1 2 x")[-1], "done")  # It decides about no line.
            self.assertEqual(says("next")[1], f"{self.corrections}: line 4: conflict (both changed end)")
            self.assertEqual(says("next", "next")[1], f"{self.corrections}: line 6: gone")
            says("later", "next", "take so", "undo")
            self.assertIn(f"{self.corrections}: line 2: moved", says("next", "next", "next"))
            says("drop")
        self.assertIn("# too long\n# dropped: replace\tchr1\t", self.path.read_text())
        self.assertNotIn("take", self.path.read_text())

    def test_a_paragraph_that_is_done_together(self):
        text = "# together: one gene\n" + "".join(line for line in self.old.splitlines(True)[1:4:2]) + "\n"
        self.corrections = self.file("old", text)
        with self.prompt(**self.options) as says:
            self.assertEqual(says()[-1], "1 of 1 needs a decision; `next` shows one")
            said = says("next")
            self.assertIn(f"{self.corrections}: line 3: conflict (both changed end)", said)
            both = f"{self.moved}; replace chr1 300 420 geneB chr1 300 450 geneB".replace("\t", " ")
            self.assertEqual(said[-1], f"   1 takes: {both} (as the line has it)")
            self.assertEqual(says("1")[-1], "0 of 1 need a decision")
        self.assertEqual(self.path.read_text().splitlines()[0], "# together: one gene")
        self.assertEqual(self.applied().gave, (0, tabs("chr1 90 250 geneA\nchr1 300 450 geneB")))

    def test_what_is_so_already_and_what_can_be_no_line(self):
        self.corrections = self.file("old", tabs("replace chr1 90 190 geneA chr1 90 200 geneA\nadd chr2 450 600 x"))
        with self.prompt("", replayed=[str(self.corrections)]) as says:
            self.assertEqual(says("next")[-1], "`take` or `drop REASON` leaves it out, and any other correction is taken instead")
            self.assertEqual(says("take"), ["1 of 2 needs a decision; `next` shows one"])
            self.assertEqual(says("next")[-1], "   2 takes: resize chr2 600; add chr2 450 600 x (chr2 is longer by now)")
            self.assertEqual(says("1")[-2:], ["done", "0 of 2 need a decision"])
        self.assertEqual(self.path.read_text(), "# it is so already\n# dropped: replace\tchr1\t90\t190\tgeneA\tchr1\t90\t200\tgeneA\n\n"
                                                "# was: add\tchr2\t450\t600\tx\nadd\tchr2\t450\t500\tx\n")
        self.path.unlink()
        self.corrections.write_text("# new\nadd\tchr1\t500\t600\tgeneC\n")
        with self.prompt(**self.options) as says:
            self.assertEqual(says()[-1], "each line fits")

    def test_options(self):
        words, replay = ("curate", self.sizes, self.genes), ("--replay", self.corrections)
        self.assertEqual(Outcome(*words, *replay, typed=[]).failed, (2, "--replay needs --script FILE, for the new script\n"))
        self.assertEqual(Outcome(*words, "--view", "merge -x", typed=[]).failed, (2, "--view 'merge -x': bad options\n"))
        outcome = Outcome(*words, "--script", self.path, *replay, typed=["next", "take"])
        self.assertEqual(outcome.out.splitlines()[-2:], ["done", "2 of 4 need a decision; `next` shows one"])

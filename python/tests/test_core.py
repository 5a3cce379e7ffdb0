"""The core of the page, the prompt and the worklist: what is tried, done, taken back, decided and found, and what isn't lost."""
import itertools
import json
import os
import random
import shutil
import signal
import threading
import time
import unittest
from contextlib import ExitStack, suppress
from unittest import mock

import bedkeep
from bedkeep.commands import core as cores
from bedkeep.commands.core import Stale, Unwell, opened
from bedkeep.commands.corrections import read_text
from bedkeep.commands.journal import Journal
from bedkeep.commands.prompt_files import Given
from helpers import Case, Outcome, Repository, lines, script_of, tabs
from random_tracks import LENGTHS, Maker

A, B = "chr1 100 200 geneA", "chr1 300 400 geneB"
VIEWS = ["merge", "genomecov -bg"]
GENES = """chr1 100 400 g1 0 + 100 400 0 2 50,60, 0,240,
chr1 500 900 g2 0 - 550 800 0 3 100,100,50, 0,150,350,"""


class Cores(Case):
    """Tests over a core with a script, which may begin again."""

    def setUp(self):
        super().setUp()
        self.path = self.folder / "corrections"
        self.bed = self.genes

    def core(self, views=VIEWS, **given):
        files = {"second": str(self.mask), "script": str(self.path), **given}
        stack = ExitStack()
        self.addCleanup(stack.close)
        core = opened(Given(str(self.sizes), str(self.bed), **files), views, stack)
        core.again = lambda: (stack.close(), self.core(views, **given))[1]
        return core

    def script(self):
        return self.path.read_text().replace("\t", " ").split("\n")[:-1]

    def records(self, core):
        return [" ".join(map(str, row)) for row in core.session.records()]

    def changed(self, answer):
        return {change["view"]: (change["went"], change["came"]) for change in answer["changes"]}

    def why(self, answer):
        return [one["message"] for one in answer["refused"]]


class Tried(Cores):
    def test_what_an_edit_would_do(self):
        core = self.core()
        answer = core.attempt(lines(f"replace {A} chr1 100 300 geneA"))
        self.assertEqual(self.changed(answer), {
            "records": (lines(A), lines("chr1 100 300 geneA")),
            "merge": (lines("chr1 100 200", "chr1 300 400"), lines("chr1 100 400")),
            "genomecov -bg": (lines("chr1 100 200 1", "chr1 300 400 1"), lines("chr1 100 400 1"))})
        self.assertEqual([(change["before"], change["after"]) for change in answer["changes"][1:]], [(2, 1), (2, 1)])
        self.assertEqual((self.records(core), self.path.read_text(), core.version), ([A, B], "", 0))

    def test_what_is_refused_or_there_changes_nothing(self):
        """Also if an inverse of it would be possible: of a record that isn't there to one that is."""
        core = self.core()
        for texts, *why in (
                ([f"replace chr1 1 2 x {A}"], "no such record: chr1 1 2 x"),
                ([f"replace chr1 1 2 x {A}", f"replace {B} {A}"], "no such record: chr1 1 2 x"),
                ([f"replace {A} chr1 100 150 geneA", "add chr1 150 120 geneX"], "start not below end: '150' (start, field 3)"),
                (["add chr2 1 2 x", "add chr1 100 210 geneA"], f"there with another end: {A}")):
            for call in core.attempt, core.edit:
                self.assertEqual(self.why(call(lines(*texts))), why)
        for call in core.attempt, core.edit:
            self.assertEqual((call(lines(f"add {A}"))["there"], core.entries), ([tuple(A.split())], []))
        self.assertEqual(core.attempt(lines("resize chr1 400"))["changes"], [])
        self.assertEqual((core.session.length("chr1"), self.records(core), core.script()), (1000, [A, B], b""))

    def test_columns_after_the_sixth(self):
        self.bed = self.file("wide.bed", tabs(GENES))
        core = self.core()
        answer = core.attempt(lines("replace chr1 100 400 g1 0 + chr1 90 400 g1 0 +"))
        self.assertEqual(self.changed(answer)["records"][1], lines("chr1 90 400 g1 0 + 90 400 0 2 60,60, 0,250,"))
        self.assertIn("the record is there with", self.why(core.attempt(lines("remove chr1 100 400 g1 0 + 100 399 0 2 50,60, 0,240,")))[0])
        self.assertEqual(core.region("chr1", 0, 450)["views"]["records"], tabs(GENES.split("\n")[0]))
        cut = lines("replace chr1 100 400 g1 0 + chr1 200 400 g1 0 +")
        self.assertEqual(core.attempt(cut)["refused"][0]["reason"], "the start 200 is between blocks 1 and 2 of 2")
        core = self.core(script=None, leave_blocks=True)
        warnings = core.attempt(cut)["warnings"]
        self.assertEqual((len(warnings), core.edit(cut)["warnings"]), (1, warnings))
        state = core.state()
        self.assertEqual((state["format"], state["columns"][6:8], len(state["columns"])), ("BED12", ["thickStart", "thickEnd"], 12))

    def test_no_line_of_a_script(self):
        core = self.core()
        for texts in [""], ["# why"], ["open\tx\tmerge"], ["add\tchr1\n"], ["add\tchr1\0"], [" "], []:
            self.assertRaises(ValueError, core.attempt, texts)
        self.assertRaisesRegex(bedkeep.Error, "--view 'nonsense': ", self.core(["nonsense"], script=None).watch)


class Done(Cores):
    def test_it_is_in_the_script_with_its_reason(self):
        core = self.core()
        answer = core.edit(lines(f"replace {A} chr1 90 200 geneA"), "begins earlier\nby CAGE")
        self.assertEqual(self.script(), ["# begins earlier", "# by CAGE", f"replace {A} chr1 90 200 geneA"])
        self.assertEqual((answer["entry"]["number"], answer["entry"]["reason"], answer["entry"]["place"], answer["version"]),
                         (1, "begins earlier by CAGE", ("chr1", 90, 200), core.version))
        core.edit(["remove chr1 90 200 geneA"])
        core.edit(lines("add chr1 1 2 x", "add chr1 3 4 y"), title="two")
        self.assertEqual(self.script()[3:], ["", "remove chr1 90 200 geneA", "# together: two", "add chr1 1 2 x", "add chr1 3 4 y"])
        state = core.again().state()
        self.assertEqual([(one["lines"], one["reason"], one["before"], one["verdict"]) for one in state["corrections"]], [
            (lines(f"replace {A} chr1 90 200 geneA"), "begins earlier by CAGE", True, "done"),
            (lines("remove chr1 90 200 geneA"), "", True, "done"), (lines("add chr1 1 2 x", "add chr1 3 4 y"), "two", True, "done")])

    def test_a_reason_that_looks_like_a_marker(self):
        core = self.core()
        core.edit(lines(f"remove {A}"), "was: wrong\nadd\tx\0")
        self.assertEqual(self.script(), ['# "was: wrong"', "# add x", f"remove {A}"])

    def test_undo_and_redo(self):
        core = self.core()
        self.assertRaises(IndexError, core.undo)
        self.assertRaises(IndexError, core.redo)
        core.edit(lines(f"remove {B}"), "gone")
        core.edit(lines(f"replace {A} chr1 100 150 geneA", "add chr1 150 200 geneX"), "two")
        self.assertRaises(Stale, core.undo, 1)
        answer = core.undo(2)
        self.assertEqual(self.changed(answer)["records"], (lines("chr1 150 200 geneX", "chr1 100 150 geneA"), lines(A)))
        self.assertEqual((self.records(core), self.script()), ([A], ["# gone", f"remove {B}"]))
        self.assertEqual([core.state()[name] for name in ("can_undo", "can_redo")], [1, True])
        self.assertEqual(core.redo()["entry"]["verdict"], "done")
        self.assertEqual(self.records(core), ["chr1 100 150 geneA", "chr1 150 200 geneX"])
        core = core.again()
        core.undo()
        self.assertEqual(self.script()[-3:], ["# together: taken back: two", "remove chr1 150 200 geneX",
                                              f"replace chr1 100 150 geneA {A}"])
        self.assertEqual(self.records(core.again()), [A])

    def test_any_is_taken_back_by_itself(self):
        core = self.core()
        for text, reason in (f"replace {A} chr1 90 200 geneA", "one"), ("resize chr2 600", "two"), (f"remove {B}", "three"), \
                ("replace chr1 90 200 geneA chr1 80 200 geneA", "four"), ("addb chr1 1 9", "five"), ("resize chr1 900", "six"):
            self.assertIn("entry", core.edit(lines(text), reason))
        self.assertEqual(self.why(core.take_back(1)), ["correction 4 stands on it: four"])
        core = core.again()
        self.assertEqual(core.take_back(3, "is real")["entry"]["takes"], 3)
        self.assertEqual(self.script()[-2:], ["# taken back: is real", f"add {B}"])
        for number in 4, 2, 1, 5:
            self.assertIn("entry", core.take_back(number))
        self.assertEqual((self.records(core), core.region("chr1", 0, 20)["second"], core.session.length("chr2")), ([A, B], "", 500))
        for number in 1, 99:
            self.assertRaises(Stale, core.take_back, number)
        core.undo()
        self.assertEqual((core.entries[4].verdict, core.region("chr1", 0, 20)["second"]), ("done", "chr1\t1\t9\n"))
        core.redo()
        self.assertEqual((core.entries[4].verdict, core.entries[4].by), ("taken back", 11))
        self.assertEqual(Outcome("apply", self.sizes, self.bed, self.path, "-b", self.mask).status, 0)
        core.edit(lines("resize chr1 950"))
        self.assertEqual(self.why(core.take_back(6)), ["correction 12 stands on it: resize\tchr1\t950"])

    def test_copies_that_later_ones_stand_on(self):
        """Of equal records it isn't said which one a line is about, so what counts is how many there were at each moment."""
        core = self.core(copies=True)
        for text in "add chr2 1 9 x", "replace chr2 1 9 x chr2 2 9 x", f"replace {B} chr2 1 9 x":
            core.edit(lines(text))
        self.assertEqual(self.why(core.take_back(1)), ["correction 2 stands on it: replace\tchr2\t1\t9\tx\tchr2\t2\t9\tx"])
        self.assertTrue("entry" in core.take_back(2) and "entry" in core.take_back(1))
        self.assertEqual(self.records(core), [A, "chr2 1 9 x"])

    def test_another_reason(self):
        core = self.core()
        core.edit(lines(f"remove {A}"), "one")
        core.edit(lines(f"remove {B}"), "two")
        self.assertTrue(core.explain("three, which is longer\nand goes on"))
        self.assertEqual(self.script(), ["# one", f"remove {A}", "# three, which is longer", "# and goes on", f"remove {B}"])
        core.edit(lines("add chr1 1 2 x"), "four")
        core.leave(["for later"])
        self.assertEqual(self.script()[-3:], ["add chr1 1 2 x", "# for later", ""])

    def test_lines_that_are_made(self):
        core = self.core()
        genes = [A.split(), B.split()]
        for what, records, value, expected in (
                ("split", genes[:1], "150", [f"replace {A} chr1 100 150 geneA.1", "add chr1 150 200 geneA.2"]),
                ("join", genes, "", [f"replace {A} chr1 100 400 geneA", f"remove {B}"]),
                ("boundary", genes[::-1], "250", [f"replace {A} chr1 100 250 geneA", f"replace {B} chr1 250 400 geneB"]),
                ("shift", genes, "10", [f"replace {B} chr1 310 410 geneB", f"replace {A} chr1 110 210 geneA"]),
                ("set name", genes, "x", [f"replace {A} chr1 100 200 x", f"replace {B} chr1 300 400 x"]),
                ("remove", genes, "", [f"remove {A}", f"remove {B}"])):
            made = core.make(what, records, value)["lines"]
            self.assertEqual(made, lines(*expected))
            self.assertIn("entry", core.edit(made, what))
            core.undo()
        for what, records, value in (
                ("split", genes, "150"), ("split", genes[:1], "9"), ("join", genes[:1], ""), ("shift", genes, "0"), ("shift", genes, "-101"),
                ("set name", genes[:1], "geneA"), ("set blocks", genes, "1"), ("boundary", genes, "x"), ("none", genes, "")):
            self.assertRaises(ValueError, core.make, what, records, value)
        self.bed = self.file("wide.bed", tabs(GENES))
        core = self.core(script=None)
        genes = [row.split() for row in GENES.split("\n")]
        core.edit(core.make("shift", genes, "5")["lines"])
        genes = [row.split("\t") for row in core.region("chr1", 0, 1000)["views"]["records"].split("\n")[:-1]]
        core.edit(core.make("set strand", genes, ".")["lines"])
        self.assertEqual(core.region("chr1", 0, 1000)["views"]["records"],
                         tabs(GENES.replace("100 400", "105 405").replace("500 900", "505 905").replace("550 800", "555 805")
                              .replace(" + ", " . ").replace(" - ", " . ")))


class Found(Cores):
    def found(self, core, text):
        return [(one["said"], [row[3] for row in one["records"]]) for one in core.find(text)["found"]]

    def test_names_and_places(self):
        core = self.core()
        core.edit(lines("add chr2 5 9 GENEA"))
        self.assertEqual(self.found(core, "geneA"), [("named geneA", ["geneA"]), ("named geneA in any case", ["GENEA"])])
        self.assertEqual(self.found(core, "eneb"), [("with eneb in the name", ["geneB"])])
        self.assertEqual(core.find("chr1:101-200")["place"], core.find("chr1 100 200")["place"])
        self.assertEqual(core.find("chr2")["place"], ("chr2", 0, 500))
        for text in "chr3", "chr1:2000-3000", "nobody", "":
            self.assertRaises(ValueError, core.find, text)

    def test_too_many(self):
        self.bed = self.file("many.bed", "".join(f"chr1\t{start}\t{start + 1}\tsame\n" for start in range(60)))
        [found] = self.core().find("same")["found"]
        self.assertEqual((len(found["records"]), found["more"]), (50, 10))


class Drawn(Cores):
    def test_rows_and_counts(self):
        self.bed = self.file("many.bed", "".join(f"chr1\t{start}\t{start + 3}\tx\n" for start in range(600)) + "chr2\t0\t500\ty\n")
        core = self.core(fasta=str(self.bases))
        region = core.region("chr1", 0, 1000)
        self.assertEqual((region["mode"], sum(region["starts"]), region["near"]), ("counts", 600, 600))
        self.assertAlmostEqual(max(region["depths"]), 5, delta=1)
        region = core.region("chr1", 300, 400, 50)
        self.assertEqual((region["mode"], region["start"], region["end"], region["second"], region["bases"]),
                         ("rows", 250, 450, "chr1\t150\t350\n", "ACGTT" * 40))
        self.assertEqual(region["views"]["records"], "".join(f"chr1\t{start}\t{start + 3}\tx\n" for start in range(248, 450)))
        core.edit(lines("replace chr2 0 500 y chr1 700 710 y"))
        core.edit(lines("addb chr1 300 310"))
        self.assertEqual(core.region("chr1", 300, 310)["second"], "chr1\t150\t350\nchr1\t300\t310\n")
        self.assertEqual([row[2] for row in core.state()["sequences"]], [601, 0])
        overview = core.overview("chr1", 10)
        self.assertEqual((overview["starts"], overview["marks"]), (
            [100, 100, 100, 100, 100, 100, 0, 1, 0, 0], [[1, 700, 710, "done"], [2, 300, 310, "done"]]))
        core.undo()
        core.undo()
        self.assertEqual([row[2] for row in core.state()["sequences"]], [600, 1])
        self.assertEqual(core.region("chr1", 300, 310)["second"], "chr1\t150\t350\n")
        self.assertRaises(ValueError, core.region, "chr9", 0, 10)
        self.assertEqual(core.region("chr2", 600, 700)["mode"], "counts")

    def test_counts_are_those_of_the_track(self):
        """In parts of many lengths, beside a count record by record."""
        pick = random.Random(3)
        rows = [(start, pick.randrange(start + 1, 1001)) for start in pick.choices(range(1000), k=300)]
        self.bed = self.file("random.bed", "".join(f"chr1\t{start}\t{end}\tx\n" for start, end in rows))
        for most in 10, 100, 1 << 16:
            with mock.patch("bedkeep.commands.counts.MOST_PARTS", most):
                core = self.core(script=None)
                parts = core._counted().of("chr1")
            self.assertEqual((parts.total, sum(parts.bins(0, 1000, 7)[0])), (300, 300))
            for _ in range(50):
                low = pick.randrange(1000)
                high = pick.randrange(low + 1, 1001)
                near = sum(start < high and low < end for start, end in rows)
                step = core._counted().step
                wider = sum(start < high + 2 * step and low - step - 1 < end for start, end in rows)
                self.assertTrue(near <= parts.near(low, high) <= wider, (most, low, high))


class Released(Cores):
    """Tests over another release than the one that a script was for."""

    OLD = """# cut
replace chr1 100 200 geneA chr1 110 200 geneA
# together: both
remove chr1 300 400 geneB
add chr1 500 600 new
# an artefact
remove chr2 5 9 gone
# fits
replace chr2 100 200 geneC chr2 100 210 geneC
"""

    def setUp(self):
        super().setUp()
        self.bed = self.file("release.bed", tabs("chr1 105 205 geneA\nchr1 310 410 geneB\nchr2 100 200 geneC"))
        self.old = self.file("old", script_of(self.OLD))


class Decisions(Released):
    def core(self, *words, **given):
        return super().core(*words, **{"replayed": [str(self.old)], "second": None, **given})

    def states(self, core):
        core.join()
        return [item["state"] for item in core.state()["worklist"]["items"]]

    def test_what_fits_is_written_and_the_rest_is_asked(self):
        core = self.core()
        self.assertEqual(self.script(), ["# fits", "replace chr2 100 200 geneC chr2 100 210 geneC"])
        worklist = core.state()["worklist"]
        self.assertEqual([[item[name] for name in ("number", "kind", "state", "offered")] for item in worklist["items"]], [
            [2, "moved", "open", lines("replace chr1 105 205 geneA chr1 115 205 geneA")],
            [4, "moved", "open", lines("remove chr1 310 410 geneB", "add chr1 500 600 new")], [7, "already so", "open", []]])
        self.assertEqual((worklist["count"], core.overview("chr1", 4)["open"]), (4, [[2, 105, 205], [4, 310, 410]]))
        core.edit(core.worklist.items[2].offered, "as before", 2)
        core.edit(lines("remove chr1 310 410 geneB"), "", 4)
        self.assertRaises(ValueError, core.drop, 7, " ")
        core.drop(7, "not there any more")
        self.assertRaises(Stale, core.drop, 7, "again")
        self.assertEqual(self.script()[2:], [
            "# cut", "# as before", "# was: replace chr1 100 200 geneA chr1 110 200 geneA",
            "replace chr1 105 205 geneA chr1 115 205 geneA",
            "# both", "# was: remove chr1 300 400 geneB", "# was: add chr1 500 600 new", "remove chr1 310 410 geneB",
            "# an artefact", "# not there any more", "# dropped: remove chr2 5 9 gone"])
        self.assertEqual(self.states(core), ["taken", "other", "dropped"])
        core = core.again()
        self.assertEqual(self.states(core), ["decided"] * 3)
        self.assertEqual([(one.verdict, one.answers) for one in core.entries], [("done", None), ("done", 2), ("done", 4), ("dropped", 7)])
        self.assertEqual(Outcome("apply", self.sizes, self.bed, self.path).gave, (0, tabs("chr1 115 205 geneA\nchr2 100 210 geneC")))
        self.assertEqual(Outcome("replay", self.sizes, self.bed, self.path).status, 0)

    def test_a_decision_is_taken_back(self):
        core = self.core()
        core.drop(7, "gone")
        core.edit(core.worklist.items[4].offered, "", 4)
        core.undo()
        core.undo()
        self.assertEqual((len(core.worklist.open_items()), len(self.script())), (3, 2))
        core.redo()
        core.redo()
        self.assertEqual(self.states(core), ["open", "taken", "dropped"])
        core.take_back(2)
        self.assertEqual(self.script()[-2:], ["# taken back: an artefact gone", "# reopened, was: remove chr2 5 9 gone"])
        core.undo()
        self.assertEqual(self.states(core), ["open", "taken", "dropped"])
        core = core.again()
        self.states(core)
        core.take_back(2)
        core.undo()
        core.take_back(2)
        core.take_back(3)
        self.assertEqual(self.script()[-5:], [
            "# together: taken back: both", "# reopened, was: remove chr1 300 400 geneB", "# reopened, was: add chr1 500 600 new",
            "remove chr1 500 600 new", "add chr1 310 410 geneB"])
        self.assertEqual(self.states(core), ["open"] * 3)
        core = core.again()
        self.assertEqual(self.states(core), ["open"] * 3)
        core.undo()
        self.assertEqual(self.states(core.again()), ["open", "decided", "open"])

    def test_refused_lines_of_the_script_itself(self):
        core = self.core(replayed=())
        self.assertIsNone(core.worklist)
        self.path.write_bytes(self.old.read_bytes())
        core = core.again()
        self.assertEqual(self.states(core), ["open"] * 3)
        self.assertEqual([entry.verdict for entry in core.entries], ["refused", "refused", "refused", "done"])
        core.drop(7, "gone")
        self.assertEqual(self.states(core.again()), ["open", "open", "decided"])


class Signed(Released):
    """Each paragraph that a prompt writes with --sign begins with a signature, which is never a reason."""

    ADA, BO = (f"# signed: {name} 2026-03-01T12:00:00+01:00" for name in ("Ada", "Bo"))

    def setUp(self):
        super().setUp()
        now = mock.patch("bedkeep.commands.prompt_edits.signature", lambda name: f"# signed: {name} 2026-03-01T12:00:00+01:00")
        now.start()
        self.addCleanup(now.stop)

    def authors(self, core):
        return [(one["reason"], one["author"], one["date"][:10]) for one in core.state()["corrections"]]

    def test_what_is_written(self):
        core = self.core(sign="Ada")
        core.edit(lines("add chr1 1 2 x"))
        core.edit(lines("add chr1 3 4 y", "add chr1 5 6 z"), f"both\n{self.BO[2:]}")
        core.edit(lines("remove chr1 3 4 y"), "no")
        core.explain("not one")
        core.leave(["for later"])
        core.take_back(1)
        written = [self.ADA, "add chr1 1 2 x", self.ADA, "# together: both", f'# "{self.BO[2:]}"', "add chr1 3 4 y", "add chr1 5 6 z",
                   self.ADA, "# not one", "remove chr1 3 4 y"]
        after = [self.ADA, "# taken back: add chr1 1 2 x", "remove chr1 1 2 x"]
        self.assertEqual(self.script(), [*written, "# for later", "", *after])
        said = [("", "Ada", "2026-03-01"), (f'both "{self.BO[2:]}"', "Ada", "2026-03-01"), ("not one", "Ada", "2026-03-01"),
                ("taken back: add chr1 1 2 x", "Ada", "2026-03-01")]
        self.assertEqual(self.authors(core), said)
        core = core.again()
        self.assertEqual(self.authors(core), said)
        self.assertEqual(core.accepted().replace("\t", " ").split("\n")[:-1], [*written, *after])

    def test_another_day(self):
        """What another one takes back, or does again, that one signs."""
        self.path.write_text("\n".join([self.BO, "# why", *lines("add chr1 1 2 x", "add chr1 3 4 y"), ""]))
        core = self.core(sign="Ada")
        self.assertEqual(self.authors(core), [("why", "Bo", "2026-03-01")] * 2)
        core.undo()
        core.redo()
        self.assertEqual(self.script()[4:], [self.ADA, "# taken back: why", "remove chr1 3 4 y", self.ADA, "# why", "add chr1 3 4 y"])
        core = core.again()
        core.undo(reason="no")
        self.assertEqual(self.script()[10:], [self.ADA, "# taken back: no", "remove chr1 3 4 y"])
        core = self.core(script=str(self.file("unsigned", self.path.read_text())))
        core.undo()
        core.redo()
        self.assertEqual((self.folder / "unsigned").read_text().replace("\t", " ").split("\n")[13:-1], [
            "# taken back: taken back: no", "add chr1 3 4 y", "# taken back: no", "remove chr1 3 4 y"])

    def test_decisions(self):
        """What fits keeps its signature; who decides signs."""
        self.old.write_text(self.old.read_text().replace("# fits", f"{self.BO}\n# fits").replace("# cut", f"{self.BO}\n# cut"))
        core = self.core(sign="Ada", replayed=[str(self.old)])
        core.edit(core.worklist.items[3].offered, "so", 3)
        core.drop(8, "not there")
        written = [self.BO, "# fits", "replace chr2 100 200 geneC chr2 100 210 geneC",
                   self.ADA, "# cut", "# so", "# was: replace chr1 100 200 geneA chr1 110 200 geneA",
                   "replace chr1 105 205 geneA chr1 115 205 geneA",
                   self.ADA, "# an artefact", "# not there", "# dropped: remove chr2 5 9 gone"]
        self.assertEqual(self.script(), written)
        said = [("fits", "Bo", "2026-03-01"), ("cut so", "Ada", "2026-03-01"), ("an artefact not there", "Ada", "2026-03-01")]
        self.assertEqual(self.authors(core), said)
        core = core.again()
        self.assertEqual(self.authors(core), said)
        core.take_back(3)
        self.assertEqual(self.script()[len(written):], [self.ADA, "# taken back: an artefact not there", "# reopened, was: remove chr2 5 9 gone"])

    @unittest.skipUnless(shutil.which("git"), "no git")
    def test_who_committed(self):
        """Without a signature git says who made what the script had before."""
        self.path.write_text("\n".join(["# why", *lines("add chr1 1 2 x"), self.BO, *lines("add chr1 3 4 y"), ""]))
        Repository(self.folder).commit("Cy")
        core = self.core(sign="Ada")
        core.edit(lines("add chr1 5 6 z"), "new")
        said = [("why", "Cy", "2026-01-01"), ("", "Bo", "2026-03-01"), ("new", "Ada", "2026-03-01")]
        self.assertEqual((self.authors(core), self.authors(core.again())), (said, said))

    def test_a_name_that_nobody_can_sign_by(self):
        for command in "curate", "desk":
            outcome = Outcome(command, self.sizes, self.genes, "--script", self.path, "--sign", "A\nB", typed=[])
            self.assertEqual(outcome.failed, (2, "a name is one line without TABs and without spaces around it, and not 'A\\nB'\n"))
            self.assertFalse(self.path.exists())


class Well(Cores):
    """What isn't well is one sentence, and nothing is taken before it is."""

    def unwell(self, kind, sentence, call, *words):
        with self.assertRaisesRegex(Unwell, sentence) as caught:
            call(*words)
        self.assertEqual(caught.exception.kind, kind)

    def test_what_another_program_appends(self):
        core = self.core()
        core.edit(lines(f"remove {A}"), "one")
        version = core.version
        with self.path.open("a") as file:
            file.write("# by hand\n" + lines("add chr2 1 2 x")[0])
            file.flush()
            self.assertEqual(core.wait(version, 0), version)  # a line without an end may go on
            file.write("\n" + lines("add chr9 1 2 y")[0] + "\n")
        self.assertGreater(core.wait(version, 10), version)
        self.assertEqual([(one["reason"], one["verdict"], one["before"]) for one in core.state(version)["corrections"]],
                         [("by hand", "done", False), ("by hand", "refused", False)])
        self.assertEqual((self.records(core), core.state()["sequences"]), ([B, "chr2 1 2 x"], [["chr1", 1000, 1], ["chr2", 500, 1]]))
        core.edit(lines(f"remove {B}"), "two")
        core.take_back(1)
        self.assertEqual(self.script()[2:], ["# by hand", "add chr2 1 2 x", "add chr9 1 2 y", "# two", f"remove {B}",
                                             "# taken back: one", f"add {A}"])

    def test_a_script_that_was_changed(self):
        core = self.core()
        core.edit(lines(f"remove {A}"), "one")
        text, version = self.path.read_text(), core.version
        for change, said in ((lambda: self.path.write_text("# other\n"), "changed what was in it"),
                             (self.path.unlink, "removed it, or put another"),
                             (lambda: self.path.write_text(text + "chr1\t1\t2\n"), "is no correction")):
            change()
            self.unwell("script", said, core.edit, lines(f"remove {B}"))
            self.unwell("script", said, core.undo)
            self.assertIn(said, core.state()["unwell"])
            self.assertEqual(self.changed(core.attempt(lines(f"remove {B}")))["records"], (lines(B), []))
            self.assertGreater(core.wait(version, 0), version)
            version = core.version
            self.assertEqual(self.records(core), [B])
            is_there = self.path.exists()
            self.path.write_text(text)
            if not is_there:
                core = core.again()
                version = core.version
                continue
            core.edit(lines("add chr2 1 2 x"))
            self.assertEqual(core.state()["unwell"], "")
            core.undo()

    def test_a_script_that_somebody_else_holds(self):
        core = self.core()
        core.edit(lines(f"remove {A}"))
        data = self.file("data", "chr1\t1\t2\n")
        for path, said in ((self.path, "another prompt has it open"), (self.bed, "is a file of this session"),
                           (data, "line 1 is no correction")):
            self.assertRaisesRegex(bedkeep.Error, said, self.core, script=str(path))

    def test_a_full_disk_and_a_read_only_script(self):
        core = self.core()
        core.edit(lines(f"remove {A}"), "one")
        edit = core.edit, (lines("add chr2 1 2 x"), "two")
        for name, number, (call, words) in ("pwrite", 28, edit), ("fsync", 5, edit), ("ftruncate", 30, (core.undo, ())), \
                ("replace", 13, (core.explain, ("other",))):
            with mock.patch(f"os.{name}", side_effect=OSError(number, os.strerror(number))):
                self.unwell("disk", f"{os.strerror(number).lower()}: it isn't written down", call, *words)
            self.assertEqual((self.records(core), self.script(), core.entries[0].reason), ([B], ["# one", f"remove {A}"], "one"))
            self.assertEqual([name for name in os.listdir(self.folder) if name.startswith("corrections")], ["corrections"])
        core.edit(lines("add chr2 1 2 x"), "two")
        self.assertEqual(core.state()["unwell"], "")

    def test_an_interrupt_cuts_nothing_in_two(self):
        core, append = self.core(), Journal.append

        def interrupted(*words):
            os.kill(os.getpid(), signal.SIGINT)
            return append(*words)

        with mock.patch.object(Journal, "append", interrupted):
            self.assertRaises(KeyboardInterrupt, core.edit, lines(f"remove {A}"), "one")
        self.assertEqual((self.records(core), self.script(), len(core.entries)), ([B], ["# one", f"remove {A}"], 1))
        self.assertEqual(core.undo()["undone"]["number"], 1)

    def test_a_program_that_ended(self):
        core = self.core()
        core.edit(lines(f"remove {A}"))
        version = core.version
        core.session._talk.kill()
        while core.version == version:
            core.wait(version, 1)
        for call, words in (core.edit, (lines(f"remove {B}"),)), (core.attempt, (lines(f"remove {B}"),)), (core.undo, ()):
            self.unwell("program", "the program has ended: .*what was accepted is in ", call, *words)
        self.assertIn("has ended", core.state()["unwell"])
        self.assertEqual(self.script(), [f"remove {A}"])

    def test_a_program_that_sleeps(self):
        core = self.core()
        process = core.session._talk._process.pid
        os.kill(process, signal.SIGSTOP)
        try:
            while not core.session.is_suspended():
                time.sleep(0.01)
            self.unwell("asleep", "suspended", core.edit, lines(f"remove {B}"))
        finally:
            os.kill(process, signal.SIGCONT)
        while core.session.is_suspended():
            time.sleep(0.01)
        self.assertIn("entry", core.edit(lines(f"remove {B}")))
        with mock.patch.object(cores, "PATIENCE", 0.1), core.changed:
            thread = threading.Thread(target=self.unwell, args=("asleep", "another call", core.script))
            thread.start()
            thread.join()


class Killed(Released):
    """A process that is killed leaves a script that has all that was answered, and nothing by halves."""

    def test_a_paragraph_is_there_whole_or_not_at_all(self):
        """Killed at each byte of a write."""
        self.path.write_text("# before\nremove\tchr1\t1\t2\n")
        before = self.path.read_bytes()
        listed = lines("add chr1 1 2 abc", "remove chr1 3 4 def", "resize chr1 5")
        with mock.patch("bedkeep.commands.journal.BLOCK", 20):
            size = len("\n".join(["# together: x", *listed])) + 1
            for count in range(size + 1):
                self.path.write_bytes(before)
                process = os.fork()
                if not process:
                    self.write_and_die(count, listed)
                os.waitpid(process, 0)
                journal = Journal(str(self.path))
                text = journal.text.encode()
                journal.close()
                self.assertEqual(text, before + "\n".join(["# together: x", *listed, ""]).encode() if count >= size else before)
                self.assertEqual(self.path.read_bytes(), text)

    def write_and_die(self, count, listed):
        write, left = os.pwrite, [count]

        def few(file, text, place):
            done = write(file, text[:left[0]], place)
            left[0] -= done
            if not left[0]:
                os.kill(os.getpid(), signal.SIGKILL)
            return done

        with mock.patch("os.pwrite", few):
            if not count:
                os.kill(os.getpid(), signal.SIGKILL)
            Journal(str(self.path)).append(listed, ["# together: x"])
        os._exit(0)

    def test_a_file_with_a_nul_is_no_script(self):
        for text in b"\0\0\0", b"\0" * 5000 + b"\n", b"chr1\0\n", b"add\tx\n\0\0\n", b"\0chr1\t1\t2\nchr1\t1\t2\n":
            self.path.write_bytes(text)
            self.assertRaises(bedkeep.Error, Journal, str(self.path))
            self.assertEqual(self.path.read_bytes(), text)

    def test_a_hundred_kills(self):
        """At random moments of a random session, over the script that the last one left."""
        pick, before, answers, kills = random.Random(5), "", 0, int(os.environ.get("KILLS", 100))
        for number in range(kills):
            reading, writing = os.pipe()
            process = os.fork()
            if not process:
                with suppress(BaseException):
                    self.session_to_kill(number, writing)
                os._exit(1)
            os.close(writing)
            with os.fdopen(reading) as said:
                rows = [said.readline() for _ in range(pick.randrange(1, 16))]
                time.sleep(pick.random() * 0.01)
                os.kill(process, signal.SIGKILL)
                rows = [json.loads(row) for row in [*rows, *said] if row.endswith("\n")]
            os.waitpid(process, 0)
            texts = [row for row in rows if "text" in row]
            self.assertTrue(not before or texts[0]["text"] == before)
            for row in texts[1:]:
                self.assertIn("\n".join([*row["lines"], ""]), row["text"])
            journal = Journal(str(self.path))
            before = journal.text
            journal.close()
            self.check(texts[-1]["text"], rows[-1].get("next"), before)
            answers += len(texts) - 1
        self.assertGreater(answers, kills)
        self.assertEqual(Outcome("apply", self.sizes, self.bed, self.path).failed, (0, ""))

    def session_to_kill(self, number, writing):
        """A random session, which says what it begins, and the script on the disk after each answer."""
        def say(**what):
            os.write(writing, f"{json.dumps(what)}\n".encode())

        pick, counted = random.Random(number), itertools.count()
        with ExitStack() as stack:
            core = opened(Given(str(self.sizes), str(self.bed), script=str(self.path), replayed=[str(self.old)]), VIEWS, stack)
            core.join()
            say(text=self.path.read_text())
            while True:
                listed = [f"add\tchr1\t{at}\t{at + 1}\tn{number}.{next(counted)}.{'x' * 40}" for at in range(pick.choice([1, 1, 2, 80]))]
                call, words, begun = random_call(core, pick, lambda: listed)
                say(next=begun)
                answer = call(*words)
                say(text=self.path.read_text(), lines=answer["entry"]["lines"] if call == core.edit and "entry" in answer else [])

    def check(self, answered, begun, text):
        """A script after a kill is the one of the last answer, or the one with what was begun then, whole."""
        if text == answered:
            return
        longer, shorter = sorted([answered, text], key=len, reverse=True)
        self.assertTrue(longer.startswith(shorter))
        more = [line.text for line in read_text(longer[len(shorter):]) if line.is_run]
        self.assertIn(more, begun)


class Random(Cores):
    """Random sessions, beside `apply` of the scripts that they leave."""

    def test_random_sessions(self):
        for number in range(int(os.environ.get("SESSIONS", 6))):
            with self.subTest(number):
                pick = random.Random(number)
                maker = Maker(pick, pick.choice(["BED4", "BED6", "BED12", "narrowPeak"]))
                self.sizes = self.file("sizes", "".join(f"{name}\t{length}\n" for name, length in LENGTHS.items()))
                self.bed, self.path = self.file(f"track{number}.bed", maker.text(maker.file(12))), self.folder / f"script{number}"
                old = self.file("old", "".join("\t".join(maker.line(maker.file(9))) + "\n" for _ in range(6)))
                core = self.core(second=None, replayed=[str(old)])
                for count in range(60):
                    if count % 25 == 24:
                        core = core.again()
                    rows = self.rows(core)
                    core.attempt(typed(maker, rows))
                    self.assertEqual(self.rows(core), rows)
                    call, words, _ = random_call(core, pick, lambda: typed(maker, rows))
                    call(*words)
                pieces = []
                core.stream(pieces.append)
                track = b"".join(pieces).decode()
                self.assertEqual(Outcome("apply", self.sizes, self.bed, self.path).gave, (0, track), self.path.read_text())
                counts = {row[0]: row[2] for row in core.state()["sequences"]}
                self.assertEqual(counts, {name: sum(row[0] == name for row in self.rows(core)) for name in LENGTHS})

    def rows(self, core):
        regions = [core.region(name, 0, length) for name, length in LENGTHS.items()]
        return [tuple(row.split("\t")) for region in regions for row in region["views"]["records"].split("\n")[:-1]]


def typed(maker, rows):
    return ["\t".join(maker.line(rows)) for _ in range(maker.pick.choice([1, 1, 1, 2, 3]))]


def random_call(core, pick, texts):
    """A call of a core, its words, and the lines of which it may put one list into the script, or take it out."""
    done = [entry.number for entry in core.entries if entry.verdict in ("done", "dropped")]
    items = core.worklist.open_items() if core.worklist else []
    kind = pick.choice(["edit", "edit", "edit", "undo", "redo", "back", "drop", "take"])
    if kind == "undo" and core.state()["can_undo"]:
        edit = core._edits.done[-1]
        return core.undo, (), [edit.lines, core._edits.inverse(edit)]
    if kind == "redo" and core.state()["can_redo"]:
        return core.redo, (), [core._edits.undone.lines]
    if kind == "back" and done:
        number = pick.choice(done)
        edit = core.entries[number - 1].edit
        return core.take_back, (number,), [edit.lines, core._edits.inverse(edit)] if edit else [[]]
    if kind in ("drop", "take") and items:
        item = pick.choice(items)
        if kind == "drop" or not item.offered:
            return core.drop, (item.number, "no"), [[]]
        return core.edit, (item.offered, "", item.number), [item.offered]
    listed = texts()
    return core.edit, (listed, pick.choice(["", "why", "so\nand so"])), [listed]

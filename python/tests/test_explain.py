"""`explain`: why a line is refused, and lines that fit instead, each of which was tried; and notes in parts, as every face has them."""
import contextlib
import unittest

from bedkeep.commands.carry import Carrier
from bedkeep.commands.core import opened
from bedkeep.commands.corrections import read_text
from bedkeep.commands.explain import explain
from bedkeep.commands.prompt_files import Given
from bedkeep.review.cards import html_of_note
from bedkeep.review.parts import LINE, Part, as_json, as_text, beside, link, plain, said
from helpers import Case, tabs


class Offers(Case):
    """Lines that are offered, over a file of six columns."""

    records = "chr1 100 200 geneA 5 +\nchr1 300 400 geneB 7 -\nchr1 300 420 geneC 0 -\nchr2 30 40 . 0 ."

    def setUp(self):
        super().setUp()
        self.genes = self.file("genes.bed", tabs(self.records))
        stack = contextlib.ExitStack()
        self.addCleanup(stack.close)
        self.core = opened(Given(str(self.sizes), str(self.genes), str(self.mask)), ["merge"], stack)

    def refused(self, *lines):
        """What is said of lines that are refused. Nothing of them is kept."""
        track, script = self.core.session.records(), self.core.accepted()
        answer = self.core.attempt([line if "\t" in line else "\t".join(line.split()) for line in lines])
        self.assertEqual((self.core.session.records(), self.core.accepted()), (track, script))
        return answer["refused"]

    def offers(self, *lines):
        """The offered lines, with what is said of them. Each is done."""
        offers = [offer for one in self.refused(*lines) for offer in one["offers"]]
        for offer in offers:
            self.assertNotIn("refused", self.core.attempt(offer["lines"]))
        return ["; ".join(offer["lines"]).replace("\t", " ") + (f" ({offer['note']})" if offer["note"] else "") for offer in offers]

    def test_what_a_field_may_mean(self):
        self.listed(self.offers, (
                ("add 1 10 20 x 0 +", "add chr1 10 20 x 0 + (as the genome file calls it)"),
                ("add CHR2 10 20 x 0 +", "add chr2 10 20 x 0 + (as the genome file calls it)"), ("add chr9 10 20 x 0 +",),
                ("replace chr1 100 200 geneA 5 + 1 100 250 geneA 5 +",
                 "replace chr1 100 200 geneA 5 + chr1 100 250 geneA 5 + (as the genome file calls it)"),
                ("add chr1 1,0 20 x 0 +", "add chr1 10 20 x 0 +"), ("add chr1 10 2_0 x 0 +", "add chr1 10 20 x 0 +"),
                ("add chr1 10 1e2 x 0 +",), ("add chr1 20 10 x 0 +", "add chr1 10 20 x 0 +"), ("add chr1 20 20 x 0 +",),
                ("add\tchr1\t10\t20\t\t\t+", "add chr1 10 20 . 0 +"), ("add chr1 10 20 x 0 1", "add chr1 10 20 x 0 +"),
                ("add chr1 10 20 x 0 minus", "add chr1 10 20 x 0 -"), ("add chr1 10 20 x 0 x", "add chr1 10 20 x 0 ."),
                ("ad chr1 10 20 x 0 +", "add chr1 10 20 x 0 +"), ("Remove chr1 100 200 geneA 5 +", "remove chr1 100 200 geneA 5 +"),
                ("delete chr1 100 200 geneA 5 +", "remove chr1 100 200 geneA 5 +"), ("quux chr1 10 20 x 0 +",),
                ("add chr1 10 20", "add chr1 10 20 . 0 ."), ("add chr1:11-20 x", "add chr1 10 20 x 0 ."),
                ("add chr1 10 20 x 0 + 7", "add chr1 10 20 x 0 +"), ("add chr1:0-9 x",), ("add chr1 10",),
                ("remove chr1 100 200", "remove chr1 100 200 geneA 5 +"), ("remove chr1:101-200 geneA", "remove chr1 100 200 geneA 5 +"),
                ("remove chr1 100 200 geneB",), ("remove chr1 100 x",),
                ("replace chr1 100 200 chr1 100 250", "replace chr1 100 200 geneA 5 + chr1 100 250 geneA 5 +"),
                ("resize 2 600", "resize chr2 600 (as the genome file calls it)"), ("resize chr2 6,00", "resize chr2 600"),
                ("resize chr1 50", "resize chr1 420 (where its last record ends)"), ("resize chr2",)))

    def test_an_end_past_that_of_the_sequence_and_one_fault_after_another(self):
        self.listed(self.offers, (
                ("add chr2 450 600 x 0 +", "add chr2 450 500 x 0 + (to the end of chr2)",
                 "resize chr2 600; add chr2 450 600 x 0 + (chr2 is longer by now)"),
                ("add chr2 550 600 x 0 +", "resize chr2 600; add chr2 550 600 x 0 + (chr2 is longer by now)"),
                ("add 1 1,90 180 x 0 +", "add chr1 180 190 x 0 + (as the genome file calls it)"),
                ("remove 1 300 401 geneB 7 -", "remove chr1 300 400 geneB 7 - (as the genome file calls it, end 1 base earlier)")))
        self.assertEqual(self.refused("add chr2 450 600 x 0 +")[0]["reason"], "end past the sequence's end")

    def test_a_record_that_is_not_there(self):
        self.listed(self.offers, (
                ("remove chr1 300 401 geneB 7 -", "remove chr1 300 400 geneB 7 - (end 1 base earlier)"),
                ("replace chr1 100 201 geneA 5 + chr1 100 250 geneA 5 +",
                 "replace chr1 100 200 geneA 5 + chr1 100 250 geneA 5 + (end 1 base earlier)"),
                ("replace chr1 110 210 geneA 5 + chr1 110 260 geneA 5 +",
                 "replace chr1 100 200 geneA 5 + chr1 100 250 geneA 5 + (start 10 bases earlier, end 10 bases earlier)"),
                ("replace chr1 100 200 geneX 5 + chr1 100 250 geneX 5 +",
                 "replace chr1 100 200 geneA 5 + chr1 100 250 geneA 5 + (name geneX → geneA)"),
                ("remove chr2 30 41 . 0 .", "remove chr2 30 40 . 0 . (end 1 base earlier)"),
                ("remove chr1 700 800 geneQ 0 +",),  # No record of another name and place.
                ("replace chr1 100 200 geneA 9 + chr1 100 200 geneA 5 +",)))  # It is so already.
        near = [as_text(note) for note in self.refused("remove chr1 700 800 geneQ 0 +")[0]["says"]]
        self.assertEqual(near, ["near: chr1 300 420 geneC 0 -", "near: chr1 300 400 geneB 7 -", "near: chr1 100 200 geneA 5 +"])

    def test_a_record_of_the_name_elsewhere(self):
        self.core.edit([f"add chr1 {start} {start + 9} near 0 +" for start in range(700, 780, 20)], "so")
        self.assertEqual(self.offers("remove chr1 740 800 geneA 5 +"),
                         ["remove chr1 100 200 geneA 5 + (start 640 bases earlier, end 600 bases earlier)"])

    def test_lines_that_are_done_together(self):
        good, bad, worse = "replace chr1 100 200 geneA 5 + chr1 100 260 geneA 5 +", "remove chr1 300 401 geneB 7 -", "add 1 1 2 x 0 +"
        self.assertEqual(self.offers(good, bad), [f"{good}; remove chr1 300 400 geneB 7 - (end 1 base earlier)"])
        answer = self.refused(good, bad, worse)
        self.assertEqual([one["text"].replace("\t", " ") for one in answer], [bad, worse])
        for one in answer:  # Each is mended with the other one.
            self.assertEqual([offer["lines"] for offer in one["offers"]],
                             [["\t".join(line.split()) for line in (good, "remove chr1 300 400 geneB 7 -", "add chr1 1 2 x 0 +")]])

    def test_what_is_there_with_other_columns(self):
        self.assertEqual(self.offers("add chr1 100 210 geneA 5 +"), ["replace chr1 100 200 geneA 5 + chr1 100 210 geneA 5 +"])
        says = self.refused("add chr1 100 210 geneA 5 +")[0]["says"]
        self.assertEqual(says[-1][0]["rows"], [
            {"title": "asked", "columns": ["chr1", "100", "210", "geneA", "5", "+"], "differs": [False, False, True, False, False, False]},
            {"title": "there", "columns": ["chr1", "100", "200", "geneA", "5", "+"], "differs": [False, False, True, False, False, False]}])

    def test_a_line_of_the_second_file(self):
        """Its records aren't those of the track."""
        self.listed(self.offers, (("removeb chr1 100 200",), ("addb chr1 20 10", "addb chr1 10 20"),
                                  ("removeb 1 150 350", "removeb chr1 150 350 (as the genome file calls it)")))
        self.core.region("chr1", 0, 1000)  # It holds the second file's records from here on.
        self.assertEqual(self.offers("removeb chr1 150 351"), ["removeb chr1 150 350 (end 1 base earlier)"])

    def test_many_refused_lines(self):
        self.assertEqual(len(self.refused(*(f"remove chr1 {start} 900 x 0 +" for start in range(500, 509)))), 3)


class Wide(Offers):
    """The same over a file of twelve columns. The other columns are as they are there."""

    records = ("chr1 100 200 geneA 5 + 120 180 0 2 10,20, 0,80,\nchr1 300 400 geneB 7 - 300 300 0 1 100, 0,\n"
               "chr1 300 420 geneC 0 - 300 300 0 1 120, 0,\nchr2 30 40 . 0 . 30 30 0 1 10, 0,")

    def test_what_a_field_may_mean(self):
        self.assertEqual(self.offers("add chr1 10 20 x 0 + 7"), ["add chr1 10 20 x 0 +"])
        cut = "replace chr1 100 200 geneA 5 + 120 180 0 2 10,20, 0,80, chr1 100 105 geneA 5 + 100 100 0 1 5, 0,"
        self.assertEqual(self.offers("replace chr1 100 200 geneA 5 + chr1 100 105 geneA 5 +"), [cut])

    def test_a_mistyped_field_of_the_new_record(self):
        old = "replace chr1 300 400 geneB 7 - 300 300 0 1 100, 0,"
        for new, reason, *fresh in (
                ("chr1 300 999 geneB 7 x", "bad strand", "chr1 300 999 geneB 7 ."),
                ("chr1 410 400 geneB 7 -", "start not below end", "chr1 400 410 geneB 7 -"),
                ("1 300 400 geneB 8 -", "unknown sequence", "chr1 300 400 geneB 8 - (as the genome file calls it)"),
                ("chr1 300 1005 geneB 7 -", "end past the sequence's end", "chr1 300 1000 geneB 7 - (to the end of chr1)"),
                ("chr1 300 4,05 geneB 7 -", "end is not a number", "chr1 300 405 geneB 7 -"),
                ("chr1 300 40x geneB 7 -", "end is not a number")):
            with self.subTest(new):
                self.assertEqual(self.refused(f"{old} {new}")[0]["reason"], reason)
                self.assertEqual(self.offers(f"{old} {new}")[:1], [f"{old} {text}" for text in fresh])

    def test_all_columns(self):
        line = "remove chr1 300 400 geneB 7 - 300 300 7 1 100, 0,"
        self.assertEqual(self.offers(line.replace(" 400 ", " 401 ")), [line.replace(" 7 1 ", " 0 1 ") + " (end 1 base earlier)"])


class Alone(Case):
    """Without a core: offers that weren't tried."""

    def test_offers(self):
        with self.session(wide=True) as session:
            lines = read_text("remove\tchr1\t300\t401\tgeneB\nadd\tchr1\t1\t2\tx\nadd\t1\t1\t2000\tx\n")
            Carrier(session).carry(lines)
            explained = explain(lines, session, session.lengths)
        self.assertEqual([one.line.place for one in explained], [1, 3])
        self.assertEqual([[offer.lines[-1] for offer in one.offers] for one in explained],
                         [["add\t1\t1\t2000\tx"], ["add\tchr1\t1\t2000\tx"]])
        self.assertEqual(explained[0].as_json()["message"], "no such record: chr1 300 401 geneB")


class Parts(unittest.TestCase):
    """A note as HTML, as text and as JSON."""

    def test_a_note(self):
        line = read_text("# x\nremove\tchr1\t1\t2\n")[1]
        note = (*said("*Bold*: do `this <now>`, "), link(line), *plain(" of <a>*b*: "), Part(LINE, "add\tchr1\t1"),
                beside(("was", ("chr1", "1", "2")), ("none", None), ("is", ("chr1", "1", "30", "x"))))
        self.assertEqual(html_of_note(note), (
            '<b>Bold</b>: do <code>this &lt;now&gt;</code>, <a href="#L2">line 2</a> of &lt;a&gt;*b*: '
            '<button class=copy data-text="add\tchr1\t1">copy</button> <code>add<i class=tab>\t</i>chr1<i class=tab>\t</i>1</code>'
            "<pre>was      chr1  1  <mark>2</mark>\nis       chr1  1  <mark>30</mark>  <mark>x</mark></pre>"))
        self.assertEqual(as_text(as_json(note)),
                         "Bold: do `this <now>`, line 2 of <a>*b*: add chr1 1was: chr1 1 2, is: chr1 1 30 x")
        self.assertEqual([part["kind"] for part in as_json(note)],
                         ["bold", "text", "code", "text", "link", "text", "line", "records"])
        self.assertEqual(as_json(note)[4], {"kind": "link", "text": "line 2", "number": 2})

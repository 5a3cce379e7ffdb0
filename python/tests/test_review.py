"""`review`: the page, what comes with it, and that none is written if the program does otherwise than it did at first."""
import hashlib
import io
import os
import random
import re
import unittest
import xml.etree.ElementTree as ElementTree
from unittest import mock

from helpers import PROGRAM, Case, Outcome, line, script_of, tabs
from pages import Page

import bedkeep
from bedkeep.commands.corrections import Line
from bedkeep.review.drawing import Picture
from bedkeep.review.intervals import Interval, Stretch, blocks_of, stretches_of
from bedkeep.review.markup import bases, escaped, is_whole, shortened
from bedkeep.review.neighbours import Neighbours
from bedkeep.review.totals import BINS, Totals

SCRIPT = tabs("""
#5_bases_later
replace chr1 100 200 geneA chr1 100 205 geneA
#renamed_upstream
replace chr1 300 400 geneX chr1 300 410 geneX
remove chr1 853 900 geneE
add chr1 390 500 geneC
add chr1 390 500 geneC
remove chr1 700 800 geneD
remove chr1 700 800 geneD
replace chr1 600 700 lost chr1 600 710 lost
replace chr1 550 555 geneF chr1 550 560 geneF
add chr2 450 600 long
add 2 100 200 short
add chr1 200 100 wrong
removeb chr1 150 350
resize chr2 700
resize chr1 450
resize chrX 450
print all
""")
STATES = {7: "there", **dict.fromkeys((2, 6, 8, 15, 16), "done"), **dict.fromkeys((4, 5, 9, 10, 11, 12, 13, 14, 17, 18), "refused")}
GROUPS = {2: "done", 4: "refused|gone", 5: "refused|moved", 7: "already there", 9: "refused|taken out", 10: "refused|gone",
          11: "refused|already so", 12: "refused|bad line", 17: "refused|bad line"}


class Written(Case):
    """A page of all kinds of lines."""

    def setUp(self):
        super().setUp()
        self.genes.write_text(self.genes.read_text() + "chr1\t700\t800\tgeneD\nchr1\t850\t900\tgeneE\nchr1\t550\t560\tgeneF\n")
        self.corrections = self.file("corrections", SCRIPT)
        self.path = self.folder / "page.html"
        self.outcome = Outcome("review", self.sizes, self.genes, self.corrections, "-b", self.mask, "-d", 10, "-o", self.path)
        self.text = self.path.read_text()
        self.page = Page(self.text)

    def card(self, number):
        return re.search(rf"<article id=L{number} .*?</article>", self.text, re.DOTALL)[0]

    def test_verdicts_and_reasons(self):
        self.assertEqual((self.outcome.status, self.outcome.err), (1, f"{self.path}: 5 done, 10 refused, 1 already there\n"))
        self.assertEqual(self.page.faults, [])
        self.assertEqual(re.findall(r'\bsrc=|@import|url\(|href=(?!"#)|https?:', self.text), [])  # It needs no network.
        self.assertEqual({int(name[1:]): named["class"] for name, named in self.page.articles.items()}, STATES)
        for number, groups in GROUPS.items():
            self.assertEqual(self.page.articles[f"L{number}"]["data-groups"], groups, number)
        self.assertIn("<p class=reason>5_bases_later</p>", self.card(2))
        self.assertIn("<p class=reason>renamed_upstream</p>", self.card(5))
        self.assertIn("no such record", self.page.texts["L4"])
        for path in self.sizes, self.genes, self.mask, self.corrections:
            self.assertTrue(hashlib.sha256(path.read_bytes()).hexdigest() in self.text)

    def test_counts_before_and_after(self):
        # Blocks by distance 10, and bases. Before: [100,200) [300,400) [550,560) [700,800) [850,900).
        # After: [100,205) [300,400), [390,500), [550,560) [850,900).
        for part in ("records<b>5 <small>as before</small></b>", "blocks<b>5 → 4 <small>-1</small></b>",
                     "bases covered<b>360 → 365 <small>+5</small></b>"):
            self.assertTrue(part in self.text, part)
        row = re.search(r'<tr data-sequence="chr1">.*?</tr>', self.text, re.DOTALL)[0]
        columns = re.sub(r"<svg.*?</svg>", "", row, flags=re.DOTALL)
        self.assertEqual(re.findall(r">([^<>\n]*)</t[dh]>", columns), ["chr1", "", "4", "7", "5", "", "4", "-1", "365", "+5"])

    def test_what_is_said_of_lines(self):
        for number, said in ((2, "<mark>200</mark>"), (2, "End 5 bases later."), (4, "Name geneX → geneB."), (5, "Start 3 bases earlier."),
                             (9, '<a href="#L8">line 8</a>'), (12, "chr2 ends at 500, 100 bases before."),
                             (13, 'data-text="add\tchr2\t100\t200\tshort"'), (14, 'data-text="add\tchr1\t100\t200\twrong"'),
                             (17, "Correct these records first.")):
            self.assertIn(said, self.card(number))

    def test_pictures(self):
        # Line 6 shows 390 to 500 with 82 bases on either side, in 830 units from 62: 82 are 248.4, and 110 are 333.2.
        added = r'"r added"><title>390–500 geneC</title><path d="M310 \d+h333v13h-333z"'
        self.assertRegex(self.card(6), added)
        marks_of = {2: {"removed", "added"}, 4: {"asked", "wished", "meant"}, 6: {"added"}, 7: {"wished", "meant"}, 8: {"removed"}, 9: {"asked"},
                    11: {"asked", "wished", "meant"}, 15: {"removed"}, 16: {"added"}, 17: {"asked", "meant"}}
        for number, marks in marks_of.items():
            found = set(re.findall('"r ([a-z]+)"', self.card(number))) - {"second"}
            self.assertEqual(found, marks, number)
        self.assertIn('"r second"', self.card(2))
        self.assertIn("close to the end: 200 → 205, 5 bases", self.card(2))
        self.assertIn("past the end", self.card(12))
        self.assertNotIn("<svg", self.card(13) + self.card(14) + self.card(18))

    def test_what_igv_gets(self):
        rows = (self.folder / "page.corrections.bed").read_text().split("\n")
        self.assertRegex(rows[0], '^track .*itemRgb="On"$')
        self.assertIn("chr1\t100\t205\tline 2: replace\t0\t.\t100\t205\t26,127,75", rows)
        self.assertIn("chr1\t853\t900\tline 5: remove, no such record\t0\t.\t853\t900\t179,38,30", rows)
        self.assertTrue(all(row.count("\t") == 8 for row in rows[1:-1]))
        session = ElementTree.parse(self.folder / "page.session.xml").getroot()
        self.assertEqual([one.get("path") for one in session.iter("Resource")], ["genes.bed", "mask.bed", "page.corrections.bed"])
        regions = [one.attrib for one in session.iter("Region")]
        self.assertEqual(len(regions), 8)  # No region for the two `resize`.
        self.assertEqual(regions[0], {"chromosome": "chr1", "start": "300", "end": "410",
                                      "description": "line 4: replace, no such record"})


class Files(Case):
    """What is read and written."""

    def review(self, *words, status=0):
        """The page of a review, which ends with this status."""
        self.outcome = Outcome("review", *words, "-o", self.folder / "page.html")
        self.assertEqual(self.outcome.status, status)
        page = Page((self.folder / "page.html").read_text() if status < 2 else "")
        self.assertEqual(page.faults if status < 2 else [], [])
        return page

    def test_several_scripts_are_one(self):
        one, other = self.file("one", tabs("add chr1 1 2 a")), self.file("other", tabs("remove chr1 1 2 a\nremove chr1 1 2 a"))
        page = self.review(self.sizes, self.genes, one, other, status=1)
        self.assertEqual(list(page.articles), ["L1", "L2", "L3"])
        self.assertIn(f"{other}: line 2", page.texts["L3"])
        self.review(self.sizes, self.genes, self.file("empty", ""))

    def test_bases_between_the_records_of_a_block_are_not_covered(self):
        self.review(self.sizes, self.genes, self.file("corrections", tabs("add chr1 205 300 geneC")), "-d", "10")
        text = (self.folder / "page.html").read_text()
        for part in "blocks<b>2 → 1 <small>-1</small></b>", "bases covered<b>200 → 295 <small>+95</small></b>":
            self.assertTrue(part in text, part)

    def test_an_input_is_never_written_over(self):
        corrections = self.file("page.corrections.bed", tabs("add chr1 1 2 a"))
        self.review(self.sizes, self.genes, corrections, status=2)
        self.assertEqual(corrections.read_text(), "add\tchr1\t1\t2\ta\n")
        self.assertFalse((self.folder / "page.html").exists())

    def test_damaged_file(self):
        self.review(self.sizes, self.file("bad.bed", "chr1\t5\t4\n"), self.file("corrections", ""), status=2)
        self.assertFalse((self.folder / "page.html").exists())
        self.assertIn("bad.bed: line 1: start not below end", self.outcome.err)

    def test_script_from_standard_input(self):
        typed = io.TextIOWrapper(io.BytesIO(b"add\tchr1\t1\t2\ta\n"))
        with mock.patch("sys.stdin", typed):
            self.review(self.sizes, self.genes, "-")
        self.assertIn("standard input over genes.bed", (self.folder / "page.html").read_text())

    def test_wide_file(self):
        wide = self.file("wide.bed", tabs("chr1 100 200 a 0 + 100 200 1,2,3\nchr1 300 400 b 0 + 300 400 0"))
        script = self.file("corrections", tabs("""replace chr1 100 200 a 0 + chr1 100 150 a 0 +
replace chr1 300 400 b 0 + chr1 300 450 b 0 + 300 450 9,9,9"""))
        page = self.review(self.sizes, wide, script)
        self.assertIn("End 50 bases later.", page.texts["L2"])

    def test_second_file_has_its_own_lines(self):
        script = self.file("corrections", tabs("addb chr1 1 2\nreplaceb chr1 1 2 chr1 5 9\nremoveb chr1 1 2"))
        page = self.review(self.sizes, self.genes, script, "-b", self.mask, status=1)
        self.assertEqual([named["class"] for named in page.articles.values()], ["done", "done", "refused"])
        self.assertIn("The record was put in by line 1.", page.texts["L2"])
        self.review(self.sizes, self.genes, script, status=1)

    def test_names_that_are_no_text(self):
        sizes = self.file("odd", b"<b>\xff&\t1000\n\x01c\t50\n")
        genes = self.file("odd.bed", b"<b>\xff&\t1\t9\t\xfe\"'\n")
        script = self.file("corrections", b"# <i>\xfd\x02\nremove\t<b>\xff&\t1\t8\t\xfe\"'\n"
                                          b"remove\t<b>\xff&\t1\t9\t\xfe\"'\nadd\t\x01c\t1\t2\t]]>\n")
        page = self.review(sizes, genes, script, status=1)
        self.assertIn("<i>\ufffd\u2402", page.texts["L2"])
        self.assertNotIn("copy", page.texts["L2"])
        ElementTree.parse(self.folder / "page.session.xml")


class Cards(Case):
    """Which lines share a card, and what it shows."""

    def page(self, bed, script, *words):
        """The page of a BED file and a script, with spaces for TABs."""
        path, texts = self.folder / "page.html", (tabs(bed), script_of(script) if script else "")
        files = [self.file(name, text) for name, text in zip(("long", "bed", "script"), ("chr1\t100000000\nchr2\t500\n", *texts))]
        self.outcome = Outcome("review", *files, "-o", path, *words)
        self.text = path.read_text()
        page = Page(self.text)
        self.assertEqual(page.faults, [])
        return page

    def test_many_shifts_by_one_distance_are_one_card(self):
        rows = [f"chr1 {1000 * at} {1000 * at + 50} g{at}" for at in range(4000)]
        moved = [f"replace {row} chr1 {1000 * at + 7} {1000 * at + 57} g{at}" for at, row in enumerate(rows)]
        page = self.page("\n".join(rows), "# a patched contig\n" + "\n".join(moved) + "\n\nremove chr2 5 9 x\n")
        self.assertEqual(list(page.articles), ["L2", "L4003"])
        text = page.texts["L2"]
        self.assertIn("4,000 records shifted by 7", text)
        self.assertIn("a patched contig", text)
        self.assertEqual((page.articles["L2"]["data-lines"], page.articles["L2"]["data-groups"]), ("2-4001", "done"))
        self.assertEqual(self.text.count("<figure>"), 3 + 1)
        for at in 0, 1234, 3999:  # All of them can be found.
            self.assertIn(f"line {at + 2}  replace chr1 {1000 * at} {1000 * at + 50} g{at} ", text)
        self.assertLess(len(self.text), 1_000_000)
        self.assertTrue("corrections<b>4,001</b>" in self.text and "done<b>4,000</b>" in self.text)

    def lines_of(self, script):
        rows = "".join(f"chr1 {1000 * at} {1000 * at + 50} g{at} {at} +\n" for at in range(30))
        return [named["data-lines"] for named in self.page(rows, script).articles.values()]

    def changed(self, change, count=25):
        """Lines that change so many records. change: the columns from the second on, of the record at its place"""
        rows = [(1000 * at, 1000 * at + 50, f"g{at}", at) for at in range(count)]
        return "".join(" ".join(map(str, ["replace", "chr1", *row, "+", "chr1", *change(*row)])) + "\n" for row in rows)

    def test_what_is_the_same_change(self):
        same = [lambda start, end, name, score: (start + 5, end + 5, name, score, "+"),
                lambda start, end, name, score: (start, end, name, 777, "+"),
                lambda start, end, name, score: (start, end, name, score, "-"),
                lambda start, end, name, score: (start, end + 20, f"new_{name}.1"[4:], score, "+"),
                lambda start, end, name, score: (start, end, f"x{name}", score, "+")]
        different = [lambda start, end, name, score: (start + score + 1, end + score + 1, name, score, "+"),
                     lambda start, end, name, score: (start, end, name, score + 1, "+")]
        for changes, cards in (same, 1), (different, 25):
            for change in changes:
                self.assertEqual(len(self.lines_of(self.changed(change))), cards)
        self.assertEqual(self.lines_of(self.changed(same[0], 20)), [f"{at}-{at}" for at in range(1, 21)])  # too few

    def test_authors(self):
        """Who and when is below the reason of each card; of many some are named."""
        signed = [f"# signed: {name} 2026-03-{day:02}T12:00:00+01:00" for day, name in enumerate(["<b>&'", *"ABCDEF"], 1)]
        page = self.page("chr1 1 9 a\nchr1 11 19 b", f"{signed[0]}\n# why\nremove chr1 1 9 a\nremove chr1 1 9 a\n\nremove chr1 11 19 b")
        self.assertIn("why<b>&', 2026-03-01remove", page.texts["L3"])
        self.assertIn("<b>&'", page.articles["L4"]["data-search"])
        self.assertNotIn("class=author", self.text[self.text.index("id=L6"):])
        lines = self.changed(lambda start, end, name, score: (start + 5, end + 5, name, score, "+")).split("\n")[:-1]
        rows = "".join(f"chr1 {1000 * at} {1000 * at + 50} g{at} {at} +\n" for at in range(30))
        page = self.page(rows, "\n".join(f"{signed[at % 7]}\n{row}" for at, row in enumerate(lines)))
        self.assertIn("<b>&', 2026-03-01; A, 2026-03-02; B, 2026-03-03; 4 more25 records", page.texts["L2"])

    def test_another_reason_is_another_card(self):
        lines = self.changed(lambda start, end, name, score: (start, end, name, 777, "+"), 30).split("\n")
        self.assertEqual(self.lines_of("# one\n" + "\n".join(lines[:22]) + "\n# other\n" + "\n".join(lines[22:])),
                         ["2-23", *(f"{at}-{at}" for at in range(25, 33))])

    def test_lines_that_are_done_together_are_one_card(self):
        page = self.page("chr1 100 200 A\nchr1 300 400 B", "# together: one gene\nreplace chr1 100 200 A chr1 100 400 A\n"
                                                           "remove chr1 300 400 B\n\nremove chr1 100 400 A")
        self.assertEqual({name: named["data-lines"] for name, named in page.articles.items()}, {"L2": "2-3", "L5": "5-5"})
        self.assertIn("<p class=reason>one gene</p>", self.text)
        self.assertEqual(page.articles["L2"]["data-groups"], "done|together")
        self.assertIn('The record was put in by <a href="#L2">line 2</a>', self.text)
        self.assertIn("lines 2 to 3", page.texts["L2"])

    def test_exons_and_coding_part(self):
        # Exons 100 to 120, 150 to 160, 180 to 200, the coding part from 110 to 190. The picture shows 18 to 292 in 830 units from 62.
        self.page("chr1 100 200 g 0 + 110 190 0 3 20,10,20, 0,50,80,", "replace chr1 100 200 g 0 + chr1 100 210 g 0 +")

        def at(position):
            return f"{62 + (position - 18) * 830 / 274:.1f}"

        drawn = re.findall('"r removed"><title>.*?</title><path d="(.*?)"', self.text)[0]
        self.assertEqual(re.findall(r"M([0-9.]+) [0-9.]+h[0-9.]+v(7|13)h", drawn),
                         [(at(100), "7"), (at(110), "13"), (at(150), "13"), (at(180), "13"), (at(190), "7")])
        after = re.findall('"r added"><title>.*?</title><path d="(.*?)"', self.text)[0]
        width = re.findall(r"M([0-9.]+) [0-9.]+h([0-9.]+)v7h", after)[-1]
        self.assertEqual(width, (at(190), f"{20 * 830 / 274:.1f}"))  # The last exon ends with the gene.

    def test_genome_for_igv(self):
        sizes, session = self.folder / "page.chrom.sizes", self.folder / "page.session.xml"
        self.page("chr1 1 5", "")
        self.assertEqual(sizes.read_text(), "chr1\t100000000\nchr2\t500\n")
        self.assertEqual(ElementTree.parse(session).getroot().get("genome"), "page.chrom.sizes")
        sizes.unlink()
        self.page("chr1 1 5", "", "--igv", "hg38")
        self.assertEqual((ElementTree.parse(session).getroot().get("genome"), sizes.exists()), ("hg38", False))

    def test_a_conflict_shows_all_three(self):
        page = self.page("chr1 100 230 A", "replace chr1 100 200 A chr1 100 250 A")
        self.assertIn("conflict", page.articles["L1"]["data-groups"].split("|"))
        for row in "was      chr1  100  200  A", "asked    chr1  100  250  A", "there    chr1  100  230  A":
            self.assertIn(row, page.texts["L1"])
        self.assertIn("<mark>230</mark>", self.text)

    def test_an_addition_that_is_there_with_other_columns(self):
        page = self.page("chr1 100 200 A", "add chr1 100 210 A")
        self.assertEqual((page.articles["L1"]["class"], self.outcome.status), ("refused", 1))
        self.assertIn('data-text="replace\tchr1\t100\t200\tA\tchr1\t100\t210\tA"', self.text)
        self.assertEqual(page.texts["L1"].count("there    chr1  100  200  A"), 1)
        page = self.page("chr1 100 200 A", "add chr1 100 200 A", "--copies")
        self.assertEqual(page.articles["L1"]["data-groups"], "done|copies|without a reason")

    def test_a_bad_line_with_all_columns_of_the_new_record(self):
        for place in "chr1 210 190", "1 190 210":
            self.page("chr1 100 200 g 0 + 100 200 0 1 100, 0,", f"replace chr1 100 200 g 0 + {place} g 0 + 190 210 0 1 20, 0,")
            self.assertIn('data-text="' + line("replace chr1 100 200 g 0 + chr1 190 210 g 0 + 190"), self.text)

    def test_a_warning_has_a_chip(self):
        bed, script = "chr1 100 200 g 0 + 100 100 0 2 10,20, 0,80,", "# cut\nreplace chr1 100 200 g 0 + chr1 100 190 g 0 +"
        self.assertEqual(self.page(bed, script).articles["L2"]["data-groups"], "done")  # The last block ends there too.
        script = script.replace("190", "150")
        refused = self.folder / "refused"
        page = self.page(bed, script, "--refused", refused)
        self.assertEqual((page.articles["L2"]["class"], refused.read_text().count(": line 2: "), refused.read_text().count("\n  this would fit: ")),
                         ("refused", 1, 1))
        page = self.page(bed, script, "--leave-blocks")
        self.assertEqual(page.articles["L2"]["data-groups"], "done|warnings")
        for part in '<span class="kind warned">warning</span>', "<p class=warning>", "warnings<b>1</b>":
            self.assertIn(part, self.text)


class Arrival(Case):
    """No page is written if the program does otherwise than it did at first."""

    def test_program_that_prints_another_track(self):
        """The second session of a review reads another BED file than the first."""
        other = self.file("other.bed", "chr1\t100\t200\tgeneA\nchr1\t330\t400\tgeneB\n")
        liar = self.script("liar", f'if [ -e {self.folder}/begun ]; then exec {PROGRAM} "${{@/%*genes.bed/{other}}}"; fi\n'
                                   f'if [ "$1" = session ]; then touch {self.folder}/begun; fi\nexec {PROGRAM} "$@"')
        script = self.file("corrections", tabs("remove chr1 300 400 geneB"))
        with mock.patch.dict(os.environ, BEDKEEP=str(liar)):
            outcome = Outcome("review", self.sizes, self.genes, script, "-o", self.folder / "page.html")
        self.assertEqual((outcome.status, outcome.err), (2, "lines that were done are refused without the others\n"))
        self.assertEqual(list(self.folder.glob("page*")), [])

    def test_other_blocks_than_the_pictures_have(self):
        script = self.file("corrections", tabs("remove chr1 300 400 geneB"))
        with mock.patch("bedkeep.review.neighbours.blocks_of", return_value=[]):
            outcome = Outcome("review", self.sizes, self.genes, script, "-o", self.folder / "page.html")
        self.assertEqual((outcome.status, outcome.err), (2, "the blocks of chr1 from 300 to 400 aren't those that the program printed\n"))
        self.assertEqual(list(self.folder.glob("page*")), [])


class Tracks(Case):
    """What is read of a session, beside lists of its records."""

    def intervals(self, chance, count):
        for _ in range(count):
            start = chance.randrange(2000)
            yield Interval(chance.choice("ab"), start, start + chance.choice([1, 3, 40, 700]), (str(chance.randrange(3)),))

    def edited(self, command, interval):
        return Line(1, "", 1, "\t".join([command, interval.sequence, str(interval.start), str(interval.end), *interval.rest]))

    def test_records_and_totals_after_each_edit(self):
        lengths = {"a": 2700, "b": 2700, "c": 10}
        for seed in range(8):
            chance = random.Random(seed)
            listed = list(self.intervals(chance, 60))
            bed = self.file("track.bed", "".join("\t".join(map(str, [*one[:3], *one.rest])) + "\n" for one in listed))
            with bedkeep.Session(lengths, bed) as session:
                neighbours, before = Neighbours(session), Totals(session, 3, {"a": 2700, "c": 10})
                self.check_totals(before, listed)
                for interval in self.intervals(chance, 10):
                    listed.append(interval)
                    neighbours.edit(self.edited("add", interval))
                    gone = listed.pop(chance.randrange(len(listed)))
                    neighbours.edit(self.edited("remove", gone))
                    self.check_neighbours(neighbours, listed, chance)
                self.check_totals(before.after(session, "ab"), listed)

    def check_neighbours(self, neighbours, listed, chance):
        low = chance.randrange(2000)
        stretch, margin = Stretch(chance.choice("abc"), low, low + chance.randrange(300)), chance.choice([0, 0, 7])
        wide = Stretch(stretch.sequence, stretch.low - margin, stretch.high + margin)
        self.assertEqual(neighbours.within(stretch, margin), sorted(filter(wide.touches, listed)))
        of_sequence = [one for one in listed if one.sequence == stretch.sequence]
        left, right = neighbours.beside(stretch)
        self.assertEqual(right, min((one for one in of_sequence if one.start > stretch.high), default=None))
        self.assertEqual(left.end if left else None, max((one.end for one in of_sequence if one.end < stretch.low), default=None))

    def check_totals(self, totals, listed):
        blocks = {name: blocks_of([one for one in sorted(listed) if one.sequence == name], 3) for name in "ab"}
        covered = {name: {place for one in listed if one.sequence == name for place in range(one.start, one.end)} for name in "ab"}
        for name in "ab":
            self.assertEqual(totals.records[name], sum(one.sequence == name for one in listed))
            self.assertEqual((totals.blocks[name], totals.covered[name]), (len(blocks[name]), len(covered[name])))
        starts = [one.start for one in listed if one.sequence == "a"]
        edges = [2700 * number // BINS for number in range(BINS + 1)]
        self.assertEqual(totals.density("a"), [sum(low <= start < high for start in starts) for low, high in zip(edges, edges[1:])])
        self.assertEqual(totals.density("c"), [0] * BINS)


class Pieces(unittest.TestCase):
    """What the page is made of."""

    def test_blocks(self):
        intervals = [Interval("a", 1, 9), Interval("a", 2, 4), Interval("a", 9, 12), Interval("a", 14, 15)]
        self.assertEqual((blocks_of(intervals, 0), blocks_of(intervals, 2)), ([(1, 12), (14, 15)], [(1, 15)]))

    def test_one_picture_for_what_is_near(self):
        near, far = Interval("a", 1000, 1100), Interval("a", 9000, 9100)
        self.assertEqual(list(stretches_of([near, Interval("a", 1200, 1300)])), [Stretch("a", 775, 1525)])
        self.assertEqual(list(stretches_of([far, near])), [Stretch("a", 925, 1175), Stretch("a", 8925, 9175)])
        self.assertEqual(list(stretches_of([near, Interval("b", 10, 20)])), [Stretch("a", 925, 1175), Stretch("b", 0, 60)])
        self.assertEqual(list(stretches_of([])), [])

    def test_no_more_than_there_is_room_for(self):
        picture = Picture(Stretch("a", 0, 1000), 1000)
        picture.lane("before", [Interval("a", 100, 900, (str(number),)) for number in range(50)], {})
        drawn = picture.svg("title")
        self.assertEqual(drawn.count("<g class=r>"), 6)
        self.assertIn("+ 44 more here", drawn)

    def test_boxes_point_along_their_strand(self):
        picture = Picture(Stretch("a", 0, 830), None)
        picture.lane("before", [Interval("a", 0, 100, ("", "0", "+")), Interval("a", 200, 300, ("", "0", "-"))], {})
        drawn = picture.svg("title", (None, None))
        self.assertIn('d="M62 7h95l5 6.5l-5 6.5h-95z"', drawn)
        self.assertIn('d="M267 7h95v13h-95l-5 -6.5z"', drawn)

    def test_texts(self):
        self.assertEqual([bases(value) for value in (0, 9999, 10_000, 1_234_567, 2_500_000_000)],
                         ["0 b", "9,999 b", "10 kb", "1.23 Mb", "2,500 Mb"])
        self.assertEqual(escaped("<\x00\x7f\udcff\t>"), "&lt;\u2400\u2421\ufffd\t&gt;")
        self.assertEqual((is_whole("a\tb"), is_whole("a\rb")), (True, False))
        self.assertEqual(shortened("x" * 30), "x" * 22 + "…")

"""`agree`: two scripts over one track, beside a slow model of what comes of each record."""
import random
import re
from collections import Counter, defaultdict

from helpers import Case, Outcome, script_of, tabs
from pages import Page
from random_tracks import LENGTHS, WIDTHS, Maker
from slow_track import ABSENT, BAD, DIFFERS, Slow

ALIKE, OTHERWISE, ONLY_A, ONLY_B = KINDS = "alike", "otherwise", "only A", "only B"
SEEDS = 60
TITLES = "class\trecord\tA\tB\treason of A\treason of B\n"


class Agree(Case):
    def agree(self, one, other, *words):
        """The status, the rows without their titles, and the messages of two scripts with spaces for TABs."""
        self.scripts = [self.file(name, script_of(text) if text else "") for name, text in (("A", one), ("B", other))]
        outcome = Outcome("agree", self.sizes, self.genes, *self.scripts, *words)
        self.assertTrue(outcome.out.startswith(TITLES), outcome.all)
        rows = [row.replace("\t", "|") for row in outcome.out.split("\n")[1:-1]]
        return outcome.status, rows, outcome.err.replace(f"{self.folder}/", "").split("\n")[:-1]

    def of(self, one, other, *words):
        """The rows alone."""
        return self.agree(one, other, *words)[1]


class Tables(Agree):
    def test_what_comes_of_a_record_counts_and_not_how_it_is_written(self):
        self.genes.write_text(tabs("chr1 100 200 a\nchr1 300 400 b\nchr1 300 400 b\nchr1 600 700 c"))
        for one, other, *rows in (
            ("replace chr1 100 200 a chr1 100 240 a", "replace chr1 100 200 a chr1 0100 230 a\nreplace chr1 100 230 a chr1 100 240 a",
             "alike|chr1 100 200 a|chr1 100 240 a|chr1 100 240 a||"),
            ("replace chr1 100 200 a chr1 150 240 x", "remove chr1 100 200 a\nadd chr1 150 240 x",
             "alike|chr1 100 200 a|chr1 150 240 x|chr1 150 240 x||"),
            ("remove chr1 100 200 a\nadd chr1 150 240 x", "replace chr1 100 200 a chr1 150 240 x",
             "alike|chr1 100 200 a|removed|removed||", "alike||chr1 150 240 x|chr1 150 240 x||"),
            ("remove chr1 100 200 a\nadd chr1 100 200 a", ""),
            ("replace chr1 100 200 a chr1 1 2 x\nreplace chr1 1 2 x chr1 100 200 a", ""),
            ("replace chr1 100 200 a chr1 600 700 c\nreplace chr1 600 700 c chr1 5 6 d", "replace chr1 600 700 c chr1 5 6 d\n"
             "replace chr1 100 200 a chr1 600 700 c", "alike|chr1 100 200 a|chr1 5 6 d|chr1 5 6 d||"),
            ("replace chr1 100 200 a chr1 1 2 x\nreplace chr1 600 700 c chr1 5 6 d\nreplace chr1 1 2 x chr1 600 700 c",
             "replace chr1 100 200 a chr1 5 6 d", "alike|chr1 100 200 a|chr1 5 6 d|chr1 5 6 d||"),
            ("replace chr1 100 200 a chr1 1 2 x\nreplace chr1 600 700 c chr1 3 4 y", "replace chr1 100 200 a chr1 3 4 y\n"
             "replace chr1 600 700 c chr1 1 2 x", "alike|chr1 100 200 a|chr1 1 2 x|chr1 1 2 x||", "alike|chr1 600 700 c|chr1 3 4 y|chr1 3 4 y||"),
            ("remove chr1 100 200 a", "replace chr1 100 200 a chr1 100 250 a", "otherwise|chr1 100 200 a|removed|chr1 100 250 a||"),
            ("remove chr1 100 200 a", "remove chr1 600 700 c", "only A|chr1 100 200 a|removed|||", "only B|chr1 600 700 c||removed||"),
            ("add chr1 5 9 x", "add chr1 5 9 x", "alike||chr1 5 9 x|chr1 5 9 x||"),
            ("add chr1 5 9 x", "add chr1 5 8 x", "otherwise||chr1 5 9 x|chr1 5 8 x||"),
            ("add chr1 5 9 x", "add chr1 5 8 y", "only B|||chr1 5 8 y||", "only A||chr1 5 9 x|||"),
            ("remove chr1 300 400 b\nremove chr1 300 400 b", "remove chr1 300 400 b", "alike|chr1 300 400 b|removed|removed||",
             "only A|chr1 300 400 b|removed|||"),
            ("remove chr1 300 400 b", "replace chr1 300 400 b chr1 1 2 b", "otherwise|chr1 300 400 b|removed|chr1 1 2 b||"),
            ("remove chr1 300 400 b\nreplace chr1 300 400 b chr1 1 2 b", "replace chr1 300 400 b chr1 1 2 b\nremove chr1 300 400 b",
             "alike|chr1 300 400 b|chr1 1 2 b|chr1 1 2 b||", "alike|chr1 300 400 b|removed|removed||"),
            ("resize chr1 2000\nresize chr1 3000", "resize chr1 3000", "alike|chr1 1000|chr1 3000|chr1 3000||"),
            ("resize chr1 2000\nresize chr1 1000", "resize chr2 600", "only B|chr2 500||chr2 600||"),
            ("", ""),
        ):
            with self.subTest(one=one, other=other):
                status, listed, messages = self.agree(one, other)
                counts = Counter(row.partition("|")[0] for row in rows)
                self.assertEqual(sorted(listed), sorted(rows))
                self.assertEqual((status, messages), (int(any(kind != ALIKE for kind in counts)),
                                                      [", ".join(f"{counts[kind]} {kind}" for kind in KINDS)]))

    def test_reasons_of_both(self):
        one = "# it ends later\nreplace chr1 100 200 geneA chr1 100 250 geneA\n# of A\n# together: two\nremove chr1 300 400 geneB\nadd chr2 1 2 x"
        other = """# a step
replace chr1 100 200 geneA chr1 100 230 geneA

remove chr1 300 400 geneB
# a step
# was: remove chr1 1 2
# it ends later
replace chr1 100 230 geneA chr1 100 250 geneA

add chr2 1 2 x"""
        both = self.folder / "both"
        self.assertEqual(self.agree(one, other, "--both", both), (0, [
            "alike|chr1 100 200 geneA|chr1 100 250 geneA|chr1 100 250 geneA|it ends later|a step; it ends later",
            "alike|chr1 300 400 geneB|removed|removed|of A; two|",
            "alike||chr2 1 2 x|chr2 1 2 x|of A; two|"], ["3 alike, 0 otherwise, 0 only A, 0 only B"]))
        self.assertEqual(both.read_text(), script_of("""# it ends later
# a step
replace chr1 100 200 geneA chr1 100 250 geneA
# of A
# two
remove chr1 300 400 geneB
add chr2 1 2 x"""))
        self.agree("remove chr1 300 400 geneB", "remove chr1 300 400 geneB", "--both", both)
        self.assertEqual(both.read_text(), script_of("remove chr1 300 400 geneB"))
        self.agree("# x\nremove chr1 100 200 geneA\n\nremove chr1 300 400 geneB", "remove chr1 100 200 geneA\nremove chr1 300 400 geneB", "--both", both)
        self.assertEqual(both.read_text(), script_of("# x\nremove chr1 100 200 geneA\n\nremove chr1 300 400 geneB"))

    def test_lines_come_when_they_can(self):
        script, both = "remove chr1 300 400 geneB\nresize chr1 350\nresize chr2 600\nadd chr1 250 350 geneB\nadd chr2 510 590 x", self.folder / "both"
        self.assertEqual(self.agree(script, script, "--both", both)[::2], (0, ["5 alike, 0 otherwise, 0 only A, 0 only B"]))
        self.assertEqual(both.read_text(), script_of("resize chr2 600\nremove chr1 300 400 geneB\nadd chr1 250 350 geneB\nadd chr2 510 590 x\n"
                                                     "resize chr1 350"))

    def test_refused_lines_and_what_cannot_be_done_alone(self):
        """B only moves geneA elsewhere than A does; what both add then overlaps the one of the file."""
        added, both = "\nadd chr1 150 190 geneA", self.folder / "both"
        words = "replace chr1 100 200 geneA chr1 5 9 geneA" + added, "replace chr1 100 200 geneA chr1 6 9 geneA" + added + "\nremove chr1 1 2 x"
        status, rows, messages = self.agree(*words, "--both", both)
        self.assertEqual((status, rows), (1, ["otherwise|chr1 100 200 geneA|chr1 5 9 geneA|chr1 6 9 geneA||",
                                              "alike||chr1 150 190 geneA|chr1 150 190 geneA||"]))
        self.assertEqual(messages, ["B: line 3: no such record: chr1 1 2 x",
                                    "both: line 1: there with another start and end: chr1 100 200 geneA; `apply --copies` does it",
                                    "1 alike, 1 otherwise, 0 only A, 0 only B"])
        self.assertEqual(self.agree("remove chr1 1 2 x", "remove chr1 1 2 x")[::2], (1, [
            "A: line 1: no such record: chr1 1 2 x", "B: line 1: no such record: chr1 1 2 x", "0 alike, 0 otherwise, 0 only A, 0 only B"]))

    def test_files(self):
        script = self.file("A", "remove\tchr1\t300\t400\tgeneB\n")
        for option in "--both", "--page":
            self.assertEqual(Outcome("agree", self.sizes, self.genes, script, script, option, self.genes).all, (
                2, "", f"{self.genes}: an input is never written over\n"))
            self.assertEqual(Outcome("agree", self.sizes, self.genes, script, script, option, "-").failed, (
                2, "--both and --page need a file, since the table is on standard output\n"))
        self.assertEqual(Outcome("agree", self.sizes, self.genes, "-", "-").failed, (2, "only one file can be standard input\n"))

    def test_the_page_has_the_rest(self):
        one = "# alike\nremove chr1 300 400 geneB\n# of A\nreplace chr1 100 200 geneA chr1 100 250 geneA\n# in\nadd chr2 1 2 x\nadd chr2 5 x\n"
        one += "replace chr2 1 2 x chr2 1 3 x"
        other = "remove chr1 300 400 geneB\n# of <B>\nreplace chr1 100 200 geneA chr1 90 200 geneA\nremove chr1 1 2 x"
        self.agree(one, other, "--page", self.folder / "page.html")
        text = (self.folder / "page.html").read_text()
        page = Page(text)
        self.assertEqual((page.faults, [card["data-groups"] for card in page.articles.values()]), (
            [], ["otherwise|done", "only A|done", "refused|bad line", "refused|already so"]))
        a, b = self.scripts
        self.assertEqual(re.findall('class=number .*?>(.*?)</a>', text), [
            f"{a}: line 4, {b}: line 3", f"{a}: line 6, {a}: line 8", f"{a}: line 7", f"{b}: line 4"])
        self.assertEqual(re.findall("<p class=reason>(.*?)</p>", text), ["of A", "of &lt;B&gt;", "in", "in", "of &lt;B&gt;"])
        self.assertIn("The numbers before and after are those of what both make alike.", text)
        self.assertIn("records<b>2 → 1 <small>-1</small></b>", text)
        self.assertEqual(["<svg" in card for card in re.findall("<article .*?</article>", text, re.DOTALL)], [True, True, False, True])
        self.assertNotIn("remove  chr1  300", text)


class RandomScripts(Agree):
    """Over random tracks of each format, the second script made of the first one; some with copies."""

    def test_beside_a_slow_model(self):
        self.sizes = self.file("sizes", "".join(f"{name}\t{length}\n" for name, length in LENGTHS.items()))
        seen = Counter()
        for seed in range(SEEDS):
            with self.subTest(seed=seed):
                pick = random.Random(seed)
                maker = Maker(pick, list(WIDTHS)[seed % len(WIDTHS)])
                text, copies = maker.text(maker.file(pick.randrange(4, 12))), seed % 3 == 0
                one = self.lines(maker, text)
                other = [line for listed in (self.like(maker, line) for line in one) for line in listed]
                other += self.lines(maker, text)[:2] if pick.random() < 0.6 else []
                self.check(maker, text, ["\n".join(lines) + "\n" for lines in (one, other)], copies, seen)
        self.assertGreater(min(seen[kind] for kind in (*KINDS, "same", "refused")), SEEDS // 12, seen)

    def lines(self, maker, text):
        """Lines of a script, some of which follow each other."""
        slow, lines = Slow(text, LENGTHS, maker.format), []
        for _ in range(maker.pick.randrange(0, 6)):
            lines += maker.pick.choice([[], [], [], ["# why"], ["# together: all"], [""]])
            lines.append("\t".join(maker.line([copy.row for copy in slow.now()])))
            slow.do(lines[-1])
        return lines

    def like(self, maker, line):
        """Lines that do the same in another way, or something else, or nothing."""
        command, *fields = line.split("\t")
        chance, half = maker.pick.random(), len(fields) // 2
        if command == "replace" and chance < 0.4 and len(fields) == 2 * half:
            return ["\t".join(["remove", *fields[:half]]), "\t".join(["add", *fields[half:]])]
        if chance < 0.5:
            return ["\t".join(maker.line([tuple(fields[:maker.width])]))] if len(fields) >= maker.width else []
        return [line] if chance < 0.9 else []

    def check(self, maker, text, scripts, copies, seen):
        paths = self.file("track.bed", text), *(self.file(name, script) for name, script in zip("AB", scripts)), self.folder / "both"
        words = ["--copies"] * copies
        outcome = Outcome("agree", self.sizes, *paths[:3], "--both", paths[3], *words)
        rows = [tuple(row.split("\t")) for row in outcome.out.split("\n")[1:-1]]
        before = records(Slow(text, LENGTHS, maker.format))
        made, is_refused = [], False
        for script in scripts:
            slow = Slow(text, LENGTHS, maker.format, copies)
            is_refused |= bool({BAD, ABSENT, DIFFERS}.intersection(slow.run(script).values()))
            made.append(records(slow))
        self.assertEqual(outcome.status, int(is_refused or made[0] != made[1]), (outcome.all, scripts))
        for side in 0, 1:
            self.assertEqual(net(rows, side), difference(made[side], before), (outcome.all, scripts))
        self.check_classes(rows)
        slow = Slow(text, LENGTHS, maker.format, copies=True)
        slow.run(paths[3].read_text())
        self.assertEqual(difference(records(slow), before), net([row for row in rows if row[0] == ALIKE], 0), (outcome.all, scripts))
        seen.update(row[0] for row in rows)
        seen.update(["refused"] * is_refused + ["same"] * (bool(rows) and made[0] == made[1]))

    def check_classes(self, rows):
        """Each row has the class that its columns say, and no two rows of one record could be of another one."""
        rest = defaultdict(lambda: (Counter(), Counter()))
        for kind, record, *made, _, _ in rows:
            expected = {(True, True): OTHERWISE, (True, False): ONLY_A, (False, True): ONLY_B}[bool(made[0]), bool(made[1])]
            self.assertEqual(kind, ALIKE if made[0] == made[1] else expected, rows)
            self.assertTrue(not record or record not in made, rows)
            for side in (0, 1) if kind != ALIKE else ():
                rest[record][side][made[side]] += bool(made[side])
        for record, (mine, theirs) in rest.items():
            self.assertEqual(+mine & +theirs, Counter(), (record, rows))
            kinds = {row[0] for row in rows if row[1] == record}
            self.assertFalse(record and {ONLY_A, ONLY_B} <= kinds, (record, rows))


def records(slow):
    """The records of a track, copies counted, with spaces for TABs."""
    return Counter(" ".join(copy.row) for copy in slow.now())


def difference(after, before):
    """The copies that are more or fewer, of each record of which there are."""
    return {record: after[record] - before[record] for record in {*after, *before} if after[record] != before[record]}


def net(rows, side):
    """What the rows say that one of the scripts changes."""
    after, before = Counter(), Counter()
    for row in rows:
        if row[2 + side]:
            before[row[1]] += bool(row[1])
            after[row[2 + side]] += row[2 + side] != "removed"
    return difference(after, before)

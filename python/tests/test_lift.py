"""`lift`: a script of corrections for another assembly, beside a lift of single bases."""
import gzip
import random
from collections import Counter

from bedkeep.chains import Chains, Unlifted
from bedkeep.commands.corrections import read_text
from helpers import Case, Outcome, script_of, tabs

# Of chr1, of 1000 bases: 0-200 is 50-250 of n1, 210-300 is 250-340. 400-500 is 100-200 of n2 from its end, of 900 bases: 700-800.
CHAINS = """
chain 500 chr1 1000 + 0 300 n1 2000 + 50 340 1
200 10 0
90

chain 400.5 chr1 1000 + 400 500 n2 900 - 100 200 2
100
"""
# A worse chain over 150-300, and one over chr2 that has a gap on both sequences.
MORE = CHAINS + """# comments and empty lines are nothing
chain 30 chr1 1000 + 150 300 n3 500 + 0 150 3
150
chain 9 chr2 100 + 0 90 n4 100 + 0 80
40 20 10
30
"""
FLIPPED = {"+": "-", "-": "+", ".": "."}


class Lift(Case):
    def setUp(self):
        super().setUp()
        self.chain = self.file("chain", MORE)

    def lifted(self, script, *words):
        """The status, the lines with spaces for TABs, and the messages without the script's name."""
        self.script_file = self.file("corrections", script_of(script))
        outcome = Outcome("lift", self.chain, self.script_file, *words)
        self.text = outcome.out
        return (outcome.status, outcome.out.replace("\t", " ").split("\n")[:-1],
                outcome.err.replace(f"{self.script_file}: ", "").split("\n")[:-1])

    def one(self, line, *words):
        """The line that comes of one line, or the reason for which it isn't lifted."""
        status, lines, messages = self.lifted(line, *words)
        if status:
            self.assertEqual((lines[1:], messages), ([f"# {line}"], [f"line 1: {lines[0][2:]}"]))
            return lines[0].partition("# not lifted: ")[2]
        return lines[0]

    def test_records(self):
        self.each(self.one, (
            ("add chr1 10 20", "add n1 60 70"),
            ("remove chr1 0010 020 a 0 -", "remove n1 60 70 a 0 -"),
            ("addb chr1 190 220 x", "addb n3 40 70 x"),
            ("add chr1 400 410 a 0 +", "add n2 790 800 a 0 -"),
            ("replace chr1 400 500 a 0 - chr1 410 500 b 5 .", "replace n2 700 800 a 0 + n2 700 790 b 5 ."),
            ("removeb chr1 499 500", "removeb n2 700 701"),
            ("replaceb chr1 10 20 chr1 410 420", "split: its two records are in different chains"),
            ("replace chr1 10 20 chr2 0 5", "replace n1 60 70 n4 0 5"),
            ("replace chr1 10 20 chr1 160 180", "replace n1 60 70 n1 210 230"),
            ("add chr1 300 310", "deleted: no base is in a block"),
            ("add chr1 600 1000", "deleted: no base is in a block"),
            ("add chr2 30 50", "partly deleted: the end is in no block"),
            ("add chr2 50 70", "partly deleted: the start is in no block"),
            ("add chr2 45 55", "deleted: no base is in a block"),
            ("add chr2 40 90", "partly deleted: the start is in no block"),
            ("add chr2 20 80", "partly deleted: 20 of 60 bases are in no block"),
            ("add chr1 350 510", "partly deleted: both ends are in no block"),
            ("add chr1 250 450", "split: the ends are in different chains"),
            ("add chr9 1 2", "no chain is over chr9"),
            ("add chr1 990 1001", "chr1 ends at 1000 in the chain file"),
            ("resize chr1 2000", "a length is that of its assembly"),
            ("add chr1 5 x", "no record can be read in it"),
            ("add chr1 5 5", "no record can be read in it"),
            ("replace chr1 1 2 chr1", "no record can be read in it"),
            ("add chr1 1 2 a 0 x", "no record can be read in it"),
            ("show genes chr1 10 20", "show genes n1 60 70"),
            ("showall chr1 400 500", "showall n2 700 800"),
            ("showall genes chr1 10 20", "no record can be read in it"),
        ))
        self.assertEqual(self.one("add chr2 20 80", "--min-match", "2/3"), "add n4 20 70")

    def test_the_best_chain_that_has_the_whole_record(self):
        """150-300 is in two chains, of which the worse one has no gap."""
        self.each(self.one, (
            ("add chr1 155 165", "add n1 205 215"),
            ("add chr1 195 215", "add n3 45 65"),
            ("add chr1 150 299", "add n3 0 149"),
            ("add chr1 0 220", "add n1 50 260"),
            ("replace chr1 195 215 chr1 195 300", "replace n3 45 65 n3 45 150"),
            ("replace chr1 100 200 chr1 200 215", "split: its two records are in different chains"),
        ))

    def test_columns_after_the_sixth_go_along(self):
        self.each(self.one, (
            ("add chr1 400 500 a 0 + 410 450 0", "add n2 700 800 a 0 - 750 790 0"),
            ("add chr1 400 500 a 0 + 0 0 0 3 10,10,20, 0,40,80,", "add n2 700 800 a 0 - 0 0 0 3 20,10,10, 0,50,90,"),
            ("add chr1 400 500 a 0 + 400 400 0 2 10,10 0,90", "add n2 700 800 a 0 - 700 700 0 2 10,10 0,90"),
            ("add chr1 190 300 a 0 + 190 300 0 2 10,80 0,30", "add n1 240 340 a 0 + 240 340 0 2 10,80 0,20"),
            ("add chr1 400 500 a 0 . 1 -1 -1 10", "add n2 700 800 a 0 . 1 -1 -1 89"),
            ("remove chr1 400 500 a 0 . 1 -1 -1 -1", "remove n2 700 800 a 0 . 1 -1 -1 -1"),
            ("add chr1 400 500 a 0 + some text", "add n2 700 800 a 0 - some text"),
            ("replace chr1 400 500 100 500 + chr1 400 490 100 500 + 1 -1 -1 10",
             "replace n2 700 800 100 500 - n2 710 800 100 500 - 1 -1 -1 79"),
            ("replace chr1 400 500 a 0 + 410 450 0 chr1 400 490 a 0 + 410 450 0",
             "replace n2 700 800 a 0 - 750 790 0 n2 710 800 a 0 - 750 790 0"),
            ("replace chr1 400 500 a 0 + 410 450 chr1 400 490 a 0 +", "replace n2 700 800 a 0 - 750 790 n2 710 800 a 0 -"),
            ("add chr2 0 90 a 0 + 5 50 0", "partly deleted: an end of the thick part is in no block"),
            ("add chr2 0 90 a 0 + 0 0 0 2 10,35 0,55", "partly deleted: an end of a block is in no block"),
            ("add chr2 0 90 a 0 + 1 -1 -1 45", "partly deleted: an end of the summit is in no block"),
            ("add chr2 0 90 a 0 + 0 0 0 2 10,30 0,50", "blocks end 80 after the start, the record 90"),
            ("add chr2 0 90 a 0 + 0 0 0 2 010,30 0,60", "its blocks have numbers with zeros before them"),
        ), "--min-match", "0.5")

    def each(self, call, cases, *words):
        super().each(lambda line: call(line, *words), cases)

    def test_reasons_stay_with_their_lines(self):
        status, lines, messages = self.lifted("""# the first
# in two lines
add chr1 10 20 a
add chr1 300 310 b
# of what is deleted
remove chr1 300 310 c
# was: remove chr1 1 2
# another
add chr1 20 30 d
# of two, and the first is deleted
remove chr1 300 310 f
remove chr1 30 40 f

# together: a split
replace chr1 10 20 e chr1 10 15 e
add chr1 350 360 e
show genes chr9 1 2
# alone
open genes merge
add chr1 400 410
  spaces
resize chr1 5
# the last
add chr9 1 2""")
        self.assertEqual(lines, """# the first
# in two lines
add n1 60 70 a
# not lifted: deleted: no base is in a block
# add chr1 300 310 b

# of what is deleted
# not lifted: deleted: no base is in a block
# remove chr1 300 310 c
# was: remove chr1 1 2

# another
add n1 70 80 d
# of two, and the first is deleted
# not lifted: deleted: no base is in a block
# remove chr1 300 310 f
remove n1 80 90 f

# together: a split
# not lifted: line 16 of its group isn't
# replace chr1 10 20 e chr1 10 15 e
# not lifted: deleted: no base is in a block
# add chr1 350 360 e
# not lifted: no chain is over chr9
# show genes chr9 1 2

# alone
open genes merge
add n2 790 800
  spaces
# not lifted: a length is that of its assembly
# resize chr1 5

# the last
# not lifted: no chain is over chr9
# add chr9 1 2""".split("\n"))
        self.assertEqual((status, [message.split(": ")[0] for message in messages]), (
            1, [f"line {place}" for place in (4, 6, 11, 15, 16, 17, 21, 22, 24)]))
        self.assertIn("line 21: not lifted: it is no correction, and stays as it is", messages)
        reasons = {line.text.split("\t")[-1]: line.comments for line in read_text(self.text) if line.is_run}
        self.assertEqual(reasons, {"a": ("the first", "in two lines"), "d": ("another",), "f": ("of two, and the first is deleted",),
                                   "800": ("alone",), "spaces": ("alone",)})

    def test_changed_lengths_are_said(self):
        self.assertEqual(self.lifted("replace chr1 0 300 a chr1 10 200 a", "--min-match", "0.5"), (
            0, ["replace n1 50 340 a n1 60 250 a"], ["line 1: lifted, but 10 bases shorter: chr1 0 300 a"]))

    def test_then_replay_decides(self):
        """The release has the gene five bases later."""
        self.lifted("# geneE ends later\nreplace chr1 400 500 geneE chr1 400 480 geneE", "-o", self.folder / "lifted")
        sizes, bed = self.file("new.sizes", "n2\t900\n"), self.file("new.bed", "n2\t705\t805\tgeneE\n")
        Outcome("replay", sizes, bed, self.folder / "lifted", "--mend", self.folder / "mended")
        self.assertEqual((self.folder / "mended").read_text().replace("\t", " "), "# geneE ends later\n"
                         "# was: replace n2 700 800 geneE n2 720 800 geneE\nreplace n2 705 805 geneE n2 725 805 geneE\n")

    def test_files(self):
        script = self.file("script.gz", gzip.compress(tabs("add chr1 10 20").encode()))
        packed = self.file("chain.gz", gzip.compress(MORE.replace("\n", "\r\n").encode()))
        self.assertEqual(Outcome("lift", packed, script).all, (0, tabs("add n1 60 70"), ""))
        for words, said in (((script, self.chain), "line 1: a chain begins with a line of `chain` and 11 or 12 more fields, and not with 'add chr1 10 20'"),
                            ((self.file("empty", "# x\n"), script), "there is no chain")):
            self.assertEqual(Outcome("lift", *words).all, (2, "", f"{words[0]}: {said}\n"))
        self.assertEqual(Outcome("lift", packed, script, "-o", script).failed, (2, f"{script}: an input is never written over\n"))
        self.assertEqual(Outcome("lift", "-", "-").failed, (2, "only one file can be standard input\n"))
        for part in "0", "2", "x", "1/0":
            self.assertIn("it is above 0 and at most 1", Outcome("lift", packed, script, "--min-match", part).err)

    def test_damaged_chains(self):
        head = "chain 5 chr1 1000 + 0 30 n1 2000 + 0 30 1"
        blocks = "each block of a chain is its size and the two gaps after it, and the last one its size alone"
        bounds = "the start is below the end, and the end within the length, and not"
        for text, line, said in (
            (f"{head}\n10 0 0\n20\n5\n", 3, blocks),
            (f"{head}\n10 0\n20\n", 2, blocks),
            (f"#\n\n{head}\n10 0 x\n20\n", 4, blocks),
            (f"{head}\n10 0 -1\n20\n", 2, blocks),
            (f"{head}\n10 0 99999999999\n20\n", 2, blocks),
            (f"{head}\n", 1, blocks),
            (f"{head}\n30 0 0\n{head}\n30\n", 2, blocks),
            (f"{head}\n30\n{head}\n10 0 0\n10\n", 5, "the blocks end at 20 and 20, and the chain at 30 and 30"),
            (f"{head}\n10 0 1\n20\n", 3, "the blocks end at 30 and 31, and the chain at 30 and 30"),
            (head.replace("5 chr1", "x chr1"), 1, "the score is not a number: 'x'"),
            (head.replace("1000 +", "1000 -"), 1, "the strands of a chain are + and then + or -, and not - and +"),
            (head.replace("2000 +", "2000 ."), 1, "the strands of a chain are + and then + or -, and not + and ."),
            (head.replace("1000", "-1"), 1, "a length, a start and an end are whole numbers, and not -1 0 30"),
            (head.replace("1000", "29"), 1, f"{bounds} 0, 30 and 29"),
            (head.replace("+ 0 30 1", "+ 30 30 1"), 1, f"{bounds} 30, 30 and 2000"),
            ("chain 5 chr1", 1, "a chain begins with a line of `chain` and 11 or 12 more fields, and not with 'chain 5 chr1'"),
        ):
            with self.subTest(text):
                chain, script = self.file("damaged", text), self.file("corrections", "add\tchr1\t1\t2\n")
                self.assertEqual(Outcome("lift", chain, script, "-o", self.folder / "out").all, (2, "", f"{chain}: line {line}: {said}\n"))
                self.assertFalse((self.folder / "out").exists())


class Bases(Case):
    def test_beside_a_lift_of_single_bases(self):
        seen = Counter()
        for seed in range(300):
            pick = random.Random(seed)
            chains = [self.chain(pick, number) for number in range(pick.randrange(1, 5))]
            text = "\n".join(text for text, *_ in chains)
            lifts = Chains(self.file("chain", text), {"c"})
            for _ in range(60):
                start = pick.randrange(0, 70)
                record = ["c", str(start), str(start + pick.randrange(1, 40)), "x", "0", pick.choice("+-.")]
                wanted = self.slowly(record, chains)
                with self.subTest(seed=seed, record=record):
                    try:
                        self.assertEqual(lifts.lift([record]), [wanted], text)
                        seen["lifted"] += 1
                    except Unlifted as failure:
                        self.assertEqual(str(failure).split(":")[0], wanted, text)
                        seen[wanted] += 1
        self.assertEqual(sum(seen.values()), 18_000)
        self.assertGreater(min(seen[what] for what in ("lifted", "deleted", "partly deleted", "split")), 500, seen)

    def chain(self, pick, number):
        """The text of a chain, its score, its sequence, and the base and the strand that each base is paired with."""
        start, there, length, strand, score = pick.randrange(0, 40), pick.randrange(0, 20), 500, pick.choice("+-"), pick.randrange(1, 5)
        pairs, rows, old, new = {}, [], start, there
        count = pick.randrange(1, 5)
        for at in range(count):
            size = pick.randrange(1, 30)
            pairs.update({old + base: new + base if strand == "+" else length - 1 - new - base for base in range(size)})
            gaps = pick.choice([(0, 3), (4, 0), (2, 5), (1, 0), (0, 0)]) if at < count - 1 else ()
            rows.append("\t".join(map(str, (size, *gaps))))
            old, new = (place + size + gap for place, gap in zip((old, new), gaps or (0, 0)))
        head = f"chain {score} c 500 + {start} {old} n{number} {length} {strand} {there} {new} {number}"
        return "\n".join([head, *rows, ""]), score, f"n{number}", pairs, strand

    def slowly(self, record, chains):
        """The lifted record, or the word for why it isn't lifted: base by base."""
        bases = range(int(record[1]), int(record[2]))
        ends = [[bases[end] in pairs for _, _, _, pairs, _ in chains] for end in (0, -1)]
        whole = [chain for chain, first, last in zip(chains, *ends)
                 if first and last and 20 * sum(base in chain[3] for base in bases) >= 19 * len(bases)]
        if whole:
            best = max(chain[1] for chain in whole)
            _, _, name, pairs, strand = next(chain for chain in whole if chain[1] == best)
            put = sorted(pairs[base] for base in bases if base in pairs)
            return [name, str(put[0]), str(put[-1] + 1), "x", "0", record[5] if strand == "+" else FLIPPED[record[5]]]
        if any(first and last for first, last in zip(*ends)):
            return "partly deleted"
        if any(ends[0]) and any(ends[1]):
            return "split"
        return "partly deleted" if any(base in chain[3] for chain in chains for base in bases) else "deleted"

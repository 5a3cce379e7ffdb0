"""`diff`: the script between two files, over which `apply` gives the second one."""
import gzip
import os
import random
import re
import subprocess
import sys
from collections import Counter
from unittest import mock

import bedkeep
from helpers import Case, Outcome, tabs
from test_replay import LENGTHS, altered, some_record


class Diff(Case):
    def setUp(self):
        super().setUp()
        self.sizes = self.file("sizes", "".join(f"{name}\t{length}\n" for name, length in LENGTHS.items()))

    def files(self, old, new):
        return self.file("old.bed", tabs(old) if old else ""), self.file("new.bed", tabs(new) if new else "")

    def script(self, old, new):
        """The lines with spaces for TABs."""
        return [line.replace("\t", " ") for line in bedkeep.diff(*self.files(old, new))]


class Changes(Diff):
    def test_what_becomes_of_what(self):
        self.assertEqual(self.script("chr1 1 2 a\nchr1 5 6 b\nchr1 7 8 c\nchr1 9 10 .", "chr1 1 3 a\nchr1 5 6 d\nchr2 1 2 .\nchr1 9 10 ."), [
            "", "replace chr1 1 2 a chr1 1 3 a", "replace chr1 5 6 b chr1 5 6 d", "remove chr1 7 8 c", "add chr2 1 2 ."])
        self.assertEqual(self.script("chr1 1 5\nchr1 7 9", "chr1 7 8\nchr1 2 5"), [
            "", "replace chr1 1 5 chr1 2 5", "replace chr1 7 9 chr1 7 8"])
        self.assertEqual(self.script("chr1 1 2 a\nchr1 1 2 a", "chr1 1 2 a"), ["", "remove chr1 1 2 a"])
        self.assertEqual(self.script("", "chr1 01 2"), ["", "add chr1 1 2"])
        self.assertEqual(self.script("chr1 5 9 a 0 +", "chr2 5 9 a 0 +\nchr1 50 90 a 0 -\nchr1 70 90 a 0 +"), [
            "", "replace chr1 5 9 a 0 + chr1 70 90 a 0 +", "add chr2 5 9 a 0 +", "add chr1 50 90 a 0 -"])
        wide = "chr1 5 9 a 0 + 5 9 0"
        self.assertEqual(self.script(f"{wide}\n{wide}", f"{wide}\n{wide[:-1]}9"), ["", f"replace {wide} {wide[:-1]}9"])

    def test_numbers_and_line_ends_are_no_difference(self):
        old = self.file("old.bed", "track name=x\nchr1\t1\t2\ta\r\n\r\nchr1\t05\t6\tb\n")
        new = self.file("new.bed", "chr1\t5\t6\tb\n# x\nchr1\t01\t2\ta")
        self.assertEqual(bedkeep.diff(old, new), [])

    def test_many_headers_between_records(self):
        old = self.file("old.bed", "chr1\t1\t2\n" + "# x\n" * 9000 + "chr1\t5\t6\n")
        new = self.file("new.bed", "# x\n" * 9000 + "chr1\t1\t2\n" + "# x\n" * 9000 + "chr1\t5\t7\n")
        self.assertEqual(bedkeep.diff(old, new), ["", "replace\tchr1\t5\t6\tchr1\t5\t7"])

    def test_packed_and_piped_files(self):
        old, new = self.files("chr1 1 2 a\nchr1 5 6 b", "chr1 5 6 b\nchr1 3 4 c")
        packed = self.file("old.bed.gz", gzip.compress(old.read_bytes()))
        wanted = "\nremove\tchr1\t1\t2\ta\nadd\tchr1\t3\t4\tc\n"
        self.assertEqual(Outcome("diff", packed, new).out, wanted)
        run = subprocess.run([sys.executable, "-m", "bedkeep", "diff", "-", new], input=packed.read_bytes(), capture_output=True)
        self.assertEqual((run.returncode, run.stdout.decode(), run.stderr), (0, wanted, b""))

    def test_a_common_name_costs_no_look_at_all_of_its_records(self):
        old = self.file("old.bed", "".join(f"chr1\t{10 * at}\t{10 * at + 5}\tAluY\n" for at in range(30_000)))
        new = self.file("new.bed", "".join(f"chr1\t{10 * at + 1}\t{10 * at + 6}\tAluY\n" for at in range(30_000)))
        self.assertEqual(len(bedkeep.diff(old, new)), 60_001)

    def test_what_cannot_be_compared(self):
        old, new = self.files("chr1 1 2 a", "chr1 1 2 a 0 +")
        spaces, ragged = self.file("spaces.bed", "chr1 1 2 a\n"), self.file("ragged", tabs("chr1 1 2 a\nchr1 1 2"))
        for first, second, said in (
                ("-", "-", "only one file can be standard input"), (old, new, f"cut -f1-4 {new}"), (new, old, f"cut -f1-4 {new}"),
                (old, spaces, f"{spaces}: line 1: wrong number of columns"), (old, spaces, "spaces instead of TABs"),
                (old, self.file("end.bed", tabs("chr1 1 2 a\nchr1 5 x b")), "end.bed: line 2: end is not a number"),
                (self.file("wide.bed", tabs("chr1 1 2 a 0 + 1 2\nchr1 x 2 b 0 + 1 2")), self.file("one.bed", tabs("chr1 1 2 a 0 + 1 2")),
                 "wide.bed: line 2: start is not a number"), (old, ragged, f"{ragged}: record 2: wrong number of columns\n")):
            outcome = Outcome("diff", first, second)
            self.assertEqual(outcome.gave, (2, ""))
            self.assertIn(said, outcome.err)
        with mock.patch.dict(os.environ, BEDKEEP="absent"):  # Nothing says more of the file then.
            self.assertEqual(Outcome("diff", old, spaces).all, (2, "", f"{spaces}: it is no BED file\n"))

    def test_a_reader_that_has_enough_is_no_failure(self):
        old, new = self.file("old.bed", ""), self.file("new.bed", "".join(f"chr1\t{at}\t{at + 1}\n" for at in range(50_000)))
        words = f"set -o pipefail; {sys.executable} -m bedkeep diff {old} {new} | head -n 2"
        run = subprocess.run(["bash", "-c", words], capture_output=True)
        self.assertEqual((run.stdout, run.stderr), (b"\nadd\tchr1\t0\t1\n", b""))


class Together(Diff):
    """Splits and joins are paragraphs of lines that are done together."""

    def test_a_split(self):
        for name, parts in ("A", "A A"), ("A", "B C"), ("A", "A C"):
            first, second = parts.split()
            script = self.script(f"chr1 5 9 x 0 +\nchr1 100 400 {name} 0 +\nchr1 500 600 y 0 +",
                                 f"chr1 100 200 {first} 0 +\nchr1 250 400 {second} 0 +\nchr1 500 600 z 0 +")
            pieces = {f"chr1 100 200 {first} 0 +", f"chr1 250 400 {second} 0 +"}
            self.assertEqual(script[:5], ["", "remove chr1 5 9 x 0 +", "replace chr1 500 600 y 0 + chr1 500 600 z 0 +",
                                          "", "# together: split of A"])
            replaced, added = script[5].partition(" 0 + ")[2], script[6].partition(" ")[2]
            self.assertTrue(script[5].startswith("replace chr1 100 400 A 0 + ") and script[6].startswith("add "))
            self.assertEqual({replaced, added}, pieces)

    def test_a_join(self):
        for names in "A A", "A B", "B C":
            first, second = names.split()
            script = self.script(f"chr1 100 200 {first} 0 +\nchr1 5 9 x 0 +\nchr1 250 400 {second} 0 +", "chr1 100 400 A 0 +")
            title = "A" if first == second else f"{first} and {second}"
            self.assertEqual(script[:4], ["", "remove chr1 5 9 x 0 +", "", f"# together: join of {title}"])
            taken = {script[4][8:-len(" chr1 100 400 A 0 +")], script[5][7:]}
            self.assertEqual(taken, {f"chr1 100 200 {first} 0 +", f"chr1 250 400 {second} 0 +"})

    def test_records_without_a_name(self):
        self.assertEqual(self.script("chr1 100 400", "chr1 100 200\nchr1 250 400"), [
            "", "# together: split of chr1 100 400", "replace chr1 100 400 chr1 100 200", "add chr1 250 400"])

    def test_what_is_no_split(self):
        for new in ("chr1 100 200 B 0 +\nchr1 250 400 C 0 -",  # on two strands
                    "chr1 100 300 B 0 +\nchr1 250 400 C 0 +",  # they overlap
                    "chr1 100 200 B 0 +\nchr1 250 390 C 0 +",  # other names, and they don't fill it
                    "chr1 100 390 A 0 +\nchr1 500 600 A 0 +",  # the second one is elsewhere
                    "chr1 100 200 B 0 +\nchr2 250 400 C 0 +"):
            self.assertNotIn("together", "".join(self.script("chr1 100 400 A 0 +", new)), new)

    def test_a_script_appended_takes_no_reason(self):
        old, new = self.files("chr1 1 2 a", "chr1 1 3 a")
        script = self.file("script", "# why b\nremove\tchr1\t5\t6\tb\n" + Outcome("diff", old, new).out)
        self.assertEqual([line.comments for line in bedkeep.commands.corrections.read_lines([str(script)])][1::2], [("why b",), ()])


class Copies(Diff):
    def copies(self, old, new):
        return Outcome("diff", *self.files(old, new)).err

    def test_what_apply_leaves_out_is_counted(self):
        rest = " a copy, or a record over another one of its name: `apply --copies` carries these out\n"
        self.assertEqual(self.copies("chr1 1 9 a", "chr1 1 9 a\nchr1 1 9 a"), f"1 line adds{rest}")
        self.assertEqual(self.copies("chr1 1 9", "chr1 1 9\nchr1 1 9\nchr1 1 9"), f"2 lines add{rest}")
        self.assertEqual(self.copies("chr1 1 9 a", "chr1 1 9 a\nchr1 9 12 a"), "")

    def test_it_is_what_apply_leaves_out(self):
        for seed in range(60):
            pick = random.Random(seed)
            width = pick.choice([3, 4, 6])
            old, more = ([some_record(pick)[:width] for _ in range(count)] for count in (pick.randint(1, 12), pick.randint(0, 4)))
            new = more + [pick.choice(old) for _ in range(pick.randint(0, 2))]
            for one in old:
                chance, (start, end) = pick.random(), map(int, one[1:3])
                middle = str((start + end) // 2)
                split = [(*one[:2], middle, *one[3:]), (one[0], middle, *one[2:])] if end - start > 1 else []
                new += split if chance < 0.15 else [one] if chance < 0.85 else []
            files = ["\n".join(map(" ".join, records)) for records in (old, new)]
            script = self.file("script", Outcome("diff", *self.files(*files)).out)
            counted = re.match("([0-9]*)", self.copies(*files))[0] or 0
            left = re.findall("already there:|there with another", Outcome("apply", self.sizes, self.folder / "old.bed", script).err)
            self.assertEqual(len(left), int(counted), seed)


class Replayed(Diff):
    def test_replayed_it_gives_the_second_file(self):
        """Also if copies of a record have other columns after the sixth."""
        for seed in range(80):
            with self.subTest(seed=seed):
                pick = random.Random(seed)
                width = pick.choice([3, 4, 5, 6, 6, 7, 7])
                old = [some_record(pick) for _ in range(pick.choice([0, 1, 5, 30]))]
                new = [altered(pick, one) if pick.random() < 0.5 else one for one in old if pick.random() < 0.8]
                new += [pick.choice([*old, some_record(pick)]) for _ in range(pick.choice([0, 1, 5]))]
                old, new = ([" ".join([*one, pick.choice("xy")][:width]) for one in records] for records in (old, new))
                pick.shuffle(new)
                first, second = self.files("\n".join(old), "\n".join(new))
                script = self.file("script", Outcome("diff", first, second).out)
                outcome = Outcome("apply", self.sizes, first, script, "--strict", "--copies")
                self.assertEqual((outcome.status, outcome.err), (0, ""))
                self.assertEqual(sorted(outcome.out.split("\n")), sorted(second.read_text().split("\n")))

    def test_no_line_is_for_what_both_have(self):
        for seed in range(60):
            pick = random.Random(seed)
            old, new = ([str(pick.randrange(12)) for _ in range(pick.choice([0, 5, 40]))] for _ in range(2))
            gone, come = Counter(old) - Counter(new), Counter(new) - Counter(old)
            paths = self.files("\n".join(f"chr1 {one} 99 g{one}" for one in old), "\n".join(f"chr1 {one} 99 g{one}" for one in new))
            taken, put = Counter(), Counter()
            for line in filter(None, bedkeep.diff(*paths)):
                command, *fields = line.split("\t")
                taken.update(fields[1:2] if command != "add" else [])
                put.update(fields[-3:-2] if command != "remove" else [])
            self.assertEqual((taken, put), (gone, come), seed)

import random
import shutil
import subprocess
import unittest

from helpers import Case, Outcome, printed


@unittest.skipUnless(shutil.which("bgzip") and shutil.which("tabix"), "bgzip and tabix are not installed")
class Windows(Case):
    """Runs by windows print what one run prints."""

    def setUp(self):
        super().setUp()
        pick = random.Random(3)
        self.sizes = self.file("sizes", "# of a release\nchrom\tsize\nchr1\t2000\nchr2\t900\nempty\t0\nchr3\t50\n")
        self.first, self.second = self.indexed("first", pick, 120), self.indexed("second", pick, 40)

    def indexed(self, name, pick, count):
        rows = []
        for number in range(count):
            sequence, length = pick.choice([("chr1", 2000), ("chr2", 900)])
            start = pick.randrange(length - 40)
            rows.append((sequence, start, start + pick.randint(1, 40), f"n{number % 9}", number % 7, pick.choice("+-.")))
        bed = self.file(f"{name}.bed", "".join("\t".join(map(str, row)) + "\n" for row in sorted(rows)))
        with open(f"{bed}.gz", "wb") as packed:
            subprocess.run(["bgzip", "-c", bed], stdout=packed, check=True)
        subprocess.run(["tabix", "-C", "-p", "bed", f"{bed}.gz"], check=True)
        return bed

    def check(self, *words, window=170):
        packed = [f"{word}.gz" if word in (self.first, self.second) else word for word in words]
        by_windows = Outcome("windows", "--window", window, "--jobs", 2, *packed)
        self.assertEqual((by_windows.status, by_windows.err), (0, ""))
        self.assertEqual([row.split("\t") for row in by_windows.out.split("\n")[:-1]], printed(*words))

    def test_each_subcommand(self):
        one, both = ["-g", self.sizes, "-i", self.first], ["-g", self.sizes, "-a", self.first, "-b", self.second]
        for words in (["merge", *one], ["merge", *one, "-d", "5"], ["complement", *one, "-L"], ["genomecov", *one, "-bga"],
                      ["cluster", *one], ["merge", *one, "-s"], ["intersect", *both, "-wa", "-wb"], ["subtract", *both]):
            with self.subTest(words[0]):
                self.check(*words)

    def test_a_window_with_too_many_records_is_halved(self):
        self.check("merge", "-g", self.sizes, "-i", self.first, "-limit", "200", window=5000)
        words = ["merge", "-g", self.sizes, "-i", f"{self.first}.gz", "-limit", "40"]
        self.assertEqual(Outcome("windows", "--window", 5000, *words).out.split("\n")[:-1],
                         ["\t".join(row) for row in printed("merge", "-g", self.sizes, "-i", self.first)])

    def test_one_window_and_the_join_of_all(self):
        words = ["merge", "-g", self.sizes, "-i", f"{self.first}.gz"]
        whole = Outcome("windows", "--window", 500, *words).out
        rows, number = self.folder / "rows", 0
        rows.mkdir()
        while (part := Outcome("windows", "--window", 500, "--only", number, *words)).status == 0:
            (rows / str(number)).write_text(part.out)
            number += 1
        self.assertEqual((part.status, part.err), (2, f"there is no window {number}\n"))
        self.assertEqual(Outcome("windows", "--window", 500, "--join", rows, *words).out, whole)

    def test_a_track_that_apply_packed(self):
        packed = self.folder / "corrected.bed.gz"
        self.assertEqual(Outcome("apply", self.sizes, self.first, self.file("none", ""), "-o", packed).all, (0, "", ""))
        subprocess.run(["tabix", "-p", "bed", packed], check=True)
        found = subprocess.run(["tabix", packed, "chr2"], capture_output=True, check=True).stdout.decode()
        self.assertEqual(found, "".join(line for line in self.first.read_text().splitlines(True) if line.startswith("chr2\t")))

    def test_a_file_of_another_format(self):
        """Its rows were those of no record."""
        text = "chr1\tx\tgene\t100\t200\t.\t+\t.\tID=a\n"
        packed = self.folder / "other.gff.gz"
        packed.write_bytes(subprocess.run(["bgzip"], input=text.encode(), stdout=subprocess.PIPE, check=True).stdout)
        subprocess.run(["tabix", "-p", "gff", packed], check=True)
        outcome = Outcome("windows", "--window", 500, "records", "-g", self.sizes, "-i", packed)
        self.assertEqual(outcome.gave, (2, ""))
        self.assertRegex(outcome.err, f"(?s)^{packed}: line 1: .*looks like GFF.*awk")

    def test_what_is_refused(self):
        self.assertEqual(Outcome("windows", "--window", 0, "merge").status, 2)
        self.assertEqual(Outcome("windows", "merge", "-g", self.sizes).err, "a run names its genome file and its BED file\n")
        short = self.file("short", "chr1\t2000\n")
        refused = Outcome("windows", "merge", "-g", short, "-i", f"{self.first}.gz")
        self.assertEqual((refused.status, refused.err), (2, f"{self.first}.gz: unknown sequence: chr2\n"))

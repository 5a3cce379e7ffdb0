import importlib
import os
import pkgutil
import re
import subprocess
import sys
import time

import bedkeep
from helpers import EXAMPLES, PROGRAM, Case, children, many, printed, texts

GENOME, GENES, MASK = EXAMPLES / "human.genome", EXAMPLES / "genes.bed", EXAMPLES / "mask.bed"
CONTIGS, CODING, BASES = EXAMPLES / "contigs.genome", EXAMPLES / "coding.bed", EXAMPLES / "contigs.fa"


class Runs(Case):
    def test_each_run_gives_the_rows_of_the_program(self):
        one, coding = ("-g", GENOME, "-i", GENES), ("-g", CONTIGS, "-i", CODING)
        two = ("-g", GENOME, "-a", GENES, "-b", MASK)
        for rows, words in (
            (bedkeep.merge(GENOME, GENES), ("merge", *one)),
            (bedkeep.merge(GENOME, GENES, d=0), ("merge", *one)),
            (bedkeep.merge(GENOME, GENES, d=5_000_000), ("merge", "-d", 5_000_000, *one)),
            (bedkeep.merge(CONTIGS, CODING, s=True, c=4, o=["count", "distinct"]),
             ("merge", "-s", "-c", "4", "-o", "count,distinct", *coding)),
            (bedkeep.merge(CONTIGS, CODING, d=100, c=[4, 5], o=["collapse", "max"]),
             ("merge", "-d", "100", "-c", "4,5", "-o", "collapse,max", *coding)),
            (bedkeep.merge(CONTIGS, CODING, c=[5]), ("merge", "-c", "5", *coding)),
            (bedkeep.cluster(GENOME, GENES, d=5_000_000), ("cluster", "-d", "5000000", *one)),
            (bedkeep.complement(GENOME, GENES), ("complement", *one)),
            (bedkeep.complement(GENOME, GENES, L=True), ("complement", "-L", *one)),
            (bedkeep.genomecov(GENOME, GENES, bg=True), ("genomecov", "-bg", *one)),
            (bedkeep.genomecov(GENOME, GENES, bga=True), ("genomecov", "-bga", *one)),
            (bedkeep.genomecov(CONTIGS, CODING, d=True), ("genomecov", "-d", *coding)),
            (bedkeep.intersect(GENOME, GENES, MASK), ("intersect", *two)),
            (bedkeep.intersect(GENOME, GENES, MASK, wa=True, wb=True), ("intersect", "-wa", "-wb", *two)),
            (bedkeep.intersect(GENOME, GENES, MASK, wb=True), ("intersect", "-wb", *two)),
            (bedkeep.intersect(GENOME, GENES, MASK, u=True), ("intersect", "-u", *two)),
            (bedkeep.intersect(GENOME, GENES, MASK, v=True), ("intersect", "-v", *two)),
            (bedkeep.intersect(GENOME, GENES, MASK, c=True), ("intersect", "-c", *two)),
            (bedkeep.subtract(GENOME, GENES, MASK), ("subtract", *two)),
            (bedkeep.subtract(GENOME, GENES, MASK, A=True), ("subtract", "-A", *two)),
            (bedkeep.merge(self.sizes, os.devnull, s=True, width=6), ("merge", "-g", self.sizes, "-i", os.devnull)),
        ):
            with self.subTest(words):
                self.assertIsInstance(rows, bedkeep.Rows)
                self.assertEqual(texts(rows), printed(*words))

    def test_bases(self):
        for stranded in False, True:
            strand = ["-s"] if stranded else []
            rows = [
                [f"{row.chromosome}:{row.start}-{row.end}" + (f"({row.strand})" if stranded else ""), row.bases]
                for row in bedkeep.getfasta(CONTIGS, CODING, BASES, s=stranded)
            ]
            self.assertEqual(rows, printed("getfasta", "-tab", "-g", CONTIGS, "-bed", CODING, "-fi", BASES, *strand))
        odd = self.file("odd", "a:1-2(+)\t10\n")
        bed, bases = self.file("odd.bed", "a:1-2(+)\t3\t5\tx\t0\t-\n"), self.file("odd.fa", ">a:1-2(+)\nAACCGGTTAA\n")
        self.assertEqual(list(bedkeep.getfasta(odd, bed, bases)), [("a:1-2(+)", 3, 5, "CG")])
        self.assertEqual(list(bedkeep.getfasta(odd, bed, bases, s=True)), [("a:1-2(+)", 3, 5, "-", "CG")])

    def test_names_and_numbers(self):
        row = next(bedkeep.intersect(self.sizes, self.genes, self.mask, wb=True))
        self.assertEqual((row, row.name, row.second_start), (("chr1", 150, 200, "geneA", "chr1", 150, 350), "geneA", 150))
        row = next(bedkeep.merge(self.sizes, self.genes, d=100, c=4, o="collapse"))
        self.assertEqual((row, row.collapse_4), (("chr1", 100, 400, "geneA,geneB"), "geneA,geneB"))

    def test_pipes(self):
        """Rows of -wb over a pipe have no names after the third column, since its records can't be looked at twice."""
        reader, writer = os.pipe()
        os.write(writer, self.genes.read_bytes())
        os.close(writer)
        code = "import bedkeep, sys; print(*bedkeep.intersect(sys.argv[1], '/dev/stdin', sys.argv[2], wb=True), sep='\\n')"
        said = subprocess.run([sys.executable, "-S", "-c", code, self.sizes, self.mask], stdin=reader, stdout=subprocess.PIPE,
                              check=True).stdout.decode().splitlines()
        os.close(reader)
        self.assertEqual(said[0], "Row(chromosome='chr1', start=150, end=200, column_4='geneA', column_5='chr1', "
                                  "column_6='150', column_7='350')")

    def test_a_dict_as_genome(self):
        lengths = {"chr1": 1000, "chr2": 500}
        self.assertEqual(list(bedkeep.complement(lengths, self.genes)), list(bedkeep.complement(self.sizes, self.genes)))
        for lengths in {"chr1": -1}, {"": 5}:
            self.assertRaisesRegex(bedkeep.Damaged, "^genome: line 1: bad ", bedkeep.merge, lengths, self.genes)
        for lengths in {"chr1": 1.5}, {"chr1": True}, {1.5: 5}, ["chr1"], b"sizes":
            self.assertRaises(TypeError, bedkeep.merge, lengths, self.genes)

    def test_rows_come_one_after_another(self):
        sizes, bed = many(self.folder, 100_000)
        rows = bedkeep.cluster(sizes, bed)
        self.assertEqual(next(rows), ("chr1", 0, 15, "g0", 1))
        rows.close()
        slow = self.script("slow", "printf 'chr1\\t1\\t2\\n'\nexec sleep 60")
        rows = bedkeep.merge(sizes, bed, program=slow)
        self.assertEqual(next(rows), ("chr1", 1, 2))
        begun = time.monotonic()
        rows.close()
        self.assertEqual(list(rows), [])
        with bedkeep.merge(sizes, bed, program=slow):
            pass
        bedkeep.merge(sizes, bed, program=slow)
        self.assertLess(time.monotonic() - begun, 30)
        self.assertEqual((children(), sum(1 for _ in bedkeep.genomecov(sizes, bed, bg=True))), ([], 199_999))


class Failures(Case):
    def test_each_status(self):
        damaged = self.file("damaged.bed", "chr1\t1\t2\nchr1\t5\t2000\n")
        small = self.script("small", 'ulimit -v 8000\nexec "$BEDKEEP" "$@"')
        sizes, bed = many(self.folder, 300_000)
        for run, error, status, message in (
            (lambda: bedkeep.genomecov(self.sizes, self.genes), bedkeep.BadOptions, 2, "bad options"),
            (lambda: bedkeep.merge(self.sizes, self.genes, c=0), bedkeep.BadOptions, 2, "no such column"),
            (lambda: bedkeep.merge(self.sizes, self.genes, s=True), bedkeep.BadOptions, 2, "strand needs six columns"),
            (lambda: bedkeep.merge(self.sizes, damaged), bedkeep.Damaged, 3, f"{damaged}: line 2: end past the sequence's end"),
            (lambda: bedkeep.merge(self.sizes, "absent"), bedkeep.InputOutput, 4, "absent: cannot be read"),
            (lambda: bedkeep.intersect(self.sizes, "absent", self.mask, wb=True), bedkeep.InputOutput, 4, "absent: cannot be read"),
            (lambda: bedkeep.cluster(sizes, bed, program=small), bedkeep.NoMemory, 5, "no memory"),
            (lambda: bedkeep.merge(self.sizes, self.genes, program=self.script("dies", "kill -9 $$")), bedkeep.Ended, -9,
             "ended by signal 9"),
            (lambda: bedkeep.merge(self.sizes, self.genes, program=self.script("fails", "exit 77")), bedkeep.Ended, 77,
             "ended without a message"),
        ):
            with self.subTest(message):
                said = self.failure(error, run)
                self.assertEqual((type(said), said.status, said.message), (error, status, message))
                self.assertTrue(str(said).startswith(f"{message} (status {status})"))
        self.assertRaises(bedkeep.NotFound, bedkeep.merge, self.sizes, self.genes, program="absent")

    def test_a_run_that_ends_after_its_first_rows(self):
        rows = bedkeep.merge(self.sizes, self.genes, program=self.script("fails", "printf 'chr1\\t1\\t2\\n'\nexit 77"))
        self.assertRaisesRegex(bedkeep.Ended, "ended without a message", list, rows)

    def test_what_is_wrong_is_named(self):
        said = self.failure(bedkeep.BadOptions, bedkeep.merge, self.sizes, self.genes, c=4, o="mean")
        self.assertRegex(str(said), r"^bad options \(status 2\): .*mean")
        said = self.failure(bedkeep.Damaged, bedkeep.merge, self.genes, self.genes)
        self.assertEqual((said.file, said.line, said.reason), (str(self.genes), 2, "repeated name"))


class Package(Case):
    def test_no_module_hides_what_is_public(self):
        """The import of a module of its name would."""
        public = {name: getattr(bedkeep, name) for name in bedkeep.__all__}
        for module in pkgutil.walk_packages(bedkeep.__path__, "bedkeep."):
            if module.name != "bedkeep.__main__":
                importlib.import_module(module.name)
        self.assertEqual({name: getattr(bedkeep, name) for name in bedkeep.__all__}, public)
        self.assertEqual({name for name in dir(bedkeep) if not name.startswith("__")}, set(public))
        for name in "Session", *self.subcommands(), "apply", "diff", "replay", "edits", "to_frame":
            self.assertTrue(callable(public[name]))

    def subcommands(self):
        """Those that the program has."""
        usage = subprocess.run([PROGRAM, "--help"], stdout=subprocess.PIPE, check=True).stdout.decode()
        return re.findall("^       bedkeep (?!session)([a-z]+) ", usage, re.M)

    def test_the_version_is_that_of_the_program(self):
        self.assertEqual(printed("--version")[0], [f"bedkeep {bedkeep.__version__}"])

    def test_each_exception_is_an_error(self):
        for name in bedkeep.__all__:
            value = getattr(bedkeep, name)
            if isinstance(value, type) and issubclass(value, Exception):
                self.assertTrue(issubclass(value, bedkeep.Error))

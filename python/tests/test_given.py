"""What tracks and genomes can be given as: a table of things and of the rows that they are, over all subcommands and sessions."""
import collections
import gzip
import types
from unittest import mock

import bedkeep
from bedkeep.bgzf import Blocks
from helpers import Case

try:
    import pandas
except ImportError:
    pandas = None
try:
    import pybedtools
except ImportError:
    pybedtools = None
try:
    import pyranges
except ImportError:
    pyranges = None

ROWS = [("chr1", 100, 200, "geneA"), ("chr1", 300, 400, "geneB")]
MASK = [("chr1", 150, 350)]
LENGTHS = {"chr1": 1000, "chr2": 500}
NAMES = ("chrom", "start", "end", "name")
Named = collections.namedtuple("Named", ("name", "strand_of_no_record", "stop", "start", "chrom"))
DICTS = [dict(zip(NAMES, row)) for row in ROWS]
# By the definitions of the subcommands, for the rows and the mask above.
EXPECTED = {
    "merge": [("chr1", 100, 200), ("chr1", 300, 400)], "cluster": [(*ROWS[0], 1), (*ROWS[1], 2)],
    "complement": [("chr1", 0, 100), ("chr1", 200, 300), ("chr1", 400, 1000), ("chr2", 0, 500)],
    "genomecov": [("chr1", 100, 200, 1), ("chr1", 300, 400, 1)], "records": ROWS,
    "intersect": [("chr1", 150, 200, "geneA"), ("chr1", 300, 350, "geneB")],
    "subtract": [("chr1", 100, 150, "geneA"), ("chr1", 350, 400, "geneB")],
    "getfasta": [("chr1", 100, 200, "ACGTT" * 20), ("chr1", 300, 400, "ACGTT" * 20)],
}


def bgzf(path, data):
    with open(path, "wb") as file:
        blocks = Blocks(file)
        blocks.write(data)
        blocks.finish()
    return path


class Interval:
    """As pybedtools has them, which are no tuples."""

    def __init__(self, row):
        self.fields = list(map(str, row))


class Tables(Case):
    """Tables of libraries that aren't there, by what is used of them."""

    @staticmethod
    def polars(dicts):
        return mock.Mock(spec=["columns", "iter_rows", "__arrow_c_stream__"], iter_rows=lambda named: iter(dicts))

    @staticmethod
    def arrow(dicts):
        return mock.Mock(spec=["columns", "to_pylist", "__arrow_c_stream__"], to_pylist=lambda: dicts)

    def things(self):
        """Each kind of thing that has ROWS."""
        text = self.genes.read_bytes()
        things = {
            "a path": self.genes, "text": str(self.genes), "gzip": self.file("genes.bed.gz", gzip.compress(text)),
            "BGZF": bgzf(self.folder / "genes.bed.bgz", text), "gzip by its bytes": self.file("genes", gzip.compress(text)),
            "tuples": ROWS, "lists": list(map(list, ROWS)), "texts": [tuple(map(str, row)) for row in ROWS], "iterator": lambda: iter(ROWS),
            "dicts": DICTS, "named tuples": [Named(row[3], "x", row[2], row[1], row[0]) for row in ROWS],
            "a run": lambda: bedkeep.records(LENGTHS, ROWS), "more columns": lambda: bedkeep.cluster(LENGTHS, ROWS),
            "polars": self.polars(DICTS), "Arrow": self.arrow(DICTS), "BedTool": types.SimpleNamespace(fn=str(self.genes)),
            "Intervals": list(map(Interval, ROWS)),
        }
        if pandas:
            frame = pandas.DataFrame(ROWS, columns=NAMES)
            things.update({"pandas": frame, "PyRanges": types.SimpleNamespace(df=frame.rename(columns=str.title)),
                           "DuckDB": types.SimpleNamespace(df=lambda: frame),
                           "itertuples": lambda: frame.itertuples()})
        if pybedtools:
            things.update({"pybedtools": lambda: pybedtools.BedTool(str(self.genes)), "pybedtools of tuples": lambda: pybedtools.BedTool(ROWS),
                           "a stream of pybedtools": lambda: pybedtools.BedTool(str(self.genes)).filter(len)})
        if pyranges:
            things["pyranges"] = pyranges.PyRanges(frame.rename(columns=dict(zip(NAMES, ("Chromosome", "Start", "End", "Name")))))
        return things

    def given(self, thing):
        return thing() if isinstance(thing, types.FunctionType) else thing

    def genomes(self):
        text = self.sizes.read_bytes()
        dicts = [{"chromosome": name, "length": length} for name, length in LENGTHS.items()]
        genomes = {
            "a path": self.sizes, "gzip": self.file("sizes.gz", gzip.compress(text)), "BGZF": bgzf(self.folder / "sizes.bgz", text),
            "dict": LENGTHS, "pairs": list(LENGTHS.items()), "iterator": lambda: iter(LENGTHS.items()), "lists": [list(pair) for pair in LENGTHS.items()],
            "dicts": dicts, "polars": self.polars(dicts), "Arrow": self.arrow(dicts), "BedTool": types.SimpleNamespace(fn=str(self.sizes)),
            "as pybedtools has them": {name: (0, length) for name, length in LENGTHS.items()},
        }
        if pandas:
            frame = pandas.DataFrame({"Chromosome": list(LENGTHS), "Start": 0, "End": list(LENGTHS.values())})
            genomes.update({"pandas": frame, "PyRanges": types.SimpleNamespace(df=frame), "Series": pandas.Series(LENGTHS)})
        return genomes

    def run_each(self, genome, track, mask):
        """What each subcommand gives. Tracks are calls, since an iterator is used up."""
        options = {"genomecov": {"bg": True}}
        files = {"intersect": [mask], "subtract": [mask], "getfasta": [lambda: self.bases]}
        return {name: list(getattr(bedkeep, name)(genome(), track(), *(file() for file in files.get(name, ())), **options.get(name, {})))
                for name in EXPECTED}

    def test_each_thing_as_track_of_each_subcommand(self):
        for name, thing in self.things().items():
            with self.subTest(name):
                self.assertEqual(self.run_each(lambda: LENGTHS, lambda: self.given(thing), lambda: MASK), EXPECTED)

    def test_each_thing_as_second_file(self):
        """Each record overlaps itself alone."""
        for name, thing in self.things().items():
            with self.subTest(name):
                self.assertEqual(list(bedkeep.intersect(LENGTHS, ROWS, self.given(thing))), ROWS)
                with bedkeep.Session(LENGTHS, ROWS, self.given(thing)) as session:
                    self.assertEqual((session.has_second(ROWS[0]), session.view("intersect"), session.columns(second=True)), (True, ROWS, 4))

    def test_each_thing_as_genome(self):
        for name, thing in self.genomes().items():
            with self.subTest(name):
                self.assertEqual(self.run_each(lambda: self.given(thing), lambda: ROWS, lambda: MASK), EXPECTED)
                with bedkeep.Session(self.given(thing), ROWS) as session:
                    self.assertEqual(dict(session.lengths), LENGTHS)

    def test_each_thing_in_a_session(self):
        for name, thing in self.things().items():
            for wide in False, True:
                with self.subTest(name, wide=wide), bedkeep.Session(LENGTHS, self.given(thing), wide=wide) as session:
                    session.replace(ROWS[1], ("chr1", 300, 410, "geneB"))
                    session.save(self.folder / "saved.bed")
                    self.assertEqual((self.folder / "saved.bed").read_text(), "chr1\t100\t200\tgeneA\nchr1\t300\t410\tgeneB\n")
                    self.assertNotIn("/dev/fd", repr(session))
        self.assertEqual(list(bedkeep.merge(LENGTHS, self.session())), EXPECTED["merge"])

    def test_a_packed_file_keeps_its_order_and_is_never_written_over(self):
        packed = self.file("b.bed.gz", gzip.compress(b"#head\nchr1\t300\t400\tb\nchr1\t100\t200\ta\r\n"))
        with bedkeep.Session(self.sizes, packed) as session:
            session.add("chr1", 301, 302, "c")
            session.save(self.folder / "saved.bed")
            self.assertEqual((self.folder / "saved.bed").read_bytes(), b"#head\nchr1\t300\t400\tb\nchr1\t301\t302\tc\nchr1\t100\t200\ta\r\n")
            self.assertRaises(ValueError, session.save, packed)
            self.assertEqual(repr(session), f"<bedkeep.Session of {packed}: 4 columns, 1 edits>")
        damaged = self.file("damaged.bed.gz", gzip.compress(b"chr1\t1\t2\nchr1\t5\t2000\n"))
        for call in bedkeep.merge, bedkeep.Session:
            self.assertRaisesRegex(bedkeep.Damaged, f"^{damaged}: line 2: end past", call, self.sizes, damaged)
            self.assertRaisesRegex(bedkeep.Error, f"^{damaged}: Compressed", call, self.sizes, self.file("damaged.bed.gz", damaged.read_bytes()[:30]))
            damaged.write_bytes(gzip.compress(b"chr1\t1\t2\nchr1\t5\t2000\n"))

    def test_columns_after_the_sixth(self):
        rows = [("chr1", 1, 5, "a", 0, "+", "x", None), ("chr1", 7, 9, "b", 1.5, "-", "y", 2.0)]
        kept = [("chr1", 1, 5, "a", "0", "+", "x", "."), ("chr1", 7, 9, "b", "1.5", "-", "y", "2")]
        with bedkeep.Session(LENGTHS, rows, wide=True) as session:
            self.assertEqual(session.records(), kept)
            with bedkeep.Session(LENGTHS, session, wide=True) as again:
                self.assertEqual(again.records(), kept)
        self.assertRaisesRegex(bedkeep.Damaged, "(?s)^rows: line 1: wrong number of columns .*wide=True", bedkeep.Session, LENGTHS, rows)

    def test_what_is_missing(self):
        rows = [("chr1", 1, 5, None, float("nan"), "+"), {"chrom": "chr1", "end": 9, "start": 7, "strand": "-"}]
        self.assertEqual(list(bedkeep.records(LENGTHS, rows)), [("chr1", 1, 5, ".", ".", "+"), ("chr1", 7, 9, ".", ".", "-")])
        self.assertEqual(list(bedkeep.merge(LENGTHS, [])), [])
        if pandas:
            self.assertEqual(list(bedkeep.merge(LENGTHS, types.SimpleNamespace(df=pandas.DataFrame()))), [])

    def test_what_is_no_record_is_named(self):
        """By the number of its row."""
        for row, kind, said in (
            (("chr1", 1), ValueError, r"^row 2 has too few columns, .*: \('chr1', 1\)$"),
            ((), ValueError, "^row 2 has too few columns"),
            (("chr1", 1.5, 2), TypeError, "^row 2: start is a whole number, and not 1.5$"),
            (("chr1", 1, None), TypeError, "^row 2: end is a whole number, and not None$"),
            (("chr1", 1, True), TypeError, "^row 2: end is a whole number, and not True$"),
            ((None, 1, 2), TypeError, "^row 2: chromosome is text, and not None$"),
            (("chr1", 1, 2, b"x"), TypeError, "^row 2: name is text, and not b'x'$"),
            (("chr1", 1, 2, "x", "0", "+", b"x"), TypeError, "^row 2: column 7 is text, and not b'x'$"),
            (("chr1", 1, 2, "a\tb"), ValueError, "^row 2: a TAB or the end of a line in a column"),
            (("chr1", 1, 2, "a\r"), ValueError, "^row 2: a TAB or the end of a line in a column"),
            (("#1", 1, 2), ValueError, "^row 2: a line that begins with # is a comment"),
            ("chr1\t1\t2", TypeError, r"^row 2 is its columns, and not 'chr1\\t1\\t2'$"), (5, TypeError, "^row 2 is its columns, and not 5$"),
            ({"chrom": "chr1", "start": 1}, ValueError, "^row 2: it has no end: "),
            ({"chrom": "chr1", "start": 1, "end": 2, "stop": 2}, ValueError, "^row 2: it has both 'end' and 'stop'"),
            (("chr1", "x", 2), bedkeep.Damaged, "^rows: line 2: start is not a number"),
            (("chr1", 1, 2, "x", 5), bedkeep.Damaged, "^rows: line 2: wrong number of columns"),
        ):
            for call in bedkeep.merge, bedkeep.Session:
                with self.subTest(row, call=call), self.assertRaisesRegex(kind, said):
                    call(LENGTHS, [("chr1", 1, 2), row])

    def test_what_is_no_track_and_no_genome(self):
        for call in bedkeep.merge, bedkeep.Session:
            for thing in 5, None, b"genes.bed", LENGTHS:
                self.assertRaises(TypeError, call, LENGTHS, thing)
            for thing in 5, None, b"sizes", [("chr1",)], [("chr1", 1.5)], [("chr1", None)], [5], {"chr1": (1, 5)}:
                self.assertRaises(TypeError, call, thing, ROWS)
            self.assertRaisesRegex(TypeError, r"^row 2 of a genome is a sequence and its length, and not \('chr2', '5', 6\)$", call,
                                   [("chr1", 5), ("chr2", "5", 6)], ROWS)
        self.assertRaisesRegex(ValueError, "^row 1 has no length", bedkeep.merge, [{"chrom": "chr1"}], ROWS)

    def test_edits_of_rows(self):
        self.assertEqual(bedkeep.edits(ROWS, bedkeep.records(LENGTHS, [ROWS[0], ("chr1", 300, 410, "geneB")])),
                         ["replace\tchr1\t300\t400\tgeneB\tchr1\t300\t410\tgeneB"])
        self.assertRaisesRegex(TypeError, "^tables or rows are taken here", bedkeep.edits, str(self.genes), ROWS)

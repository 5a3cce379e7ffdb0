"""Tables of pandas. Without pandas these tests are skipped."""
import os
import sys
import unittest
from unittest import mock

import bedkeep
from helpers import Case, many

try:
    import pandas
except ImportError:
    pandas = None

FIELDS = ["chromosome", "start", "end", "name"]


class Missing(Case):
    def test_no_pandas(self):
        with self.session() as session, mock.patch.dict(sys.modules, pandas=None), self.assertRaises(ImportError):
            session.to_frame()

    def test_other_names(self):
        with self.session() as session, self.assertRaisesRegex(ValueError, "names is one of bedkeep, bioframe, pyranges"):
            session.to_frame(names="polars")


@unittest.skipUnless(pandas, "pandas isn't installed")
class Frames(Case):
    def test_repr(self):
        table = pandas.DataFrame({"chrom": ["chr1"], "start": [1], "end": [2]})
        with bedkeep.Session(self.sizes, table) as session:
            self.assertEqual(repr(session), "<bedkeep.Session of table: 3 columns, 0 edits>")
            self.assertIn("of table</b>", session._repr_html_())

    def rows(self, frame):
        """The rows of a frame as the package gives them: what is missing is None."""
        return [tuple(None if value is pandas.NA else value for value in row) for row in frame.itertuples(index=False)]

    def test_each_view_has_the_same_values_and_its_columns_if_it_is_empty(self):
        coding = self.file("coding.bed", "chr1\t10\t20\ta\t7\t+\nchr1\t15\t30\tNA\t2.5\t-\nchr2\t5\t6\t\"x\t-3\t+\n")
        with bedkeep.Session(self.sizes, coding, second=self.mask, fasta=self.bases) as session:
            session.add_second("chr1", 0, 12)
            looks = ["merge", "merge -c 5,4 -o sum,collapse", "merge -c 5 -o max", "merge -c 4,4 -o count", "cluster -d 5",
                     "complement", "genomecov -bg", "genomecov -d", "intersect", "intersect -c", "intersect -wa -wb", "subtract -A",
                     "getfasta", "getfasta -s", None]
            seen = {words: session.to_frame(words) for words in looks}
            for words, frame in seen.items():
                rows = session.records() if words is None else session.view(words)
                self.assertEqual((self.rows(frame), tuple(frame.columns)), ([tuple(row) for row in rows], rows[0]._fields), words)
            for record in session.records():
                session.remove(record)
            for words, frame in seen.items():
                empty = session.to_frame(words)
                self.assertEqual(list(empty.dtypes.items()), list(frame.dtypes.items()), words)
                self.assertEqual(len(empty) > 0, words in ("complement", "genomecov -d"), words)

    def test_sums_that_pandas_cannot_hold(self):
        bed = self.file("large.bed", "".join(f"chr1\t1\t2\tx\t{10 ** 15 - 1}\n" for _ in range(10_000)))
        with bedkeep.Session(self.sizes, bed) as session:
            self.assertEqual(session.to_frame("merge -c 5")["sum_5"][0], 10_000 * (10 ** 15 - 1))

    def test_names_of_other_libraries(self):
        with self.session(second=self.mask) as session:
            self.assertEqual(list(session.to_frame(names="bioframe").columns), ["chrom", "start", "end", "name"])
            self.assertEqual(list(session.to_frame("intersect -wb", names="pyranges").columns),
                             ["Chromosome", "Start", "End", "Name", "Chromosome_b", "Start_b", "End_b"])
            self.assertEqual(list(bedkeep.to_frame(session.view("merge"), names="bioframe").columns), ["chrom", "start", "end"])
        self.assertEqual(list(bedkeep.to_frame(iter([])).columns), [])

    def test_runs(self):
        for run, count, *files in ((bedkeep.merge, 2, self.genes), (bedkeep.merge, 0, os.devnull), (bedkeep.getfasta, 2, self.genes, self.bases),
                                   (bedkeep.intersect, 2, self.genes, self.mask), (bedkeep.intersect, 0, self.genes, os.devnull)):
            options = {"wb": True} if run is bedkeep.intersect else {"c": 2} if not count else {}
            frame = bedkeep.to_frame(run(self.sizes, *files, **options))
            self.assertEqual(self.rows(frame), [tuple(row) for row in run(self.sizes, *files, **options)])
            self.assertEqual((len(frame), len(frame.columns) >= 3), (count, True))
        rows = bedkeep.cluster(self.sizes, self.genes)
        next(rows)
        self.assertEqual(self.rows(rows.to_frame("bioframe")), [("chr1", 300, 400, "geneB", 2)])
        self.assertEqual(list(rows.to_frame().columns), [*FIELDS, "block"])

    def test_a_table_as_track(self):
        table = pandas.DataFrame({"Name": ["a", None], "Chromosome": pandas.Categorical(["chr1", "chr2"]), "Start": [5.0, 6.0],
                                  "stop": [9, 10], "other": [1, 2], 7: [0, 0]}, index=[4, 4])
        wanted = [("chr1", 5, 9, "a"), ("chr2", 6, 10, ".")]
        ranges = mock.Mock(spec=["df"], df=table)
        for given in table, ranges:
            with bedkeep.Session({"chr1": 100, "chr2": 50}, given, second=given) as session:
                session.add_second("chr1", 7, 8, "b")
                self.assertEqual((session.records(), len(session.view("intersect"))), (wanted, 3))
                self.assertEqual((len(session), session.find("a")), (2, wanted[:1]))
            self.assertEqual(list(bedkeep.merge({"chr1": 100, "chr2": 50}, given)), [row[:3] for row in wanted])
        stranded = pandas.DataFrame({"chrom": ["chr1"] * 2, "start": [1, 2], "end": [3, 4], "strand": ["+", "-"], "score": [1, None]})
        with bedkeep.Session(self.sizes, stranded) as session:
            self.assertEqual(session.records(), [("chr1", 1, 3, ".", "1", "+"), ("chr1", 2, 4, ".", ".", "-")])
        with bedkeep.Session(self.sizes, table[:0]) as session:
            self.assertEqual(len(session), 0)

    def test_tables_that_are_no_track(self):
        whole = pandas.DataFrame({"chrom": ["chr1"], "start": [1], "end": [3], "name": ["a"]})
        for change, error, message in (
            ({"Chrom": "x"}, ValueError, "both 'chrom' and 'Chrom'"), ({"start": 1.5}, ValueError, "^row 1: start is a whole number, and not 1.5$"),
            ({"end": float("nan")}, ValueError, "^row 1: end is a whole number, and not nan$"), ({"chrom": "#1"}, ValueError, "^row 1: a line that begins with #"), ({"name": "a\tb"}, ValueError, "a TAB"),
            ({"name": "a\nb"}, ValueError, "a TAB or the end of a line"), ({"start": 3}, bedkeep.Damaged, "^table: line 1: start not"),
        ):
            with self.subTest(message), self.assertRaisesRegex(error, message):
                bedkeep.Session(self.sizes, whole.assign(**change))
        self.assertRaisesRegex(ValueError, "no chromosome and no end", bedkeep.merge, self.sizes, whole[["start", "name"]])
        with self.session() as session:
            for call in session.add, session.edit:
                self.assertRaises(TypeError, call, whole)

    def test_edits_of_two_tables(self):
        with self.session() as session:
            session.edit(["add\tchr1\t300\t400\tgeneB", "add\tchr2\t5\t6\t.", "add\tchr2\t8\t9\t."])
            old = session.to_frame()
            new = old.copy()
            new.loc[new.name == "geneA", "end"] = 250.0
            new = pandas.concat([new.drop(index=[2, 4]), pandas.DataFrame([("chr2", 5, 7, "."), ("chr2", 1, 2, "y")], columns=FIELDS)])
            new = new[~((new.start == 5) & (new.end == 6))]
            lines = bedkeep.edits(old, new)
            self.assertEqual(lines, ["replace\tchr1\t100\t200\tgeneA\tchr1\t100\t250\tgeneA", "remove\tchr1\t300\t400\tgeneB",
                                     "replace\tchr2\t5\t6\t.\tchr2\t5\t7\t.", "remove\tchr2\t8\t9\t.", "add\tchr2\t1\t2\ty"])
            session.edit(lines, strict=True)
            self.assertEqual(sorted(session.records()), sorted(tuple(row) for row in new.astype({"end": int}).itertuples(index=False)))
            self.assertEqual(bedkeep.edits(old, old), [])
            self.assertRaisesRegex(ValueError, "3 and 4 columns", bedkeep.edits, old, old[FIELDS[:3]])

    def test_a_million_rows(self):
        self.sizes, self.genes = many(self.folder, 1_000_000)
        with self.session() as session:
            frame = session.to_frame()
        self.assertEqual((len(frame), tuple(frame.iloc[-1])), (1_000_000, ("chr1", 9_999_990, 10_000_005, "g99")))

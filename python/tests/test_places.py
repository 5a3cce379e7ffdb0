"""Places as people write them, and what is said of each."""
from bedkeep.commands.places import NoPlace, Place, absent, read_place
from helpers import Case

LENGTHS = {"chr1": 1000, "chr2": 500, "chrM": 100, "HLA:A*01:01": 50, "chrX_random": 10}


class Places(Case):
    """Beside those that test_curate has of `show`."""

    def test_places(self):
        for text, *place in (
                ("  chr2 ", "chr2", 0, 500, "chr2, all 500 bases"),
                ("chr1:1-1", "chr1", 0, 1, "chr1:1-1, from 1"),
                ("chr1:1,0-1,000", "chr1", 9, 1000, "chr1:10-1000, from 1"),
                ("chr1:1,000", "chr1", 999, 1000, "chr1:1000, one base, from 1"),
                ("chr1 0 1,000", "chr1", 0, 1000, "chr1 0 1000, from 0"),
                ("HLA:A*01:01", "HLA:A*01:01", 0, 50, "HLA:A*01:01, all 50 bases"),
                ("HLA:A*01:01:2-3", "HLA:A*01:01", 1, 3, "HLA:A*01:01:2-3, from 1"),
                ("chr1:901-2,000", "chr1", 900, 1000, "chr1:901-2000, from 1, cut at the end of chr1, 1000", True),
                ("chr2 0 501", "chr2", 0, 500, "chr2 0 501, from 0, cut at the end of chr2, 500", True)):
            with self.subTest(text):
                self.assertEqual(read_place(text, LENGTHS), Place(*place))

    def test_what_is_no_place_and_may_be_a_name(self):
        forms = "a place is chr1:101-200 (from 1), chr1 100 200 (from 0), chr1:150 (one base) or chr1"
        for kind, text, message in (
                (ValueError, "CHR1:1-2", "the genome has no CHR1, and has chr1"),
                (ValueError, "MT:5", "the genome has no MT, and has chrM"),
                (ValueError, "chrMT 5 6", "the genome has no chrMT, and has chrM"),
                (ValueError, "chr9:1-2", "the genome has no chr9; it has chr1, chr2, chrM and 2 more"),
                (ValueError, "chr1 200 100", "chr1 200 100: the start 200 isn't below the end 100"),
                (ValueError, "chr1 100 100", "chr1 100 100: the start 100 isn't below the end 100"),
                (ValueError, "chr1:0-150", "chr1:0-150 counts from 1, so there is no base 0: chr1 0 150 counts from 0"),
                (ValueError, "chr1:0", "chr1:0 counts from 1, so there is no base 0: chr1 0 1 counts from 0"),
                (ValueError, "chr1 1000 1001", "chr1 1000 1001 begins past the end of chr1, which has 1000 bases"),
                (ValueError, "chr1 150", "chr1 150 has one number: chr1:150 is one base, from 1"),
                (NoPlace, "geneA", "the genome has no geneA; it has chr1, chr2, chrM and 2 more"),
                (NoPlace, "chrm", "the genome has no chrm, and has chrM"),
                *((NoPlace, text, forms) for text in ("two words", "chr1:-5", "chr1 ٣ ٤"))):
            with self.subTest(text):
                failure = self.failure(ValueError, read_place, text, LENGTHS)
                self.assertEqual((type(failure), str(failure)), (kind, message))

    def test_the_sequences_that_there_are(self):
        self.assertEqual(absent("chr7", {"chr1": 5}), "the genome has no chr7; it has chr1")
        self.assertEqual(absent("chr1", {"1": 5, "Chr1": 6}), "the genome has no chr1, and has 1 and Chr1")

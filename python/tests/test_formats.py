"""formats.py against the slow model that has each base of a record by itself, over all small records."""
import itertools
import unittest

from bed_checks import peak_problems, problems
from bedkeep.formats import (default_tail, faults_of, fields, follow, format_of, record_of_fields, shifted, tail_of, with_field,
                             worse)
from slow_track import Bases, lists_of

LENGTH = 7


def tail(text):
    return "".join(f"\t{column}" for column in text.split())


def record(start, end, score="0"):
    return ("chr1", str(start), str(end), "n", score, "+")


def faults(record, tail):
    return [fault.text for fault in faults_of(record, tail)]


def intervals():
    return itertools.combinations(range(LENGTH), 2)


def structures(start, end):
    """All lists of blocks, as ranges, that begin at the start and end at the end."""
    for count in range(1, (end - start) // 2 + 2):
        for inner in itertools.combinations(range(start + 1, end), 2 * count - 2):
            ends = [start, *inner, end]
            yield [range(*pair) for pair in zip(ends[::2], ends[1::2])]


def thick_parts(start, end):
    """No coding part, written as 0, at the start and at the end, and all coding parts at an end or in the middle."""
    middle = (start + end) // 2
    return sorted({(0, 0), (start, start), (end, end), (start, end), (start, middle), (middle, end), (middle, middle)})


def bed12(start, thick, blocks, comma=""):
    return "".join(f"\t{column}" for column in (*thick, "0", *lists_of(start, blocks, comma)))


class Blocks(unittest.TestCase):
    def test_all_small_records_of_blocks(self):
        done = refused = offers = 0
        for old in intervals():
            for blocks, thick in itertools.product(structures(*old), thick_parts(*old)):
                before = bed12(old[0], thick, blocks)
                for new in intervals():
                    if new == old:
                        continue
                    slow = Bases(old, thick, blocks, new)
                    followed = follow(record(*old), before, record(*new))
                    what = (old, before, new)
                    self.assertEqual(not followed.fault, slow.fits, what)
                    if slow.fits:
                        done += 1
                        self.assertEqual(followed.tail, bed12(new[0], slow.thick, slow.blocks), what)
                        self.assertEqual(problems("\t".join(record(*new)) + followed.tail, 12), [], what)
                    else:
                        refused += 1
                        self.assertEqual(followed.tail, before)
                        self.check_offer(followed.offer, slow, what)
                        offers += followed.offer is not None
        self.assertGreater(min(done, refused, offers), 200)

    def check_offer(self, offer, slow, what):
        expected = slow.offer()
        if expected is None:
            self.assertIsNone(offer, what)
            return
        start, end, thick, blocks = expected
        self.assertEqual("\t".join(offer), "\t".join(record(start, end)) + bed12(start, thick, blocks), what)
        self.assertEqual(problems("\t".join(offer), 12), [], what)

    def test_words(self):
        gene, old = record(100, 200), tail("110 190 0 3 20,10,30, 0,40,70,")
        for start, end, fault in (
            (100, 145, "the end 145 is within block 2 of 3"), (100, 160, "the end 160 is between blocks 2 and 3 of 3"),
            (120, 200, "the start 120 is between blocks 1 and 2 of 3"), (145, 200, "the start 145 is within block 2 of 3"),
            (145, 160, "the start 145 is within block 2 of 3, the end 160 is between blocks 2 and 3 of 3"),
            (115, 200, "thickStart 110 is outside of the record"), (100, 180, "thickEnd 190 is outside of the record"),
            (300, 350, "all blocks are outside of the record"), (10, 100, "all blocks are outside of the record"),
        ):
            self.assertEqual(follow(gene, old, record(start, end)).fault, fault)
        self.assertEqual(follow(gene, old, record(100, 145)).offer, (*record(100, 145), *"110 145 0 2 20,5, 0,40,".split()))
        self.assertEqual(follow(gene, old, record(100, 160)).offer, (*record(100, 150), *"110 150 0 2 20,10, 0,40,".split()))
        self.assertEqual(follow(gene, old, record(125, 200)).offer, (*record(140, 200), *"140 190 0 2 10,30, 0,30,".split()))
        self.assertEqual(follow(gene, old, record(100, 200, "1001")).fault, "score 1001 is not from 0 to 1000")

    def test_the_real_case_of_a_gene_that_moves(self):
        old, before = record(100, 200), tail("120 180 0 2 10,20, 0,80,")
        self.assertEqual(follow(old, before, ("chr2", "1", "101", "n", "0", "+")).tail, tail("21 81 0 2 10,20, 0,80,"))
        self.assertEqual(shifted(old, before, -100), (record(0, 100), tail("20 80 0 2 10,20, 0,80,")))
        self.assertRaisesRegex(ValueError, "^the start would be -1$", shifted, old, before, -101)

    def test_a_record_that_was_invalid_is_refused_for_nothing_else(self):
        old = record(100, 200)
        for before, new, after in (
            ("100 200 0 2 10,20, 0,70,", record(100, 210), "100 210 0 2 10,20, 0,70,"),  # the last block ends before the record
            ("100 200 0 2 10,20, 5,80,", record(102, 200), "102 200 0 2 10,20, 3,78,"),
            ("100 200 0 2 10,x 0,80", record(90, 200), "90 200 0 2 10,x 0,80"), ("1 2 0 1 100 0", record(90, 200), "1 2 0 1 110 0"),
            ("100 200 0 3 60,60,20 0,40,80", record(100, 210), "100 210 0 3 60,60,30 0,40,80"),
            ("100 200 300,0,0 1 100 0", record(100, 210), "100 210 300,0,0 1 110 0"),
        ):
            self.assertEqual(follow(old, tail(before), new), (tail(after), "", None), before)
        followed = follow(old, tail("100 200 0 2 10,20, 5,80,"), record(107, 200))
        self.assertEqual((followed.fault, followed.tail), ("a block is outside of the record", tail("100 200 0 2 10,20, 5,80,")))


class Others(unittest.TestCase):
    def test_coding_parts_without_blocks(self):
        for old in intervals():
            for thick, colour in itertools.product(thick_parts(*old), ("", " 0", " 1,2,3", " 1,2,3 x y")):
                before = tail(f"{thick[0]} {thick[1]}{colour}")
                for new in intervals():
                    slow = Bases(old, thick, [range(*old)], new)
                    followed = follow(record(*old), before, record(*new))
                    self.assertEqual(not followed.fault, slow.fits, (old, before, new))
                    start, end = slow.thick if slow.fits else thick
                    self.assertEqual(followed.tail, tail(f"{start} {end}{colour}"))
                    if not slow.fits:
                        _, _, (start, end), _ = slow.offer()
                        self.assertEqual(followed.offer, (*record(*new), *f"{start} {end}{colour}".split()))

    def test_summits(self):
        for old in intervals():
            for offset in range(-1, old[1] - old[0]):
                base = old[0] + offset
                for new in intervals():
                    followed = follow(record(*old), tail(f"1.5 -1 2e3 {offset}"), record(*new))
                    by = new[0] - old[0]
                    base_now = base + by if by == new[1] - old[1] else base
                    if offset < 0 or base_now in range(*new):
                        expected = offset if offset < 0 else base_now - new[0]
                        self.assertEqual(followed, (tail(f"1.5 -1 2e3 {expected}"), "", None))
                        self.assertEqual(peak_problems("\t".join(record(*new)) + followed.tail), [])
                    else:
                        self.assertEqual(followed, (tail(f"1.5 -1 2e3 {offset}"), f"the summit at base {base} is outside of the record",
                                                    (*record(*new), "1.5", "-1", "2e3", "-1")))
        outside = tail("1 2 3 100")
        self.assertEqual(follow(record(100, 200), outside, record(90, 200)).tail, tail("1 2 3 110"))
        self.assertEqual(follow(record(100, 200), outside, record(150, 200)).tail, tail("1 2 3 50"))
        self.assertEqual(follow(record(100, 200), outside, record(201, 300)).fault, "the summit at base 200 is outside of the record")

    def test_text_follows_nothing(self):
        for text in "150", "100", "a b", "5.5 0 200", "100 200 300 x", "1 2 3 4 5", "a 200 0 2 10,20 0,80", "100 200 0 2 10,20 0,80 7x":
            if text.endswith("7x"):
                text = text.replace("0,80", "0,70")  # no blocks that can hold, before one column more
                text = text.replace("100 200", "99 200")
            self.assertEqual(follow(record(100, 200), tail(text), record(120, 200)), (tail(text), "", None), text)
            self.assertEqual(faults(record(100, 200, "x"), tail(text)), [] if text != "5.5 0 200" else ["score x is not from 0 to 1000"])
        self.assertEqual(follow(("c", "1", "2"), "", ("c", "1", "3")), ("", "", None))

    def test_formats(self):
        for text, name in (
            ("100 200", "BED8"), ("100 200 0", "BED9"), ("100 200 1,2,3", "BED9"), ("1.5 2 3", "broadPeak"), ("100 200 77", "broadPeak"),
            ("1 2 3 4", "narrowPeak"), ("1 2 3 -1", "narrowPeak"), ("100 200 0 1", "narrowPeak"), ("100 200 1,2,3 1", "BED9"),
            ("100 200 0 2 10,20 0,80", "BED12"), ("100 200 0 2 10,20 0,80 x", "BED12"), ("100 200 red 1 x y", "BED12"), ("7", ""), ("a b", ""),
        ):
            self.assertEqual(format_of(record(100, 200), tail(text)), name, text)

    def test_default_tails(self):
        for width, kind, expected in (
            (7, None, "."), (8, None, "5 9"), (9, None, "5 9 0"), (10, None, "0 -1 -1 -1"), (12, None, "5 9 0 1 4 0"),
            (11, None, ". . . . ."), (8, "", ". ."), (9, "broadPeak", "0 -1 -1"), (12, "", ". . . . . ."),
            (14, "BED12", "5 9 0 1 4 0 . ."), (11, "BED9", "5 9 0 . ."), (10, "", ". . . ."),
        ):
            self.assertEqual(default_tail(record(5, 9), width, kind), tail(expected))
            self.assertEqual(faults(record(5, 9), tail(expected)), [])

    def test_faults(self):
        for text, expected in (
            ("4 9", ["thickStart 4 is outside of the record"]), ("5 10 .", ["thickEnd 10 is outside of the record", "itemRgb . is no colour"]),
            ("0 0 1,2,3", []), ("0 9 1,2,256", ["itemRgb 1,2,256 is no colour"]), ("8 7", ["thickStart 8 is after thickEnd 7"]),
            ("x 9 0", []), ("1 2 3 4", ["summit 4 is outside of the record"]), ("1 2 3 3", []), ("1 2 3 -2", ["summit -2 is outside of the record"]),
            ("5 9 0 2 1,1 0,3", []), ("5 9 0 2 1,1, 1,3,", ["the first block begins 1 after the start"]),
            ("5 9 0 2 1,1, 0,2,", ["blocks end 3 after the start, the record 4"]), ("5 9 0 2 1,2 0,2,,", ["blocks are not numbers"]),
            ("5 9 0 2 3,2 0,2", ["block 1 ends after block 2 begins"]), ("5 9 0 2 4 0", ["blockCount 2 is not the number of blocks"]),
            ("5 9 0 2 4,0 0,4", ["block 2 has no base"]), ("5 9 red 1 4,x 0", ["itemRgb red is no colour", "blocks are not numbers"]),
        ):
            self.assertEqual(faults(record(5, 9), tail(text)), expected)
        self.assertEqual(worse(record(5, 9), tail("4 9"), record(5, 8), tail("4 9")), ["thickEnd 9 is outside of the record"])

    def test_the_faults_are_those_of_bedtobigbed(self):
        """All small tails of BED12, valid or not, by the other program's rules."""
        counts, lists = ("0", "1", "2", "x"), ("4", "1,1", "2,2,", "1,0", "0,3", "0", "0,2", "", "a", "1,,1", "3,3")
        for first, last, colour, count, sizes, starts in itertools.product("0579", "0569", ("0", "1,2,256"), counts, lists, lists):
            text = "\t".join(["", first, last, colour, count, sizes, starts])
            if count != "x":  # which is no BED12
                self.assertEqual(bool(faults(record(5, 9), text)), bool(problems("\t".join(record(5, 9)) + text, 12)), text)


class Fields(unittest.TestCase):
    def test_there_and_back(self):
        for old in intervals():
            for blocks, thick, comma in itertools.product(structures(*old), thick_parts(*old), ("", ",")):
                self.back(record(*old), bed12(old[0], thick, blocks, comma))
            for text in "7", "1 2", "5 6 0", "1.5 -1 3", f"1 2 3 {old[1] - old[0] - 1}", "1 2 3 -1", "1 2 3 100", "a b c d e", "5 9 0 2 1,1 1,3 x":
                self.back(record(*old), tail(text))
        for text in "5 9 0 2 1,1 0,3,", "5 9 0 2 1,1 1,3", "5 9 0 02 1,1 0,3", "5 9 0 2 01,1 0,3", "5 9 0 x 1 2", "5 9 0 1 x y", "5 9 0 1 4, 0,":
            self.back(record(5, 9), tail(text))

    def back(self, one, text):
        named = fields(one, text)
        if not text.endswith("\t100"):
            self.assertEqual(tail_of(named), text)
        self.assertEqual(record_of_fields(named), one)

    def test_one_thing_is_one_field(self):
        gene, text = record(100, 200), tail("110 190 0 2 10,20, 0,80,")
        named = fields(gene, text)
        self.assertEqual(list(named.items())[6:], [("thickStart", "110"), ("thickEnd", "190"), ("itemRgb", "0"), ("blocks", "110-180,")])
        longer = fields(record(90, 250), follow(gene, text, record(90, 250)).tail)
        self.assertEqual([name for name in named if named[name] != longer[name]], ["start", "end"])
        self.assertEqual(tail_of({**named, "start": "95"}), follow(gene, text, record(95, 200)).tail)
        self.assertRaisesRegex(ValueError, "^the blocks are not within the record$", tail_of, {**named, "end": "180"})
        peak = fields(record(100, 200), tail("1 2 3 50"))
        self.assertEqual((peak["summit"], tail_of({**peak, "start": "120"})), ("150", tail("1 2 3 30")))
        self.assertRaisesRegex(ValueError, "^the summit at base 150 is outside of the record$", tail_of, {**peak, "start": "151"})


class Settings(unittest.TestCase):
    def test_a_column_by_its_name(self):
        gene, text = record(100, 200), tail("110 200 0 2 10,20, 0,80, note")
        for name, value, place, expected in (
            ("thickStart", "150", (100, 200), "150 200 0 2 10,20, 0,80, note"), ("thickEnd", "180", (100, 200), "110 180 0 2 10,20, 0,80, note"),
            ("itemRgb", "1,2,3", (100, 200), "110 200 1,2,3 2 10,20, 0,80, note"), ("column_13", "other", (100, 200), "110 200 0 2 10,20, 0,80, other"),
            ("blocks", "90-115,150-160,190-210", (90, 210), "110 210 0 3 25,10,20, 0,60,100, note"),
            ("blocks", "105-210", (105, 210), "110 210 0 1 105, 0, note"),
        ):
            self.assertEqual(with_field(gene, text, name, value), (record(*place), tail(expected)), name)
        peak, text = record(100, 200), tail("1.5 2 3 50")
        for name, value, expected in (("summit", "100", "1.5 2 3 0"), ("summit", "199", "1.5 2 3 99"), ("summit", "-1", "1.5 2 3 -1"),
                                      ("summit", ".", "1.5 2 3 -1"), ("signalValue", "2e3", "2e3 2 3 50"), ("qValue", "-1", "1.5 2 -1 50")):
            self.assertEqual(with_field(peak, text, name, value), (peak, tail(expected)))
        self.assertEqual(with_field(peak, tail("x y"), "column_8", "z"), (peak, tail("x z")))
        self.assertEqual(with_field(peak, tail("100 120"), "thickEnd", "0130"), (peak, tail("100 0130")))

    def test_what_a_column_cant_have(self):
        gene, text, peak = record(100, 200), tail("110 200 0 2 10,20, 0,80,"), tail("1.5 2 3 50")
        for one, name, value, why in (
            (text, "summit", "150", "no column summit here: the columns after strand are thickStart, thickEnd, itemRgb, blocks"),
            (text, "thickStart", "99", "thickStart 99 is outside of the record"), (text, "thickStart", "x", "thickStart is a base, from 0, and not x"),
            (text, "thickEnd", "105", "thickStart 110 is after thickEnd 105"), (text, "start", "1", "no column start here: .*"),
            (text, "itemRgb", "red", "itemRgb is three numbers up to 255, such as 255,0,0, or 0, and not red"),
            (text, "blocks", "100-120,115-200", "block 1 ends after block 2 begins"), (text, "blocks", "100-100", "block 1 has no base"),
            (text, "blocks", "120-200", "thickStart 110 is outside of the record"),
            (text, "blocks", "100:200", "blocks are START-END,START-END such as 100-200,300-400, and not 100:200"),
            (peak, "summit", "200", "the summit at base 200 is outside of the record"), (peak, "pValue", "x", "pValue is a number, and not x"),
            (peak, "summit", "x", "a summit is a base, from 0, or -1 for none, and not x"),
            (tail("a"), "column_7", "", "column_7 has to be a text without TABs and ends of lines"), ("", "thickStart", "1", "no column thickStart here"),
        ):
            self.assertRaisesRegex(ValueError, f"^{why}$", with_field, gene, one, name, value)
        self.assertRaisesRegex(ValueError, "^itemRgb can't be 9 in BED9$", with_field, gene, tail("100 200 0"), "itemRgb", "9")

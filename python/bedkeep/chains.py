"""Chain files of UCSC, by which liftOver carries intervals from one assembly to another.

    chains = Chains("hg19ToHg38.over.chain.gz", {"chr1"})
    [record] = chains.lift([["chr1", "100", "200", "geneA"]])

A chain pairs bases of a sequence of the old assembly with bases of one strand of a sequence of the new one, in blocks; between two
blocks there is a gap, in one sequence or in both. Positions count from 0, and ends are not included.
"""
from __future__ import annotations

import itertools
import os
import re
from array import array
from bisect import bisect_left, bisect_right
from collections import defaultdict
from fractions import Fraction
from operator import add
from typing import Collection, Iterator, Optional, Sequence

from .encoding import Path, decoded
from .errors import Error
from .files import opened
from .formats import DIGITS, faults_of, fields, tail_of
from .printed_rows import RECORD
from .record import WIDEST, Record, record_of

LEAST = Fraction(95, 100)  # of the bases of a record that have to be in blocks, as by default in liftOver
FLIPPED = {"+": "-", "-": "+"}
MOST_DIGITS = 10
SCORE = re.compile(r"-?[0-9]+(?:\.[0-9]+)?")
MAY_BE = {"score", "itemRgb"}  # the kinds of faults that have nothing to do with places


class Unlifted(Exception):
    """A record isn't lifted. Its text is the reason."""


class Fault(ValueError):
    """A line of a chain is damaged. place: of the line in the chain, from 0"""

    def __init__(self, place: int, why: str) -> None:
        super().__init__(why)
        self.place = place


class Chain:
    """A chain, of the fields of its lines. Fault if they can't be one.

    old, new: the names of the sequences; old_length, new_length: their lengths; start, end: of the chain on the old one
    """

    def __init__(self, rows: Sequence[Sequence[bytes]]) -> None:
        words = list(map(decoded, rows[0]))
        if words[0] != "chain" or len(words) not in (12, 13):
            raise Fault(0, f"a chain begins with a line of `chain` and 11 or 12 more fields, and not with {' '.join(words)[:40]!r}")
        if not SCORE.fullmatch(words[1]):
            raise Fault(0, f"the score is not a number: {words[1]!r}")
        if words[4] != "+" or words[9] not in FLIPPED:
            raise Fault(0, f"the strands of a chain are + and then + or -, and not {words[4]} and {words[9]}")
        self.score = float(words[1])
        self.old, self.new, self.is_reversed = words[2], words[7], words[9] == "-"
        self.old_length, self.start, self.end = _bounds([words[3], *words[5:7]])
        self.new_length, begin, end = _bounds([words[8], *words[10:12]])
        sizes, old_gaps, new_gaps = _blocks(rows[1:])
        starts = list(itertools.accumulate(map(add, sizes, old_gaps), initial=self.start))
        bases = list(itertools.accumulate(map(add, sizes, new_gaps), initial=begin))
        ends = list(map(add, starts, sizes))
        if (ends[-1], bases[-1] + sizes[-1]) != (self.end, end):
            raise Fault(-1, f"the blocks end at {ends[-1]} and {bases[-1] + sizes[-1]}, and the chain at {self.end} and {end}")
        self._starts, self._ends, self._bases = array("q", starts), array("q", ends), array("q", bases)  # the bases on the new strand

    def base(self, base: int) -> Optional[int]:
        """The base of the new sequence that is paired with a base of the old one; None if that is in no block."""
        at = bisect_right(self._starts, base) - 1
        if at < 0 or base >= self._ends[at]:
            return None
        place: int = self._bases[at] + base - self._starts[at]
        return self.new_length - 1 - place if self.is_reversed else place

    def paired(self, start: int, end: int) -> int:
        """How many bases of an interval are in blocks."""
        blocks = slice(bisect_right(self._ends, start), bisect_left(self._starts, end))
        return sum(min(last, end) - max(first, start) for first, last in zip(self._starts[blocks], self._ends[blocks]))

    def lift(self, columns: Sequence[str]) -> list[str]:
        """A record with all its columns on the new sequence. Unlifted if a place in it is in no block."""
        start, end = self._part("the record", int(columns[1]), int(columns[2]))
        record = [self.new, str(start), str(end), *columns[3:WIDEST]]
        if self.is_reversed and len(record) == WIDEST:
            record[5] = FLIPPED.get(record[5], record[5])
        return record if len(columns) <= WIDEST else [*record, *self._tail(columns, record)]

    def _part(self, what: str, start: int, end: int) -> tuple[int, int]:
        """An interval on the new sequence: from the base of its first base to that of its last one, or the other way round."""
        first, last = self.base(start), self.base(end - 1)
        if first is None or last is None:
            raise Unlifted(f"partly deleted: an end of {what} is in no block")
        return min(first, last), max(first, last) + 1

    def _tail(self, columns: Sequence[str], new: Sequence[str]) -> Sequence[str]:
        """The columns from the seventh on: what they name by its place goes along, and all else stays."""
        old, tail = record_of(columns), "\t" + "\t".join(columns[WIDEST:])
        spoiled = ", ".join(fault.text for fault in faults_of(old, tail) if fault.kind not in MAY_BE)
        if spoiled:
            raise Unlifted(spoiled)
        named = fields(old, tail)
        named.update(zip(RECORD, new))
        if "thickStart" in named:
            named["thickStart"], named["thickEnd"] = self._thick(int(named["thickStart"]), int(named["thickEnd"]), new[1])
        if "blocks" in named:
            named["blocks"] = self._gaps(named["blocks"], old)
        if named.get("summit", "-1") != "-1":
            named["summit"] = str(self._part("the summit", int(named["summit"]), int(named["summit"]) + 1)[0])
        return tail_of(named).split("\t")[1:]

    def _thick(self, start: int, end: int, new_start: str) -> list[str]:
        """thickStart and thickEnd. Those without a base between them come to the start, unless they are 0."""
        if start == end:
            return ["0" if start == 0 else new_start] * 2
        return list(map(str, self._part("the thick part", start, end)))

    def _gaps(self, text: str, old: Record) -> str:
        """The gaps between the blocks of a record, as `fields` has them."""
        if " " in text:
            raise Unlifted("its blocks have numbers with zeros before them")
        gaps = [gap.split("-") for gap in text.split(",") if gap]
        places = [int(old[1]), *(int(place) for gap in gaps for place in gap), int(old[2])]
        blocks = sorted(self._part("a block", *block) for block in zip(places[::2], places[1::2]))
        return ",".join(f"{one[1]}-{other[0]}" for one, other in zip(blocks, blocks[1:])) + "," * text.endswith(",")


class Chains:
    """The chains of a file, plain or packed by gzip, over some sequences. Error if a line of it is damaged.

    least: what part of a record's bases has to be in blocks
    """

    def __init__(self, path: Path, names: Collection[str], least: Fraction = LEAST) -> None:
        self._least = least
        self._lengths: dict[str, int] = {}
        self._of: dict[str, list[Chain]] = defaultdict(list)
        for chain in read_chains(path):
            self._lengths[chain.old] = chain.old_length
            if chain.old in names:
                self._of[chain.old].append(chain)
        for chains in self._of.values():
            chains.sort(key=lambda chain: -chain.score)

    def lift(self, records: Sequence[Sequence[str]]) -> list[list[str]]:
        """The records of one line, with all their columns, in the new assembly. Unlifted if one isn't there, or not with the other.

        Records of one sequence are lifted by the best chain that has all of them whole.
        """
        found = [self.having(record) for record in records]
        if len({record[0] for record in records}) == 1:
            shared = [chain for chain in found[0] if all(chain in others for others in found)]
            if not shared:
                raise Unlifted("split: its two records are in different chains")
            found = [shared] * len(records)
        return [chains[0].lift(record) for chains, record in zip(found, records)]

    def having(self, record: Sequence[str]) -> list[Chain]:
        """The chains that have a whole record, the best first; of one score the first in the file. Unlifted if there is none."""
        sequence, start, end = record[0], int(record[1]), int(record[2])
        if sequence not in self._lengths:
            raise Unlifted(f"no chain is over {sequence}")
        if end > self._lengths[sequence]:
            raise Unlifted(f"{sequence} ends at {self._lengths[sequence]} in the chain file")
        over = [chain for chain in self._of[sequence] if chain.start < end and start < chain.end]
        first, last = ([chain for chain in over if chain.base(base) is not None] for base in (start, end - 1))
        both = [chain for chain in first if chain in last]
        whole = [chain for chain in both if chain.paired(start, end) >= self._least * (end - start)]
        if whole:
            return whole
        if both:
            raise Unlifted(f"partly deleted: {end - start - both[0].paired(start, end)} of {end - start} bases are in no block")
        if first and last:
            raise Unlifted("split: the ends are in different chains")
        if not any(chain.paired(start, end) for chain in over):
            raise Unlifted("deleted: no base is in a block")
        raise Unlifted(f"partly deleted: {'the end is' if first else 'the start is' if last else 'both ends are'} in no block")


def read_chains(path: Path) -> Iterator[Chain]:
    """The chains of a file, one after another. Error, with its name and the number of the line, if one is damaged."""
    is_empty = True
    for lines in _stretches(path):
        is_empty = False
        try:
            yield Chain([line.split() for _, line in lines])
        except Fault as fault:
            raise Error(f"{os.fspath(path)}: line {lines[fault.place][0]}: {fault}") from None
    if is_empty:
        raise Error(f"{os.fspath(path)}: there is no chain")


def _stretches(path: Path) -> Iterator[list[tuple[int, bytes]]]:
    """The lines of a chain file with their numbers, those from one `chain` to the next; without comments and empty ones."""
    listed: list[tuple[int, bytes]] = []
    with opened(path) as file:
        for number, line in enumerate(file, 1):
            if line.isspace() or line.startswith(b"#"):
                continue
            if line.startswith(b"chain") and listed:
                yield listed
                listed = []
            listed.append((number, line))
    if listed:
        yield listed


def _bounds(words: Sequence[str]) -> tuple[int, int, int]:
    """The length of a sequence, and the start and the end of a chain on it."""
    if not all(map(DIGITS.fullmatch, words)):
        raise Fault(0, f"a length, a start and an end are whole numbers, and not {' '.join(words)}")
    length, start, end = map(int, words)
    if not start < end <= length:
        raise Fault(0, f"the start is below the end, and the end within the length, and not {start}, {end} and {length}")
    return length, start, end


def _blocks(rows: Sequence[Sequence[bytes]]) -> tuple[list[int], list[int], list[int]]:
    """The sizes of blocks, and the gaps after each but the last one, on both sequences."""
    numbers = list(itertools.chain.from_iterable(rows))
    if not rows or set(map(len, rows[:-1])) - {3} or len(rows[-1]) != 1 or not _are_whole(numbers):
        wrong = (place for place, row in enumerate(rows[:-1], 1) if len(row) != 3 or not _are_whole(row))
        raise Fault(next(wrong, -1), "each block of a chain is its size and the two gaps after it, and the last one its size alone")
    listed = list(map(int, numbers))
    return listed[::3], listed[1::3], listed[2::3]


def _are_whole(numbers: Sequence[bytes]) -> bool:
    return b"".join(numbers).isdigit() and max(map(len, numbers)) <= MOST_DIGITS

"""python3 -m bedkeep review GENOME BED CORRECTIONS.. -o PAGE.html: a page to look at corrections by."""
from __future__ import annotations

import argparse
import sys
from collections import Counter

from ..review.cards import state_of
from ..review.output import write_page
from .options import add_options

DESCRIPTION = """Writes a page that shows each correction, done or refused, with its reason and pictures of what is there before
and after. With PAGE.html come PAGE.corrections.bed, the corrections as a track in colours, and PAGE.session.xml for IGV, with a
region for each refused line, and without --igv PAGE.chrom.sizes, the genome in the form that IGV knows."""


def options(parser: argparse.ArgumentParser) -> None:
    parser.description = DESCRIPTION
    add_options(parser)
    parser.add_argument("-o", dest="page", metavar="PAGE.html", required=True, help="where to, never over an input")
    parser.add_argument("-d", dest="distance", metavar="N", type=int, default=0, help="of the blocks, as in merge -d N")
    parser.add_argument("--igv", metavar="NAME", help="what IGV calls the genome, such as hg38")


def run(given: argparse.Namespace) -> int:
    """Writes the page, and returns the status: 1 if lines were refused that no file lists."""
    contents = write_page(given.genome, given.bed, given.corrections, given.page, given.second, given.distance, given.igv,
                          given.copies, given.leave_blocks, given.refused)
    counts = Counter(state_of(line) for line in contents.run)
    there = f", {counts['there']} already there" if counts["there"] else ""
    print(f"{given.page}: {counts['done']} done, {counts['refused']} refused{there}", file=sys.stderr)
    return 1 if counts["refused"] and not given.refused else 0

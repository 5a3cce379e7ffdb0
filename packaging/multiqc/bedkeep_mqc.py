#!/usr/bin/env python3
"""Counts corrections that don't fit as they are, for MultiQC: bedkeep_mqc.py NAME < TABLE > NAME_mqc.tsv, TABLE by `replay --tsv`."""
import csv
import sys
from collections import Counter

CLASSES = ("already there", "fits but for", "already so", "changed", "moved", "conflict", "taken out", "follows", "gone", "bad line")

counts = Counter(row["class"] for row in csv.DictReader(sys.stdin, delimiter="\t", quoting=csv.QUOTE_NONE))
print("# id: 'bedkeep'\n# section_name: 'bedkeep: corrections'\n# plot_type: 'table'")
print("Sample", *CLASSES, sep="\t")
print(sys.argv[1], *(counts[one] for one in CLASSES), sep="\t")

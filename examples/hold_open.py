#!/usr/bin/env python3
"""Adds genes to a session that stays open, and takes back each that overlaps another one."""
from pathlib import Path

import bedkeep

here = Path(__file__).parent
genes = ("chr20", 4690000, 4697000), ("chr22", 50800000, 50818469), ("chrX", 154021500, 154137100)
with bedkeep.Session(here / "human.genome", here / "genes.bed") as session:
    for gene in genes:
        try:
            session.add(gene)
            if any(row.depth > 1 for row in session.view("genomecov -bg")):
                print("overlaps another gene:", session.undo())
        except bedkeep.Refused as refused:
            print(refused.reason, refused.line, sep=": ")
    print("added:", session.script(), end="")

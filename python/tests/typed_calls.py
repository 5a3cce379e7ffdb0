"""Calls that mypy takes, and others that it refuses: with --strict an `ignore` that nothing needs is an error. scripts/test/python.sh"""
from __future__ import annotations

from pathlib import Path
from typing import Iterator

import bedkeep


def taken(track: bedkeep.Track, genome: bedkeep.Genome, rows: Iterator[tuple[str, int, int]], lists: list[list[object]],
          dicts: list[dict[str, object]]) -> None:
    bedkeep.merge("sizes", Path("genes.bed"))
    bedkeep.merge({"chr1": 1000}, rows)
    bedkeep.merge([("chr1", 1000)], lists)
    bedkeep.merge(genome, track)
    bedkeep.merge(genome, bedkeep.intersect(genome, track, dicts))
    with bedkeep.Session(genome, track, second=dicts) as session:
        bedkeep.to_frame(bedkeep.merge(genome, session)).columns
        bedkeep.edits(session.records(), session)


def refused() -> None:
    bedkeep.merge("sizes", 5)  # type: ignore[arg-type]
    bedkeep.merge("sizes", b"genes.bed")  # type: ignore[arg-type]
    bedkeep.merge("sizes", [1, 2])  # type: ignore[list-item]
    bedkeep.merge("sizes", ["genes.bed"])  # type: ignore[list-item]
    bedkeep.merge("sizes", {"chr1": 1000})  # type: ignore[dict-item]
    bedkeep.merge(1000, "genes.bed")  # type: ignore[arg-type]
    bedkeep.Session("sizes", None)  # type: ignore[arg-type]
    bedkeep.edits(5, 6)  # type: ignore[arg-type]

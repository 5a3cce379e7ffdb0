"""Records as tuples of text, for what is compared without the program: at most six columns, numbers without leading zeros."""
from __future__ import annotations

from typing import Sequence

Record = tuple[str, ...]
NAMELESS = {"", "."}
COMMON = 64  # a name that more records of the file have says nothing of one of them
NARROWEST, WIDEST = 3, 6  # columns of a record that the program takes; those after them are its tail, a text that begins with a TAB


def record_of(columns: Sequence[str]) -> Record:
    """The record of these columns, its numbers as the program prints them."""
    return (columns[0], columns[1].lstrip("0") or "0", columns[2].lstrip("0") or "0", *columns[3:WIDEST])


def split_row(row: str) -> tuple[Record, str]:
    """The record of a BED line, and its tail."""
    columns = row.split("\t", WIDEST)
    return record_of(columns), f"\t{columns[WIDEST]}" if len(columns) > WIDEST else ""


def name_of(record: Record) -> str:
    return record[3] if len(record) > 3 else "."


def strand_of(record: Record) -> str:
    return record[5] if len(record) > 5 else "."


def distance(one: Record, other: Record) -> int:
    """By how many bases the two starts and the two ends differ."""
    return abs(int(one[1]) - int(other[1])) + abs(int(one[2]) - int(other[2]))


def overlap(one: Record, other: Record) -> bool:
    return one[0] == other[0] and int(one[1]) < int(other[2]) and int(other[1]) < int(one[2])


def differing(one: Record, other: Record) -> list[int]:
    """The places of the columns that differ, from 0."""
    return [place for place, (mine, theirs) in enumerate(zip(one, other)) if mine != theirs]

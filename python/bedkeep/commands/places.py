"""Places as people write them.

    chr1:101-200    from 1, its end included, as IGV and UCSC have it; commas may be in its numbers
    chr1 100 200    from 0, without its end, as a BED file has it: the same place
    chr1:150        one base, from 1
    chr1            all of a sequence
"""
from __future__ import annotations

import re
from typing import Mapping, NamedTuple

from ..regions import same_sequence

FORMS = "a place is chr1:101-200 (from 1), chr1 100 200 (from 0), chr1:150 (one base) or chr1"
FROM_1 = re.compile(r"(.+):([\d,]+)(?:-([\d,]+))?", re.ASCII)
NUMBER = re.compile(r"\d[\d,]*", re.ASCII)
MOST_NAMES = 3


class Place(NamedTuple):
    """A part of a sequence. start counts from 0, and end is not included.

    said: what the text was taken for, such as `chr1:101-200, from 1`
    is_cut: whether the text went on past the sequence's end, where the place ends
    """

    sequence: str
    start: int
    end: int
    said: str
    is_cut: bool = False


class NoPlace(ValueError):
    """A text hasn't the form of a place, or may be the name of something else than a sequence."""


def read_place(text: str, lengths: Mapping[str, int]) -> Place:
    """The place that a text means over a genome of these lengths. An end past the sequence's is cut.

    ValueError, with a sentence for who wrote the text: the genome lacks the sequence, or the start isn't below the end, or is past
    the sequence's end. NoPlace if the text may be something else.
    """
    text = text.strip()
    if text in lengths:
        return Place(text, 0, lengths[text], f"{text}, all {lengths[text]} bases")
    parts = FROM_1.fullmatch(text)
    if parts and all(NUMBER.fullmatch(number) for number in parts.groups()[1:] if number):
        return _from_1(parts[1], _number(parts[2]), _number(parts[3] or parts[2]), parts[3] is None, lengths)
    fields = text.split("\t" if "\t" in text else None)
    if len(fields) == 3 and NUMBER.fullmatch(fields[1]) and NUMBER.fullmatch(fields[2]):
        return _from_0(fields[0], _number(fields[1]), _number(fields[2]), lengths)
    if len(fields) == 2 and NUMBER.fullmatch(fields[1]) and fields[0] in lengths:
        raise ValueError(f"{text} has one number: {fields[0]}:{fields[1]} is one base, from 1")
    is_name = len(fields) == 1 and not parts and text.rpartition(":")[0] not in lengths
    raise NoPlace(absent(text, lengths) if is_name else FORMS)


def absent(sequence: str, lengths: Mapping[str, int]) -> str:
    """The sentence for a sequence that the genome lacks, with the one that is meant, or some that it has."""
    meant = [name for name in lengths if same_sequence(name, sequence)]
    if meant:
        return f"the genome has no {sequence}, and has {' and '.join(meant)}"
    some = list(lengths)[:MOST_NAMES]
    more = f" and {len(lengths) - len(some)} more" if len(lengths) > len(some) else ""
    return f"the genome has no {sequence}; it has {', '.join(some)}{more}"


def _from_1(sequence: str, first: int, last: int, is_base: bool, lengths: Mapping[str, int]) -> Place:
    text = f"{sequence}:{first}" if is_base else f"{sequence}:{first}-{last}"
    if first == 0:
        raise ValueError(f"{text} counts from 1, so there is no base 0: {sequence} 0 {max(last, 1)} counts from 0")
    if first > last:
        raise ValueError(f"{text}: the start {first} is above the end {last}")
    return _cut(Place(sequence, first - 1, last, f"{text}, {'one base, ' if is_base else ''}from 1"), text, lengths)


def _from_0(sequence: str, start: int, end: int, lengths: Mapping[str, int]) -> Place:
    text = f"{sequence} {start} {end}"
    if start >= end:
        raise ValueError(f"{text}: the start {start} isn't below the end {end}")
    return _cut(Place(sequence, start, end, f"{text}, from 0"), text, lengths)


def _cut(place: Place, text: str, lengths: Mapping[str, int]) -> Place:
    """The place up to the sequence's end."""
    if place.sequence not in lengths:
        raise ValueError(absent(place.sequence, lengths))
    length = lengths[place.sequence]
    if place.start >= length:
        raise ValueError(f"{text} begins past the end of {place.sequence}, which has {length} bases")
    if place.end <= length:
        return place
    return place._replace(end=length, said=f"{place.said}, cut at the end of {place.sequence}, {length}", is_cut=True)


def _number(text: str) -> int:
    return int(text.replace(",", ""))

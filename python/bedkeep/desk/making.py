"""The line of a script that gives a record other values of several columns at once, those after the sixth among them."""
from __future__ import annotations

from typing import Mapping, Sequence

from ..formats import follow, with_field
from ..record import WIDEST, Record
from ..printed_rows import RECORD


def changed(record: Sequence[str], values: Mapping[str, str]) -> str:
    """The line over a record of all columns. values: by the names of columns, as `formats.fields` has them.

    The columns after the sixth follow the first six unless they are given too. ValueError, with a sentence, if they can't be so.
    """
    old, tail = tuple(record[:WIDEST]), "".join(f"\t{column}" for column in record[WIDEST:])
    names = RECORD[:len(old)]
    new: Record = tuple(values.get(name, text) for name, text in zip(names, old))
    others = {name: value for name, value in values.items() if name not in names}
    if not others:
        return "\t".join(["replace", *record, *new])
    new, tail = _with_others(old, tail, new, others)
    return "\t".join(["replace", *record, *new]) + tail


def _with_others(old: Record, tail: str, new: Record, others: Mapping[str, str]) -> tuple[Record, str]:
    followed = follow(old, tail, new)
    if followed.fault and "blocks" not in others:
        raise ValueError(followed.fault)
    # The outer ends of blocks that are given are those of the record.
    record, tail = (old, tail) if followed.fault else (new, followed.tail)
    for name in sorted(others, key=lambda name: name != "blocks"):
        record, tail = with_field(record, tail, name, others[name])
    name = record[3] if new[3] == old[3] else new[3]  # Attributes that are given have it.
    return (*record[:3], name, *new[4:]), tail

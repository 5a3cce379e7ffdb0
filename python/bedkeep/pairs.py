"""What became of each record that only one of two files has: it moved, changed, was split or joined, or there is none any more."""
from __future__ import annotations

from bisect import bisect_left
from collections import Counter, defaultdict
from typing import Callable, Generic, Hashable, Iterable, Iterator, Mapping, NamedTuple, Optional, Sequence, TypeVar

from .record import COMMON, NAMELESS, Record, distance, name_of, overlap, split_row, strand_of

Item = TypeVar("Item", bound=Hashable)
KEYS: tuple[Callable[[Record], Record], ...] = (  # what two records share of which one became the other, the surest first
    lambda record: record[:4],
    lambda record: (name_of(record),) if name_of(record) not in NAMELESS else (),
    lambda record: record[:3],
    lambda record: (*record[:2], name_of(record)),
    lambda record: (record[0], record[2], name_of(record)),
)


class Groups(Generic[Item]):
    """Which items are in one group, however many join them."""

    def __init__(self) -> None:
        self._above: dict[Item, Item] = {}

    def join(self, one: Item, other: Item) -> None:
        self._above[self.first(one)] = self.first(other)

    def first(self, item: Item) -> Item:
        """The item that is the same for all of its group."""
        while (above := self._above.setdefault(item, item)) != item:
            self._above[item] = item = self._above[above]
        return item


class Change(NamedTuple):
    """Rows that only the old file has, and the rows of the new one that they became. reason: of a split or a join, else empty"""

    gone: Sequence[str]
    come: Sequence[str]
    reason: str = ""

    def lines(self) -> Iterator[str]:
        """Its edits, a `replace` first."""
        both = min(len(self.gone), len(self.come))
        yield from (f"replace\t{old}\t{new}" for old, new in zip(self.gone, self.come))
        yield from (f"remove\t{old}" for old in self.gone[both:])
        yield from (f"add\t{new}" for new in self.come[both:])

    def added(self) -> Sequence[str]:
        """The rows that no row of the old file became."""
        return self.come[len(self.gone):]


def changes(gone: Sequence[str], come: Sequence[str]) -> Iterator[Change]:
    """What became of rows that only the old file has, in their order; then splits and joins, then the additions in their order."""
    old, new = ([split_row(row)[0] for row in rows] for rows in (gone, come))
    heirs = _heirs(old, new)
    makers = {heir: at for at, heir in heirs.items()}
    splits = dict(_wholes(old, new, heirs, (at for at in range(len(new)) if at not in makers), ()))
    split = {part for parts in splits.values() for part in parts}
    joins = dict(_wholes(new, old, makers, (at for at in range(len(old)) if at not in heirs and at not in splits), split))
    makers.update((whole, parts[0]) for whole, parts in joins.items())
    joined = {parts[0]: (whole, parts) for whole, parts in joins.items()}
    others = {part for _, parts in joined.values() for part in parts[1:]}
    for at, row in enumerate(gone):
        if at not in splits and at not in joined and at not in others:
            yield Change([row], [come[heirs[at]]] if at in heirs else [])
    for at in sorted([*splits, *joined]):
        if at in splits:
            yield Change([gone[at]], [come[part] for part in splits[at]], f"split of {_label(old[at])}")
        else:
            whole, parts = joined[at]
            labels = dict.fromkeys(_label(old[part]) for part in sorted(parts))
            yield Change([gone[part] for part in parts], [come[whole]], f"join of {' and '.join(labels)}")
    yield from (Change([], [row]) for at, row in enumerate(come) if at not in makers and at not in split)


def _heirs(old: Sequence[Record], new: Sequence[Record]) -> dict[int, int]:
    """Which record became which, by their places: each the nearest of those that have the same name, place or end."""
    heirs: dict[int, int] = {}
    taken: set[int] = set()
    for key in KEYS:
        places: dict[Record, list[int]] = defaultdict(list)
        for at, record in enumerate(new):
            if at not in taken:
                places[key(record)].append(at)
        for at, record in enumerate(old):
            left = places.get(key(record), []) if at not in heirs and key(record) else []
            if 0 < len(left) <= COMMON:  # A key of more says nothing.
                heirs[at] = min(left, key=lambda place: _far(record, new[place]))
                taken.add(heirs[at])
                left.remove(heirs[at])
    return heirs


def _far(one: Record, other: Record) -> tuple[bool, bool, int]:
    return one[0] != other[0], strand_of(one) != strand_of(other), distance(one, other)


def _wholes(wholes: Sequence[Record], others: Sequence[Record], partners: Mapping[int, int], free: Iterable[int],
            skipped: Iterable[int]) -> Iterator[tuple[int, list[int]]]:
    """Places of records that are the whole of two or more others, and the places of these, that of the partner first.

    partners: which other record a whole was paired with; free: the others that have no partner; skipped: what is no whole
    """
    bounds = Bounds(others, free)
    left_out = set(skipped)
    for at, whole in enumerate(wholes):
        if at not in left_out:
            near = bounds.within(whole)
            parts = _parts(whole, others, partners.get(at), near) if near else []
            if parts:
                bounds.take(parts)
                yield at, parts


class Bounds:
    """Records found by a start or an end within another one."""

    def __init__(self, records: Sequence[Record], places: Iterable[int]) -> None:
        self._left = set(places)
        self._starts = sorted((records[at][0], int(records[at][1]), at) for at in self._left)
        self._ends = sorted((records[at][0], int(records[at][2]), at) for at in self._left)

    def within(self, whole: Record) -> list[int]:
        """The places of records that begin or end in another one, or none if these are too many to be its parts."""
        sequence, start, end = whole[0], int(whole[1]), int(whole[2])
        found: set[int] = set()
        for bounds, low, high in (self._starts, start, end), (self._ends, start + 1, end + 1):
            first, last = bisect_left(bounds, (sequence, low)), bisect_left(bounds, (sequence, high))
            if last - first > COMMON:
                return []
            found.update(at for _, _, at in bounds[first:last])
        return sorted(found & self._left)

    def take(self, places: Iterable[int]) -> None:
        self._left.difference_update(places)


def _parts(whole: Record, others: Sequence[Record], partner: Optional[int], near: Sequence[int]) -> list[int]:
    """Which records are the parts of a whole: they are apart, and all have its name, or they reach from its start to its end."""
    named = [at for at in near if name_of(others[at]) == name_of(whole)]
    for chosen in ([named, near] if len(named) < len(near) else [near]):
        parts = sorted({*chosen, *([] if partner is None else [partner])}, key=lambda at: int(others[at][1]))
        records = [others[at] for at in parts]
        if len(records) > 1 and _are_apart(records) and all(_is_on(record, whole) for record in records) and (
                _have_name(records, whole) or (records[0][1], records[-1][2]) == whole[1:3]):
            return parts if partner is None else [partner, *(at for at in parts if at != partner)]
    return []


def _are_apart(records: Sequence[Record]) -> bool:
    return all(int(one[2]) <= int(other[1]) for one, other in zip(records, records[1:]))


def _is_on(record: Record, whole: Record) -> bool:
    return overlap(record, whole) and strand_of(record) == strand_of(whole)


def _have_name(records: Iterable[Record], whole: Record) -> bool:
    return name_of(whole) not in NAMELESS and all(name_of(record) == name_of(whole) for record in records)


def _label(record: Record) -> str:
    return name_of(record) if name_of(record) not in NAMELESS else " ".join(record[:3])


def beyond(rows: Iterable[str], others: Iterable[str]) -> list[str]:
    """The rows that aren't among the others, in their order, each copy once."""
    left = Counter(others)
    beyond = []
    for row in rows:
        if left[row] > 0:
            left[row] -= 1
        else:
            beyond.append(row)
    return beyond

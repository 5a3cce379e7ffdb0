"""The columns after the sixth by their format: what follows when a record's ends move, and what can't hold then.

A tail is the text of these columns, each after a TAB. Its format is known by the number of its columns and what they have:

    BED8, BED9   thickStart, thickEnd, and itemRgb
    BED12        these, and blocks; more columns may follow, as after those of BED9
    narrowPeak   signalValue, pValue, qValue, and the summit, which counts from the start, or -1
    broadPeak    signalValue, pValue, qValue
    GFF3, GTF    source, type, phase and attributes, which have the record's name

All other columns are text, which nothing follows. A number alone is no thickStart: as a seventh column counts are far more common.
The faults are what bedToBigBed of UCSC refuses in these columns and in the score, and a summit outside of its record; of GFF3 and GTF
a score that is no number.
"""
from __future__ import annotations

import re
from typing import Collection, Mapping, NamedTuple, Optional, Sequence

from .printed_rows import RECORD
from .record import WIDEST, Record

DIGITS = re.compile("[0-9]{1,10}")
WHOLE = re.compile("-?[0-9]{1,10}")
NUMBER = re.compile(r"[-+]?(?:[0-9]+\.?[0-9]*|\.[0-9]+)(?:[eE][-+]?[0-9]+)?|[-+]?inf|nan", re.IGNORECASE)
COLOUR = re.compile(r"0|\.|[0-9]{1,3}(?:,[0-9]{1,3}){2}")
BED8, BED9, BED12, NARROW, BROAD, GFF3, GTF, TEXT = "BED8", "BED9", "BED12", "narrowPeak", "broadPeak", "GFF3", "GTF", ""
THICK = ("thickStart", "thickEnd", "itemRgb")
SCORES = ("signalValue", "pValue", "qValue")
FEATURE = ("source", "type", "phase", "attributes")
NAMES = {BED8: THICK[:2], BED9: THICK, BED12: (*THICK, "blocks"), NARROW: (*SCORES, "summit"), BROAD: SCORES, GFF3: FEATURE, GTF: FEATURE,
         TEXT: ()}
COUNTS = {BED8: 2, BED9: 3, BED12: 6, NARROW: 4, BROAD: 3, GFF3: 4, GTF: 4}  # of columns
ATTRIBUTES = {GFF3: re.compile(r" *[^=; \"]+="), GTF: re.compile(r' *[\w.-]+ +[^ ;]')}  # how they begin
OWN = {GFF3: (r"(?:^|;) *ID=([^;]*[^; ])", r"(?:^|;) *Name=([^;]*[^; ])"), GTF: (r'(?:^|;) *{}_id +"?([^";]*[^"; ])',)}  # the name
PHASES = ("0", "1", "2")
NAME = "%{name}"  # what `fields` has for the name within the attributes
BLOCKS = slice(3, 6)  # the columns of a tail that have the blocks: blockCount, blockSizes, blockStarts
HIGHEST_SCORE = 1000
Blocks = list[tuple[int, int]]  # the starts and ends, on the sequence


class Fault(NamedTuple):
    """What can't hold. Two faults of one kind are the same one for a record that an edit leaves no worse than it was."""

    kind: str
    text: str


class Followed(NamedTuple):
    """The tail of a changed record. If no rule keeps it valid: the tail as it was, why, and the record of all columns that would fit."""

    tail: str
    fault: str = ""
    offer: Optional[Record] = None


def format_of(record: Record, tail: str) -> str:
    """The format of a record's tail: a key of NAMES."""
    columns = _columns(tail)
    for kind in (NARROW, BED12, BED9, BED8, BROAD, GFF3, GTF):
        usual = len(columns) == COUNTS[kind]
        if _has_form(kind, columns) and (usual or kind in (BED9, BED12) and not _faults_of(kind, record, columns, of_tail=True)):
            return kind
    return TEXT


def _has_form(kind: str, columns: Sequence[str]) -> bool:
    """Whether the columns are of the types that a format has, or the first ones are."""
    if len(columns) < COUNTS[kind]:
        return False
    if kind in (GFF3, GTF):
        is_feature = columns[2] in (*PHASES, ".") and not NUMBER.fullmatch(columns[1])
        return is_feature and ATTRIBUTES[kind].match(columns[3]) is not None
    if kind in (NARROW, BROAD):
        return all(map(NUMBER.fullmatch, columns[:3])) and (kind == BROAD or WHOLE.fullmatch(columns[3]) is not None)
    numbers = [*columns[:2], columns[3]] if kind == BED12 else columns[:2]
    return all(map(DIGITS.fullmatch, numbers)) and (kind != BED9 or COLOUR.fullmatch(columns[2]) is not None)


def default_tail(record: Record, width: int, kind: Optional[str] = None) -> str:
    """The tail of a record that is added without one to a file of so many columns: one block, no colour, no summit.

    kind: the format of the file's records, if it is known.
    """
    start, end = record[1:3]
    count = width - WIDEST
    if kind is None:
        kind = {2: BED8, 3: BED9, 4: NARROW, 6: BED12}.get(count, TEXT)
    known = {BED8: [start, end], BED9: [start, end, "0"], NARROW: ["0", "-1", "-1", "-1"], BROAD: ["0", "-1", "-1"],
             BED12: [start, end, "0", "1", str(int(end) - int(start)), "0"]}
    columns = known.get(kind, [])
    return _tail([*columns, *["."] * (count - len(columns))])


def faults_of(record: Record, tail: str) -> list[Fault]:
    """What can't hold of a record with this tail."""
    return _faults_of(format_of(record, tail), record, _columns(tail))


def worse(old: Record, old_tail: str, new: Record, new_tail: str, allowed: Collection[str] = ()) -> list[str]:
    """The faults of a new record of which the old one had none of their kind, in words, but for those of an allowed kind."""
    kind, columns = format_of(old, old_tail), _columns(new_tail)
    is_same = kind != TEXT and _has_form(kind, columns)
    found = _faults_of(kind if is_same else format_of(new, new_tail), new, columns)
    if not found:
        return []
    before = {fault.kind for fault in _faults_of(kind, old, _columns(old_tail))}.union(allowed)
    return [fault.text for fault in found if fault.kind not in before]


def _faults_of(kind: str, record: Record, columns: Sequence[str], of_tail: bool = False) -> list[Fault]:
    found = []
    if kind in (GFF3, GTF):
        return [] if record[4] == "." or NUMBER.fullmatch(record[4]) else [Fault("score", f"score {record[4]} is no number")]
    if kind != TEXT and not of_tail and not (DIGITS.fullmatch(record[4]) and int(record[4]) <= HIGHEST_SCORE):
        found.append(Fault("score", f"score {record[4]} is not from 0 to {HIGHEST_SCORE}"))
    if kind in (BED8, BED9, BED12):
        found += _faults_of_thick(kind, record, columns)
    if kind == BED12:
        found += _faults_of_blocks(record, columns)
    if kind == NARROW and not -1 <= int(columns[3]) < int(record[2]) - int(record[1]):
        found.append(Fault("summit", f"summit {columns[3]} is outside of the record"))
    return found


def follow(old: Record, tail: str, new: Record, allowed: Collection[str] = ()) -> Followed:
    """The tail of a record whose first six columns become others.

    What begins or ends where the record does follows its end: the first block, the last one, thickStart, thickEnd. All else stays
    at its bases, the summit too, and the codons of a phase. If both ends move by one distance, all moves along. The attributes of
    GFF3 and GTF get the new name. What can't hold in the new record, and could in the old one, is a fault; but none of an allowed kind.
    """
    if not tail:
        return Followed("")
    kind, columns = format_of(old, tail), _columns(tail)
    blocks, spoiled = None, ""
    if kind in (BED8, BED9, BED12):
        columns[:2] = [_moved_end(text, old, new) for text in columns[:2]]
    if kind in (GFF3, GTF):
        columns[2:] = [_moved_phase(columns[2], old, new), _with_name(columns[1], columns[3], old[3], new[3])]
    if not _shift(old, new):
        if kind == BED12:
            blocks = _blocks(old, columns)
            spoiled = _move_blocks(columns, blocks, old, new)
        elif kind == NARROW:
            spoiled = _move_summit(columns, old, new)
    spoiled = spoiled or ", ".join(worse(old, tail, new, _tail(columns), allowed))
    if not spoiled:
        return Followed(_tail(columns))
    return Followed(tail, spoiled, _offer(old, tail, new, columns, blocks))


def shifted(record: Record, tail: str, by: int) -> tuple[Record, str]:
    """A record with its tail that is moved by a distance. ValueError if it would begin below 0."""
    start, end = int(record[1]) + by, int(record[2]) + by
    if start < 0:
        raise ValueError(f"the start would be {start}")
    moved = (record[0], str(start), str(end), *record[3:])
    return moved, follow(record, tail, moved).tail


def names_of(kind: str, count: int) -> list[str]:
    """What so many columns of a tail are called."""
    names = [*NAMES[kind][:3], "blockCount", "blockSizes", "blockStarts"] if kind == BED12 else list(NAMES[kind])
    return names + [f"column {WIDEST + place + 1}" for place in range(len(names), count)]


def fields(record: Record, tail: str) -> dict[str, str]:
    """The columns of a record by their names, for a merge of three records field by field.

    The numbers of a tail are places on the sequence, so that one field changes when one thing does. `blocks` has the gaps
    between the blocks, START-END, since the outer ends are those of the record; `summit` its base, or -1; `attributes` NAME instead
    of the name. Blocks that can't hold are the text of their three columns, with spaces between these. Columns without a name are
    `column_7` and so on.
    """
    kind, columns = format_of(record, tail), _columns(tail)
    if kind == BED12:
        columns[BLOCKS] = [_gaps(record, columns)]
    if kind == NARROW and int(columns[3]) >= 0:
        columns[3] = str(int(record[1]) + int(columns[3]))
    if kind in (GFF3, GTF):
        columns[3] = _with_name(columns[1], columns[3], record[3], NAME)
    named = NAMES[kind]
    before = WIDEST + (2 if kind == BED12 else 0)  # columns of which `blocks` has three
    names = [*named, *(f"column_{before + place + 1}" for place in range(len(named), len(columns)))]
    return {**dict(zip(RECORD, record)), **dict(zip(names, columns))}


def record_of_fields(named: Mapping[str, str]) -> Record:
    """The first six columns of `fields`."""
    return tuple(text for name, text in named.items() if name in RECORD)


def tail_of(named: Mapping[str, str]) -> str:
    """The tail of `fields`. ValueError if the gaps between the blocks, or the summit, aren't within the record."""
    columns = []
    start, end = int(named["start"]), int(named["end"])
    for name, text in named.items():
        if name == "blocks":
            columns += text.split(" ") if " " in text else _columns_of_gaps(text, start, end)
        elif name == "summit" and text != "-1":
            if not start <= int(text) < end:
                raise ValueError(f"the summit at base {text} is outside of the record")
            columns.append(str(int(text) - start))
        elif name == "attributes":
            columns.append(text.replace(NAME, named["name"], 1))
        elif name not in RECORD:
            columns.append(text)
    return _tail(columns)


def with_field(record: Record, tail: str, name: str, value: str) -> tuple[Record, str]:
    """A record with another value of a column after the sixth, by its name in `fields`. ValueError if it can't have that.

    thickStart, thickEnd, summit: a base, from 0, of the sequence; summit also -1 for none. blocks: START-END,START-END .. on
    the sequence, from 0 and without the ends; the record begins and ends with them.
    """
    kind, columns = format_of(record, tail), _columns(tail)
    names = [column for column in fields(record, tail) if column not in RECORD]
    if name not in names:
        raise ValueError(f"no column {name} here: the columns after strand are {', '.join(names)}" if names else f"no column {name} here")
    new, place = record, names.index(name)
    if name == "blocks":
        blocks = _read_blocks(value)
        new = (record[0], str(blocks[0][0]), str(blocks[-1][1]), *record[3:])
        columns[:2] = [_moved_end(text, record, new) for text in columns[:2]]
        columns[BLOCKS] = _columns_of_blocks(blocks, blocks[0][0], columns[BLOCKS])
    elif name == "summit":
        columns[place] = _offset(record, value)
    else:
        _refuse_value(name, value)
        columns[place + (2 if "blocks" in names[:place] else 0)] = value
        if name in ("type", "attributes"):
            new = (*record[:3], name_of_attributes(columns[1], columns[3]), *record[4:])
    if kind != TEXT and not _has_form(kind, columns):
        raise ValueError(f"{name} can't be {value} in {kind}")
    spoiled = worse(record, tail, new, _tail(columns))
    if spoiled:
        raise ValueError(", ".join(spoiled))
    return new, _tail(columns)


def _read_blocks(text: str) -> Blocks:
    """The blocks of a text: START-END,START-END .."""
    pairs = [re.fullmatch("([0-9]{1,10})-([0-9]{1,10})", pair) for pair in text.removesuffix(",").split(",")]
    blocks = [(int(pair[1]), int(pair[2])) for pair in pairs if pair]
    if len(blocks) < len(pairs):
        raise ValueError(f"blocks are START-END,START-END such as 100-200,300-400, and not {text}")
    spoiled = _faults_between(blocks, blocks[0][0], blocks[-1][1])
    if spoiled:
        raise ValueError(spoiled[0].text)
    return blocks


def _offset(record: Record, base: str) -> str:
    """The distance of a summit from the start: of a base of the record, or -1."""
    if base in ("-1", "."):
        return "-1"
    if not DIGITS.fullmatch(base):
        raise ValueError(f"a summit is a base, from 0, or -1 for none, and not {base}")
    if not int(record[1]) <= int(base) < int(record[2]):
        raise ValueError(f"the summit at base {base} is outside of the record")
    return str(int(base) - int(record[1]))


def _refuse_value(name: str, value: str) -> None:
    """Raises a ValueError if a column can't have this value in any format."""
    if name in THICK[:2] and not DIGITS.fullmatch(value):
        raise ValueError(f"{name} is a base, from 0, and not {value}")
    if name == "itemRgb" and not _is_colour(value):
        raise ValueError(f"itemRgb is three numbers up to 255, such as 255,0,0, or 0, and not {value}")
    if name in SCORES and not NUMBER.fullmatch(value):
        raise ValueError(f"{name} is a number, and not {value}")
    if not value or re.search("[\t\r\n\0]", value):
        raise ValueError(f"{name} has to be a text without TABs and ends of lines")


def name_of_attributes(kind: str, attributes: str) -> str:
    """The name of a record of this type, or `.`: ID, else Name, of GFF3; in GTF what is called as the type is, such as exon_id."""
    own = _own(kind, attributes)
    return own[1] if own else "."


def _own(kind: str, attributes: str) -> Optional[re.Match[str]]:
    """Where the attributes have the name."""
    patterns = (pattern for form, own in OWN.items() if ATTRIBUTES[form].match(attributes) for pattern in own)
    return next(filter(None, (re.search(pattern.format(re.escape(kind)), attributes) for pattern in patterns)), None)


def _with_name(kind: str, attributes: str, old: str, new: str) -> str:
    """The attributes with another name instead of this one. They stay as they are if they haven't this one, or can't have the other."""
    own = _own(kind, attributes)
    if not own or own[1] != old:
        return attributes
    named = attributes[:own.start(1)] + new + attributes[own.end(1):]
    return named if name_of_attributes(kind, named) == new else attributes


def _moved_phase(phase: str, old: Record, new: Record) -> str:
    """The phase by which the codons stay at their bases if the end moves that is read first; on another strand it stays."""
    if phase not in PHASES or _shift(old, new) or old[5] != new[5] or old[5] not in ("+", "-"):
        return phase
    by = int(old[1]) - int(new[1]) if old[5] == "+" else int(new[2]) - int(old[2])
    return str((int(phase) + by) % 3)


def _columns(tail: str) -> list[str]:
    return tail.split("\t")[1:]


def _tail(columns: Sequence[str]) -> str:
    return "".join(f"\t{text}" for text in columns)


def _shift(old: Record, new: Record) -> int:
    """The distance by which both ends move, or 0."""
    by = int(new[1]) - int(old[1])
    return by if by == int(new[2]) - int(old[2]) else 0


def _moved_end(text: str, old: Record, new: Record) -> str:
    """thickStart or thickEnd, after the end that it lies at or with the whole record. One outside, such as 0 for none, stays."""
    place = int(text)
    if not int(old[1]) <= place <= int(old[2]):
        return text
    if _shift(old, new):
        return str(place + _shift(old, new))
    return new[1] if place == int(old[1]) else new[2] if place == int(old[2]) else text


def _faults_of_thick(kind: str, record: Record, columns: Sequence[str]) -> list[Fault]:
    start, end = int(record[1]), int(record[2])
    found = [Fault(name, f"{name} {text} is outside of the record") for name, text in zip(THICK, columns[:2])
             if not (start <= int(text) <= end or int(text) == 0)]
    if int(columns[0]) > int(columns[1]):
        found.append(Fault("thick", f"thickStart {columns[0]} is after thickEnd {columns[1]}"))
    if kind != BED8 and not _is_colour(columns[2]):
        found.append(Fault("itemRgb", f"itemRgb {columns[2]} is no colour"))
    return found


def _is_colour(text: str) -> bool:
    """Whether itemRgb is three numbers up to 255, or one number."""
    parts = text.split(",")
    return all(map(DIGITS.fullmatch, parts)) and (len(parts) == 1 or len(parts) == 3 and max(map(int, parts)) <= 255)


def _blocks(record: Record, columns: Sequence[str]) -> Optional[Blocks]:
    """The blocks of a BED12 tail, or None if their columns aren't two lists of so many numbers."""
    count, *lists = columns[BLOCKS]
    sizes, starts = (text.removesuffix(",").split(",") for text in lists)
    if not (all(map(DIGITS.fullmatch, (count, *sizes, *starts))) and int(count) == len(sizes) == len(starts)):
        return None
    start = int(record[1])
    return [(start + int(place), start + int(place) + int(size)) for place, size in zip(starts, sizes)]


def _faults_of_blocks(record: Record, columns: Sequence[str]) -> list[Fault]:
    blocks = _blocks(record, columns)
    if blocks is not None:
        return _faults_between(blocks, int(record[1]), int(record[2]))
    numbers = ",".join(text.removesuffix(",") for text in columns[BLOCKS]).split(",")
    return [Fault("lists", f"blockCount {columns[3]} is not the number of blocks" if all(map(DIGITS.fullmatch, numbers))
                  else "blocks are not numbers")]


def _faults_between(blocks: Blocks, start: int, end: int) -> list[Fault]:
    """What can't hold of blocks: one of no length, two that overlap, the first or the last one elsewhere than the record's ends."""
    found = [Fault("size", f"block {number} has no base") for number, block in enumerate(blocks, 1) if block[0] >= block[1]]
    found += [Fault("order", f"block {number} ends after block {number + 1} begins")
              for number, (one, other) in enumerate(zip(blocks, blocks[1:]), 1) if one[1] > other[0]]
    if blocks[0][0] != start:
        found.append(Fault("first", f"the first block begins {blocks[0][0] - start} after the start"))
    if blocks[-1][1] != end:
        found.append(Fault("last", f"blocks end {blocks[-1][1] - start} after the start, the record {end - start}"))
    return found


def _move_blocks(columns: list[str], blocks: Optional[Blocks], old: Record, new: Record) -> str:
    """Moves the blocks in the columns after the ends of the record, or says why they can't follow."""
    if blocks is None:
        return ""
    moved = _moved_blocks(blocks, old, new)
    spoiled = ", ".join(_spoiled(blocks, moved, old, new))
    if not spoiled:
        columns[BLOCKS] = _columns_of_blocks(moved, int(new[1]), columns[BLOCKS])
    return spoiled


def _moved_blocks(blocks: Blocks, old: Record, new: Record) -> Blocks:
    """The first block after the start if it begins there, and the last one after the end if it ends there."""
    moved = list(blocks)
    if moved[0][0] == int(old[1]):
        moved[0] = int(new[1]), moved[0][1]
    if moved[-1][1] == int(old[2]):
        moved[-1] = moved[-1][0], int(new[2])
    return moved


def _move_summit(columns: list[str], old: Record, new: Record) -> str:
    """Has the summit stay at its base, or says why it can't."""
    offset = int(columns[3])
    base = int(old[1]) + offset
    if offset < 0:
        return ""
    if base < int(new[1]) or offset < int(old[2]) - int(old[1]) and base >= int(new[2]):
        return f"the summit at base {base} is outside of the record"
    columns[3] = str(base - int(new[1]))
    return ""


def _spoiled(blocks: Blocks, moved: Blocks, old: Record, new: Record) -> list[str]:
    """What the new ends of a record did to its blocks, in words."""
    before = {fault.kind for fault in _faults_between(blocks, int(old[1]), int(old[2]))}
    start, end = int(new[1]), int(new[2])
    found = [fault.text for fault in _faults_between(moved, start, end) if fault.kind not in before]
    if not found and min(moved)[0] >= start:
        return []
    if before:
        return found or ["a block is outside of the record"]
    if end <= blocks[0][0] or blocks[-1][1] <= start:
        return ["all blocks are outside of the record"]
    said = [_place(f"the start {start}", start, blocks)] if moved[0][0] >= moved[0][1] else []
    return said + ([_place(f"the end {end}", end, blocks)] if moved[-1][0] >= moved[-1][1] else [])


def _place(what: str, place: int, blocks: Blocks) -> str:
    """Where a place between the outer ends of valid blocks is."""
    for number, (start, end) in enumerate(blocks, 1):
        if start < place < end:
            return f"{what} is within block {number} of {len(blocks)}"
        if place <= start:
            return f"{what} is between blocks {number - 1} and {number} of {len(blocks)}"
    return f"{what} is after block {len(blocks)}"


def _offer(old: Record, tail: str, new: Record, columns: Sequence[str], blocks: Optional[Blocks]) -> Optional[Record]:
    """The record of all columns that is nearest to a new one whose tail can't follow, if there is one.

    An end within a block cuts it, one between blocks goes back to the nearest block that is left, and blocks outside are dropped.
    A summit outside becomes -1, which is none: any other base would be a measurement that nobody made.
    """
    columns = list(columns)
    if format_of(old, tail) == NARROW:
        columns[3] = "-1"
    if blocks:
        left = [(max(start, int(new[1])), min(end, int(new[2]))) for start, end in _moved_blocks(blocks, old, new)]
        left = [block for block in left if block[0] < block[1]]
        if not left:
            return None
        new = (new[0], str(left[0][0]), str(left[-1][1]), *new[3:])
        columns[BLOCKS] = _columns_of_blocks(left, left[0][0], columns[BLOCKS])
    if format_of(old, tail) in (BED8, BED9, BED12):
        thick = [min(max(int(text), int(new[1])), int(new[2])) for text in columns[:2]]
        if columns[:2] != ["0", "0"]:
            columns[:2] = [str(place) for place in (thick if thick[0] < thick[1] else [int(new[1])] * 2)]
    return None if worse(old, tail, new, _tail(columns)) else (*new, *columns)


def _columns_of_blocks(blocks: Blocks, start: int, like: Sequence[str]) -> list[str]:
    """The three columns of blocks, with a comma after the lists if there was one."""
    sizes = ",".join(str(block[1] - block[0]) for block in blocks)
    starts = ",".join(str(block[0] - start) for block in blocks)
    return [str(len(blocks)), *(text + "," * other.endswith(",") for text, other in zip((sizes, starts), like[1:]))]


def _gaps(record: Record, columns: Sequence[str]) -> str:
    """The gaps between the blocks, each with a comma after it if the lists end so; else the text of the columns."""
    blocks = _blocks(record, columns)
    text = " ".join(columns[BLOCKS])
    if blocks is None or _faults_of_blocks(record, columns):
        return text
    gaps = ",".join(f"{one[1]}-{other[0]}" for one, other in zip(blocks, blocks[1:])) + "," * columns[5].endswith(",")
    return gaps if _columns_of_gaps(gaps, int(record[1]), int(record[2])) == columns[BLOCKS] else text


def _columns_of_gaps(text: str, start: int, end: int) -> list[str]:
    """The three columns of blocks between whose gaps the record's ends are."""
    gaps = [tuple(map(int, gap.split("-"))) for gap in text.split(",") if gap]
    places = [start, *(place for gap in gaps for place in gap), end]
    blocks = list(zip(places[::2], places[1::2]))
    if _faults_between(blocks, start, end):
        raise ValueError("the blocks are not within the record")
    return _columns_of_blocks(blocks, start, ["", *[text[-1:]] * 2])

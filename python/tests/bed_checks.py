"""What bedToBigBed of UCSC checks of the fields of a BED line, written from its rules and without the package."""
import re

WHOLE = re.compile("[0-9]+")
SIGNED = re.compile("-?[0-9]+")
FLOATING = re.compile(r"-?[0-9]+(\.[0-9]+)?([eE][-+]?[0-9]+)?")


def are(kind, texts):
    return all(kind.fullmatch(text) for text in texts)


def wrong(rules):
    """The texts of rules that don't hold."""
    return [text for holds, text in rules if not holds]


def problems(line, bed):
    """Why bedToBigBed would refuse a line whose first `bed` columns are those of BED; the others are not looked at."""
    columns = line.split("\t")
    if not are(WHOLE, [columns[place] for place in (1, 2, 6, 7, 9) if place < bed]):
        return ["integer expected"]
    start, end = int(columns[1]), int(columns[2])
    rules = [(start <= end, "chromStart after chromEnd")]
    if bed > 4:
        rules.append((are(SIGNED, columns[4:5]) and 0 <= int(columns[4]) <= 1000, "score must be between 0 and 1000"))
    if bed > 5:
        rules.append((columns[5] in ("+", "-", "."), "Expecting + or - or . in strand"))
    if bed > 7:
        first, last = int(columns[6]), int(columns[7])
        rules.append((first <= last, "thickStart after thickEnd"))
        rules.append((first == 0 or start <= first <= end, "thickStart out of range"))
        rules.append((last == 0 or start <= last <= end, "thickEnd out of range"))
    if bed > 8:
        parts = columns[8].split(",")
        colour = are(WHOLE, parts) and (len(parts) == 1 or len(parts) == 3 and all(int(part) <= 255 for part in parts))
        rules.append((colour, "Expecting color to consist of r,g,b values"))
    return wrong(rules) + (block_problems(columns, start, end) if bed > 11 else [])


def block_problems(columns, start, end):
    count = int(columns[9])
    sizes, starts = ((text[:-1] if text.endswith(",") else text).split(",") for text in columns[10:12])
    if count < 1:
        return ["Expecting blockCount to be 1 or more"]
    if not are(WHOLE, sizes + starts):
        return ["blocks: integer expected"]
    if len(sizes) != count or len(starts) != count:
        return ["Expecting blockCount elements"]
    blocks = [(start + int(place), start + int(place) + int(size)) for place, size in zip(starts, sizes)]
    return wrong([
        (all(first < last for first, last in blocks), "blockSizes must be greater than 0"),
        (all(last <= end for _, last in blocks), "block past chromEnd"),
        (all(one[1] <= other[0] for one, other in zip(blocks, blocks[1:])), "BED blocks must be in ascending order without overlap"),
        (blocks[0][0] == start, "BED blocks must span chromStart to chromEnd: chromStarts[0] must be 0"),
        (blocks[-1][1] == end, "BED blocks must span chromStart to chromEnd: the last block must end at chromEnd")])


def peak_problems(line):
    """The same of a narrowPeak line: BED6, three numbers, and the summit's distance from the start, or -1."""
    columns = line.split("\t")
    found = problems(line, 6)
    if len(columns) != 10 or not are(FLOATING, columns[6:9]) or not are(SIGNED, columns[9:]):
        return [*found, "not narrowPeak"]
    return found + wrong([(-1 <= int(columns[9]) < int(columns[2]) - int(columns[1]), "the summit is outside")])

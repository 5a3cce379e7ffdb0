"""What docs/FORMAT.md says of files and words, as far as the comparison with bedtools needs it: lines, records, and the first fault."""

import re

from comparison import table

# the greatest length of a sequence, and the greatest distance of -d
LONGEST = 4_000_000_000
FARTHEST = 1_000_000_000
NUMBER = re.compile(rb"[0-9]{1,10}")
# what sum, min and max take for a number
SUMMABLE = re.compile(rb"-?[0-9]{1,15}")
OPERATIONS = ("count", "sum", "min", "max", "collapse", "distinct")
NUMERIC = ("sum", "min", "max")
# the files that a subcommand reads, in the order in which they are looked at
FILES = {"intersect": ("sizes", "a.bed", "b.bed"), "subtract": ("sizes", "a.bed", "b.bed"), "getfasta": ("sizes", "a.bed", "s.fa")}


def files_of(subcommand):
    return FILES.get(subcommand, ("sizes", "a.bed"))


def lines_of(text):
    """The lines of a file; a CR directly before an LF is dropped."""
    *ended, rest = text.split(b"\n")
    return [line.removesuffix(b"\r") for line in ended] + ([rest] if rest else [])


def is_header(line):
    return line.startswith((b"#", b"track ", b"browser ")) or line in (b"track", b"browser")


def is_record(line):
    return line != b"" and not is_header(line)


def genome_of(text):
    """Names and lengths of a sound genome file, in its order."""
    kept = (line for line in lines_of(text) if line and not line.startswith(b"#") and line != b"chrom\tsize")
    return {name: int(length) for name, length, *_ in (line.split(b"\t") for line in kept)}


def columns_of(text):
    """The records of a BED file, each as its columns."""
    return [line.split(b"\t") for line in lines_of(text) if is_record(line)]


def track_key(genome):
    """The key by which records are put into track order."""
    ranks = {name: rank for rank, name in enumerate(genome)}
    return lambda columns: (ranks.get(columns[0], len(ranks)), int(columns[1]), int(columns[2]), columns[3:])


def width_of(text):
    """The number of columns of a file's first record, or None."""
    found = columns_of(text)
    return len(found[0]) if found else None


# ------------------------------------------------------------------ faults


def genome_fault(files, name):
    seen = set()
    for at, line in enumerate(lines_of(files[name]), 1):
        if line == b"" or line.startswith(b"#") or line == b"chrom\tsize":
            continue
        columns = line.split(b"\t")
        if len(columns) < 2:
            return at, "wrong number of columns"
        if not NUMBER.fullmatch(columns[1]) or int(columns[1]) > LONGEST:
            return at, "bad length"
        if columns[0] in seen:
            return at, "repeated name"
        seen.add(columns[0])
    return None


def bed_fault(files, name):
    genome, width = genome_of(files["sizes"]), None
    for at, line in enumerate(lines_of(files[name]), 1):
        if not is_record(line):
            continue
        columns = line.split(b"\t")
        width = width or len(columns)
        if not 3 <= width <= 6:
            return at, "wrong number of columns"
        fault = record_fault(genome, width, columns)
        if fault:
            return at, fault
    return None


def record_fault(genome, width, columns):
    """The first fault of a record, in the order of the faults' numbers."""
    if len(columns) != width:
        return "wrong number of columns"
    sequence, start, stop = columns[:3]
    faults = (
        ("unknown sequence", lambda: sequence not in genome),
        ("start is not a number", lambda: not NUMBER.fullmatch(start)),
        ("end is not a number", lambda: not NUMBER.fullmatch(stop)),
        ("start not below end", lambda: int(start) >= int(stop)),
        ("end past the sequence's end", lambda: int(stop) > genome[sequence]),
        ("bad name", lambda: width > 3 and columns[3] == b""),
        ("bad score", lambda: width > 4 and columns[4] == b""),
        ("bad strand", lambda: width > 5 and columns[5] not in (b"+", b"-", b".")),
    )
    return next((text for text, holds in faults if holds()), None)


def fasta_fault(files, name):
    genome, heads, lengths = genome_of(files["sizes"]), {}, {}
    for at, line in enumerate(lines_of(files[name]), 1):
        if line.startswith(b">"):
            sequence = re.split(rb"[ \t]", line[1:])[0]
            if sequence in heads:
                return at, "repeated name"
            heads[sequence], lengths[sequence] = at, 0
        elif line and not heads:
            return at, "bases before a header"
        elif any(not 33 <= byte <= 126 for byte in line):
            return at, "bad base"
        elif line:
            lengths[sequence] += len(line)
    wrong = [at for sequence, at in heads.items() if lengths[sequence] != genome.get(sequence, lengths[sequence])]
    return (wrong[0], "length differs from the genome") if wrong else None


def faults_of(files, subcommand):
    """The first fault of each file that a subcommand reads: its line and its text, or None; no more after a faulty genome file."""
    for name in files_of(subcommand):
        fault = {"sizes": genome_fault, "s.fa": fasta_fault}.get(name, bed_fault)(files, name)
        yield fault
        if fault and name == "sizes":
            return


def refusal_of(files, subcommand, options):
    """How bedkeep must refuse: its status, its message, the file and the line; None if it must not."""
    if not good_words(subcommand, options):
        return 2, "bad options", None, 0
    for name, fault in zip(files_of(subcommand), faults_of(files, subcommand)):
        if fault:
            return 3, fault[1], name, fault[0]
    width = width_of(files["a.bed"]) or 3
    if subcommand == "merge" and any(not 1 <= int(column) <= width for column in list_of(options, "-c")):
        return 2, "no such column", None, 0
    if "-s" in options and width < 6:
        return 2, "strand needs six columns", None, 0
    return None


def list_of(options, option):
    """The items of a list such as that of -c."""
    return options[options.index(option) + 1].split(",") if option in options else []


def good_words(subcommand, options):
    """Does bedkeep take these options together? Each comes once here, and each value has its form."""
    run = table.RUNS[subcommand]
    if any(other in options for option in options for other in run.excluded(option)):
        return False
    if run.view_usage.startswith("-") and not options:
        return False
    if subcommand == "merge":
        columns, operations = list_of(options, "-c"), list_of(options, "-o")
        fit = len(columns) == len(operations) or 1 in (len(columns), len(operations)) or not operations
        return fit if columns else not operations
    return True


def pairs_of(options):
    """The columns and operations of merge, pair by pair."""
    columns, operations = [int(item) for item in list_of(options, "-c")], list_of(options, "-o") or ["sum"]
    if len(operations) == 1:
        return [(column, operations[0]) for column in columns]
    if len(columns) == 1:
        return [(columns[0], operation) for operation in operations]
    return list(zip(columns, operations))


# ------------------------------------------------------------------ blocks


def blocks_of(files, options):
    """The members of each block of merge, in the order in which bedkeep prints the blocks."""
    genome, distance = genome_of(files["sizes"]), int(options[options.index("-d") + 1]) if "-d" in options else 0
    records, blocks = sorted(columns_of(files["a.bed"]), key=track_key(genome)), []
    for name in genome:
        for strands in ((b"+",), (b"-",)) if "-s" in options else ((b"+", b"-", b"."),):
            group = [r for r in records if r[0] == name and (len(r) < 6 or r[5] in strands)]
            blocks += joined(group, distance)
    return blocks


def joined(group, distance):
    """Records in order, cut where the next one begins farther than the distance from all before."""
    blocks, reach = [], None
    for columns in group:
        start, stop = int(columns[1]), int(columns[2])
        if reach is None or start > reach + distance:
            blocks.append([])
            reach = stop
        blocks[-1].append(columns)
        reach = max(reach, stop)
    return blocks


def number_result(values, operation):
    """What sum, min and max of bedkeep give for some values."""
    there = [value for value in values if value != b"."]
    if not there or not all(SUMMABLE.fullmatch(value) for value in there):
        return b"."
    return b"%d" % {"sum": sum, "min": min, "max": max}[operation](int(value) for value in there)

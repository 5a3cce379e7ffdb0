"""The known reasons for a difference if both programs take their input, or bedtools alone refuses it.

A reason changes the run of bedtools so that the cause is gone: records in another order, a line left out, one option more; or it
reorders the rows, or puts in the values that the difference is about. A difference is explained if bedtools then gives, byte for byte,
what bedkeep printed before.
"""

import re
from collections import namedtuple

from comparison import formats, programs

# `applies` looks at the files, the order, the subcommand and the options alone; `words` and `check` are what the report says.
Reason = namedtuple("Reason", "name applies change words check")
FLOAT = re.compile(rb"-?[0-9]+(\.[0-9]+)?(e[0-9]+)?")
NOT_A_NUMBER = float("nan")
# bases of the smallest bin of bedtools, and the first end of a record that its subtract doesn't take
BIN, TOO_FAR = 2**14, 2**31 - 1


def genome(asked):
    return formats.genome_of(asked.files["sizes"])


def records(asked, name="a.bed"):
    return formats.columns_of(asked.files[name])


def with_file(asked, name, text):
    return asked._replace(files=dict(asked.files, **{name: text}))


def beds(asked):
    return ("a.bed", "b.bed") if asked.subcommand in ("intersect", "subtract") else ("a.bed",)


def with_lines(asked, change):
    """The BED files that are read, their lines changed."""
    for name in beds(asked):
        asked = with_file(asked, name, b"".join(line + b"\n" for line in change(formats.lines_of(asked.files[name]))))
    return asked


def any_line(holds):
    """Is there a line of this kind in a BED file that is read?"""
    return lambda asked: any(holds(line) for name in beds(asked) for line in formats.lines_of(asked.files[name]))


def header_last(asked):
    """Does a BED file have a header line after its last record?"""
    last = [[line for line in formats.lines_of(asked.files[name]) if line][-1:] for name in beds(asked)]
    return any(lines and formats.is_header(lines[0]) for lines in last)


# ------------------------------------------------------------------ order


def track_ordered(asked):
    """The records in track order; all other lines stay where they are."""
    key = formats.track_key(genome(asked))

    def change(lines):
        there = iter(sorted((line.split(b"\t") for line in lines if formats.is_record(line)), key=key))
        return [b"\t".join(next(there)) if formats.is_record(line) else line for line in lines]

    return with_lines(asked, change)


def out_of_order(asked):
    """Is a file that bedtools gets as it is in another order than the track's?"""
    if asked.order and asked.subcommand in programs.SORTED:
        return False
    key = formats.track_key(genome(asked))
    return any(records(asked, name) != sorted(records(asked, name), key=key) for name in beds(asked))


def has_ties(asked):
    """Are there records of one start that differ, in a file that is sorted for bedtools?"""
    seen = {}
    return bool(asked.order) and asked.subcommand in programs.SORTED and any(
        seen.setdefault((columns[0], int(columns[1])), columns) != columns for columns in records(asked))


def by_rank(asked):
    """The rows by their sequences, in the order of the genome file."""
    ranks = {name: rank for rank, name in enumerate(genome(asked))}
    return after(asked, lambda text: b"".join(sorted(text.splitlines(True), key=lambda row: ranks[row.split(b"\t")[0]])))


def after(asked, change):
    return asked._replace(after=(*asked.after, change))


def bare_sequence(asked):
    """Does genomecov print a sequence that has no record?"""
    return asked.subcommand == "genomecov" and bool({"-bga", "-d"} & set(asked.options)) and len({r[0] for r in records(asked)}) < len(genome(asked))


def in_bins(asked):
    return asked.subcommand == "intersect" and not {"-u", "-v", "-c"} & set(asked.options) and max(genome(asked).values()) > BIN


# ------------------------------------------------------------------ values


def their_number(value):
    return float(value) if FLOAT.fullmatch(value) else NOT_A_NUMBER


def their_result(values, operation):
    """What sum, min and max of bedtools give: one value that is no number takes part as one that is neither less nor greater."""
    numbers = [their_number(value) for value in values]
    result = sum(numbers) if operation == "sum" else numbers[0]
    for number in numbers if operation != "sum" else ():
        if number < result if operation == "min" else number > result:
            result = number
    return b"." if result != result else b"%.10g" % result


def value_cause(values, operation):
    """Why the two programs give other results for these values."""
    if any(formats.SUMMABLE.fullmatch(value) is None and value.lstrip(b"-").isdigit() for value in values):
        return "sixteen digits"
    if any(value != b"." and not formats.SUMMABLE.fullmatch(value) for value in values):
        return "fractions and texts"
    if b"." in values:
        return "dots"
    return "minus zero" if their_result(values, operation) == b"-0" else "more than ten digits"


def mend_values(cause):
    """A change of the rows of merge: if the values of a block have this cause, bedtools' result is exchanged for that of FORMAT.md."""
    def change(asked):
        blocks, pairs = formats.blocks_of(asked.files, asked.options), formats.pairs_of(asked.options)
        return after(asked, lambda text: mended(text, blocks, pairs, cause))

    return change


def mended(text, blocks, pairs, cause):
    rows = [row.split(b"\t") for row in text.splitlines()]
    if len(rows) != len(blocks) or any(len(row) != 3 + len(pairs) for row in rows):
        return None
    for row, members in zip(rows, blocks):
        for at, (column, operation) in enumerate(pairs, 3):
            values = [columns[column - 1] for columns in members]
            if operation in formats.NUMERIC and value_cause(values, operation) == cause and row[at] == their_result(values, operation):
                row[at] = formats.number_result(values, operation)
    return b"".join(b"\t".join(row) + b"\n" for row in rows)


def far_ranks(asked):
    """The records on small positions: each position is exchanged for its rank among all, and put back in the rows."""
    places = sorted({int(place) for name in beds(asked) for columns in records(asked, name) for place in columns[1:3]} | {0})
    rank = {place: b"%d" % at for at, place in enumerate(places)}

    def change(lines):
        split = [line.split(b"\t") for line in lines if formats.is_record(line)]
        return [b"\t".join([columns[0], rank[int(columns[1])], rank[int(columns[2])], *columns[3:]]) for columns in split]

    def back(row):
        columns = row.split(b"\t")
        return b"\t".join([columns[0], b"%d" % places[int(columns[1])], b"%d" % places[int(columns[2])], *columns[3:]]) + b"\n"

    return after(with_lines(asked, change), lambda text: b"".join(back(row) for row in text.splitlines()))


def without_zeros(asked):
    def change(line):
        columns = line.split(b"\t")
        return b"\t".join([columns[0], b"%d" % int(columns[1]), b"%d" % int(columns[2]), *columns[3:]])

    return with_lines(asked, lambda lines: [change(line) if formats.is_record(line) else line for line in lines])


def has_zeros(asked):
    return any(re.match(b"0[0-9]", place) for name in beds(asked) for columns in records(asked, name) for place in columns[1:3])


# ------------------------------------------------------------------ other files


def plain_genome(asked):
    return with_file(asked, "sizes", b"".join(b"%s\t%d\n" % pair for pair in genome(asked).items()))


def other_genome_lines(asked):
    return b"\r" in asked.files["sizes"] or b"chrom\tsize\n" in asked.files["sizes"]


def without_length_zero(asked):
    return with_file(asked, "sizes", re.sub(rb"(?m)^[^\t\n]*\t0\r?\n", b"", asked.files["sizes"]))


def even_bases(asked):
    """The FASTA file with one line of bases for each sequence, and no CR."""
    parts = re.split(rb"(?m)^(>.*)\n", asked.files["s.fa"].replace(b"\r\n", b"\n"))
    text = b"".join(head + b"\n" + bases.replace(b"\n", b"") + b"\n" for head, bases in zip(parts[1::2], parts[2::2]))
    return with_file(asked, "s.fa", text)


def has_uneven_bases(asked):
    """Is a line of bases empty, or shorter than one after it?"""
    for part in re.split(rb"(?m)^>.*\n", asked.files["s.fa"])[1:]:
        lengths = [len(line) for line in part.removesuffix(b"\n").split(b"\n")]
        if len(set(lengths[:-1])) > 1 or lengths[-1] > max(lengths) or 0 in lengths or lengths[-1] > lengths[0]:
            return True
    return False


# ------------------------------------------------------------------ the list


REASONS = [
    Reason("order of sequences",
           lambda asked: asked.order == "sort" and asked.subcommand in programs.SORTED,
           lambda asked: asked._replace(order="bedtools sort"),
           "bedkeep prints sequences in the order of the genome file. bedtools prints them in the order of its input: after `sort -k1,1 -k2,2n` the order "
           "of their names as bytes, `chr10` before `chr2`. So `cluster` numbers its blocks in another order, and `complement` of bedtools refuses records "
           "whose sequences come in another order than in the genome file.",
           "`bedtools sort -g sizes` instead of `sort`"),
    Reason("order at one start", has_ties, lambda asked: asked._replace(ties=True),
           "bedkeep sorts records by sequence, start, end, and then name, score and strand as bytes. `sort -k1,1 -k2,2n` compares lines as text if the "
           "starts are equal, and `bedtools sort` looks at sequence and start alone. So records of one start can come in another order in `cluster`, and "
           "their values in `collapse`.",
           "records of one start put into bedkeep's order before bedtools gets them"),
    Reason("order of the file", out_of_order, track_ordered,
           "bedkeep sorts its records; they may come in any order. `intersect`, `subtract` and `getfasta` of bedtools print in the order of the first file, "
           "and the overlaps of one record in that of the second. `merge`, `cluster` and `complement` of bedtools want sorted records, and refuse most others.",
           "the records of both files put into bedkeep's order before bedtools gets them"),
    Reason("bins", in_bins,
           lambda asked: asked._replace(options=(*asked.options, "-sorted", "-g", "sizes")),
           "The overlaps of one record come in the order of the second file's records. bedtools finds them bin by bin, the smallest bins, of 16,384 bases, first.",
           "`-sorted -g sizes`, with which bedtools uses no bins"),
    Reason("sequences without a record", bare_sequence, by_rank,
           "In `genomecov -bga` and `-d` a sequence without a record is in its place in the order of the genome file. bedtools prints it after all that have "
           "records.",
           "the rows of bedtools put into the order of the genome file, those of one sequence as they were"),
    Reason("strands apart",
           lambda asked: asked.subcommand == "merge" and "-s" in asked.options and formats.width_of(asked.files["a.bed"]) == 6,
           lambda asked: asked._replace(split=True),
           "`merge -s` prints the `+` blocks of a sequence and then its `-` blocks. bedtools prints both by their starts. If several sequences have "
           "records, bedtools 2.30.0 also prints some blocks in two rows, or between those of another sequence.",
           "bedtools run for each sequence by itself, with `-S +` and then `-S -` instead of `-s`"),
    Reason("empty lines", any_line(lambda line: line == b""), lambda asked: with_lines(asked, lambda lines: [line for line in lines if line]),
           "bedkeep skips empty lines of a BED file. bedtools 2.30.0 doesn't join records across one in `merge`, and `complement` changes with it.",
           "the files without their empty lines"),
    Reason("header lines", header_last, lambda asked: with_lines(asked, lambda lines: [line for line in lines if not formats.is_header(line)]),
           "bedkeep skips header lines wherever they are. bedtools 2.30.0 refuses some files with one after the last record, or crashes on them.",
           "the files without their header lines"),
    Reason("lines of the genome file",
           lambda asked: asked.subcommand in ("complement", "genomecov") and other_genome_lines(asked), plain_genome,
           "A genome file may have the heading `chrom`, TAB, `size`, and lines that end in CR LF. `complement` and `genomecov` of bedtools refuse both.",
           "the genome file without its heading and without CR"),
    Reason("a sequence of length 0",
           lambda asked: asked.subcommand in ("complement", "genomecov") and 0 in genome(asked).values(), without_length_zero,
           "A sequence may have length 0, and then has no row. `complement` and `genomecov` of bedtools refuse the genome file.",
           "the genome file without the sequence"),
    Reason("lines of bases",
           lambda asked: asked.subcommand == "getfasta" and (b"\r" in asked.files["s.fa"] or has_uneven_bases(asked)), even_bases,
           "A FASTA file may have lines of any lengths, empty ones, and lines that end in CR LF. bedtools refuses a sequence whose lines differ in length, and "
           "takes a CR for a base: then all bases after it are shifted by one, and names of sequences end in CR.",
           "the FASTA file with one line for each sequence, and without CR"),
    Reason("leading zeros", has_zeros, without_zeros,
           "A position is printed without its leading zeros everywhere. bedtools keeps them if `-c 2` or `-c 3` names the column.",
           "the files without leading zeros"),
    Reason("operation left out",
           lambda asked: asked.subcommand == "merge" and "-c" in asked.options and "-o" not in asked.options,
           lambda asked: asked._replace(options=(*asked.options, "-o", "sum")),
           "`merge -c` without `-o` sums, as the manual of bedtools says. bedtools 2.30.0 asks for `-o`, prints nothing, and ends with status 0.",
           "`-o sum` added for bedtools"),
    *[Reason(name, lambda asked: asked.subcommand == "merge" and any(operation in formats.NUMERIC for _, operation in formats.pairs_of(asked.options)),
             mend_values(name), words, check)
      for check in ["the result of bedtools predicted from the values of the block, and exchanged for the one that FORMAT.md gives; all else is compared as it is"]
      for name, words in [
          ("dots", "`sum`, `min` and `max` skip a value `.`. bedtools gives `.` for the sum of a block that has one, and for `min` and `max` if it is "
           "the value of the block's first record."),
          ("fractions and texts", "For `sum`, `min` and `max` a number is an optional `-` and 1 to 15 digits. If a block has any other value except `.`, the result "
           "is `.`. bedtools reads fractions and exponents too, and leaves a text out of `min` and `max` unless it is the value of the block's first record."),
          ("sixteen digits", "A value of 16 digits or more is no number, and the result is `.`. bedtools reads it and prints ten digits of it."),
          ("more than ten digits", "Results have all their digits. bedtools prints the first ten, and a form like `1e+12`."),
          ("minus zero", "Zero has no sign. bedtools prints `-0` if that is the least or greatest value."),
      ]],
    Reason("far positions",
           lambda asked: asked.subcommand == "subtract" and any(int(columns[2]) >= TOO_FAR for name in beds(asked) for columns in records(asked, name)),
           far_ranks,
           "Positions go up to 4,000,000,000 everywhere. `subtract` of bedtools 2.30.0 prints wrong positions, or crashes, for some records that "
           "end at 2,147,483,647 or later, in either file.",
           "the same records on small positions: each position exchanged for its rank among all of them, and put back in bedtools' rows"),
]

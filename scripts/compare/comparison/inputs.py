"""Generated inputs: a genome file, two BED files and a FASTA file, of a kind; and the options that are tried on them."""

import itertools
import random
from collections import namedtuple

from comparison import formats, table

# `order` is how a user of bedtools sorts a.bed first: "sort", "bedtools sort" or, if the file is given as it is, "".
Inputs = namedtuple("Inputs", "files order without")
NAMES = [b"chr1", b"chr2", b"chr10", b"chrX", b"chrM", b"scaffold_7"]
BASES = b"ACGTNacgtnRYKMSWBDHVUryksmwbdhvu*"
BASE_OF_BYTE = bytes(BASES[byte % len(BASES)] for byte in range(256))
WORDS = [b"a", b"b", b"B", b"5", b"gene 1", b"x;y"]
WHOLE = [b"0", b"1", b"5", b"12", b"-7", b"250", b"007"]
SCORES = [WHOLE, WHOLE, WHOLE + [b".", b"."], WHOLE + [b"2.5", b"x", b"1e3"], WHOLE + [b"999999999999", b"-99999999999"],
          WHOLE + [b"1000000000000000"], [b"0", b"-0", b"5"]]
# lengths at the limits of two's powers, and of bedkeep
LIMITS = [2**29 - 1, 2**29, 2**31 - 1, 2**31, 3 * 2**30, formats.LONGEST - 1, formats.LONGEST]


def draw(kind, chance):
    """Inputs of a kind: small sound files, then changed as the kind says."""
    longest = {"long sequences": 300_000, "lengths at the limits": None}.get(kind, chance.choice([20, 40, 100]))
    genome = draw_genome(chance, longest)
    widths = [chance.choice([3, 4, 5, 6, 6, 6, 6]), chance.choice([3, 4, 5, 6])]
    # bedtools subtract goes over a record base by base
    short = longest is None and chance.random() < 0.5
    first, second = (draw_records(chance, genome, width, short) for width in widths)
    files = {"sizes": genome_text(genome), "a.bed": bed_text(first), "b.bed": bed_text(second), "s.fa": b""}
    without = {"long sequences": {"genomecov -d"}, "lengths at the limits": {"genomecov", "getfasta"}}.get(kind, set())
    if longest is None and not short:
        without = without | {"subtract"}
    if "getfasta" not in without:
        files["s.fa"] = fasta_text(chance, genome, longest)
    inputs = Inputs(files, chance.choice(["sort", "bedtools sort"]), without)
    return KINDS[kind](inputs, chance)


def draw_genome(chance, longest):
    names = chance.sample(NAMES, chance.randint(1, 4))
    if longest is None:
        return {name: chance.choice(LIMITS) for name in names}
    return {name: chance.randint(longest // 2, longest) for name in names}


def draw_records(chance, genome, width, short):
    """Records in track order, some of them copies, book-ended, nested, of one start, or whole sequences."""
    records, scores, strands = [], chance.choice(SCORES), chance.choice([b"+", b"+-", b"+-."])
    for _ in range(chance.randint(1, chance.choice([4, 9, 25]))):
        name, start, stop = draw_interval(chance, genome, records, short)
        further = [chance.choice(WORDS), chance.choice(scores), bytes([chance.choice(strands)])][:width - 3]
        records.append([name, b"%d" % start, b"%d" % stop, *further])
        if chance.random() < 0.15:
            records.append(records[-1])
    return sorted(records, key=formats.track_key(genome))


def draw_interval(chance, genome, records, short):
    """An interval anywhere, or one that has to do with a record that was drawn before."""
    name = chance.choice(list(genome))
    length = genome[name]
    start = chance.randrange(max(0, length - 1000) if short else 0, length)
    stop = min(length, start + chance.choice([1, 2, 5, 10, max(1, length // 3), chance.randint(1, length)] if not short else [1, 10, 100, 500]))
    way = chance.randrange(8)
    if way == 0:
        return name, max(0, length - 1000) if short else 0, length
    if way > 3 or not records:
        return name, start, stop
    name, start, stop = records[-1][0], int(records[-1][1]), int(records[-1][2])
    if way == 1 and stop < genome[name]:
        return name, stop, min(genome[name], stop + 3)
    if way == 2:
        return name, start, min(genome[name], stop + 4)
    return name, chance.randint(start, stop - 1), stop


def genome_text(genome):
    return b"".join(b"%s\t%d\n" % pair for pair in genome.items())


def bed_text(records):
    return b"".join(b"\t".join(columns) + b"\n" for columns in records)


def fasta_text(chance, genome, longest):
    """Lines of one length, as bedtools wants them; now and then a sequence is missing, or one more is there."""
    step, text = chance.choice([7, 10, 60]) if longest <= 100 else 5000, b""
    for name, length in [*genome.items(), (b"other", 9)]:
        if chance.random() < 0.1:
            continue
        bases = chance.randbytes(length).translate(BASE_OF_BYTE)
        text += b">" + name + chance.choice([b"", b" some text"]) + b"\n"
        text += b"".join(bases[at:at + step] + b"\n" for at in range(0, length, step))
    return text or b">other\nACGT\n"


# ------------------------------------------------------------------ kinds


def changed(inputs, order=None, **texts):
    """The inputs with other files; `a_bed` is the file a.bed."""
    files = dict(inputs.files, **{{"a_bed": "a.bed", "b_bed": "b.bed", "s_fa": "s.fa"}.get(name, name): text for name, text in texts.items()})
    return inputs._replace(files=files, order=inputs.order if order is None else order)


def in_order(inputs, chance):
    return changed(inputs, "")


def plain(inputs, chance):
    return shuffled(inputs, chance) if chance.random() < 0.5 else inputs


def shuffled(inputs, chance, order=None):
    texts = {}
    for name in ("a_bed", "b_bed"):
        lines = inputs.files[name.replace("_", ".")].splitlines(True)
        texts[name] = b"".join(chance.sample(lines, len(lines)))
    return changed(inputs, order, **texts)


def not_sorted(inputs, chance):
    return shuffled(inputs, chance, "")


def no_records(inputs, chance):
    empty = chance.choice([b"", b"", b"# nothing\n", b"track name=x\n"])
    return changed(inputs, **{chance.choice(["a_bed", "b_bed"]): empty})


def headers_first(inputs, chance):
    heads = b"".join(chance.sample([b"# note\n", b"track name=x\n", b"browser position chr1:1-9\n", b"#\n"], chance.randint(1, 3)))
    return changed(inputs, "", a_bed=heads + inputs.files["a.bed"], b_bed=heads + inputs.files["b.bed"])


def headers_among(inputs, chance):
    return changed(inputs, "", a_bed=sprinkled(inputs.files["a.bed"], [b"# note\n", b"track x\n", b"browser y\n"], chance))


def empty_lines(inputs, chance):
    which = chance.choice(["a_bed", "b_bed"])
    return changed(inputs, "", **{which: sprinkled(inputs.files[which.replace("_", ".")], [b"\n"], chance)})


def sprinkled(text, lines, chance):
    """The text with a few lines put between its own."""
    rows = text.splitlines(True)
    for _ in range(chance.randint(1, 2)):
        rows.insert(chance.randint(0, len(rows)), chance.choice(lines))
    return b"".join(rows)


def cr_lf_records(inputs, chance):
    return changed(inputs, **{name: inputs.files[name.replace("_", ".")].replace(b"\n", b"\r\n") for name in ("a_bed", "b_bed")})


def cr_lf_genome(inputs, chance):
    return changed(inputs, "sort", sizes=inputs.files["sizes"].replace(b"\n", b"\r\n"))


def cr_lf_bases(inputs, chance):
    return changed(inputs, s_fa=inputs.files["s.fa"].replace(b"\n", b"\r\n"))


def no_last_line_end(inputs, chance):
    return changed(inputs, **{name: inputs.files[name.replace("_", ".")].removesuffix(b"\n") for name in ("sizes", "a_bed", "b_bed", "s_fa")})


def genome_lines(inputs, chance):
    """Comments, empty lines, a heading and further columns in the genome file."""
    sizes = inputs.files["sizes"]
    way = chance.randrange(4)
    other = [b"# note\n" + sizes, sizes.replace(b"\n", b"\n\n"), b"chrom\tsize\n" + sizes, sizes.replace(b"\n", b"\tmore\n")]
    return changed(inputs, "sort", sizes=other[way])


def length_zero(inputs, chance):
    rows = inputs.files["sizes"].splitlines(True)
    rows.insert(chance.randint(0, len(rows)), b"chr0\t0\n")
    return changed(inputs, sizes=b"".join(rows))


def leading_zeros(inputs, chance):
    return changed(inputs, a_bed=zeros(inputs.files["a.bed"], chance), b_bed=zeros(inputs.files["b.bed"], chance))


def zeros(text, chance):
    rows = [line.split(b"\t") for line in text.splitlines(True)]
    for row in rows:
        row[1] = b"0" * chance.randint(0, 2) + row[1]
    return b"".join(b"\t".join(row) for row in rows)


def uneven_bases(inputs, chance):
    """Lines of bases of several lengths, or an empty line among them."""
    rows = inputs.files["s.fa"].splitlines(True)
    at = max(range(len(rows)), key=lambda row: 0 if rows[row].startswith(b">") else len(rows[row]))
    cut = len(rows[at]) // 2
    rows[at:at + 1] = [rows[at][:cut] + b"\n", rows[at][cut:]] if chance.random() < 0.5 else [rows[at], b"\n"]
    return changed(inputs, s_fa=b"".join(rows))


def faulty_record(inputs, chance):
    """One record that bedkeep refuses: of no base, past the end, of an unknown sequence, with another strand, too wide."""
    which = chance.choice(["a_bed", "a_bed", "b_bed"])
    rows = [line.split(b"\t") for line in inputs.files[which.replace("_", ".")].splitlines()]
    row, genome = chance.choice(rows), formats.genome_of(inputs.files["sizes"])
    way = chance.choice(["no base", "past the end", "unknown", "strand", "seven", "upside down", "fewer columns"])
    if way == "no base":
        row[2] = row[1]
    elif way == "past the end":
        row[2] = b"%d" % (genome[row[0]] + chance.randint(1, 9))
    elif way == "unknown":
        row[0] = b"chrQ"
    elif way == "strand" and len(row) == 6:
        row[5] = b"x"
    elif way == "seven" and len(row) == 6:
        rows = [other + [b"0"] for other in rows]
    elif way == "upside down":
        row[1], row[2] = row[2], row[1]
    elif way == "fewer columns" and len(row) > 3:
        row.pop()
    without = inputs.without | ({"genomecov"} if way == "unknown" else set())
    return changed(inputs, "", **{which: bed_text(rows)})._replace(without=without)


def faulty_file(inputs, chance):
    """A genome or FASTA file that bedkeep refuses: a name twice, another length, bases before a header, a wrong length."""
    sizes, bases = inputs.files["sizes"], inputs.files["s.fa"]
    way = chance.randrange(5)
    if way == 0:
        return changed(inputs, sizes=sizes + sizes.splitlines(True)[0])
    if way == 1:
        return changed(inputs, sizes=sizes + b"chr7\tten\n")
    if way == 2:
        return changed(inputs, s_fa=bases + bases.splitlines(True)[0] + b"ACGT\n")
    if way == 3:
        return changed(inputs, s_fa=b"ACGT\n" + bases)
    return changed(inputs, s_fa=bases.removesuffix(b"\n") + b"A\n" + b">end\nA\n")


# what kinds of inputs there are, and how they are made
KINDS = {
    "small files in bedkeep's order": in_order, "small files in any order": plain, "long sequences": plain, "lengths at the limits": plain,
    "files without a record": no_records,
    "unsorted files, not sorted for bedtools": not_sorted, "header lines first": headers_first, "header lines among records": headers_among,
    "empty lines": empty_lines, "CR LF in BED files": cr_lf_records, "CR LF in the genome file": cr_lf_genome,
    "CR LF in the FASTA file": cr_lf_bases, "no last line end": no_last_line_end, "other lines of the genome file": genome_lines,
    "a sequence of length 0": length_zero, "leading zeros": leading_zeros, "FASTA lines of several lengths": uneven_bases,
    "a faulty record": faulty_record, "a faulty genome or FASTA file": faulty_file,
}
# sound small files come more often than each other kind
TURNS = ["small files in bedkeep's order", "small files in any order"] * 4 + ["long sequences", "a faulty record"] + list(KINDS)[2:]


def inputs_of(seed, number):
    """The kind and the inputs of a number; the same for a seed each time."""
    kind = TURNS[number % len(TURNS)]
    return kind, draw(kind, random.Random(f"{seed} {number}"))


# ------------------------------------------------------------------ options


def options_of(inputs, chance):
    """Every subcommand with each option and each pair of options; those that bedkeep refuses, or one without -o, now and then."""
    width = formats.width_of(inputs.files["a.bed"]) or 3
    for subcommand, options in [*merge_options(chance, width), *other_options(chance)]:
        often = formats.good_words(subcommand, options) and ("-c" not in options or subcommand != "merge" or "-o" in options)
        if (often or chance.random() < 0.25) and not {subcommand, " ".join([subcommand, *options])} & inputs.without:
            yield subcommand, options


def merge_options(chance, width):
    lists = [list_words(chance, width) for _ in range(5)]
    distance = ("-d", str(chance.choice([0, 1, 2, 5, 20, 1000, formats.FARTHEST])))
    parts = [(), distance, ("-s",), ("-s", *distance)]
    yield from (("merge", part) for part in parts)
    yield from (("merge", (*part, *words)) for part, words in zip(parts, lists))
    yield from (("merge", (*part, *lists[4][:2])) for part in parts[:3])
    yield "merge", lists[4][2:]


def list_words(chance, width):
    """`-c` and `-o` with one to three columns and operations; now and then a column that isn't there, or lists that don't fit."""
    columns = [str(chance.choice([*range(1, width + 1), width, min(width, 5)])) for _ in range(chance.randint(1, 3))]
    if chance.random() < 0.05:
        columns[0] = str(chance.choice([0, width + 1]))
    operations = [chance.choice(formats.OPERATIONS) for _ in range(chance.choice([1, len(columns), 3 if len(columns) == 1 else 1]))]
    if chance.random() < 0.05:
        operations += ["count"]
    return "-c", ",".join(columns), "-o", ",".join(operations)


def other_options(chance):
    """Each option of the other subcommands, and each pair of those that have no value."""
    for run in table.SHARED:
        if run.name == "merge":
            continue
        for count in range(3):
            yield from ((run.name, options) for options in itertools.combinations(table.plain_options(run.name), count))
        for option in run.view:
            if option.kind == "Distance":
                yield run.name, (option.name, str(chance.choice([0, 1, 3, 10, formats.FARTHEST])))

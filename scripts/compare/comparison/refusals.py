"""The known reasons for which bedkeep refuses what bedtools takes. By then the status and the message of bedkeep are known to be right."""

from collections import namedtuple

from comparison import formats

# `applies` gets the text of the message, the faulty line's columns and what is asked; `holds` looks at what bedtools gave.
Refusal = namedtuple("Refusal", "name applies holds words check")
ONLY_REFUSED = "bedkeep's status and message, which must be those that FORMAT.md gives for the file"


def agrees(trial, options, change=lambda text: text):
    """Does bedkeep with other options print what bedtools printed, but for reasons that are known?"""
    asked = trial.asked
    ours = trial.desk.ours(asked.files, asked.subcommand, options)
    wanted = formats.refusal_of(asked.files, asked.subcommand, [option for option in options if option not in ("-width", "6")])
    if wanted and wanted[1] not in ("no such column", "strand needs six columns"):
        return ours.status == wanted[0]
    return ours.status == 0 and trial.explains(change(ours.output))


def less(options, *words):
    return tuple(option for option in options if option not in words)


def with_brackets(text):
    """The rows of getfasta with `()` after each head."""
    rows = text.splitlines(True)
    return b"".join(row.rstrip(b"\n") + b"()\n" if row.startswith(b">") else row.replace(b"\t", b"()\t", 1) for row in rows)


def strand_holds(trial):
    """Without six columns merge -s of bedtools prints nothing, and getfasta -s prints empty brackets."""
    if trial.asked.subcommand == "merge":
        return trial.theirs.output == b""
    return agrees(trial, less(trial.asked.options, "-s"), with_brackets)


def intersect_holds(trial):
    """bedtools goes by one of the two options: -wb and -v do nothing beside -c, nor -wb beside -u and -v."""
    options = less(trial.asked.options, "-wb")
    return agrees(trial, less(options, "-v") if "-c" in options else options)


def refused(trial):
    return True


def empty(asked):
    return formats.width_of(asked.files["a.bed"]) is None


REFUSALS = [
    Refusal("two options of intersect", lambda text, columns, asked: text == "bad options" and asked.subcommand == "intersect", intersect_holds,
            "bedkeep refuses `-wb` beside `-u` or `-v`, and `-v` beside `-c`. bedtools takes them, and goes by `-u`, `-v` or `-c` alone, by `-c` of the "
            "last two.",
            "bedkeep run with that option alone"),
    Refusal("two options of genomecov", lambda text, columns, asked: text == "bad options" and asked.options == ("-bg", "-bga"),
            lambda trial: agrees(trial, ("-bga",)),
            "bedkeep refuses `-bg` beside `-bga`. bedtools goes by `-bga`.", "bedkeep run with `-bga` alone"),
    Refusal("histogram", lambda text, columns, asked: text == "bad options" and asked.subcommand == "genomecov" and not asked.options, refused,
            "`genomecov` of bedkeep needs one of `-bg`, `-bga` and `-d`. That of bedtools prints a histogram without them, which bedkeep doesn't have.",
            "bedkeep's status and message, which must be those that FORMAT.md gives"),
    Refusal("columns of a file without a record",
            lambda text, columns, asked: text in ("no such column", "strand needs six columns") and empty(asked),
            lambda trial: agrees(trial, (*trial.asked.options, "-width", "6")),
            "A file without a record counts as one of three columns, and options that need more are refused; `-width 6` says how many it has. "
            "bedtools looks at no column of such a file.",
            "bedkeep run with `-width 6`"),
    Refusal("strand without six columns", lambda text, columns, asked: text == "strand needs six columns" and not empty(asked), strand_holds,
            "`-s` needs records of six columns. With fewer, `merge -s` of bedtools prints nothing, and `getfasta -s` shows `()` for the strand.",
            "the output of bedtools: that of `merge` must be empty, that of `getfasta` must be bedkeep's without `-s`, with `()` after each name"),
    Refusal("records of no base", lambda text, columns, asked: text == "start not below end" and columns[1] == columns[2], refused,
            "bedkeep refuses a record whose start is its end. bedtools takes it, and has rules of its own for it: in `genomecov` it covers two bases, "
            "and `intersect` finds it inside others.", ONLY_REFUSED),
    Refusal("past the end", lambda text, columns, asked: text == "end past the sequence's end", refused,
            "bedkeep refuses a record that ends after its sequence. bedtools takes it; most of its subcommands have no genome file to know the length from.",
            ONLY_REFUSED),
    Refusal("unknown sequence", lambda text, columns, asked: text == "unknown sequence", refused,
            "bedkeep refuses a record whose sequence isn't in the genome file. The subcommands of bedtools that have no genome file take it.", ONLY_REFUSED),
    Refusal("more than six columns", lambda text, columns, asked: text == "wrong number of columns" and len(columns) > 6, refused,
            "bedkeep takes BED files of three to six columns. bedtools takes more.", ONLY_REFUSED),
    Refusal("other strands", lambda text, columns, asked: text == "bad strand", refused,
            "bedkeep takes the strands `+`, `-` and `.`. bedtools takes other texts in the sixth column.", ONLY_REFUSED),
    Refusal("faulty genome file",
            lambda text, columns, asked: text == "bad length" or text == "repeated name" and not columns[0].startswith(b">"), refused,
            "Every subcommand of bedkeep reads the genome file, and refuses a faulty one: a length that is no number, or a name that comes twice. "
            "Most subcommands of bedtools don't read it; `complement` and `genomecov` take a name that comes twice.", ONLY_REFUSED),
    Refusal("faulty FASTA file",
            lambda text, columns, asked: asked.subcommand == "getfasta" and text in ("length differs from the genome", "bases before a header", "repeated name"),
            refused,
            "bedkeep refuses a FASTA file in which a sequence has another length than in the genome file, a name comes twice, or bases come before the first "
            "name. bedtools has no genome file there, and of a name that comes twice it takes the first.", ONLY_REFUSED),
]

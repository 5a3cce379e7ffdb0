"""Makes the smallest case of a reason smaller still, by taking things away from it."""

import re

from comparison import formats
from comparison.sorting import sort_case


def shrink(desk, found):
    """The case with as much taken away as leaves it in its class, for its reasons, and with rows if it had rows."""
    smaller = True
    while smaller:
        smaller = next((again for again in tried(desk, found) if shape(again) == shape(found)), None)
        found = smaller or found
    return found


def shape(found):
    faults = formats.faults_of(found.files, found.subcommand)
    return found.group, found.reasons, found.ours.output == b"", found.theirs.output == b"", [fault and fault[1] for fault in faults]


def tried(desk, found):
    for files in less_files(found.files):
        yield sort_case(desk, found.kind, files, found.order, found.subcommand, found.options)
    for options in less_options(found):
        yield sort_case(desk, found.kind, found.files, found.order, found.subcommand, options)


def less_files(files):
    """The files with one of them made smaller."""
    for name, text in files.items():
        for smaller in [*fewer_lines(text), *fewer_columns(name, text), text.replace(b"\r\n", b"\n")]:
            if smaller != text:
                yield dict(files, **{name: smaller})
    yield from (dict(files, sizes=sizes) for sizes in shorter_sequences(files))


def fewer_lines(text):
    """The text without one of its lines, but never without the last of them."""
    rows = text.splitlines(True)
    return [b"".join(rows[:at] + rows[at + 1:]) for at in range(len(rows) if len(rows) > 1 else 0)]


def fewer_columns(name, text):
    """A BED file without the last column of its records, a genome file of two columns."""
    if name == "sizes":
        return [re.sub(rb"(?m)^([^\t\n]*\t[^\t\r\n]*)\t[^\r\n]*", rb"\1", text)]
    wide = name != "s.fa" and all(len(columns) > 3 for columns in formats.columns_of(text))
    return [re.sub(rb"(?m)^([^#\t\n][^\t\n]*\t.*)\t[^\t\r\n]*", rb"\1", text)] if wide else []


def shorter_sequences(files):
    """The genome file with one sequence no longer than its records need."""
    if formats.genome_fault(files, "sizes"):
        return
    records = [columns for name in ("a.bed", "b.bed") for columns in formats.columns_of(files.get(name, b""))]
    for sequence, length in formats.genome_of(files["sizes"]).items():
        reach = max([1, *(int(columns[2]) for columns in records if columns[0] == sequence and columns[2].isdigit())])
        if reach < length:
            yield re.sub(rb"(?m)^(" + re.escape(sequence) + rb"\t)[0-9]+", rb"\g<1>%d" % reach, files["sizes"])


def less_options(found):
    """The options with one less, or with a shorter list."""
    options = found.options
    values = {"-d", "-c", "-o"} if found.subcommand in ("merge", "cluster") else set()
    for at, word in enumerate(options):
        if word in values:
            yield options[:at] + options[at + 2:]
            items = options[at + 1].split(",")
            yield from (options[:at + 1] + (",".join(items[:n] + items[n + 1:]),) + options[at + 2:] for n in range(len(items) if len(items) > 1 else 0))
        elif word.startswith("-"):
            yield options[:at] + options[at + 1:]

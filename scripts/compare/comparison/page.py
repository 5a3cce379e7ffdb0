"""Counts the cases, writes the report, and looks whether BEDTOOLS.md names all that it should."""

import collections
import re
import signal

from comparison import formats, missing, programs
from comparison import table as table_of_options
from comparison.inputs import KINDS
from comparison.reasons import REASONS
from comparison.refusals import REFUSALS
from comparison.sorting import DIFFERENT, ORDER, REFUSED, SAME
from comparison.texts import BEGIN, COMMANDS, COMPARED, REASONS_BEGIN

GROUPS = (SAME, ORDER, DIFFERENT, REFUSED)
HEADS = [group.capitalize() for group in GROUPS]
KNOWN = [*REASONS, *REFUSALS]
REFUSED_HERE = {refusal.name for refusal in REFUSALS}
# of BEDTOOLS.md: the heading above its table of what isn't there, and how it links to the report
MISSING, REPORT = "## What bedkeep doesn't have", "bedtools-report.md"
# rows of a file or an output that an example shows
ROWS = 12


class Tally:
    """How many cases there are of each class, kind, command and reason; and for each reason its smallest example."""

    def __init__(self):
        self.count, self.groups, self.unknown, self.best = 0, collections.Counter(), [], {}
        self.kinds, self.commands, self.reasons, self.met, self.causes = (collections.defaultdict(collections.Counter) for _ in range(5))

    def take(self, found):
        self.count += 1
        if found.reasons is None:
            self.unknown.append(found)
            return
        self.groups[found.group] += 1
        self.kinds[found.kind][found.group] += 1
        if found.group != REFUSED and not REFUSED_HERE & set(found.reasons):
            self.commands[found.subcommand, options_shown(found)][found.group] += 1
        for name in found.reasons:
            self.reasons[name][found.group] += 1
            self.causes[found.kind][name] += 1
            self.met[name][" ".join([found.subcommand, *options_shown(found)])] += 1
            place = name, found.group
            if found.files and (place not in self.best or example_key(found) < example_key(self.best[place])):
                self.best[place] = found

    def examples(self):
        """For each reason its best example of each class, and none that has other reasons too if there is one without."""
        kept = []
        for reason in KNOWN:
            there = [self.best[reason.name, group] for group in GROUPS if (reason.name, group) in self.best]
            fewest = min((len(found.reasons) for found in there), default=0)
            kept += [(reason.name, found) for found in there if len(found.reasons) == fewest]
        return kept


def size(found):
    """The bytes that an example takes."""
    return sum(map(len, found.files.values())) + len(found.ours.output) + len(found.theirs.output)


def example_key(found):
    """An example has as few reasons as can be, shows records and rows, and is small."""
    dull = sum(text == b"" for text in [found.ours.output, found.theirs.output, *found.files.values()])
    marks = sum(text.count(b"\r") for text in found.files.values())
    return len(found.reasons), dull, size(found) + 10 * (len(found.options) + marks)


def options_shown(found):
    """The options with N and LIST for their values."""
    values, words = table_of_options.values_of(found.subcommand), list(found.options)
    for at, word in enumerate(found.options[:-1]):
        if word in values:
            words[at + 1] = values[word]
    return tuple(words)


def number(count):
    return f"{count:,}"


def table(heads, rows, words=1):
    """A table whose first columns are words, and the others numbers."""
    line = ["---"] * words + ["--:"] * (len(heads) - words)
    return "\n".join("| " + " | ".join(row) + " |" for row in [heads, line, *rows])


def summary(tally):
    lines = [f"{tally.count} cases: " + ", ".join(f"{tally.groups[group]} {group}" for group in GROUPS)]
    for reason in KNOWN:
        counts = tally.reasons[reason.name]
        lines.append(f"  {reason.name}: {counts[ORDER]} in another order, {counts[DIFFERENT]} different")
    return "\n".join(lines)


def text(tally, examples, wanted, ours, theirs):
    """The report."""
    known = collections.defaultdict(list)
    for (name, _), found in zip(tally.examples(), examples):
        known[name].append(found)
    sections = [reason_section(reason, tally, known[reason.name]) for reason in KNOWN if reason.name in known]
    parts = [
        BEGIN.format(count=number(tally.count), seed=wanted.seed, cases=wanted.cases, ours=ours, theirs=theirs),
        table(["Class", "Cases"], [[group, number(tally.groups[group])] for group in GROUPS]),
        REASONS_BEGIN, table(["Reason", *HEADS[1:3]], [reason_row(name, tally) for name in known]),
        in_order_words(tally), COMMANDS, command_table(tally), "## The reasons, one by one", *sections,
        COMPARED.format(theirs=theirs), table(["Files", "Cases", *HEADS], [counted([kind], tally.kinds[kind]) for kind in KINDS if kind in tally.kinds]),
    ]
    return "\n\n".join(part.strip("\n") for part in parts) + "\n"


def fault_of(guide):
    """What the text of BEDTOOLS.md doesn't say and should, or None."""
    table = dict(re.findall(r"(?m)^\| ([^|]+?) \| (.*) \|$", guide.partition(MISSING)[2].partition("\n## ")[0]))
    names = [f"{name} of {row}" for row, names in missing.rows() for name in names if f"`{name}`" not in table.get(row, "")]
    reasons = [reason.name for reason in KNOWN if f"({REPORT}{anchor(reason.name)})" not in guide]
    return f"docs/BEDTOOLS.md lacks {', '.join(names + reasons)}" if names or reasons else None


def counted(row, counts):
    return [*row, number(sum(counts.values())), *(number(counts[group]) for group in GROUPS)]


def anchor(name):
    return "#" + name.lower().replace(" ", "-")


def link(name):
    return f"[{name}]({anchor(name)})"


def reason_row(name, tally):
    return [link(name), number(tally.reasons[name][ORDER]), number(tally.reasons[name][DIFFERENT])]


def in_order_words(tally):
    """Which reasons are left if the files are sound and in bedkeep's order."""
    kind = next(iter(KINDS))
    left = [link(reason.name) for reason in KNOWN if reason.name in tally.causes[kind]]
    return f"Over {kind}, {number(sum(tally.kinds[kind].values()))} cases, only these reasons were met: {', '.join(left)}."


def command_table(tally):
    """A row for each subcommand with options that bedkeep takes together."""
    rows = []
    for (subcommand, options), counts in tally.commands.items():
        if formats.good_words(subcommand, options):
            sort = "sort -k1,1 -k2,2n a.bed \\| " if subcommand in programs.SORTED else ""
            theirs = " ".join(["bedtools", *programs.their_words(subcommand, options, "-")])
            ours = " ".join(["bedkeep", *programs.our_words(subcommand, options)])
            rows.append(counted([f"`{sort}{theirs}`", f"`{ours}`"], counts)[:-1])
    order = list(dict.fromkeys(subcommand for subcommand, _ in tally.commands))
    rows.sort(key=lambda row: next(at for at, subcommand in enumerate(order) if f"`bedkeep {subcommand} " in row[1]))
    return table(["The bedtools command you know", "The bedkeep command", "Cases", *HEADS[:3]], rows, words=2)


# ------------------------------------------------------------------ examples


def commands(found):
    """The command lines of both programs."""
    ours = " ".join(["bedkeep", *programs.our_words(found.subcommand, found.options)])
    return [ours, *programs.their_lines(found.subcommand, found.options, found.order)]


def reason_section(reason, tally, examples):
    counts, met = tally.reasons[reason.name], tally.met[reason.name]
    where = ", ".join(f"`{words}`" for words, _ in met.most_common(8)) + (f", and {len(met) - 8} more" if len(met) > 8 else "")
    kinds = ((ORDER, "with the rows in another order"), (DIFFERENT, "with a different output"))
    seen = " and ".join(f"{number(counts[group])} case{'s' * (counts[group] != 1)} {words}" for group, words in kinds if counts[group])
    blocks = [example_block(found, reason.name) for found in examples]
    return "\n\n".join([f"### {reason.name}", reason.words, f"Met in {seen}: {where}. Checked with {reason.check}.", *blocks])


def example_block(found, name):
    """The files side by side, the commands, and both outputs side by side."""
    others = [link(other) for other in found.reasons if other != name]
    lines = [*side_by_side([(file, shown(text)) for file, text in found.files.items()]), "",
             *("$ " + line for line in commands(found)), "",
             *side_by_side([("bedkeep", run_shown(found.ours)), ("bedtools", run_shown(found.theirs))])]
    return (f"Here beside another reason: {', '.join(others)}.\n\n" if others else "") + "\n".join(["```", *lines, "```"])


def shown(data):
    """The lines of a file or an output, as the report shows them."""
    lines = [line.replace("\t", "  ").replace("\r", "\\r") or "(empty line)" for line in data.decode("latin-1").split("\n")]
    lines = lines[:-1] if data.endswith(b"\n") or data == b"" else lines
    return lines[:ROWS] + ([f"({len(lines) - ROWS} more lines)"] if len(lines) > ROWS else []) or ["(nothing)"]


def run_shown(run):
    """What a run gave: its output, or its status and the first words of its message."""
    said = [line.strip(" *") for line in run.message.decode("latin-1").replace("\r", "\\r").split("\n")]
    error = next((line for line in said if "rror" in line or "ERROR" in line or line.startswith("bedkeep:")), "")
    if run.status == 0 and not error:
        return shown(run.output)
    status = f"status {run.status}" if run.status >= 0 else f"ended by {signal.Signals(-run.status).name}"
    return [f"({status}) {error}".rstrip()] + (shown(run.output) if run.output else [])


def side_by_side(columns):
    """Columns of lines beside each other, each under its name."""
    lists = [[name, "-" * len(name), *lines] for name, lines in columns]
    widths = [max(map(len, lines)) + 4 for lines in lists]
    height = max(map(len, lists))
    rows = zip(*(lines + [""] * (height - len(lines)) for lines in lists))
    return ["".join(cell.ljust(width) for cell, width in zip(row, widths)).rstrip() for row in rows]

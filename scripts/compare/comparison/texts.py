"""The words of the report that no count changes."""

BEGIN = """
# bedkeep beside bedtools: the report

`scripts/compare/with_bedtools.py` wrote this page. It ran {ours} and {theirs} over the same generated files, {count} times. [BEDTOOLS](BEDTOOLS.md) is the page to migrate by. After a change of what views print, write this one again:

    apt-get install bedtools
    make build
    python3 scripts/compare/with_bedtools.py build/bedkeep --seed {seed} --cases {cases} --write docs/bedtools-report.md

- [Cases](#cases), [commands](#commands), [the reasons, one by one](#the-reasons-one-by-one), [what was compared](#what-was-compared)

## Cases

A case is a set of files and a subcommand with its options. Standard output is compared byte for byte.
"""

REASONS_BEGIN = """
Each case of the second and third line has a reason that is explained below, and no case is left over: the script fails at one that its reasons don't explain. A reason isn't taken on trust. The script takes the cause away, for example a header line or the order of a file, and runs bedtools again. What bedtools prints then must be what bedkeep printed before, byte for byte. For results of `sum`, `min` and `max` it predicts what each program prints, and compares both. A case with two reasons is counted under both.

The last line has damaged files and options that don't go together. Whenever bedkeep refuses, its status and message must be those that [FORMAT](FORMAT.md#faults-of-files) gives.
"""

COMMANDS = """
## Commands

`sizes` is a genome file. Only cases that bedkeep doesn't refuse are counted, those over unusual files too: see [What was compared](#what-was-compared).
"""

COMPARED = """
## What was compared

Compared are standard output and whether a program refuses, of {theirs} on Linux. The messages of bedtools, time and memory are not.

The files are small, mostly of up to 30 records. They have three to six columns; copies, nested and book-ended records, records of one start, records over a whole sequence and at both its ends; strands `+`, `-` and `.`; scores with whole numbers, fractions, texts, `.` and up to 16 digits. Every subcommand is run over each set of files with each option and each pair of options, and random values of `-d`, `-c` and `-o`. What bedkeep refuses whatever the files are, and `-c` without `-o`, is run over one set in four.

For `merge`, `cluster`, `complement` and `genomecov` of bedtools the records are sorted first, by `sort` or by `bedtools sort -g`. bedtools gets some files as they are: those in bedkeep's order, those that the last table calls unsorted, those with a faulty record, and those with header lines or empty lines.

The script also reads the help of bedtools. It fails if a subcommand or an option that bedkeep lacks is missing in the table of [BEDTOOLS](BEDTOOLS.md#what-bedkeep-doesnt-have), and if bedkeep doesn't refuse it.

Not compared:

- `genomecov` and `getfasta` at the limits of length (up to 4,000,000,000): bedtools takes memory for each base of a sequence, and a FASTA file would be too long. `subtract` there with records longer than 1,000 bases: bedtools goes over them base by base. `genomecov -d` on long sequences (150,000 to 300,000 bases).
- `genomecov` with a record of an unknown sequence: bedtools 2.30.0 doesn't end then.
- Large files: [BENCHMARKS](BENCHMARKS.md) has those, sorted and shuffled, with the same output from both.
- Sessions. What a session prints after edits is what the subcommand prints for the corrected files. That is proved: see [PROMISES](PROMISES.md#what-it-says).
"""

#!/usr/bin/env bash
# Shows that python3 -m bedkeep windows prints, byte for byte, what one run prints: each subcommand, in windows that are cut and in windows
# that are halved, while few files may be open; and that it reports a damaged record. That is over 20,000 records, or as many as are
# given, and takes seconds. Without bgzip and tabix it does nothing.
#
# With --large it makes 40,000,000 records of which 9,000,000 are on one sequence, and compares the rows of one run with -limit, and
# those by windows, with bedtools; it says how many seconds each took, and the bytes of files and rows. That takes 8 GB below TMPDIR.
#
#     scripts/test/at_scale.sh build/bedkeep [RECORDS]
#     scripts/test/at_scale.sh --large build/bedkeep
set -u
large=false
if [ "${1:-}" = --large ]; then
    large=true
    shift
fi
if [ $# -eq 0 ] || [ $# -gt 2 ] || [ ! -x "$1" ]; then
    echo 'usage: scripts/test/at_scale.sh [--large] PROGRAM, or scripts/test/at_scale.sh PROGRAM RECORDS' >&2
    exit 1
fi
records=${2:-20000}
tools=$(realpath "$(dirname "$0")/../../examples/at_scale")
# shellcheck source=scripts/test/on_path.sh
. "$(dirname "$0")/on_path.sh" "$1"
export XDG_CACHE_HOME=$found/cache
PYTHONPATH=$(realpath "$(dirname "$0")/../../python")
export PYTHONPATH
cd "$found" || exit 1
if ! command -v bgzip > /dev/null || ! command -v tabix > /dev/null; then
    left_out 'all runs by windows' 'no bgzip or tabix'
    exit 0
fi
ulimit -n 128

# make_small: seven sequences, two of them without a record and one of these without a base; six columns, in no order
make_small() {
    python3 - "$records" << 'END_OF_PYTHON'
import random
import sys

RECORDS = int(sys.argv[1])
random.seed(24)
genome = [("chr2", 4 * RECORDS), ("chr1", 6 * RECORDS), ("no_record", RECORDS), ("no_base", 0), ("scaffold/1", RECORDS // 4 + 99),
          ("scaffold/2", RECORDS // 8 + 99), ("far", 4_000_000_000)]
shares = [4, 5, 0, 0, 0.3, 0.2, 0.5]


def records(count, columns):
    for number, (name, length) in enumerate(random.choices(genome, shares, k=count)):
        low = random.choice([0, 2**31 - 9000, 4 * 10**9 - 9000]) if name == "far" else 0
        start = low + random.randrange(min(length, 9000 if low or name == "far" else length) - 40)
        row = name, start, start + random.randint(1, 40), f"n{number % 5000}", random.randrange(100), "+-."[number % 3]
        yield "\t".join(map(str, row[:columns])) + "\n"


def write(name, lines):
    with open(name, "w") as file:
        file.writelines(lines)


write("genome", (f"{name}\t{length}\n" for name, length in genome))
write("short_genome", (f"{name}\t{length}\n" for name, length in genome if name != "far"))
rows = list(records(RECORDS, 6))
write("records.bed", ["track name=records\n", "# six columns, in no order\n", *rows])
second = list(records(RECORDS // 5, 4))
write("second.bed", second)
for name, lines in ("short.bed", rows), ("short_second.bed", second):
    write(name, (line for line in lines if not line.startswith("far")))
write("bases.fa", (f">{name} made up\n" + "".join(random.choices("ACGTacgtN", k=length)) + "\n"
                   for name, length in [*reversed(genome), ("unknown", 100)] if name not in ("far", "scaffold/1")))
END_OF_PYTHON
}

# index FILE: FILE.gz, sorted, with its index
index() {
    grep -v -E '^(#|track|browser)' "$1" | sort -k 1,1 -k 2,2n | bgzip > "$1.gz"
    tabix -f -C -p bed "$1.gz" 2> said || fails "tabix: $(cat said)"
}

# same BASES LIMIT WORD ..: a run, and the same by windows of so many bases, and of so many records unless that is empty
same() {
    local bases=$1 limit=$2
    shift 2
    bedkeep "$@" > rows 2> said || fails "$*: one run fails: $(cat said)"
    # shellcheck disable=SC2086 # no limit is no word
    python3 -m bedkeep windows --window "$bases" "${@/%.bed/.bed.gz}" ${limit:+-limit $limit} > joined 2> said || fails "$*: by windows it fails: $(cat said)"
    cmp rows joined || fails "$*: other rows by windows of $bases bases"
    compared=$((compared + 1))
}

# by_bases WORD ..: longer sequences are cut
by_bases() {
    same "$records" '' "$@"
}

# by_halves WORD ..: windows have too many records, again and again
by_halves() {
    same 1000000000 $((records / 8)) "$@"
}

# same_views BY GENOME FIRST SECOND
same_views() {
    local by=$1 genome=$2 first=$3 second=$4 option
    for option in '' '-d 7'; do
        # shellcheck disable=SC2086 # no option is no word
        $by merge -g "$genome" -i "$first" $option
    done
    for option in '' -L; do
        # shellcheck disable=SC2086
        $by complement -g "$genome" -i "$first" $option
    done
    $by genomecov -g "$genome" -i "$first" -bg
    $by genomecov -g "$genome" -i "$first" -bga
    for option in '' -wa -wb -u -v -c; do
        # shellcheck disable=SC2086
        $by intersect -g "$genome" -a "$first" -b "$second" $option
    done
    $by subtract -g "$genome" -a "$first" -b "$second"
    $by subtract -g "$genome" -a "$first" -b "$second" -A
    $by getfasta -g "$genome" -bed "$first" -fi bases.fa -s
    $by records -g "$genome" -i "$first"
}

# same_fault EDIT: after this edit of the first record on chr1, by awk, it fails with the text of one run
same_fault() {
    local words text
    awk -F '\t' -v OFS='\t' '$1 == "chr1" && !done { '"$1"'; done = 1 } { print }' records.bed > damaged.bed
    index damaged.bed
    for words in 'merge -g genome -i' 'subtract -g genome -b second.bed -a'; do
        # shellcheck disable=SC2086 # the words are to be separated
        bedkeep $words damaged.bed > rows 2> said && fails "$1: one run is done"
        text=$(sed 's/.*: //' said)
        # shellcheck disable=SC2086
        python3 -m bedkeep windows --window 1000000000 ${words/second.bed/second.bed.gz} damaged.bed.gz > joined 2> said && fails "$1: it is done by windows"
        grep -q -- "$text" said || fails "$1: $(cat said) instead of $text"
    done
}

# same_workflow: the same by Snakemake, in a folder of its own
same_workflow() {
    printf '%s\n' 'subcommand: intersect' 'options: -wa -wb' "genome: $found/short_genome" "tracks: {some: $found/short.bed.gz}" \
        "second: $found/short_second.bed.gz" "window: $((4 * records))" > config.yaml
    (ulimit -n "$(ulimit -H -n)" && snakemake --snakefile "$tools/Snakefile" --configfile config.yaml --directory workflow --cores "$(nproc)") \
        > said 2>&1 || fails "snakemake: $(cat said)"
    bedkeep intersect -g short_genome -a short.bed -b short_second.bed -wa -wb > rows
    cmp rows workflow/some.rows || fails 'snakemake: other rows'
}

small() {
    local file
    compared=0
    make_small
    for file in records short second short_second; do index $file.bed; done
    same_views by_halves genome records.bed second.bed
    same_views by_bases short_genome short.bed short_second.bed
    by_bases genomecov -g short_genome -i short.bed -d
    by_bases cluster -g short_genome -i short.bed -d 2
    same 1000000000 '' merge -g genome -i records.bed -s -d 5 -c 4,5 -o distinct,sum
    # shellcheck disable=SC2016 # these are for awk
    for edit in '$3 = 4000000' '$6 = "*"' '$1 = "chr99"' 'NF = 5'; do same_fault "$edit"; done
    if command -v snakemake > /dev/null; then
        same_workflow
    else
        left_out 'the Snakefile of examples/at_scale' 'no snakemake'
    fi
    [ "$failed" -ne 0 ] || echo "$compared runs by windows print what one run prints"
}

# make_large: files in the order in which all programs print, no two records with one start
make_large() {
    awk 'BEGIN {
        srand(24)
        for (rank = 1; rank <= 32; rank++) {
            start = 0
            for (number = rank == 1 ? 9000000 : 1000000; number > 0; number--) {
                start += 1 + int(rand() * 60)
                stop = start + 1 + int(rand() * 40)
                print "chr" rank "\t" start "\t" stop "\tn" number % 1000 > "records.bed"
                if (number % 20 == 0) print "chr" rank "\t" start + 9 "\t" start + 50 > "second.bed"
            }
            print "chr" rank "\t" start + 1000 > "genome"
        }
    }'
}

# seconds_since NANOSECONDS
seconds_since() {
    awk -v since="$1" -v now="$(date +%s%N)" 'BEGIN { printf "%.1f", (now - since) / 1e9 }'
}

# timed COMMAND ..: runs it, and puts its seconds into a variable
timed() {
    local begun
    begun=$(date +%s%N)
    "$@" || fails "$*: it fails"
    seconds=$(seconds_since "$begun")
}

# beside "WORDS OF BEDTOOLS" WORD ..: both print the same, in one run and by windows
beside() {
    local words=$1 theirs one verdict=same
    shift
    # shellcheck disable=SC2086 # the words are to be separated
    timed bedtools $words > rows
    theirs=$seconds
    timed bedkeep "$@" -limit 100000000 > joined
    one=$seconds
    cmp rows joined || { verdict=other && failed=1; }
    timed python3 -m bedkeep windows "${@/%.bed/.bed.gz}" > joined
    cmp rows joined || { verdict=other && failed=1; }
    echo "$*: $verdict rows, $(wc -l < joined) of them, $(stat -c %s joined) bytes; one run $one s, by windows $seconds s, bedtools $theirs s"
    rm -f rows joined
}

large() {
    command -v bedtools > /dev/null || { fails 'bedtools is not installed' && return; }
    timed make_large
    echo "$(wc -l < records.bed) records, $(stat -c %s records.bed) bytes, $(grep -c -P '^chr1\t' records.bed) on one sequence; made in $seconds s"
    for file in records.bed second.bed; do timed index $file && echo "$file is indexed in $seconds s"; done
    bedkeep merge -g genome -i records.bed > rows 2> said && fails 'without -limit one run takes them all'
    echo "without -limit one run says: $(cat said)"
    beside 'merge -i records.bed' merge -g genome -i records.bed
    beside 'merge -i records.bed -d 5' merge -g genome -i records.bed -d 5
    beside 'complement -i records.bed -g genome' complement -g genome -i records.bed
    beside 'genomecov -bg -i records.bed -g genome' genomecov -bg -g genome -i records.bed
    beside 'intersect -sorted -g genome -a records.bed -b second.bed' intersect -g genome -a records.bed -b second.bed
    beside 'intersect -c -sorted -g genome -a records.bed -b second.bed' intersect -c -g genome -a records.bed -b second.bed
    beside 'subtract -sorted -g genome -a records.bed -b second.bed' subtract -g genome -a records.bed -b second.bed
}

if $large; then large; else small; fi
exit "$failed"

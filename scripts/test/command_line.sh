#!/usr/bin/env bash
# How the built program ends beside real devices: its exit status, what is on standard error and what on standard output, if a file, the
# script, the output or the messages fail, if there is too little memory or stack, and for help; and after each run all files are as they
# were. Ordinary files are in tests/.
#
#   scripts/test/command_line.sh build/bedkeep
set -u
program=$(realpath "$1")
# shellcheck source=scripts/test/on_path.sh
. "$(dirname "$0")/on_path.sh" "$1"
cd "$found" || exit 1

printf 'chr1\t100\nchr2\t50\n' > sizes
printf 'chr1\t10\t20\n' > records.bed
printf 'chr1\t12\t18\nchr1\t32\t33\n' > other.bed
printf 'open\tm\tmerge\nprint\tm\n' > prints
printf 'open\tm\tmerge\nadd\tchr1\t90\t101\nprint\tm\n' > refused
head -c 1048577 /dev/zero | tr '\0' x > long_line
printf '>chr1\n%0100d\n>chr2\n%050d\n' 0 0 > all_bases.fa
# A view of each kind, an edit, and prints of all.
number=0
: > all_views
for view in merge 'merge -d 3 -c 2,3 -o sum,distinct' cluster complement 'complement -L' 'genomecov -bg' 'genomecov -bga' 'genomecov -d' intersect 'intersect -wa -wb' 'intersect -u' 'intersect -v' 'intersect -c' subtract 'subtract -A' getfasta 'getfasta -tab' records; do
    number=$((number + 1))
    printf 'open\tv%d\t%s\n' "$number" "$view" >> all_views
done
printf 'add\tchr1\t30\t40\nreplaceb\tchr1\t12\t18\tchr1\t5\t35\nremove\tchr1\t10\t20\nshowall\tchr1\t0\t50\nprintall\n' >> all_views
mkdir directory

# inputs: the names and sums of all files here but those that this script writes between runs
inputs() {
    find . -maxdepth 1 -type f ! -name out ! -name err ! -name wanted ! -name help ! -name example -exec sha256sum {} + | sort
}
given=$(inputs)

# ends NAME STATUS STDERR: the run that just ended gave this status and these bytes on standard error
ends() {
    local found=$?
    { [ "$found" -eq "$2" ] && printf '%b' "$3" | cmp -s - err; } || fails "$1: status $found, wanted $2; standard error: $(cat err)"
    [ "$(inputs)" = "$given" ] || fails "$1: a file was changed, made or removed: $(inputs | diff <(echo "$given") -)"
}

# prints NAME STDOUT: and these on standard output
prints() {
    printf '%b' "$2" | cmp -s - out || fails "$1: standard output: $(cat out)"
}

session() { # the options of a session; its script comes on standard input
    "$program" session "$@" > out 2> err
}

# A word that is no text in UTF-8, where a name stands and where an option stands.
for word in $'\xff' $'records\xff.bed'; do
    "$program" merge -g sizes -i "$word" > out 2> err
    ends 'a word that is no text' 2 'bedkeep: bad options\n'
    prints 'a word that is no text' ''
    "$program" "$word" > out 2> err
    ends 'a first word that is no text' 2 'bedkeep: bad options\n'
    prints 'a first word that is no text' ''
done
"$program" merge -g sizes -i directory > out 2> err
ends 'a directory for merge' 4 'bedkeep: directory: cannot be read\n'
session -g sizes -i directory < prints
ends 'a directory' 4 'bedkeep: directory: cannot be read\n'

session -g sizes -i records.bed < directory
ends 'an input that cannot be read' 4 'bedkeep: input cannot be read\n'
session -g sizes -i records.bed < long_line
ends 'a line that is too long' 4 'bedkeep: input too long\n'
prints 'a line that is too long' ''

if [ -w /dev/full ]; then
    "$program" session -g sizes -i records.bed < prints > /dev/full 2> err
    ends 'a full device' 4 'bedkeep: output cannot be written\n'
    "$program" merge -g sizes -i records.bed > /dev/full 2> err
    ends 'merge on a full device' 4 'bedkeep: output cannot be written\n'
    "$program" --help > /dev/full 2> err
    ends 'help on a full device' 4 'bedkeep: output cannot be written\n'
    "$program" session -g sizes -i records.bed < refused 2> /dev/full > out
    status=$?
    : > err
    (exit "$status")
    ends 'a full device for messages' 4 ''
else
    fails '/dev/full is not there, so no run was made with a full device'
fi
# The reader of the pipe is gone before the script comes.
(sleep 0.5; cat prints) | "$program" session -g sizes -i records.bed > >(true) 2> err
ends 'a closed pipe' 4 'bedkeep: output cannot be written\n'

(ulimit -v 40000 && head -c 200000000 /dev/zero | "$program" session -g sizes -i /dev/stdin > out 2> err)
ends 'out of memory' 5 'bedkeep: no memory\n'
# Of a line that isn't ended all bytes are kept, and of lines before it none.
(ulimit -v 40000 && head -c 200000000 /dev/zero | "$program" merge -g sizes -i /dev/stdin > out 2> err)
ends 'a line for which there is no memory' 5 'bedkeep: no memory\n'
prints 'a line for which there is no memory' ''
(ulimit -v 40000 && { cat records.bed; yes '# a line that says no record, as long as one of a file' | head -n 2000000; } | "$program" merge -g sizes -i /dev/stdin > out 2> err)
ends 'a file for which there is no memory' 0 ''
prints 'a file for which there is no memory' 'chr1\t10\t20\n'
# The stack: 1 MB of it is enough for a session with each kind of view, and for a run.
session -g sizes -i records.bed -b other.bed -fi all_bases.fa < all_views
mv out wanted
(ulimit -s 1024 && session -g sizes -i records.bed -b other.bed -fi all_bases.fa < all_views)
ends 'a session in 1 MB of stack' 0 ''
{ cmp -s out wanted && [ "$(wc -l < wanted)" -ge 200 ]; } || fails 'a session in 1 MB of stack prints something else'
(ulimit -s 1024 && "$program" merge -g sizes -i records.bed > out 2> err)
ends 'a run in 1 MB of stack' 0 ''
prints 'a run in 1 MB of stack' 'chr1\t10\t20\n'
# One byte more than a file may have.
yes '# a line that says no record, as long as one of a file' | head -c 4294967296 | "$program" merge -g sizes -i /dev/stdin > out 2> err
ends 'a file that is too long' 4 'bedkeep: /dev/stdin: too long\n'
prints 'a file that is too long' ''

"$program" --help > out 2> err
ends 'the help' 0 ''
for word in 'usage: bedkeep session -g GENOME -i BED' --help --version '-b BED' '-fi FASTA' -width open add remove replace addb removeb replaceb resize close print printall show showall merge intersect subtract getfasta; do
    grep -q -e "$word" out || fails "the help does not speak of $word"
done

# same HELP WORD..: these words print the help in the file HELP
same() {
    local help=$1
    shift
    "$program" "$@" > out 2> err
    ends "words: $*" 0 ''
    cmp -s "$help" out || fails "words: $*: the help is not that of --help"
}
"$program" --help > help
same help -h
same help help

# The example of each help is run as it is, in a shell that has the program as bedkeep.
for subject in session merge cluster complement genomecov intersect subtract getfasta; do
    "$program" --help "$subject" > help
    for words in "--help $subject" "help $subject" "$subject --help" "$subject -h"; do
        # shellcheck disable=SC2086 # the words are to be separated
        same help $words
    done
    sed -n '/^example:$/,/^prints:$/s/^  //p' help > example
    sed '1,/^prints:$/d' help | sed 's/^  //' > wanted
    mkdir "$subject"
    (cd "$subject" && bash -e ../example > ../out 2> ../err)
    ends "the example in the help of $subject" 0 ''
    { [ -s out ] && cmp -s wanted out; } || fails "the example in the help of $subject: standard output: $(cat out)"
done

[ "$failed" -eq 0 ] && echo 'each run ended with its status and its line'
exit "$failed"

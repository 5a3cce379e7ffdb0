#!/usr/bin/env bash
# Runs the examples. What the scripts print, their messages and their status are compared with examples/expected, and a
# track that was written out with the session that wrote it. at_scale.sh runs examples/at_scale.
# With --show it prints what the scripts print, and compares nothing.
#
#     scripts/test/examples.sh build/bedkeep [FOLDER]     FOLDER has the examples, for instance those of an unpacked release
#     scripts/test/examples.sh --show build/bedkeep
set -u
show=false
if [ "$1" = --show ]; then
    show=true
    shift
fi
# shellcheck source=scripts/test/on_path.sh
. "$(dirname "$0")/on_path.sh" "$1"
cd "${2:-$(dirname "$0")/../../examples}" || exit 1
# The package of the sources, or of a release.
export PYTHONPATH=$PWD/../python:$PWD/../../../bedkeep/python

# wanted NAME STATUS: compares what is in the files of this name, and the status, with what is expected
wanted() {
    { cat "$found/$1.out" && echo "status $2, and on standard error:" && cat "$found/$1.err"; } > "$found/$1.all"
    diff "expected/$1" "$found/$1.all" >&2 || fails "example $1: the lines with < are wanted"
}

# example NAME WORD ..: a session of these words over the script on standard input
example() {
    local name=$1
    shift
    if $show; then
        bedkeep session "$@"
        return
    fi
    bedkeep session "$@" > "$found/$name.out" 2> "$found/$name.err"
    wanted "$name" $?
}

# The first example and the one of corrections have refused lines.
example first -g first/sizes -i first/genes.bed < <(cat first/corrections first/views)
example corrections -g human.genome -i genes.bed < corrections.script
example mask -g human.genome -i genes.bed -b mask.bed < mask.script
example correct_mask -g human.genome -i genes.bed -b mask.bed < correct_mask.script
example write_out -g human.genome -i genes.bed -b /dev/null < write_out.script
example sequences -g contigs.genome -i coding.bed -fi contigs.fa < sequences.script
$show && exit

# silent_make WORD ..: make without its own lines, and then its status
silent_make() {
    env -u MAKEFLAGS -u MAKELEVEL -u MFLAGS make --silent "$@" 2>&1 | grep -v '^make'
    echo "make $*: status ${PIPESTATUS[0]}"
}

# in_git: the steps of its README, in a copy
in_git() {
    cp -R in_git "$found/in_git"
    (
        cd "$found/in_git" || exit
        silent_make
        cat corrected.bed
        python3 -m bedkeep diff corrected.bed edited.bed | tee -a corrections
        silent_make
        diff corrected.bed edited.bed
        silent_make check
        silent_make check BED=next_release.bed
        silent_make review.html
        grep -q '<svg' review.html && echo 'a page with pictures'
    ) > "$found/in_git.out" 2> "$found/in_git.err"
    wanted in_git $?
}

# commits LINES: appends lines to the corrections, and commits them
commits() {
    printf '%b\n' "$1" >> corrections
    git commit -qam Corrections
}

# both BRANCH LINES LINES: a branch of its own gets the first lines, and the main one the others; then they are merged
both() {
    git checkout -q -b "$1"
    commits "$2"
    git checkout -q main
    commits "$3"
    git merge -q --no-edit "$1" > /dev/null
    echo "merge: status $?"
}

# by_records: two branches change neighbouring lines of a BED file
by_records() {
    python3 -m bedkeep git --install > /dev/null
    git checkout -q -b by_records
    sed -i 's/\t250\t/\t240\t/' edited.bed
    git commit -qam 'geneA'
    git checkout -q main
    sed -i 's/\t400\t/\t410\t/' edited.bed
    git commit -qam 'geneB'
    git diff main by_records | grep ^replace
    git merge -q --no-edit by_records > /dev/null
    echo "merge by records: status $?"
    head -n 3 edited.bed
}

# two_curators: two branches with corrections are merged, as the README of in_git says
two_curators() {
    cp -R in_git "$found/two_curators"
    (
        cd "$found/two_curators" || exit
        unset GIT_DIR GIT_WORK_TREE
        export GIT_CONFIG_GLOBAL=/dev/null GIT_CONFIG_NOSYSTEM=1 HOME=$found
        git init -q -b main
        git config user.name curator
        git config user.email curator@example.invalid
        git config core.hooksPath hooks
        git add .
        git commit -qm 'The track'
        by_records
        both first '# geneD begins later.\nreplace\tchr1\t600\t700\tgeneD\tchr1\t610\t700\tgeneD' \
            '# geneF is no gene.\nremove\tchr2\t400\t500\tgeneF'
        silent_make
        tail -n 4 corrections
        commits 'remove\tchr2\t51\t150\tgeneE' || echo "no commit: status $?"
        git checkout -q HEAD corrections
        both second '# geneB ends later.\nreplace\tchr1\t300\t400\tgeneB\tchr1\t300\t450\tgeneB' \
            '# geneB ends later.\nreplace\tchr1\t300\t400\tgeneB\tchr1\t300\t460\tgeneB'
        silent_make
        [ -e corrected.bed ] || echo 'no corrected.bed'
    ) > "$found/two_curators.out" 2> "$found/two_curators.err"
    wanted two_curators $?
}

# round_trip BED EDITS VIEWS WORD ..: `records` is the track. It is written out beside the views, and loaded again it prints the same
# views, and itself.
round_trip() {
    local track=$1 edits=$2 views=$3
    shift 3
    { printf '%b' "$edits" && printf 'open\tall\trecords\nprint\tall\n'; } |
        bedkeep session -i "$track" "$@" > "$found/written.bed"
    { printf '%b' "$edits" && printf 'open\t%s\nprintall\n' "$views"; } | sed 's/|/\nopen\t/g' > "$found/views"
    bedkeep session -i "$track" "$@" < "$found/views" > "$found/edited"
    grep -Ev '^(add|remove|replace|resize)' "$found/views" | bedkeep session -i "$found/written.bed" "$@" > "$found/loaded"
    if [ ! -s "$found/edited" ] || ! cmp "$found/edited" "$found/loaded"; then
        fails "$track: written out and loaded again, it prints other views"
    fi
}

in_git
if command -v git > /dev/null; then
    two_curators
else
    left_out 'two branches that are merged' 'no git'
fi
views=$'blocks\tmerge -d 9|each\tcluster|free\tcomplement -L|depth\tgenomecov -bga|other\tintersect -wa -wb|left\tsubtract|count\tintersect -c'
round_trip genes.bed 'add\tchrX\t5\t9\nadd\tchrX\t5\t9\nremove\tchr21\t31659600\t31668900\n' "$views" -g human.genome -b mask.bed
round_trip mask.bed 'add\tchr22\t7\t8\tgap\nreplace\tchr20\t4690000\t4690500\tgap\tchr20\t4690000\t4690500\trepeat\n' \
    "$views"$'|why\tmerge -d 1000000 -c 4 -o distinct' -g human.genome -b genes.bed
round_trip coding.bed 'add\tcontig_a\t30\t60\talpha\t0\t+\nremove\tcontig_b\t10\t40\tdelta\t0\t+\n' \
    $'strand\tmerge -s -c 5,4 -o sum,collapse|bases\tgetfasta -s|each\tcluster -d 3' -g contigs.genome -fi contigs.fa
[ "$failed" -ne 0 ] || echo 'the examples print what they are to print'
exit "$failed"

#!/usr/bin/env bash
# Holds a session of bedkeep open through pipes, as a person at a keyboard would: each line is sent only when
# the answer to the line before it has been read. A session that keeps an answer back fails.
#
#   scripts/test/interactive.sh build/bedkeep
set -eu
program=$1
folder=$(mktemp -d)
trap 'rm -rf "$folder"' EXIT
printf 'chr1\t100\nchr2\t50\n' > "$folder/sizes"
printf 'chr1\t10\t20\n' > "$folder/records.bed"

# standard output and messages come through one pipe, in the order in which they are written
coproc SESSION { "$program" session -g "$folder/sizes" -i "$folder/records.bed" 2>&1; }
process=$SESSION_PID

ask() { # a line of the script
    printf '%b\n' "$1" >&"${SESSION[1]}"
}

wants() { # the next lines of the answer
    local line want
    for want in "$@"; do
        want=$(printf '%b' "$want")
        if ! IFS= read -r -t 20 line <&"${SESSION[0]}"; then
            echo "no answer in time; wanted: $want" >&2
            exit 1
        fi
        if [ "$line" != "$want" ]; then
            echo "wanted: $want; found: $line" >&2
            exit 1
        fi
    done
}

ask 'open\tgenes\tmerge'
ask 'print\tgenes'
wants 'chr1\t10\t20'
ask 'add\tchr1\t15\t30'
ask 'print\tgenes'
wants 'chr1\t10\t30'
ask 'add\tchr1\t90\t101'
wants "line 5: end past the sequence's end"
ask 'open\tmore\tmerge'
ask 'remove\tchr1\t10\t20'
ask 'printall'
wants '#genes' 'chr1\t15\t30' '#more' 'chr1\t15\t30'
ask 'replace\tchr1\t15\t30\tchr2\t0\t50'
ask 'close\tgenes'
ask 'print\tgenes'
wants 'line 11: no such view'
ask 'printall'
wants '#more' 'chr2\t0\t50'
ask 'show\tmore\tchr2\t49\t50'
wants 'chr2\t0\t50'
ask 'show\tmore\tchr2\t49\t51'
wants "line 14: end past the sequence's end"
ask 'showall\tchr1\t0\t100'
wants '#more'

input=${SESSION[1]}
exec {input}>&-
status=0
wait "$process" || status=$?
if [ "$status" -ne 1 ]; then
    echo "status $status, though three lines were refused" >&2
    exit 1
fi
echo 'each answer came before the next line was sent'

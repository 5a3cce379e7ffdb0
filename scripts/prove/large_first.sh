#!/usr/bin/env bash
# Proves the library crates below the program, and the crates of tests, before `rt ci` proves all.
#
# `rt ci` gives a crate the processors that are idle when it starts, or just one if check.sh says how many checks there are at a time. A
# large one that starts beside others gets one, and holds up all crates above it long after the others have ended; and the two crates
# of tests go on long after all edits of must-fail were tried. Here two runs go on side by side, each over few crates: one proves those
# that hold up most, and the other those that don't wait for them. `rt ci` then takes what was proved.
#
# Nothing is done if the toolchain keeps no proofs for another run, or if a processor has less than 5 GB: a check takes up to 4.2.
#
#   scripts/prove/large_first.sh
#
# RT names Rattle's command if it isn't on the path.
set -eu
rt=$(realpath "$(command -v "${RT:-rt}")")
cd "$(dirname "$0")/../.."
available=$(sed -n 's/^MemAvailable: *\([0-9]*\) kB$/\1/p' /proc/meminfo)
if [ "$available" -lt $(($(nproc) * 5000000)) ] || ! "$rt" ci --help 2>&1 | grep -q -e --anew; then
    exit
fi

copies=$(mktemp -d)
beside=''
leave() { # a check that still runs has a process group of its own
    [ -z "$beside" ] || kill -- "-$beside" 2> /dev/null || true
    rm -rf "$copies"
}
trap leave EXIT

copy() { # copy CRATE ..: makes a folder with these crates and all that they use, and goes there
    local folder
    folder=$(mktemp -d -p "$copies")
    scripts/prove/copy_crates.sh "$folder" "$@"
    cd "$folder"
}

prove() {
    (copy "$@" && exec "$rt" ci)
}

prove_beside() {
    (copy "$@" && exec setsid "$rt" ci) &
    beside=$!
}

await() {
    wait "$beside"
    beside=''
}

prove_beside iv_ledger
prove iv_places
await
prove_beside iv_fasta iv_text
prove iv_track
prove iv_cover
await
prove_beside iv_pair iv_depth
prove iv_blocks
await
prove iv_view
prove_beside iv_hints
prove iv_workspace
prove iv_session
prove iv_program
await
prove_beside test_refused
prove test_calls
await

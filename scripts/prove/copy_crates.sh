#!/usr/bin/env bash
# Copies crates and all that they use into a folder, as a repository of its own for `rt ci`: without tests that cross crates and
# without mutants.
#
#   scripts/prove/copy_crates.sh FOLDER CRATE ..
set -eu
folder=$(realpath "$1")
shift
cd "$(dirname "$0")/../.."

chosen=' '
choose() { # choose CRATE ..: adds these crates and those that they use, from crates.txt, which has a line "NAME: LIBRARY .." for each
    local crate
    for crate; do
        if grep -q "^$crate:" crates.txt && [[ $chosen != *" $crate "* ]]; then
            chosen+="$crate "
            # shellcheck disable=SC2046
            choose $(sed -n "s/^$crate://p" crates.txt)
        fi
    done
}
choose "$@"

# `rt ci` runs at the top of a repository
mkdir -p "$folder/.git" "$folder/crates"
cp HANDLES "$folder"
for crate in $chosen; do
    grep "^$crate:" crates.txt >> "$folder/crates.txt"
    mkdir "$folder/crates/$crate"
    for part in src specs proofs args stdin stdout data; do
        [ ! -e "crates/$crate/$part" ] || cp -R "crates/$crate/$part" "$folder/crates/$crate"
    done
done

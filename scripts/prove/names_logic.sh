#!/usr/bin/env bash
# Looks whether the proved program and the README name the logic of the toolchain that is there. Releases of the toolchain have names of
# their own; what a proof rests on is their logic.
#
#   scripts/prove/names_logic.sh crates/bedkeep/out/bedkeep     status 1 if they name another one
#
# RT names Rattle's command if it isn't on the path.
set -eu
program=$1
toolchain=$("${RT:-rt}" version)
logic="logic ${toolchain##* logic }"
if ! "$program" --version | grep -q "^proved with .* $logic\$" || ! grep -qF "$logic" "$(dirname "$0")/../../README.md"; then
    echo "--version or the README names another logic than rt version, which says $toolchain" >&2
    exit 1
fi

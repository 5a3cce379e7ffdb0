#!/usr/bin/env bash
# Runs `rt ci` in this repository. If the toolchain keeps proofs, it takes those of large_first.sh.
#
# If each processor has 5 GB, as many checks run side by side as there are processors, and else as many as rt itself finds room for:
# it counts up to 7 GB for a check, and none was seen to take more than 4.2.
#
#   scripts/prove/check.sh
#
# RT names Rattle's command if it isn't on the path.
set -eu
if ! rt=$(command -v "${RT:-rt}"); then
    echo "${RT:-rt}, the command of the Rattle toolchain, is not there" >&2
    exit 1
fi
cd "$(dirname "$0")/../.."
scripts/prove/large_first.sh
available=$(sed -n 's/^MemAvailable: *\([0-9]*\) kB$/\1/p' /proc/meminfo)
if [ "$available" -ge $(($(nproc) * 5000000)) ]; then
    export RT_JOBS="${RT_JOBS:-$(nproc)}"
fi
"$(realpath "$rt")" ci

#!/usr/bin/env bash
# Links the proved program once more, without shared libraries: from the object file that `rt` left and the archives
# that it links to it, by the C compiler of this machine. It needs the C library as an archive (libc.a).
#
#   scripts/release/link_static.sh build/static/bedkeep
set -eu
to=$1
cd "$(dirname "$0")/../.."
object=crates/bedkeep/out/bedkeep.o
if ! guide=$("${RT:-rt}" doc 2> /dev/null); then
    echo "${RT:-rt}, the command of the Rattle toolchain, is not there" >&2
    exit 1
fi
kit=$(dirname "$guide")
archives=("$kit/c/libos_c.a" "$kit/c/liblibc_c.a")
for file in "$object" crates/bedkeep/out/bedkeep; do
    if [ ! -f "$file" ]; then
        echo "$file is not there: run make build first" >&2
        exit 1
    fi
done

# The program that rt linked is made from this very object file.
again=$(mktemp -d)
trap 'rm -rf "$again"' EXIT
if ! "$kit/bin/rattle-link" --target x86_64-unknown-linux-gnu --toolchain "$kit/toolchain" -o "$again/bedkeep" "$object" "${archives[@]}" > "$again/said" 2>&1; then
    cat "$again/said" >&2
    exit 1
fi
if ! cmp -s "$again/bedkeep" crates/bedkeep/out/bedkeep; then
    echo "crates/bedkeep/out/bedkeep is not linked from $object: run make build again" >&2
    exit 1
fi

mkdir -p "$(dirname "$to")"
"${CC:-cc}" -static-pie -Wl,--gc-sections -Wl,-z,relro,-z,now -Wl,--build-id=sha1 -s -o "$to" "$object" "${archives[@]}"

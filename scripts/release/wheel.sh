#!/usr/bin/env bash
# Makes a wheel of an unpacked archive, with the program, the Python package and the licenses of both: pip installs all from the one
# file. It needs hatchling. The same archive gives the same bytes with the same hatchling: files have the time of SOURCE_DATE_EPOCH.
# For PyPI take hatchling 1.27 or newer, whose metadata is 2.4.
#
#     scripts/release/wheel.sh FOLDER TARGET     FOLDER has bin/ and share/; the wheel comes into TARGET, and its path is printed
#     scripts/release/wheel.sh                   status 1 if hatchling isn't there
set -eu -o pipefail
python=
for one in python3 /usr/bin/python3; do
    if [ -z "$python" ] && "$one" -c 'import hatchling' 2> /dev/null; then
        python=$one
    fi
done
if [ -z "$python" ]; then
    echo 'a wheel is made by hatchling, which is not there: install python3-hatchling (Debian) or have pip install hatchling' >&2
    exit 1
fi
if [ $# -eq 0 ]; then
    exit
fi
folder=$(realpath "$1")
target=$(realpath "$2")
stage=$(mktemp -d)
trap 'rm -rf "$stage"' EXIT
cp -R "$folder/share/bedkeep/python/." "$stage"
install -D -m 755 "$folder/bin/bedkeep" "$stage/bin/bedkeep"
# hatchling looks for licenses by how their names begin
documents=$folder/share/doc/bedkeep
cp "$documents/LICENSE" "$documents/licenses/NOTICE" "$stage"
for license in "$documents"/licenses/[!N]*; do
    cp "$license" "$stage/LICENSE.$(basename "$license")"
done
cd "$stage"
made=$("$python" -m hatchling build --target wheel --directory "$target" | tail -n 1)
chmod 644 "$made"
echo "$made"

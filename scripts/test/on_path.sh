# shellcheck shell=bash disable=SC2034
# For scripts that begin with it: a folder of their own, which goes at their end, the program on the path as bedkeep, how they fail, and how they
# leave something out.
#
#   . on_path.sh PROGRAM
found=$(mktemp -d)
trap 'rm -rf "$found"' EXIT
mkdir "$found/path" && ln -s "$(realpath "$1")" "$found/path/bedkeep"
export PATH=$found/path:$PATH PYTHONDONTWRITEBYTECODE=1
# shellcheck source=scripts/test/left_out.sh
. "$(dirname "${BASH_SOURCE[0]}")/left_out.sh"
failed=0

fails() {
    echo "$*" >&2
    failed=1
}

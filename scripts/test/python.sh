#!/usr/bin/env bash
# Tests the Python package with the built program, by Python without any other package. If mypy is there, it checks the types. If
# a Python with pandas is there, it tests tables. It says what it leaves out.
#
#     scripts/test/python.sh build/bedkeep [FOLDER]     FOLDER has the package, for instance that of an unpacked release
#     scripts/test/python.sh --coverage build/bedkeep   says which lines no test runs; status 1 if these are over 5 in 100
set -eu
coverage=false
if [ "$1" = --coverage ]; then
    coverage=true
    shift
fi
program=$(realpath "$1")
sources=$(realpath "$(dirname "$0")/../../python")
package=$(realpath "${2:-$sources}")
scripts=$(realpath "$(dirname "$0")")
# shellcheck source=scripts/test/left_out.sh
. "$scripts/left_out.sh"
export PYTHONDONTWRITEBYTECODE=1
if command -v mypy > /dev/null; then
    MYPYPATH=$package mypy --strict --cache-dir /dev/null "$package/bedkeep" "$sources/tests/typed_calls.py"
else
    left_out 'types of the Python package' 'no mypy'
fi
cd "$sources/tests"
export BEDKEEP=$program PYTHONPATH=$package
if $coverage; then
    COVERAGE_FILE=$(mktemp)
    export COVERAGE_FILE
    trap 'rm -f "$COVERAGE_FILE"' EXIT
    /usr/bin/python3 -m coverage run --source="$package/bedkeep" -m unittest
    /usr/bin/python3 -m coverage report --show-missing --skip-covered --fail-under=95
    exit
fi
python3 -S "$scripts/unittests.py"
for python in python3 /usr/bin/python3; do
    if "$python" -c 'import pandas' 2> /dev/null; then
        "$python" "$scripts/unittests.py" test_tables test_reference.Docstrings.test_examples_of_tables
        exit
    fi
done
left_out 'tables of the Python package' 'no Python with pandas'

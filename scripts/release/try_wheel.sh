#!/usr/bin/env bash
# Installs a wheel into an empty environment, without network, and runs the program and the package from there, far from the sources.
#
#     scripts/release/try_wheel.sh build/bedkeep-1.0.0-py3-none-manylinux_2_17_x86_64.whl
set -eu
wheel=$(realpath "$1")
folder=$(mktemp -d)
trap 'rm -rf "$folder"' EXIT
if ! python3 -c 'import ensurepip, venv' 2> /dev/null; then
    echo "without python3-venv $(basename "$wheel") is not tried"
    exit
fi
python3 -m venv "$folder/new"
cd "$folder"
clean=(env --ignore-environment "HOME=$folder")
"${clean[@]}" new/bin/python -m pip install --quiet --no-index --disable-pip-version-check "$wheel"
printf 'chr1\t1000\n' > sizes
printf 'chr1\t1\t5\tx\nchr1\t5\t9\ty\n' > genes.bed
printf '# y ends later\nreplace\tchr1\t5\t9\ty\tchr1\t5\t12\ty\nremove\tchr1\t1\t6\tx\n' > corrections
status=0
"${clean[@]}" new/bin/python -m bedkeep apply sizes genes.bed corrections -o corrected.bed 2> refused || status=$?
"${clean[@]}" new/bin/bedkeep-desk review sizes genes.bed corrections -o page.html 2> /dev/null || [ $? -eq 1 ]
"${clean[@]}" new/bin/python -c 'import bedkeep; print(*bedkeep.merge("sizes", "corrected.bed"), sep="\n")' > rows
for found in "status $status" "$(cat refused)" "$(tr '\t' ' ' < corrected.bed)" "$(cat rows)" "$("${clean[@]}" new/bin/bedkeep --version | head -n 1)" \
    "$(grep -c '<html' page.html) page" "$(cd new/lib/python3*/site-packages/bedkeep-*.dist-info/licenses && echo *)"; do
    echo "$found"
done > said
version=$("${clean[@]}" new/bin/python -c 'import bedkeep; print(bedkeep.__version__)')
diff said - << END
status 1
corrections: line 3: no such record: chr1 1 6 x
chr1 1 5 x
chr1 5 12 y
Row(chromosome='chr1', start=1, end=12)
bedkeep $version
1 page
LICENSE LICENSE.GCC-exception-3.1 LICENSE.GPL-3.0 LICENSE.LGPL-2.1 NOTICE
END
"${clean[@]}" new/bin/python -m pip uninstall --quiet --yes bedkeep
if [ -e new/bin/bedkeep ] || [ -e new/bin/bedkeep-desk ]; then
    echo 'pip left a program behind' >&2
    exit 1
fi

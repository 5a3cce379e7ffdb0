#!/usr/bin/env bash
# Runs examples/workflows with Snakemake and with cwltool, if they are there, and looks at what each made.
#
#     scripts/test/workflows.sh build/bedkeep [FOLDER]     FOLDER has the examples, for instance those of an unpacked release
set -u
# shellcheck source=scripts/test/on_path.sh
. "$(dirname "$0")/on_path.sh" "$1"
cd "${2:-$(dirname "$0")/../../examples}" || exit 1
export XDG_CACHE_HOME=$found/cache HOME=$found
export PYTHONPATH=$PWD/../python:$PWD/../../../bedkeep/python
cp -R workflows in_git "$found"
cd "$found/workflows" || exit 1
ran=()

# holds FILE LINES: looks whether a file has these lines
holds() {
    printf '%b' "$2" | cmp -s - "$1" || fails "$1 holds other lines than $2"
}

# absent FILE ..: looks whether files were not made
absent() {
    for file in "$@"; do
        [ ! -e "$file" ] || fails "$file was made"
    done
}

clear='chr1\t100\t250\tgeneA\nchr1\t600\t700\tgeneD\nchr2\t400\t500\tgeneF\n'
refused='corrections: line 2: no such record: chr1 100 200 geneA'
warning='corrections: line 4: already there: chr1 390 500 geneC'

if command -v snakemake > /dev/null; then
    ran+=(Snakemake)
    timeout 100 snakemake --cores 4 --keep-going > said 2>&1 && fails 'Snakemake has no failure'
    holds clear/genes.bed "$clear"
    holds logs/genes.refused ''
    holds logs/next_release.refused "../in_git/$refused\n"
    holds logs/next_release.messages "../in_git/$refused\n../in_git/$warning\n"
    absent corrected/next_release.bed clear/next_release.bed
    for track in genes next_release; do
        [ -s "review/$track.html" ] || fails "the page of $track was not made: $(cat said)"
    done
else
    left_out 'examples/workflows by Snakemake' 'no snakemake'
fi

if command -v cwltool > /dev/null && command -v node nodejs > /dev/null; then
    ran+=(cwltool)
    for track in genes next_release; do
        timeout 100 cwltool --preserve-environment PYTHONPATH --outdir "$track" cwl/correct.cwl "cwl/$track.yaml" > said 2>&1 ||
            fails "$track: $(cat said)"
    done
    holds genes/rows.bed "$clear"
    holds genes/refused.txt ''
    grep -q "/$refused\$" next_release/refused.txt || fails 'next_release/refused.txt lacks the refused line'
    grep -q "/$warning\$" next_release/messages.txt || fails 'next_release/messages.txt lacks the warning'
    grep -q "/$warning\$" next_release/refused.txt && fails 'next_release/refused.txt has the warning'
    absent next_release/rows.bed
else
    left_out 'examples/workflows by cwltool' 'no cwltool or node'
fi

[ "$failed" -ne 0 ] || echo "examples/workflows: ${ran[*]:-neither Snakemake nor cwltool is there}"
exit "$failed"

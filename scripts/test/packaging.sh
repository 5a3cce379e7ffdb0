#!/usr/bin/env bash
# Runs what packaging/ has for R, Snakemake, Galaxy and MultiQC over examples/in_git, as far as what it needs is there, and says what ran.
#
#     scripts/test/packaging.sh build/bedkeep
set -u
# shellcheck source=scripts/test/on_path.sh
. "$(dirname "$0")/on_path.sh" "$1"
top=$(realpath "$(dirname "$0")/../..")
ln -s "$top/python/bedkeep-desk" "$found/path/bedkeep-desk"
export BEDKEEP=$found/path/bedkeep PYTHONPATH=$top/python XDG_CACHE_HOME=$found/cache HOME=$found
cp "$top"/examples/in_git/{sizes,genes.bed,next_release.bed,corrections} "$found"
ran=(MultiQC)
corrected='track name=genes\nchr1\t100\t250\tgeneA\nchr1\t300\t400\tgeneB\nchr1\t390\t500\tgeneC\nchr1\t600\t700\tgeneD\nchr2\t400\t500\tgeneF\n'
refused='corrections: line 2: no such record: chr1 100 200 geneA\n'

# holds FILE LINES: looks whether a file has these lines
holds() {
    printf '%b' "$2" | cmp -s - "$1" || fails "$1 holds other lines than $2"
}

cd "$found" || exit 1
bedkeep-desk replay sizes next_release.bed corrections --tsv | python3 "$top/packaging/multiqc/bedkeep_mqc.py" next > next_mqc.tsv
holds <(tail -n 1 next_mqc.tsv) 'next\t1\t0\t1\t0\t0\t0\t0\t0\t0\t0\n'

if Rscript -e 'library(GenomicRanges)' > /dev/null 2>&1; then
    ran+=(R)
    (cd "$top/packaging/r" && Rscript test.R > "$found/said" 2>&1) || fails "R: $(cat said)"
else
    left_out packaging/r 'no R with GenomicRanges'
fi

if command -v snakemake > /dev/null; then
    ran+=(Snakemake)
    cat > Snakefile << END_OF_RULES
rule listed:
    input: genome="sizes", bed="{track}.bed", corrections=["corrections"]
    output: track="listed/{track}.bed", refused="listed/{track}.txt", page="listed/{track}.html"
    log: "listed/{track}.log"
    wrapper: "file://$top/packaging/snakemake"

rule whole:
    input: genome="sizes", bed="{track}.bed", corrections="corrections"
    output: track="whole/{track}.bed"
    params: extra="--sorted"
    log: "whole/{track}.log"
    wrapper: "file://$top/packaging/snakemake"
END_OF_RULES
    timeout 300 snakemake --cores 1 --keep-going {listed,whole}/{genes,next_release}.bed > said 2>&1 && fails 'Snakemake has no failure'
    for file in {listed,whole}/genes.bed; do
        holds "$file" "$corrected"
    done
    holds listed/genes.txt ''
    holds listed/next_release.txt "$refused"
    grep -q '<html' listed/next_release.html || fails "the page was not made: $(cat listed/next_release.log said)"
    [ ! -e whole/next_release.bed ] || fails 'a refused line lets the rule go on'
    grep -q 'no such record' whole/next_release.log || fails 'the log has no refused line'
else
    left_out packaging/snakemake 'no snakemake'
fi

if command -v xmllint > /dev/null; then
    ran+=('the XML of Galaxy')
    xmllint --noout "$top/packaging/galaxy/bedkeep_apply.xml" || fails 'Galaxy: not well-formed'
else
    left_out 'the XML of packaging/galaxy' 'no xmllint'
fi

# galaxy BED STRICT: fills in the template of the tool's command as Galaxy would, and runs it in a folder of its own; false if it fails
galaxy() {
    local folder=$found/galaxy/$1$2
    mkdir -p "$folder"
    "$cheetah" - "$top/packaging/galaxy/bedkeep_apply.xml" "$found" "$1" "$2" > "$folder/command" << 'END_OF_PYTHON'
import sys
import xml.etree.ElementTree as Tree
from Cheetah.Template import Template

tool, folder, bed, strict = sys.argv[1:]
given = {"genome": f"{folder}/sizes", "bed": f"{folder}/{bed}.bed", "corrections": f"{folder}/corrections", "page": True,
         "strict": strict, "copies": "", "leave_blocks": "", "corrected": "corrected", "refused": "refused"}
print(Template(Tree.parse(tool).findtext("command"), searchList=[given]))
END_OF_PYTHON
    (cd "$folder" && bash -e command > said 2>&1)
}

filled_in=
for cheetah in python3 /usr/bin/python3; do
    if "$cheetah" -c 'import Cheetah' 2> /dev/null; then
        filled_in=yes
        ran+=('its command')
        galaxy genes '' || fails "Galaxy: $(cat galaxy/genes/said)"
        galaxy next_release '' || fails "Galaxy: $(cat galaxy/next_release/said)"
        galaxy next_release --strict && fails 'Galaxy: --strict lets a refused line through'
        holds galaxy/genes/corrected "$corrected"
        holds galaxy/genes/refused ''
        holds galaxy/next_release/refused "$refused"
        grep -q 'geneE is no gene\.' galaxy/genes/page.html || fails 'Galaxy: the page was not made'
        break
    fi
done
[ -n "$filled_in" ] || left_out 'the command of packaging/galaxy' 'no Python with Cheetah'

[ "$failed" -ne 0 ] || (IFS=,; echo "packaging: ${ran[*]}" | sed 's/,/, /g')
exit "$failed"

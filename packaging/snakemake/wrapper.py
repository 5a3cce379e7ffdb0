"""Corrects a BED file by scripts. Without the output `refused` a refused line makes the rule fail."""
__author__ = "the bedkeep authors"
__license__ = "MIT"

from pathlib import Path
from shlex import join
from tempfile import TemporaryDirectory

from snakemake.shell import shell

scripts = snakemake.input.corrections
given = [snakemake.input.genome, snakemake.input.bed, *([scripts] if isinstance(scripts, str) else scripts)]
if snakemake.input.get("second"):
    given += ["-b", snakemake.input.second]
given = join(given)
extra = snakemake.params.get("extra", "")
log = snakemake.log_fmt_shell(stdout=True, stderr=True, append=True)
lists = "|| [ $? -eq 1 ]"  # the status is 1 if lines were refused

page = snakemake.output.get("page")
if page:
    # the tracks that come with a page are left out
    with TemporaryDirectory() as folder:
        made = str(Path(folder, "page.html"))
        shell("{{ bedkeep-desk review {given} -o {made:q} {lists}; }} {log}")
        shell("cp {made:q} {page:q}")
refused = snakemake.output.get("refused")
listed = f"--refused {join([refused])} {lists}" if refused else ""
shell("{{ bedkeep-desk apply {given} {extra} -o {snakemake.output.track:q} {listed}; }} {log}")

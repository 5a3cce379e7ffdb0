#!/usr/bin/env python3
"""Puts the address of the project into each file that has to have it, and compares what several files have: this, the version, the license.

    scripts/release/address.py https://example.invalid/bedkeep    writes this address instead of the one that the files have
    scripts/release/address.py --check              status 1 if they have several addresses, versions or licenses
    scripts/release/address.py --layout FOLDER      status 1 if FOLDER, an unpacked archive, lacks what the recipe takes from it
"""
import re
import sys
from pathlib import Path

TOP = Path(__file__).resolve().parent.parent.parent
PACKAGING = TOP / "packaging"
RECIPE = PACKAGING / "bioconda/meta.yaml"
CONTAINER = PACKAGING / "docker/Dockerfile"
GALAXY = PACKAGING / "galaxy/bedkeep_apply.xml"
NF_CORE = PACKAGING / "nf-core/bedkeep/apply"
COPIES = TOP / "LICENSE", TOP / "python/LICENSE"
ADDRESSES = {
    TOP / "python/pyproject.toml": r'(?<=^Homepage = ")[^"]*',
    TOP / "CITATION.cff": r"(?<=^repository-code: ).*",
    RECIPE: r'(?<=^{% set home = ")[^"]*',
    CONTAINER: r'(?<=image\.source=")[^"]*',
    GALAXY: r"(?<=url = \{)[^}]*",
    NF_CORE / "meta.yml": r'(?<=homepage: ")[^"]*',
    PACKAGING / "snakemake/meta.yaml": r"(?<=^url: ).*",
}
VERSIONS = {
    TOP / "python/bedkeep/__init__.py": r'(?<=^__version__ = ")[^"]*',
    TOP / "CITATION.cff": r"(?<=^version: ).*",
    RECIPE: r'(?<=^{% set version = ")[^"]*',
    CONTAINER: r'(?<=image\.version=")[^"]*',
    GALAXY: r'(?<=<token name="@TOOL_VERSION@">)[^<]*|(?<=version = \{)[^}]*',
    NF_CORE / "environment.yml": r"(?<=bedkeep=)[\d.]+",
    NF_CORE / "main.nf": r"(?<=bedkeep:)[\d.]+(?=--)",
    PACKAGING / "snakemake/environment.yaml": r"(?<=bedkeep =).*",
}
LICENSES = {
    TOP / "python/hatch_build.py": r'(?<=^LINKED = ")[^"]*',
    RECIPE: r"(?<=^  license: ).*",
    CONTAINER: r'(?<=image\.licenses=")[^"]*',
}


def found(patterns):
    """What each file has, by the name of the file; if it has it several times, it is the same."""
    texts = {}
    for file, pattern in patterns.items():
        (texts[file.relative_to(TOP)],) = set(re.findall(pattern, file.read_text(), re.M))
    return texts


def check():
    """What differs between the files."""
    for name, texts in ("address", found(ADDRESSES)), ("version", found(VERSIONS)), ("license", found(LICENSES)):
        if len(set(texts.values())) > 1:
            yield f"more than one {name}: " + ", ".join(f"{text} in {file}" for file, text in texts.items())
    if len({copy.read_bytes() for copy in COPIES}) > 1:
        yield f"{COPIES[1].relative_to(TOP)} isn't a copy of {COPIES[0].relative_to(TOP)}"


def missing(folder):
    """What the recipe takes from the archive, and the folder lacks."""
    text = RECIPE.read_text()
    build = re.search(r"^  script:\n((?:    .*\n)+)", text, re.M)[1]
    licenses = re.search(r"^  license_file:\n((?:    .*\n)+)", text, re.M)[1]
    for path in re.findall(r"(?<![\w/])(?:bin|share)/[\w./-]+", build + licenses):
        if not (folder / path).exists():
            yield f"{RECIPE.relative_to(TOP)}: the archive has no {path}"


def write(address):
    for file, old in found(ADDRESSES).items():
        (TOP / file).write_text((TOP / file).read_text().replace(old, address))


def main():
    if len(sys.argv) == 2 and sys.argv[1].startswith("https://"):
        write(sys.argv[1])
        return
    if sys.argv[1:] == ["--check"]:
        faults = list(check())
    elif len(sys.argv) == 3 and sys.argv[1] == "--layout":
        faults = list(missing(Path(sys.argv[2])))
    else:
        sys.exit(__doc__)
    for fault in faults:
        print(fault, file=sys.stderr)
    sys.exit(bool(faults))


if __name__ == "__main__":
    main()

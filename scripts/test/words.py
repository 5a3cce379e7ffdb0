#!/usr/bin/env python3
"""Looks for what the glossary of CONTRIBUTING forbids, in documents and in comments.

Documents are all pages, the man page, the completions, the help texts and the docstrings of the Python package; comments are
those of the sources, definitions and proofs. In pages, code is left out: text in backticks, blocks, and links.

    python3 scripts/test/words.py       status 1 if there is such a word
"""
import re
import sys
from pathlib import Path

TOP = Path(__file__).resolve().parent.parent.parent
FORBIDDEN = {
    r"growths?": "allocation",
    r"want of memory|memory (?:is|was|were|be) (?:not )?refused|(?:is|are|was|were|be) refused memory": "an allocation fails",
    r"wrong[ -]bod(?:y|ies)": "mutant",
    r"laws?": "lemma",
    r"kits?": "toolchain", r"gates?": "`make test`",
    r"coming|still to come|(?:is|are|was|were) to come": "remaining",
    r"as often as (?:it is|they are|before)": "copies, multiplicity",
    r"sizes file|sequence file|(?:first|second) BED file": "genome file, first file, second file, FASTA file",
    r"but that": "except that",
    r"in place of|anew|at hand|let go": "instead of, again, available, freed",
    r"told|tells? of": "reported",
}
# In what users read. Pages on the code and comments have names of the code, among which are `stop` and `words`.
FOR_USERS = {r"stops?": "end", r"words?": "arguments, options", r"(?:none|nothing|only|exactly),? where": "if, when"}
# What is let through: the headline, which is quoted; texts of messages that are fixed; English; an argument of that name.
LET_THROUGH = (r"an\s+edit\s+is\s+refused\s+exactly\s+where\s+its\s+line\s+is\s+damaged|no sequence file|length fixed by the sequence file"
               r"|stop codon|full stop|\bin words\b|\bwords : str\b")
CODE = r"^## Glossary\n.*?(?=^## )|^```.*?^```$|``.+?``|`[^`\n]*`|^ {4,}(?![-*|] ).*?$|\]\([^)]*\)"


def blanked(text, pattern):
    """The text with spaces for what matches, so that numbers of lines stay."""
    return re.sub(pattern, lambda m: re.sub(r"[^\n]", " ", m.group()), text, flags=re.M | re.S)


def comments(text, mark):
    """What follows the mark on lines that begin with it; the other lines are empty."""
    found = (re.match(rf"\s*{mark}(.*)", line) for line in text.split("\n"))
    return blanked("\n".join(m[1] if m else "" for m in found), r"`[^`\n]*`")


def texts():
    """What is to be looked at: the name of a file, its text, and whether users read that."""
    for path in sorted(TOP.rglob("*")):
        name = path.relative_to(TOP).as_posix()
        if re.search(r"(^|/)(out|build|\.git)/", name) or not path.is_file():
            continue
        if name.endswith(".md"):
            # the prose of docs/STATEMENT is that of comments, which speak of the names of the code
            for_code = re.match(r"CONTRIBUTING|docs/ARCHITECTURE|docs/DECISIONS|docs/STATEMENT|crates/", name)
            yield name, blanked(path.read_text(), CODE), not for_code
        elif name.startswith("man/") or name == "crates/iv_args/src/help.rt":
            yield name, path.read_text(), True
        elif name.startswith("completions/"):
            yield name, comments(path.read_text(), "#"), True
        elif re.match(r"python/bedkeep/.*\.py$", name):
            pieces = re.split(r'"""', path.read_text())  # each second one is a docstring
            yield name, "".join(piece if at % 2 else re.sub(r".", " ", piece) for at, piece in enumerate(pieces)), True
        elif name.startswith("crates/") and path.suffix in (".rt", ".antt"):
            yield name, comments(path.read_text(), "//[/!]?" if path.suffix == ".rt" else "--"), False


def main():
    found = 0
    for name, text, for_users in texts():
        text = blanked(text, LET_THROUGH)
        for pattern, instead in {**FORBIDDEN, **(FOR_USERS if for_users else {})}.items():
            for m in re.finditer(rf"\b(?:{pattern})\b".replace(" ", r"\s+"), text, re.I):
                found += 1
                print(f"{name}:{text.count(chr(10), 0, m.start()) + 1}: {' '.join(m.group().split())}: say {instead}", file=sys.stderr)
    print(f"words: {found} that the glossary forbids")
    sys.exit(found > 0)


if __name__ == "__main__":
    main()

#!/usr/bin/env python3
"""Fails if a public call that allocates has no row in crates/test_refused, in which each of its allocations is refused in turn.

A call allocates if it is a `pub fn` of a library crate whose result has a fault that an allocation failure can become: AllocError, and
each type that it is turned into (`impl From<AllocError>`), also under another name (`pub type`) or as a part of it. A call has a row if a
documentation comment of crates/test_refused names it: `Session::new`. WITHOUT has those that need none, each with its reason.

    scripts/test/refused_rows.py          lists the calls without a row; status 1 if there is one
    scripts/test/refused_rows.py --all    lists all calls that allocate, each with where its row is
"""
import re
import sys
from pathlib import Path

TOP = Path(__file__).resolve().parent.parent.parent
CRATES = TOP / "crates"
ROWS = CRATES / "test_refused" / "src"

# Faults of a line or an argument: other names of a fault that an allocation failure can become, for calls that never allocate.
OF_NO_ALLOCATION = {"RecordFault", "SecondFault", "ResizeFault"}

WITHOUT = {
    "Session::genome_and_width": "it looks at a session",
    "Session::close_view": "it frees memory",
    "Session::region": "it reads numbers",
    "View::read": "the options of a view are held without an allocation",
    "View::asked": "the options of a view are held without an allocation",
    "View::narrowed": "the options of a view are held without an allocation",
    "Plan::view": "the options of a view are held without an allocation",
    "NameMap::rehash": "`Genome::parse` calls it",
    "NameMap::push": "`Genome::parse` calls it",
    "BedLines::take_lines": "`BedReader::take_piece` calls it",
    "LedgerBuilder::new": "`Track::from_places` calls it",
    "LedgerBuilder::push": "`Track::from_places` calls it",
    "LedgerBuilder::finish": "`Track::from_places` calls it",
}


def types_of_failure(texts):
    """The names of the types that an allocation failure can become."""
    names = {"AllocError"}
    for text in texts.values():
        names.update(re.findall(r"impl From<AllocError> for (\w+)", text))
    while True:
        more = set()
        for text in texts.values():
            for name, other in re.findall(r"^pub type (\w+) = (\w+);", text, re.M):
                if other in names and name not in OF_NO_ALLOCATION:
                    more.add(name)
            for name, fields in re.findall(r"^pub struct (\w+)[^{;]*\{([^}]*)\}", text, re.M):
                if any(field in names for field in re.findall(r": (\w+),", fields)):
                    more.add(name)
        if more <= names:
            return names
        names |= more


def calls_of(path, text, failures):
    """The public functions of a file whose results have such a fault: (name, file)."""
    owner = None
    declaration = re.compile(
        r"^impl(?:<[^{]*?>)? (?:[\w:<>' ,]+ for )?(\w+)|^\}|^(?P<indent> *)pub fn (?P<name>\w+)(?P<signature>.*?)(?=\n *(?:requires|ensures)\b|\{)",
        re.M | re.S,
    )
    for match in declaration.finditer(text):
        if match.group("name") is None:
            owner = match.group(1)
            continue
        result = match.group("signature").rpartition("->")[2]
        if not result.strip().startswith("Result") or not failures & set(re.findall(r"\w+", result)):
            continue
        name = match.group("name")
        yield (f"{owner}::{name}" if owner and match.group("indent") else name), path


def rows():
    """Where each call is named in a documentation comment of the rows."""
    found = {}
    for path in sorted(ROWS.glob("*.rt")):
        for number, line in enumerate(path.read_text().splitlines(), 1):
            if line.strip().startswith("///"):
                for name in re.findall(r"`([\w:]+)`", line):
                    found.setdefault(name, f"{path.relative_to(TOP)}:{number}")
    return found


def main():
    paths = [path for crate in sorted(CRATES.glob("iv_*")) if crate.name != "iv_hints" for path in sorted(crate.glob("src/**/*.rt"))]
    texts = {path: path.read_text() for path in paths}
    failures = types_of_failure(texts)
    calls = [call for path, text in texts.items() for call in calls_of(path.relative_to(TOP), text, failures)]
    found = rows()
    missing = [(name, path) for name, path in calls if name not in found and name not in WITHOUT]
    if "--all" in sys.argv[1:]:
        for name, path in calls:
            print(f"{name} ({path}): {found.get(name) or WITHOUT.get(name) or 'no row'}")
    for name, path in missing:
        print(f"{path}: {name} allocates, and has no row in {ROWS.relative_to(TOP)}")
    names = {name for name, _ in calls}
    useless = [name for name in WITHOUT if name not in names or name in found]
    for name in useless:
        print(f"{Path(__file__).name}: {name} has a row, or is no call that allocates: take it out of the list")
    if missing or useless or not calls:
        return 1
    print(f"refused rows: each of {len(calls)} public calls that allocate has a row, or a reason for none")
    return 0


if __name__ == "__main__":
    sys.exit(main())

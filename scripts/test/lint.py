#!/usr/bin/env python3
"""Searches in the crates for two things that no contract can say and that only reading shows.

Memory: a value that says that memory ran out is made only where an allocation failure is turned into a fault, in a
block `impl From<..> for FAULT`; all other code hands it on by `?`, or by an arm that makes one such value of another. A
contract cannot tell a call in which an allocation failed from one that gave up, since failures have no place in the logic.
So the names NoMemory, Memory and AllocError may be in patterns, comparisons, types, declarations and `use` lines, and as
values in those blocks and arms alone. AllocError itself is made in `test_faults` alone, the allocator that refuses on
purpose, and where FULL_COUNTS says that a count would leave its number, or that a record doesn't fit what is to hold its columns.

Meter: steps are counted by the meter that is handed in; a call that made a meter of its own would hide its steps.
So a meter is made only in the functions that MAKES_A_METER names, file by file, once in each and in no loop: in the calls of a
session, one for each, for a line of a script, and in iv_pair, which counts no steps there, where a `Second` or its hits are made.
No crate of kept views makes one, and no repair or print of a view.

The crates of tests, test_*, may name such faults as values that they expect, and make meters.

    scripts/test/lint.py         searches the crates; status 1 if a line is refused
    scripts/test/lint.py --try   plants lines in a copy, and sees each refused, or let through if it is harmless
"""
import re
import shutil
import sys
import tempfile
from pathlib import Path

TOP = Path(__file__).resolve().parent.parent.parent
OPENING, CLOSING = "([{", ")]}"
REFUSED = re.compile(r"\b(NoMemory|Memory|AllocError)\b")
RENAMED = re.compile(r"\b(NoMemory|Memory|AllocError|Meter)\s+as\b")
METER = re.compile(r"\bMeter\s*>?\s*::\s*new\b|::\s*meter\s*\(\s*\)")
MAKES_A_METER = {
    "iv_cover/src/record_walk.rt": {"meter"},
    "iv_pair/src/hit_finder.rt": {"of"},
    "iv_pair/src/hits.rt": {"of"},
    "iv_pair/src/pair_rows.rt": {"put_pair"},
    "iv_pair/src/second.rt": {"new", "hits"},
    "iv_session/src/line.rt": {"run_request"},
    "iv_workspace/src/session/edits.rt": {"edit"},
    "iv_workspace/src/session/lengths.rt": {"has_record_past"},
    "iv_workspace/src/session/open_views.rt": {"open_view", "print_view", "show_view", "print_all", "show_all"},
}
# A list of entries in several vectors may be longer than any one of them, so their number is looked at before it grows. A place of a
# record says in 32 bits where its rest begins: no file that the program reads has 2^32 bytes, but the rests of a track, to which edits
# add, may. And the rests are those of records of one width: no caller hands in another one, but an order has no condition for it.
FULL_COUNTS = {
    "iv_places/src/rests.rt": (r"(?:if feature\.width\(\) != self\.width|let Ok\(from\) = u32::try_from\(self\.bytes\.len\(\) / 4\) else) \{", ""),
    "iv_ledger/src/builder.rt": (r"if self\.len == MOST_ENTRIES \{", "const MOST_ENTRIES: usize = 9_223_372_036_854_775_807;"),
    "iv_ledger/src/ledger.rt": (r"if self\.len == MOST_ENTRIES \{", "use crate::builder::MOST_ENTRIES;"),
}
# Under its own name it is found wherever it is made: `C::Meter::new()` too.
METER_CALLED_OTHERWISE = re.compile(r"\btype\s+(?!Meter\b)\w+\s*=\s*[\w:]*\bMeter\b")


def blanked(text):
    """The text with spaces instead of what the match holds, so that places and line numbers stay."""
    return re.sub(r"[^\n]", " ", text)


def code_of(text):
    """The code alone: comments, texts in quotes and clauses of contracts are blanked."""
    quoted = r"""//[^\n]*|b?"(?:\\.|[^"\\])*"|b?'(?:\\[^']+|[^\\'\n])'"""
    text = re.sub(quoted, lambda m: blanked(m.group()), text, flags=re.S)
    for m in re.finditer(r"\bghost\b[^{;]*;|\b(?:requires|ensures|ghost)\b[^{;]*\{", text):
        end = m.end() if text[m.end() - 1] == ";" else after_group(text, m.end() - 1)
        text = text[: m.start()] + blanked(text[m.start() : end]) + text[end:]
    return text


def after_group(text, at):
    """The place after the group whose bracket opens here."""
    depth = 0
    for place in range(at, len(text)):
        depth += (text[place] in OPENING) - (text[place] in CLOSING)
        if depth == 0:
            return place + 1
    return len(text)


def before_group(text, at):
    """The place of the bracket that opens the group which closes here."""
    depth = 0
    for place in range(at, -1, -1):
        depth += (text[place] in CLOSING) - (text[place] in OPENING)
        if depth == 0:
            return place
    return 0


def pattern_start(code, arrow):
    """Where the pattern left of an arrow `=>` begins: after the comma or the bracket before it."""
    at = arrow - 1
    while at >= 0:
        if code[at] in ",;" or code[at] in OPENING:
            break
        if code[at] in CLOSING:
            opening = before_group(code, at)
            # after a closing brace a new arm begins, unless the braces are those of a pattern such as `Fault { line, cause }`
            if code[at] == "}" and not re.search(r"\b[A-Z]\w*\s*$", code[:opening]):
                break
            at = opening
        at -= 1
    return at + 1


def until(code, start, stops):
    """The place of the first of these characters after the start that is in no group."""
    at = start
    while at < len(code):
        if code[at] in stops or code[at] in CLOSING:
            return at
        at = after_group(code, at) if code[at] in OPENING else at + 1
    return at


def patterns(code):
    """The stretches that only look at values: left of each `=>` up to a guard, and of the `=` of each `let`, the
    second part of `matches!`, and what stands right of `==` and `!=`."""
    for m in re.finditer(r"=>", code):
        start = pattern_start(code, m.start())
        guard = re.search(r"\bif\b", code[start : m.start()])
        yield start, start + guard.start() if guard else m.start()
    for m in re.finditer(r"\blet\b", code):
        yield m.start(), until(code, m.end(), "=;")
    for m in re.finditer(r"\bmatches!\s*\(", code):
        yield until(code, m.end(), ","), after_group(code, m.end() - 1)
    for m in re.finditer(r"[=!]=\s*&?[\w:]+", code):
        yield m.span()


def declarations(code):
    """The stretches that only name types: heads of functions and blocks, enums, structs, aliases, `use` lines."""
    for m in re.finditer(r"\bfn\s+\w|\b(?:impl|trait)\b", code):
        yield m.start(), until(code, m.end(), "{;")
    for m in re.finditer(r"\b(?:enum|struct)\b", code):
        end = until(code, m.end(), "{;")
        yield m.start(), after_group(code, end) if code[end : end + 1] == "{" else end
    for m in re.finditer(r"\b(?:use|type)\b[^;]*;", code):
        yield m.span()


def conversions(code):
    """The bodies of the blocks that turn one fault into another: from an allocation failure, or from what they look at."""
    for m in re.finditer(r"\bimpl\b[^{;]*?\bFrom<(.*?)>\s+for\b[^{;]*\{", code):
        body = m.end() - 1, after_group(code, m.end() - 1)
        looks = re.search(r"Memory\)*\s*(=>|\|)|==\s*[\w:]*Memory\b", code[slice(*body)])
        if m.group(1) == "AllocError" or looks:
            yield body


def handed_on(code):
    """The arms that look at an out-of-memory value alone, and make another one of it."""
    for m in re.finditer(r"[{,]\s*(?:\w+::)*(?:NoMemory|Memory)\s*=>\s*(?:\w+::)+(?:NoMemory|Memory)\s*(?=[,}])", code):
        yield m.span()


def full_counts(place, code):
    """The blocks that are for a count which can't grow."""
    test, constant = FULL_COUNTS.get(place, (r"(?!)", ""))
    if constant in code:
        for m in re.finditer(test + r"\s*return Err\(AllocError\);\s*\}", code):
            yield m.span()


def bodies(code, word):
    """The bodies of functions, or of loops, with what is between the word and the body."""
    for m in re.finditer(rf"\b(?:{word})\b", code):
        start = until(code, m.end(), "{;=")
        if code[start : start + 1] == "{":
            yield code[m.end() : start], (start, after_group(code, start))


def is_in(at, stretches):
    return any(start <= at < end for start, end in stretches)


def memory_made(place, code):
    """The places where a value is made that says that memory ran out."""
    crate = crate_of(place)
    allowed = [*patterns(code), *declarations(code), *conversions(code), *handed_on(code), *full_counts(place, code)]
    for m in REFUSED.finditer(code):
        only_named = crate.startswith("test_") and m.group() != "AllocError"
        if crate != "test_faults" and not only_named and not is_in(m.start(), allowed):
            yield m.start(), f"{m.group()} is made here, where only an allocation failure may say it"


def meters_made(place, code):
    """The places where a meter is made that may make none."""
    if crate_of(place).startswith("test_"):
        return
    makers = MAKES_A_METER.get(place, set())
    functions = list(bodies(code, "fn"))
    # the `for` of an `impl` is no loop
    looped = re.sub(r"\bimpl\b[^{;]*", lambda m: m.group().replace(" for ", "     "), code)
    loops = [body for _, body in bodies(looped, "for|while|loop")]
    seen = set()
    for m in METER.finditer(code):
        around = [(start, head) for head, (start, end) in functions if start <= m.start() < end]
        start, head = max(around, default=(0, ""))
        name = head.split("(")[0].split("<")[0].strip()
        once = around and start not in seen and not is_in(m.start(), loops)
        if not once or name not in makers:
            yield m.start(), "a meter of its own"
        seen.add(start)


def renamed(_place, code):
    """The places where a name that is looked for is given another one."""
    for m in [*RENAMED.finditer(code), *METER_CALLED_OTHERWISE.finditer(code)]:
        yield m.start(), "another name for what is looked for"


def crate_of(place):
    """The crate of a file, given by its path from `crates/` on."""
    return place.split("/")[0]


def search(top):
    """What is refused, as lines of file, number, reason and text."""
    found = []
    for path in sorted(top.glob("crates/*/src/**/*.rt")):
        text = path.read_text()
        place = path.relative_to(top / "crates").as_posix()
        for look in (memory_made, meters_made, renamed):
            for at, why in look(place, code_of(text)):
                number = text.count("\n", 0, at) + 1
                line = text.splitlines()[number - 1].strip()
                found.append(f"{path.relative_to(top)}:{number}: {why}: {line}")
    return found


MADE = "is made here"
METERS = "a meter of its own"
OTHER_NAME = "another name"

# A crate, what is planted there, and the reason why it is refused, none if it is let through. A function called `may` is one
# that may make a meter, in a crate that has such functions.
PLANTED = [
    ("iv_text", "fn f(n: usize) -> Result<(), LoadCause> { if n > 1000 { return Err(LoadCause::Memory); } Ok(()) }", MADE),
    ("iv_track", "fn f(n: u32) -> Result<(), AddFault> { match n { 0 => Ok(()), _ => Err(AddFault::NoMemory), } }", MADE),
    ("iv_track", "fn f(n: u32) -> bool { match n { 0 => true, n if g(AddFault::NoMemory) => false, _ => true } }", MADE),
    ("iv_cli", "fn f(r: Result<(), u8>) -> Result<(), CliFault> { r.map_err(|_| CliFault::Memory) }", MADE),
    ("iv_cli", "use crate::CliFault::Memory;\nfn f() -> CliFault { Memory }", MADE),
    ("iv_cli", "const FAULT: CliFault = CliFault::Memory;", MADE),
    ("iv_session", "fn f() -> Result<(), AllocError> { Err(AllocError) }", MADE),
    ("iv_ledger", "fn f(len: usize) -> Result<(), AllocError> { if len == MOST_ENTRIES { return Err(AllocError); } Ok(()) }", MADE),
    ("iv_places", "fn f(rests: &[u8]) -> Result<u32, AllocError> { let Ok(from) = u32::try_from(rests.len()) else { return Err(AllocError); }; Ok(from) }", MADE),
    ("iv_session", "fn f() -> EditFault { EditFault::from(AllocError) }", MADE),
    ("iv_session", "impl From<u8> for EditFault { fn from(_: u8) -> EditFault { EditFault::NoMemory } }", MADE),
    ("iv_session", "fn f() -> EditFault { let fault = EditFault::NoMemory; fault }", MADE),
    ("iv_session", "const MAKE: fn(u8) -> EditFault = |_| EditFault::NoMemory;", MADE),
    ("iv_session", "fn f() -> Result<(), PrintFault> { Err(PrintFault::Refused(Fault::NoMemory)) }", MADE),
    ("test_calls", "fn f() -> Result<(), AllocError> { Err(AllocError) }", MADE),
    ("bedkeep", "use iv_session::EditFault::NoMemory as Full;", OTHER_NAME),
    ("iv_text", "/// Memory was refused: `AllocError`.\nfn f<A>(a: A) -> Result<Vec<u8, A>, AllocError>\n    ensures { OnErr result (g.fault ≡ LoadCause.Memory) }\n{\n    g(\"Memory\")\n}", None),
    ("iv_text", "fn f(c: LoadCause) -> u8 { match c { LoadCause::Memory => 10, LoadCause::TooMany => { 9 } Fault { cause: LoadCause::Memory } | LoadCause::Memory if true => 1 } }", None),
    ("iv_text", "enum Why { TooMany, Memory }\nfn f(c: Why) -> bool { if let Why::Memory = c { true } else { false } }", None),
    ("iv_text", "impl From<AllocError> for Why { fn from(_: AllocError) -> Why { Why::Memory } }", None),
    ("iv_cli", "impl From<Why> for Fault { fn from(why: Why) -> Fault { match why { Why::Memory => Fault::Memory, _ => Fault::Other } } }", None),
    ("iv_cli", "fn f(why: Why) -> Fault { match why { Why::Memory => Fault::Memory, _ => Fault::Other } }", None),
    ("iv_cli", "fn f(why: Why) -> Fault { match why { Why::Memory | Why::Other => Fault::Memory, _ => Fault::Other } }", MADE),
    ("iv_cli", "fn f(why: Why) -> Fault { match why { Why::Other => Fault::Memory, _ => Fault::Other } }", MADE),
    ("iv_cli", "fn f(why: Why) -> bool { why == Why::Memory || matches!(why, Why::Memory | Why::Other) }", None),
    ("test_calls", "fn f() -> bool { g() == Err(EditFault::NoMemory) }", None),
    ("iv_depth", "fn f() -> u64 { let meter = Meter::new(); meter.steps() }", METERS),
    ("iv_cover", "fn f() -> u64 { let mut meter = Meter::new(); meter.steps() }", METERS),
    ("iv_cover", "fn f() -> u64 { <Meter>::new().steps() }", METERS),
    ("iv_cover", "type Count = iv_ledger::Meter;", OTHER_NAME),
    ("iv_depth", "impl Changes for Cursor { type Meter = Meter; }", None),
    ("iv_blocks", "fn f<W: RecordWalk>() { g(&mut W::meter()); }", METERS),
    ("iv_depth", "fn f<C: Changes>() { g(C::Meter::new()); }", METERS),
    ("iv_track", "fn from_records<A>(a: A) -> Meter { Meter::new() }", METERS),
    ("iv_workspace", "fn may() { g(Meter::new()); g(Meter::new()); }", METERS),
    ("iv_workspace", "fn may() { for _ in 0..9 { g(Meter::new()); } }", METERS),
    ("iv_workspace", "impl OpenView { fn added(&mut self) { self.state.added(&mut Meter::new()); } }", METERS),
    ("iv_workspace", "impl Views { fn repair_each(&mut self) -> bool { for view in v { kept &= view.repair(change, row, &mut Meter::new()); } kept } }", METERS),
    ("iv_session", "const MAKE: fn() -> Meter = Meter::new;", METERS),
    ("iv_cli", "fn f() -> Meter { Meter::new() }", METERS),
    ("iv_pair", "fn print_pairs() { g(Meter::new()); }", METERS),
    ("iv_pair", "fn may<A>() { g(Meter::new()); g(Meter::new()); }", METERS),
    ("iv_pair", "fn may(n: u8) { for _ in 0..n { g(Meter::new()); } }", METERS),
    ("iv_pair", "fn may<A>(&self) { g(Meter::new()); }", None),
    ("iv_workspace", "fn may(&mut self) { let mut meter = Meter::new(); }", None),
    ("test_calls", "fn f() { g(Meter::new()); g(Meter::new()); }", None),
]


def try_planted():
    """How many of the planted lines were not judged as they should be."""
    wrong = 0
    with tempfile.TemporaryDirectory() as temporary:
        top = Path(temporary)
        shutil.copytree(TOP / "crates", top / "crates", ignore=shutil.ignore_patterns("out", "proofs", "must-fail"))
        for number, (crate, text, _) in enumerate(PLANTED):
            folder = top / "crates" / crate / "src"
            folder.mkdir(parents=True, exist_ok=True)
            (folder / f"planted_{number}.rt").write_text(text + "\n")
            if crate in map(crate_of, list(MAKES_A_METER)):
                MAKES_A_METER[f"{crate}/src/planted_{number}.rt"] = {"may"}
        found = search(top)
    for number, (crate, text, why) in enumerate(PLANTED):
        refused = [line for line in found if f"/planted_{number}.rt:" in line]
        if len(refused) != (why is not None) or any(why not in line for line in refused):
            wrong += 1
            print(f"planted in {crate}: {text}\n  wanted: {why}; found: {refused}", file=sys.stderr)
    print(f"lint: {len(PLANTED) - wrong} of {len(PLANTED)} planted lines are judged right")
    return wrong


def main():
    if sys.argv[1:] == ["--try"]:
        return 1 if try_planted() else 0
    found = search(TOP)
    for line in found:
        print(line, file=sys.stderr)
    print(f"lint: {len(found)} lines are refused")
    return 1 if found else 0


if __name__ == "__main__":
    sys.exit(main())

#!/usr/bin/env python3
"""Says which definitions of crates/*/specs/ the contracts of public calls reach, and which only proofs use.

It goes by names: from the clauses of a call, and from the models and clauses of the types and traits in its signature, through
`use` lines to definitions, and on through these. A name that a definition binds is no use of another definition. A name in the
sources may be taken for one, so a few too many may be counted as reached; one that is listed as not reached is reached by no name.

The numbers of the pages leave out names of bytes and the definitions of notices (statement.py).

    scripts/prove/reached.py            how many are reached from run_program, from the public crates, and by none
    scripts/prove/reached.py --list     lists those that none reaches, with their files and lines
    scripts/prove/reached.py --order    lists those that run_program reaches, by file, with sizes in lines
    scripts/prove/reached.py --page     writes docs/STATEMENT.md, which has all that run_program reaches, from the top down (statement.py)
    scripts/prove/reached.py --write    writes that page, and puts the program's contract and the numbers into docs/PROMISES.md
    scripts/prove/reached.py --check    status 1 if --write would change either, if the page has a name that it doesn't explain, or if a
                                        definition that none reaches isn't in the folder specs/Inside, or one that is reached is there
"""
import re
import sys
from collections import defaultdict
from pathlib import Path

from statement import Statement, is_counted, what_is_uncounted

TOP = Path(__file__).resolve().parent.parent.parent
PUBLIC = ["iv_text", "iv_track", "iv_cover", "iv_pair", "iv_session", "iv_cli"]
PROGRAM = "iv_program"
INSIDE = "Inside"
CONTRACT = re.compile(r"^    ensures \{ Runs .*(?:\n {8}.*)*", re.M)  # of the program, in its source and on the page of promises
HEAD = re.compile(r"^( *)(?:(?:abbrev|unfoldable) pub|pub (?:record|data)) +(\S+)")
LEMMA = re.compile(r"^( *)pub [\w-]+ :")
NAME = re.compile(r"(?<![\w.'-])[A-Za-z_][\w'-]*")
USE = re.compile(r"\b(?:ghost )?use (?:Rattle\.(\w+)\.specs|\w+)\.([\w.]+?)(?:\.\{([^}]*)\}| as (\w+))?\s*(?:;|$)", re.M)
# In the text of a definition: texts, names and signs; what is no use of anything; and the cases of std with a small first letter.
TOKEN = re.compile(r'"(?:\\.|[^"\\])*"|(?<![\w.\'])[^\W\d][\w\'-]*|\[\]|[^\w\s(){}\[\].,;:"\'◌]+ℤ?')
SYNTAX = set("abbrev unfoldable pub record data module where λ let in elim Type then else _ = | ↦".split())
SMALL_CASES = {"true", "false", "zero", "suc", "pos", "tt"}


def module_of(path):
    """The module of a path below specs: its first part, or the first two if that is the folder Inside."""
    parts = path.split(".")
    return ".".join(parts[:1 + (parts[0] == INSIDE)])


class Names:
    """What the names of a file mean: definitions as ("spec", crate, module, name), types of the sources as ("src", crate, name);
    and the words of std that it has."""

    def __init__(self, text):
        self.of, self.modules, self.words = {}, {}, {"Unit", "tt"}
        for crate, module, listed, alias in USE.findall(text):
            if not crate.startswith("iv_"):
                listed = listed or alias or module.split(".")[-1]
                self.words |= {word for part in listed.split(",") for word in part.split(" as ")[-1].strip().split("◌") if word}
                continue
            for item in filter(None, (part.strip() for part in listed.split(","))) if listed else [alias or module.split(".")[-1]]:
                name, _, other = item.partition(" as ")
                if module.startswith("declared."):
                    parts = [part for part in module.split(".")[2:] if part not in ("TheVariants", "TheConstants")]
                    self.of[other or name] = ("src", crate, parts[-1] if parts else name)
                elif listed:
                    self.of[other or name] = ("spec", crate, module_of(module), name)
                else:
                    self.modules[name] = (crate, module)


def definitions():
    """Each definition of specs/: its key, its text and the comment above it, with the names of its file, its file, and how many lines
    it has without comments; and the definition that makes each case of a `data`, or that a file passes on."""
    found, makes = {}, {}
    for path in sorted(TOP.glob("crates/iv_*/specs/**/*.antt")):
        crate, *_, folder, _ = path.relative_to(TOP / "crates").parts
        module, text = f"{INSIDE}.{path.stem}" if folder == INSIDE else path.stem, path.read_text()
        if module in ("Lib", INSIDE):
            continue
        names, lines, at, around, indent, above = Names(text), text.split("\n"), None, "", 0, []
        passed_on = Names("\n".join(line for line in lines if line.startswith("pub use "))).of
        makes.update({(crate, module, name): key for name, key in passed_on.items()})
        for line in lines:
            head = HEAD.match(line)
            comment = re.match(r" *-- ?(.*)", line)
            above, said = (above + [comment[1]], []) if comment else ([], above)
            if line.startswith("module "):
                around, at = line, None
            elif head:
                indent = len(head[1])
                if not indent:
                    around = ""
                at = ("spec", crate, module, head[2])
                found[at] = {"text": around, "comment": " ".join(said), "names": names, "path": path.relative_to(TOP), "lines": 0, "at": len(found)}
            elif LEMMA.match(line) and len(LEMMA.match(line)[1]) <= indent:
                at = None
            elif line.startswith(("use ", "pub use ")) or not line.strip():
                continue
            if at and not line.strip().startswith("--"):
                found[at]["text"] += "\n" + line
                found[at]["lines"] += 1
                case = re.match(r"  (\S+) : ", line)
                if case:
                    makes[(crate, module, case[1])] = at
    for key, one in found.items():
        own = [name for (_, crate, module, name) in found if (crate, module) == key[1:3]]
        own += [case for (crate, module, case) in makes if (crate, module) == key[1:3]]
        one["own"] = {name: ("spec", key[1], key[2], name) for name in own}
    return found, makes


def bound(piece, names, is_clause):
    """The names that a piece of a definition binds: its parameters, its variables, and the fields or cases that it declares."""
    found = set(re.findall(r"^ +(?:pub )?(\w+) : ", piece, re.M))
    for m in re.finditer(r"λ\s*(\([^()]*\)|[\w'\s]+)\.|[({]\s*([\w']+(?:\s+[\w']+)*)\s+:\s|\blet (\w+)", piece):
        found |= set(NAME.findall((m[1] or m[2] or m[3]).split(":")[0]))
    patterns = re.findall(r"[\[|]\s*([^|\[\]↦]*)↦", piece) + (re.findall(r"\A\s*[\w'-]+(.*?)\s=\s", piece, re.S) if is_clause else [])
    for pattern in patterns:
        for m in NAME.finditer(pattern):
            is_case = (m[0] in names.of or m[0] in names.words) and (m[0] in SMALL_CASES or m[0][0].isupper())
            if not is_case and pattern[m.end():m.end() + 1] != ".":
                found.add(m[0])
    return found


def uses(key, one):
    """What a definition uses, in order: each name as it is there, and its key; ("std", word) for a word or a sign of std, None for a
    name that nothing explains."""
    found, names = {}, one["names"]
    around = one["text"].split("\n")[0] + "\n" if one["text"].startswith("module") else ""
    pieces = re.split(rf"\n(?= *{re.escape(key[3])}(?: |\n|$))", one["text"])
    for at, piece in enumerate(pieces):
        own = bound(piece, names, at > 0) | bound(around, names, False)
        for m in TOKEN.finditer(piece):
            name, after = m[0], piece[m.end():]
            is_field = re.search(r"[{;]\s*$", piece[:m.start()]) and re.match(r"\s*=\s", after)
            if name[0] == '"' or name in SYNTAX or name in own or is_field:
                continue
            item = re.match(r"\.(\w+)", after)
            if name in names.modules and item:
                found[f"{name}.{item[1]}"] = ("spec", *names.modules[name], item[1])
            elif not NAME.fullmatch(name) or name in names.words:
                found[name] = ("std", name)
            else:
                found[name] = {**names.of, **one["own"]}.get(name)
    return [(name, used) for name, used in found.items() if used != key]


def braced(text, start):
    """The end of the group whose brace opens at the place or after it."""
    depth = 0
    for at in range(text.index("{", start), len(text)):
        depth += (text[at] == "{") - (text[at] == "}")
        if depth == 0:
            return at + 1
    return len(text)


def clauses(text, start):
    """The signature and the clauses of the function whose name begins here."""
    at, end = start, start
    while True:
        m = re.compile(r"\b(?:requires|ensures)\b[^{;]*\{|[{;]").search(text, at)
        if not m:
            return text[start:]
        if m.group() in "{;":
            return text[start:m.start()]
        at = end = braced(text, m.end() - 1)


def sources():
    """What each public item of the sources says, by crate and name: functions, and types and traits with their calls and models."""
    items, calls, passed = defaultdict(list), defaultdict(list), {}
    for path in sorted(TOP.glob("crates/iv_*/src/**/*.rt")):
        crate = path.parts[path.parts.index("crates") + 1]
        text = re.sub(r"^\s*//.*$", "", path.read_text(), flags=re.M)
        names = Names(text)
        for m in re.finditer(r"^pub use (?:crate::)?([\w:]+?)::(?:\{([^}]*)\}|(\w+));", text, re.M):
            for item in (m[2] or m[3]).split(","):
                name, _, other = item.strip().partition(" as ")
                if name:
                    passed[(crate, other or name)] = (m[1].split("::")[0] if m[1].startswith("iv_") else crate, name)
        imported = {}
        for m in re.finditer(r"^\s*use (\w+)(?:::\w+)*::(?:\{([^}]*)\}|(\w+));", text, re.M):
            for item in (m[2] or m[3]).split(","):
                name, _, other = item.strip().partition(" as ")
                imported[other or name] = (m[1] if m[1].startswith("iv_") else crate, name)
        for m in re.finditer(r"^(?:pub(?:\([^)]*\))? )?(struct|enum|trait|type|const) (\w+)", text, re.M):
            end = braced(text, m.end()) if m[1] in ("struct", "enum", "trait") and re.search(r"[{;]", text[m.end():])[0] == "{" else text.index(";", m.end())
            said = text[m.start():end]
            if m[1] == "enum":  # without the names of its variants
                said = re.sub(r"^    \w+", "", said, flags=re.M)
            items[(crate, m[2])].append((said, names, imported))
        for m in re.finditer(r"^impl(?:<.*?>)? (?:(\w+)(?:<.*?>)? for )?&?(?:'\w+ )?(?:mut )?(\w+)[^{]*\{", text, re.M):
            body = text[m.start():braced(text, m.end() - 1)]
            ghosts = [body[g.start():braced(body, g.end())] for g in re.finditer(r"\bghost (?!view\b|invariant\b)\w+\s*[=:]", body) if "{" in body[g.end():]]
            if m[1] == "From":  # what a conversion gives is no part of the type
                calls[(crate, m[2])] += [(ghost, names, imported) for ghost in ghosts]
                ghosts = []
            if any(ghost.startswith("ghost Value") for ghost in ghosts):  # a caller sees the value, and none of the fields
                items[(crate, m[2])] = [item for item in items[(crate, m[2])] if not item[0].lstrip("pub() crate").startswith("struct")]
            items[(crate, m[2])] += [(ghost, names, imported) for ghost in ghosts]
            for f in re.finditer(r"^    (pub )?fn (\w+)", body, re.M):
                if f[1] or m[1]:
                    calls[(crate, m[2])].append((clauses(body, f.start()), names, imported))
        for m in re.finditer(r"^pub fn (\w+)", text, re.M):
            items[(crate, m[1])].append((clauses(text, m.start()), names, imported))
    return items, calls, passed


class Walk:
    def __init__(self):
        (self.specs, self.makes), (self.items, self.calls, self.passed) = definitions(), sources()
        self.uses = {key: [(name, self.made(used)) for name, used in uses(key, one)] for key, one in self.specs.items()}

    def made(self, key):
        """The definition that a key means: of a case of a `data` that one."""
        return self.makes.get(key[1:], key) if key and key not in self.specs else key

    def item(self, crate, name):
        for _ in range(5):
            if (crate, name) in self.items or (crate, name) not in self.passed:
                break
            crate, name = self.passed[(crate, name)]
        return crate, name

    def reached(self, roots):
        """The definitions that are reached from these items with all their calls, and the items on the way, with their models alone."""
        seen, todo = set(), [(item, True) for item in roots]
        while todo:
            (key, whole) = todo.pop()
            if (key, whole) in seen:
                continue
            seen.add((key, whole))
            if key[0] == "spec":
                todo += [(used, False) for _, used in self.uses.get(key, []) if used and used[0] != "std"]
                continue
            key = ("src", *self.item(*key[1:]))
            for text, names, imported in self.items[key[1:]] + (self.calls[key[1:]] if whole else []):
                for name in set(NAME.findall(text)):
                    if name in names.of:
                        todo.append((self.made(names.of[name]), False))
                    elif name in imported:
                        todo.append((("src", *imported[name]), False))
                    elif (key[1], name) in self.items and name != key[2]:
                        todo.append((("src", key[1], name), False))
        return {key for key, _ in seen if key in self.specs}


def page_with(page, keys, size):
    """The page of promises with the program's contract, and the numbers of these definitions."""
    contract = CONTRACT.search((TOP / f"crates/{PROGRAM}/src/program.rt").read_text()).group()
    page = CONTRACT.sub(lambda _: contract, page, count=1)
    page = re.sub(r"\d+ names of bytes and the \d+ definitions of notices", what_is_uncounted(keys), page)
    keys = [*filter(is_counted, keys)]
    return re.sub(r"[\d,]+ definitions, [\d,]+ lines", f"{len(keys):,} definitions, {size(keys):,} lines", page)


def main():
    walk = Walk()
    program = walk.reached([("src", PROGRAM, "run_program")])
    lemmas = [("src", *walk.item(PROGRAM, name)) for (crate, name) in walk.passed if crate == PROGRAM]
    public = walk.reached([("src", *walk.item(crate, name)) for (crate, name) in walk.passed if crate in PUBLIC] + lemmas)
    either = program | public
    rest = sorted(set(walk.specs) - either)
    size = lambda keys: sum(walk.specs[key]["lines"] for key in keys)
    files = lambda keys: len({walk.specs[key]["path"] for key in keys})
    counted = {"all": walk.specs, "from run_program": program, "from the public crates": public, "from either": either, "from neither": rest}
    for what, keys in counted.items():
        print(f"{what}: {len(keys)} definitions, {size(keys)} lines, in {files(keys)} files")
    misplaced = [key for key in walk.specs if (key in either) == key[2].startswith(INSIDE + ".")]
    for crate, module, name in sorted(key[1:] for key in misplaced):
        print(f"crates/{crate}/specs: {name} of {module} is {'in' if module.startswith(INSIDE) else 'outside'} the folder {INSIDE}")
    promises, statement = TOP / "docs" / "PROMISES.md", Statement(walk, TOP)
    right = {promises: page_with(promises.read_text(), program, size), TOP / "docs" / "STATEMENT.md": statement.page()}
    statement.problems += [f"{walk.specs[key]['path']}: {key[3]} is reached, but not on the page" for key in program - {*statement.keys, *statement.bytes}]
    for problem in statement.problems:
        print(problem)
    if "--check" in sys.argv and statement.problems:
        sys.exit("docs/STATEMENT.md has names that nothing on it explains, or the glossary in statement.py has words that nothing uses")
    for path, text in right.items():
        if "--write" in sys.argv or "--page" in sys.argv and path != promises:
            path.write_text(text)
        if "--check" in sys.argv and (not path.is_file() or path.read_text() != text):
            sys.exit(f"docs/{path.name} is not what the definitions say: scripts/prove/reached.py --write puts it right")
    if "--check" in sys.argv and misplaced:
        sys.exit(f"a definition is in {INSIDE} if and only if no contract of a public call reaches it")
    if "--list" in sys.argv:
        for key in rest:
            print(f"{walk.specs[key]['path']}: {key[3]}, {walk.specs[key]['lines']} lines")
    if "--order" in sys.argv:
        of_file = defaultdict(list)
        for key in program:
            of_file[walk.specs[key]["path"]].append(key)
        for path, keys in sorted(of_file.items()):
            print(f"{path}: {len(keys)} definitions, {size(keys)} lines")


if __name__ == "__main__":
    main()

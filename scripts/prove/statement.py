"""The page docs/STATEMENT.md: the contract of the program, and each definition on which it rests, after the one that first uses it.

reached.py finds the definitions and what each uses, and says when the page is written and compared. Here are the order, the look of
the page, and its glossary of the words of std, which is written by hand.
"""
import re
import sys
import textwrap
from collections import Counter, defaultdict, namedtuple

PROGRAM = ("iv_program", "run_program")
LINES_OF_A_SCRIPT = ("iv_session", "ScriptLines")  # with these the first part begins
# The titles of the parts; those definitions that an earlier part uses and leaves to each, with all that only these need.
TITLES = ["1: edits, session and views", "2: the shell", "3: arguments", "4: regions"]
LATER = [
    [],
    [("iv_lines", "Fault", "fault_text"), ("iv_session", "ScriptLines", "EndsAt")],
    [("iv_args", "Arguments", "IsPlan"), ("iv_view", "Arguments", "read_arguments")],
    [("iv_session", "Requests", "show_asked"), ("iv_session", "Requests", "show_all_asked"), ("iv_view", "RegionText", "shown_text_in")],
]
# The definitions in which a `List ℕ` is no text but a list of numbers.
OF_NUMBERS = {"greatest", "AreWithin", "line_sizes", "one_longer", "Keeps", "Passes"}
# What the page writes for what the sources have.
WRITTEN = [(r"\b(?:abbrev|unfoldable) pub |\bpub (?=record |data |\w+ :)", ""), (r"\bType 0\b", "Type"),
           (r'\(codes ("(?:\\.|[^"\\])*")\)', r"\1"), (r'\bcodes (?=")', "")]
TEXTS = [(r"\(List ℕ\)", "Text"), (r"\bList ℕ", "Text")]
BYTES = ("iv_lines", "Bytes")  # names of bytes, which are lines of the glossary
NOTICES = {("iv_args", "Notices"), ("iv_args", "Texts")}  # what has a section of its own at the end
# Several definitions of one file have a heading of their own if they are all that it has, or have so many lines; the second number is
# for all that a part of the page has of the file.
LINES_FOR_A_HEADING = 8, 6
MANY = 60  # definitions: what brings so many comes after what brings fewer
WIDTH = 110
DECLARATION = re.compile(r"((?:^ *///.*\n)*)(?:^ *(?:#\[|//).*\n)*^(?:pub(?:\([^)]*\))? )?(enum|struct|trait|const) (\w+)", re.M)
# What Rust itself has, of the names in declarations.
OF_RUST = {"Self", "Option", "Result", "Drop"}

# The words of std, by subject. A key is one word, or several that one line explains.
GLOSSARY = {
    "Statements": {
        "≡": "`a ≡ b`: a and b are equal",
        "≢": "`a ≢ b`: they are not",
        "→": "`P → Q`: if P then Q; `(x : A) → P`: P for each x of A. Between types, `A → B` is a function from A to B",
        "×": "`P × Q`: P and Q; `(x : A) × P`: there is an x of A with P. Between types, `A × B` are pairs, whose parts are `p.0` and `p.1`",
        "⊎": "`P ⊎ Q`: P or Q",
        "¬": "`¬ P`: not P",
        "⊤ Unit": "`⊤`, `Unit {0}`: the statement that always holds, and the type with one value",
        "⊥": "`⊥`: the statement that never holds",
        "IsTrue": "`IsTrue b`: b is true",
    },
    "Choices": {
        "Bool true false": "`Bool`: `true` or `false`",
        "not": "`not b`: true if b is false",
        "&&": "`b && c`: whether both are true",
        "||": "`b || c`: whether one of them is true, or both",
        "if cond": "`if b then x else y`, `cond b x y`: x if b is true, y otherwise",
    },
    "Numbers": {
        "ℕ": "`ℕ`: the whole numbers from 0 on, without a limit. A byte is one of them",
        "zero suc": "`zero`, `suc n`: 0, and the number after n; each number has one of these two forms",
        "+": "`a + b`: their sum",
        "-": "`a - b`: their difference, 0 if b is greater",
        "*": "`a * b`: their product",
        "==": "`a == b`: whether two numbers are equal",
        "< ≤": "`a < b`, `a ≤ b`: a is less than b, at most b (statements)",
        "nat_lt nat_le": "`nat_lt a b`, `nat_le a b`: whether a is less than b, at most b (`true` or `false`)",
        "min max": "`min a b`, `max a b`: the less and the greater of two",
        "sum": "`sum ns`: the sum of the numbers of a list",
        "range_with_len": "`range_with_len a n`: the n numbers from a on, in order",
        "ℤ pos neg_ℤ": "`ℤ`: the whole numbers below 0 too; `pos n` is n as one of them, and `neg_ℤ z` is z with the other sign",
        "+ℤ int_min int_max": "`y +ℤ z`, `int_min y z`, `int_max y z`: the sum, the less and the greater of two of these",
    },
    "Lists": {
        "List [] ∷": "`List A`: lists of As; `[]` is the empty one, and `x ∷ xs` has x first and then the list xs. A `Text` is a list of bytes",
        "++": "`xs ++ ys`: the one list, and then the other",
        "length": "`length xs`: how many items it has",
        "map": "`map f xs`: f x for each x of xs, in order",
        "filter": "`filter test xs`: those that pass the test, in order",
        "find": "`find test xs`: the first that passes",
        "list_any list_all": "`list_any test xs`, `list_all test xs`: whether one passes, whether each does",
        "count_by": "`count_by test xs`: how many pass",
        "position": "`position test xs`: the index of the first that passes, from 0",
        "flat_map": "`flat_map f xs`: the lists f x of each x of xs, joined",
        "filter_map": "`filter_map f xs`: the values of f x for each x of xs, without those x for which there is none",
        "fold": "`fold f a xs`: a, changed by each item in turn: f (f a x) y for the items x and y",
        "reduce": "`reduce f xs`: the first item, changed so by each of the others, if there is one",
        "take drop": "`take n xs`, `drop n xs`: the first n items, and the others",
        "replicate": "`replicate n x`: n times x",
        "reverse": "`reverse xs`: the items from the last to the first",
        "zip": "`zip xs ys`: pairs of the items at the same places, up to the end of the shorter list",
        "slice_get": "`slice_get xs i`: the item at index i, from 0, if there is one",
        "slice_index_or": "`slice_index_or xs i d`: that item, or else d",
        "slice_range": "`slice_range xs i j`: the items from index i up to index j, which is not included",
        "slice_split": "`slice_split test xs`: what is between the items that pass: one list more than there are of these",
        "before_first": "`before_first test xs`: what is before the first that passes; all if none does",
        "onto_first": "`onto_first x xss`: the lists xss with x in front of the first of them; one list with x alone if there is none",
        "All": "`All P xs`: P holds of each item",
        "AllZip": "`AllZip R xs ys`: the lists are equally long, and R holds of the items at the same places",
        "lookup": "`lookup test pairs`: the second part of the first pair whose first part passes",
        "remove_entry": "`remove_entry test pairs`: the pairs without that pair",
    },
    "Values that may be missing": {
        "Option Some None": "`Option A`: `Some x`, with an x of A, or `None`",
        "is_some is_none": "`is_some o`, `is_none o`: whether there is a value, whether there is none",
        "unwrap_or": "`unwrap_or o d`: the value, or else d",
        "option_map": "`option_map f o`: f of the value, if there is one",
        "option_map_or": "`option_map_or f o d`: f of the value, or else d",
        "option_and_then": "`option_and_then f o`: the same for an f that may give none itself",
        "option_zip": "`option_zip o p`: the pair of both values, if both are there",
        "option_to_list": "`option_to_list o`: the list of the value alone, or the empty one",
        "ok_or": "`ok_or o e`: `Ok` with the value, or else `Err e`",
        "IsSome": "`IsSome o`: there is a value",
        "IfSome": "`IfSome o P`: P of the value, if there is one",
        "IsSomeAnd": "`IsSomeAnd o P`: there is a value, and P of it",
        "MatchOption": "`MatchOption o P Q`: P if there is no value, and Q of it if there is one",
    },
    "Results": {
        "Result Ok Err": "`Result A E`: `Ok x`, with an x of A, or `Err e`, with an e of E: the fault",
        "IsOk IsErr": "`IsOk r`, `IsErr r`: the result is an `Ok`, an `Err`",
        "IfOk": "`IfOk r P`: P of the value, if it is an `Ok`",
        "OnOk OnErr": "`OnOk r P`, `OnErr r P`: P if it is an `Ok`, P if it is an `Err`",
        "MatchResult": "`MatchResult r P Q`: P of the value of an `Ok`, Q of the fault of an `Err`",
        "option_transpose": "`option_transpose o`: `Ok None` for `None`; `Ok (Some x)` for `Some (Ok x)`; `Err e` for `Some (Err e)`",
    },
    "Texts": {
        "codes": "`\"ab\"`: the bytes of this text; `\\t` is a TAB and `\\n` a line feed",
        "bytes_eq": "`bytes_eq a b`: whether two texts are equal",
        "decimal": "`decimal n`: the digits of n",
        "signed_decimal": "`signed_decimal z`: the same of a ℤ, with `-` in front if it is below 0",
        "all_ascii_digits": "`all_ascii_digits bs`: whether each byte is one of `0` to `9`",
        "join_with_byte": "`join_with_byte b texts`: the texts, with the byte b between two of them",
    },
    "Orders": {
        "Ordering Less Equal Greater": "`Ordering`: how one thing is to another: `Less`, `Equal` or `Greater`",
        "nat_cmp": "`nat_cmp a b`: how number a is to number b",
        "slice_cmp": "`slice_cmp cmp xs ys`: how two lists are by their first items that differ; a list is less than one that it begins",
        "option_cmp": "`option_cmp cmp o p`: how two that may be missing are; `None` is least",
        "ordering_then": "`ordering_then o p`: o, unless it is `Equal`; then p",
        "is_eq is_le": "`is_eq o`, `is_le o`: whether it is `Equal`; whether it is `Less` or `Equal`",
    },
    "Bytes of a device, which may be unknown": {
        "Appends": "`Appends old new bytes`: if the old bytes are known, then so are the new ones: the old ones, and then these bytes",
        "Consumes": "`Consumes old new bytes`: if the old bytes are known, they are these bytes and then the new ones",
        "IsAtEnd": "`IsAtEnd known`: no byte is left, if that is known",
        "GName": "`GName`: a name for a borrow, of which the program's contract says nothing",
    },
    "Values of Rust": {
        "now old new": "`x.now`: what a reference refers to; if it can be changed, `x.old` is that before the call and `x.new` after it",
    },
}
WORDS = {word for lines in GLOSSARY.values() for key in lines for word in key.split()}

HEAD = """\
# The statement

The contract of `bedkeep`, and each definition on which it rests, after the one that first uses it. It is proved for all arguments, files and scripts; no proof is part of it. [PROMISES](PROMISES.md) says in words what it means, what else is proved, and what is tested or trusted.

| Part | Definitions | Lines without comments | Minutes |
|---|---|---|---|
{rows}

These numbers are without {uncounted}: the first are lines of the glossary, and the others are the last section. The minutes are those of a reader who takes in 200 words of prose a minute, and three names or signs of a definition in two seconds.

`scripts/prove/reached.py --write` writes the page from the sources, and `make test` compares the two. The prose is that of comments; only the text in blocks counts. That text is the sources', but the page writes `Text` for a `List ℕ` that holds bytes, `Type` for `Type 0`, and `"ab"` for `codes "ab"`, and leaves out `abbrev`, `unfoldable` and `pub`, which are for the prover.

## Contents

{contents}

## How to read it

- **A definition** begins with its name and its type: `f : A → B → C` takes an A and a B, and gives a C. Then come equations, of which the first that fits counts. `f x y` is f of x and y, without brackets or commas. To find a definition, search for its name with ` :` after it.
- **`Type`** is the type of types and of statements. `Sequences : Type` is a type. `RunsLine : State → ... → Type` is a statement about a State and more: it holds or doesn't. The names of both begin with a capital letter; those of values begin with a small one.
- **A record** has named fields. `r.x` is a field, `record {{ x = a }}` is made of fields, and `record r {{ x = a }}` is r except for this field. A record with parameters is a statement: it holds if there are values for all of its fields, and its fields that are statements hold.
- **A `data`**, or an `enum` of Rust, is one of its cases. In `kind.Add` the case is `Add`, and its type is the one that the last line *Cases* gives for `kind.`.
- **In an equation** `λ x. e` is the function that gives e for x; `let x = e in d` is d with e for x; and `elim e [ p ↦ a | q ↦ b ]` is a if e has the form p, and b if it has the form q. `_` is any value.
- **Arguments** in `{{ }}` are left out if the others show them. What is defined below `module _ (x : A) where` takes x as its first argument.
- **Binding**: fields bind tightest, then functions, `∷`, signs between numbers and `++`, those that compare, `&&`, `||`, `¬`, `×`, `⊎`, and last `→`.
- **Values of Rust**: an unsigned number, such as a `u8` or a `u64`, is an ℕ, a `bool` is a Bool, and an array or what a `&[u8]` refers to is a List. Declarations are shortened to names and types.
- **A call of Rust** promises each of its `ensures {{ P }}` when it returns, if its `requires {{ P }}` holds when it is made. `ensures NAME {{ P }}` has a name for P, `ghost` is what only contracts see, and `Self` is the type that has the call.
- Positions count from 0, and the end of an interval is not included. *Stop* is the end of an interval.

## Glossary

The words of Rattle's standard library that definitions use, where each has a definition too, and the names of bytes, from [`iv_lines/specs/Bytes.antt`](../crates/iv_lines/specs/Bytes.antt). A sign between `◌` is a function, as `◌+ℤ◌`: each `◌` is an argument.

{glossary}

## The contract

{contract}

This is about any files, input, output and messages; `F.state`, `R.state`, `W.state` and `E.state` are what is known of them ([The devices](#the-devices)). The `observer` sees each refused line, and nothing depends on it. `arguments` are those after the program's name, and `result` is how the run ended: its `exit_reason` decides the exit status, which is that of its `report_of` ([`iv_run/specs/ExitReasons.antt`](../crates/iv_run/specs/ExitReasons.antt)).

{ended}
"""

FIRST = """\
The contract's `Runs` is about the whole program. It leads to the lines of a script through {chain}, which are in part 2: the input is split into lines, and each line in turn takes the session from one state to the next, and writes something. `RunsLine` says what one line may do. The text of a view, which is below too, is also what a run of one subcommand prints. Which arguments ask for which view is in part 3, and what `show` and `showall` print of a region is in part 4.
"""

SECOND = """\
What is around a session or a view: files, streams, endings. It begins with the contract's `Runs`.
"""

ARGUMENTS = """\
What the arguments of a run mean, and those of a view, which are the words of `open` too.
"""

REGIONS = """\
What `show` and `showall` ask for, and what they print: the rows of a view that share a position with a region, whole and in their order.
"""

DEVICES = """\
### The devices

The contract is about all files, inputs and outputs that keep these promises. That those of the system do is trusted.
"""


LAST = """\
## Notices

The contract promises of `--help`, of help on one kind of run, and of `--version` only that such a text is printed, or a prefix if the output fails, and nothing else is done. `notice_of` says which arguments ask for one; the text is a constant of the sources, and nothing is promised of what it says. So these {count} definitions are in no number above.
"""


def sentence(comment):
    """A comment as a sentence of prose."""
    text = re.sub(r"<(?=\w)", "&lt;", " ".join(comment.split()).replace("*", r"\*"))
    return text[:1].upper() + text[1:] + ("" if text[-1:] in ".:" else ".") if text else ""


def block(text, language=""):
    return f"```{language}\n{text.strip(chr(10))}\n```"


def quoted(words):
    return ", ".join(f"`{word}`" for word in words)


def is_counted(key):
    """Whether a definition is one of those whose number the page gives."""
    return key[1:3] != BYTES and key[1:3] not in NOTICES


def what_is_uncounted(keys):
    """What the numbers of definitions leave out, with how many there are."""
    names, notices = (sum(test(key[1:3]) for key in keys) for test in (BYTES.__eq__, NOTICES.__contains__))
    return f"{names} names of bytes and the {notices} definitions of notices"


def as_written(text, is_of_texts=True):
    """A definition or a type as the page writes it."""
    for pattern, written in WRITTEN + TEXTS * is_of_texts:
        text = re.sub(pattern, written, text)
    return text


def minutes(text):
    """How long a text takes to read: 200 words of prose a minute, and 3 tokens of definitions in 2 seconds."""
    pieces = re.split(r"^```\w*\n(.*?)^```\n", text, flags=re.M | re.S)
    comments = [line for piece in pieces[1::2] for line in piece.split("\n") if line.lstrip().startswith("//")]
    words = sum(len(piece.split()) for piece in pieces[::2]) + sum(len(line.split()) - 1 for line in comments)
    tokens = sum(len(re.findall(r"[\w'-]+|[^\w\s]", line)) for piece in pieces[1::2] for line in piece.split("\n") if line not in comments)
    return words / 200 + tokens / 90


def slug(heading):
    """The anchor that a heading has."""
    return re.sub(r"[^\w -]", "", heading.lower()).replace(" ", "-")


# What the sources declare: what it is, its comment, its text, shortened to cases, fields or calls, and its file.
Declared = namedtuple("Declared", "kind comment text path")


def shortened(kind, name, text):
    text = re.sub(r"^\s*(?://|#\[).*\n", "", text, flags=re.M)
    text = re.sub(r" ?#\[[^]]*\]|\bpub(?:\([^)]*\))? |<'\w+>", "", text)
    if kind == "trait":
        return re.sub(r"\n\n+", "\n", text)
    inside = " ".join(text[text.index("{") + 1:text.rindex("}")].split()).rstrip(",") if "{" in text and "}" in text else ""
    line = f"{kind} {name} {{ {inside} }}" if inside else f"{kind} {name}"
    if len(line) <= WIDTH:
        return line
    return f"{kind} {name} {{\n{textwrap.fill(inside, WIDTH, initial_indent='    ', subsequent_indent='    ')}\n}}"


def declarations(top):
    """The types, traits and constants of the sources, by key."""
    found = {}
    for path in sorted(top.glob("crates/iv_*/src/**/*.rt")):
        text, place = path.read_text(), path.relative_to(top)
        for m in DECLARATION.finditer(text):
            end = re.compile(r"\{[^{}\n]*\}$|\{.*?^\}|;", re.M | re.S).search(text, m.end()).end()
            comment = " ".join(line.strip(" /") for line in m[1].splitlines())
            found.setdefault(("src", place.parts[1], m[3]), Declared(m[2], comment, shortened(m[2], m[3], text[m.start(2):end]), place))
    return found


class Statement:
    def __init__(self, walk, top):
        self.walk, self.top, self.declared = walk, top, declarations(top)
        (self.contract, names, imported), = walk.items[PROGRAM]
        named = self.named(self.contract, names, imported, PROGRAM[0])
        self.roots, self.types = [used for used in named if used[0] == "spec"], [used for used in named if used[0] == "src"]
        self.traits = self.all_traits()
        self.before = self.ways(self.roots)
        self.starts = [used for key in self.before for used in self.uses(key) if used[1:3] == LINES_OF_A_SCRIPT != key[1:3] and used[1:] not in LATER[1]]
        if not self.starts:
            sys.exit(f"scripts/prove/statement.py: the contract leads to no definition of {' '.join(LINES_OF_A_SCRIPT)}")
        devices = [used for trait in self.traits for used in self.uses_of_type(trait) if used[0] == "spec"]
        later = [[("spec", *name) for name in names] for names in LATER]
        left = [key for keys in later for key in keys]
        missing = [key for key in left if key not in self.before]
        if missing:
            sys.exit(f"scripts/prove/statement.py: the contract doesn't lead to {' '.join(missing[0][1:])}")
        notices = [key for key in self.before if key[1:3] in NOTICES]
        among, begins = [], [self.starts, self.roots, *later[2:]]
        for own, roots in zip(later, begins):  # the definitions of each part
            others = {key for key in [*left, *notices] if key not in own}
            among.append({key for key in self.ways(roots, others) if is_counted(key) and not any(key in keys for keys in among)})
        of_devices = {key for key in self.ways(devices) if key not in self.before and is_counted(key)}
        self.bytes = {key: self.byte(key) for key in sorted(self.before, key=lambda key: self.walk.specs[key]["at"]) if key[1:3] == BYTES}
        self.groups = [*map(self.ordered, (*begins, devices, notices), (*among, of_devices, {*notices}))]
        self.keys = [key for groups in self.groups for _, keys, _ in groups for key in keys]
        self.user = {key: self.before[key] for key in self.starts}
        for key in self.keys:
            for used in self.uses(key):
                if used[1:3] != key[1:3]:
                    self.user.setdefault(used, key)
        self.shown, self.said, self.titles, self.problems = set(), set(), Counter(), []
        self.beside = {self.type_key(used) for key in self.keys for _, used in self.walk.uses[key] if used and used[0] == "src"}
        self.means, self.bearers = {}, self.all_names()

    # ---- what there is

    def byte(self, key):
        """The number that a name of a byte means."""
        m = re.fullmatch(rf"\s*abbrev pub {key[3]} : ℕ\n{key[3]} = (\d+)\n*", self.walk.specs[key]["text"])
        if not m:
            sys.exit(f"{self.walk.specs[key]['path']}: {key[3]} is no name of a byte, so the page can't have it as one")
        return int(m[1])

    def named(self, text, names, imported, crate):
        """What a text of the sources names, in order: definitions of specs/, and what the sources declare or see as something else."""
        found = []
        for name in re.findall(r"(?<![\w.'])[A-Za-z_]\w*", text):
            if name in names.of:
                found.append(self.walk.made(names.of[name]))
            else:
                key = self.type_key(("src", *imported.get(name, (crate, name))))
                found += [key] if key in self.declared or self.seen_as(key) else []
        return list(dict.fromkeys(found))

    def type_key(self, used):
        """The key of a type under the name that its own crate gives it."""
        return ("src", *self.walk.item(*used[1:]))

    def seen_as(self, key):
        """What definitions see of a type, if it is not its declaration."""
        texts = [text for text, *_ in self.walk.items[key[1:]] if text.startswith("ghost Value")]
        return re.search(r"\{ *(.*?) *\}", texts[0])[1] if texts else None

    def uses_of_type(self, key):
        """What a declaration names."""
        return [used for text, names, imported in self.walk.items[key[1:]] for used in self.named(text, names, imported, key[1]) if used != key]

    def all_traits(self):
        """The traits in the contract's signature, and those in their declarations."""
        found = [key for key in self.types if self.declared[key].kind == "trait"]
        for key in found:
            found += [used for used in self.uses_of_type(key) if used in self.declared and self.declared[used].kind == "trait" and used not in found]
        return found

    def uses(self, key):
        """The definitions that one uses, in order."""
        return [used for _, used in self.walk.uses[key] if used in self.walk.specs]

    def ways(self, roots, without=()):
        """The definitions that these rest on, and these, the nearest first: each with one that leads to it. No way leads over one of those
        that are left out."""
        before, todo = {key: None for key in roots}, list(roots)
        for key in todo:
            for used in self.uses(key):
                if used not in before and used not in without:
                    before[used] = key
                    todo.append(used)
        return before

    def all_names(self):
        """How many definitions, words of std, types of Rust and their cases have a name."""
        types = {self.type_key(used) for key in self.keys for _, used in self.walk.uses[key] if used and used[0] == "src"}
        cases = [name for key in types if key in self.declared for name in [key[2], *self.cases(key)] if name[0].isupper()]
        return Counter([*(key[3] for key in [*self.keys, *self.bytes]), *WORDS, *cases])

    # ---- the order

    def ordered(self, roots, among):
        """The definitions in groups, each of one file: the file, its definitions, and whether the group has a heading.

        A group has those of its file that were used before it, and what these use of the same file, each after the first that uses it.
        Then come the groups that it uses: first the small ones, which have no heading, and last those that bring many definitions.
        """
        groups, seen, waiting = [], set(), defaultdict(list)
        in_part, in_all = Counter(key[1:3] for key in among), Counter(key[1:3] for key in self.walk.specs)

        def group(file):
            found = []

            def add(key):
                if key in among and key not in seen and key not in found:
                    found.append(key)
                    for used in self.uses(key):
                        if used[1:3] == file:
                            add(used)

            for key in waiting[file]:
                add(key)
            return found

        def has_heading(file, keys):
            lines = sum(self.walk.specs[key]["lines"] for key in keys)
            return len(keys) > 1 and (len(keys) == in_all[file] or lines >= LINES_FOR_A_HEADING[len(keys) == in_part[file]])

        def place(file):
            keys = group(file)
            if not keys:
                return
            seen.update(keys)
            groups.append((file, keys, has_heading(file, keys)))
            others = [used for key in keys for used in self.uses(key) if used[1:3] != file]
            for used in others:
                waiting[used[1:3]].append(used)
            files = list(dict.fromkeys(used[1:3] for used in others))
            brought = {file: len((among & {*self.ways(group(file))}) - seen) for file in files}
            for later in sorted(files, key=lambda file: (has_heading(file, group(file)), brought[file] > MANY)):
                place(later)

        for key in roots:
            waiting[key[1:3]].append(key)
        for key in roots:
            place(key[1:3])
        return groups

    def chain(self):
        """The names on a shortest way from the contract to the lines of a script, without the two ends."""
        way, key = [], self.before[self.starts[0]]
        while self.before[key]:
            way.insert(0, key[3])
            key = self.before[key]
        return way

    # ---- the look

    def link(self, path):
        return f"[`{path.relative_to('crates')}`](../{path})"

    def meanings(self, key):
        """What is said of cases, and of names that mean several things, where they mean something else than before."""
        cases, others, text = defaultdict(list), [], self.walk.specs[key]["text"]
        for name, used in self.walk.uses[key]:
            if not used or used[0] == "std" or name == used[-1] and self.bearers[name] < 2:
                continue
            changes = self.means.get(name) != used
            self.means[name] = used
            is_prefix = re.search(rf"(?<![\w.]){re.escape(name)}\.[A-Z]", text) and used[0] == "src"
            if used[0] == "src" and changes and name != used[2] and (is_prefix or self.bearers[name] > 1):
                cases[used[2]].append(name + "." * bool(is_prefix))
            elif used[0] == "spec" and changes and used[1:3] != key[1:3]:
                others.append(f"`{name}` is " + (f"`{used[3]}`" if "." in name else "that") + f" of {self.link(self.walk.specs[used]['path'])}")
        self.means[key[3]] = key
        said = "; ".join(f"{quoted(names)} of `{of}`" for of, names in cases.items())
        return ([f"*Cases*: {said}."] if cases else []) + ([f"*Here* {', '.join(others)}."] if others else [])

    def type_block(self, key, later=True):
        """A declaration of Rust, and then those of the types that it names, except if they come later: beside a definition that uses them."""
        if key in self.shown:
            return []
        self.shown.add(key)
        if self.seen_as(key):
            nested = [used for used in self.uses_of_type(key) if used[0] == "src" and not (later and used in self.beside)]
            return [f"A `{key[2]}` of Rust is seen as `{as_written(self.seen_as(key))}`."] + [part for used in nested for part in self.type_block(used)]
        kind, comment, text, path = self.declared[key]
        words = self.walk.items[key[1:]][0][1].words if kind == "trait" else set()
        known = OF_RUST | words | {used[-1] for used in [key, *self.uses_of_type(key)]} | self.cases(key)
        self.problems += [f"{path}: {key[2]} names {name}, which the page doesn't explain" for name in re.findall(r"\b[A-Z]\w+", text) if name not in known]
        nested = [used for used in self.uses_of_type(key) if used[0] == "src" and used not in self.traits and not (later and used in self.beside)]
        parts = [f"**`{key[2]}`** ({self.link(path)}): {sentence(comment)}", block(text, "rust")]
        self.said.update(word for word in re.findall(r"(?<![\w.])[^\W\d]\w*|[≡→×<≤]|\[\]", text) if word in words)
        return parts + [part for used in nested for part in self.type_block(used, later)]

    def constants(self, keys):
        """A line on constants of Rust that are met for the first time."""
        new = [key for key in keys if key not in self.shown and self.declared[key].kind == "const"]
        self.shown.update(new)
        paths = list(dict.fromkeys(self.declared[key].path for key in new))
        return [f"{quoted(key[2] for key in new)}: texts in {' and '.join(map(self.link, paths))}."] if new else []

    def definition(self, key, where, around):
        """A definition with its comment, its text, what its names mean, and the declarations that it uses first. The line around it is left out
        if it is the one that is given."""
        one = self.walk.specs[key]
        said, text = sentence(one["comment"]), one["text"]
        if around and text.startswith(around):
            text = textwrap.dedent(text[len(around):])
        parts = [f"**`{key[3]}`**{where}" + (f": {said}" if said else ""), block(as_written(text, key[3] not in OF_NUMBERS))]
        self.said.update(self.words(key))
        notes = self.meanings(key)
        parts += [" ".join(notes)] if notes else []
        used = [self.type_key(used) for _, used in self.walk.uses[key] if used and used[0] == "src"]
        parts += self.constants([used for used in used if used in self.declared])
        return parts + [part for used in used if used in self.declared or self.seen_as(used) for part in self.type_block(used)]

    def heading(self, file, path):
        """The heading of a group, and the rest of the comment at the top of its file."""
        comment = " ".join(re.match(r"((?:--.*\n)*)", (self.top / path).read_text())[1].replace("--", " ").split())
        title, _, rest = re.match(r"(.*?)([.:] |\.$|$)(.*)", comment).groups()
        self.titles[title] += 1
        again = self.titles[title] - 1
        return title + (", continued" if again else "") + (f" ({again})" if again > 1 else ""), "" if again else sentence(rest)

    def part(self, groups, with_headings=True):
        """The groups of a part, and the headings in it."""
        parts, headings = [], []
        for file, keys, has_heading in groups:
            has_heading &= with_headings
            path = self.walk.specs[keys[0]]["path"]
            if has_heading:
                title, rest = self.heading(file, path)
                headings.append(title)
                user = self.user.get(keys[0])
                parts += [f"### {title}", f"{rest} From {self.link(path)}{f', first used by `{user[3]}`' if user else ''}.".strip()]
            modules = Counter(self.walk.specs[key]["text"].split("\n")[0] for key in keys if self.walk.specs[key]["text"].startswith("module"))
            around = next((line for line, count in modules.items() if has_heading and count > 1), "")
            if around:
                parts += ["These are below this line:", block(as_written(around))]
            for key in keys:
                parts += self.definition(key, f" ({self.link(path)})" if not has_heading and key == keys[0] else "", around)
        return parts, headings

    def words(self, key):
        """The words of the glossary that a definition uses, in order."""
        fields = re.findall(r"(?<=[\w)'])\.(now|old|new)\b", self.walk.specs[key]["text"])
        used = [used for _, used in self.walk.uses[key] if used]
        return [key[-1] for key in used if key[0] == "std" or key in self.bytes] + fields

    def page(self):
        """The text of the page. It also finds what is wrong with it."""
        words = re.findall(r"\w+", self.contract[self.contract.index("ensures"):])
        known = self.walk.items[PROGRAM][0][1].words | {"now", "old", "new"}
        self.said.update(word for word in words if word in known)
        ended = [part for key in self.types if key not in self.traits for part in self.type_block(key, False)]
        parts = [*map(self.part, self.groups[:len(TITLES)])]
        devices = [part for key in self.traits for part in self.type_block(key)] + self.part(self.groups[-2], False)[0]
        parts[1][0].extend([DEVICES, *devices])
        parts[1][1].append("The devices")
        notices = self.part(self.groups[-1], False)[0]
        self.check()
        link = lambda heading: f"[{heading}](#{slug(heading)})"
        contents = "\n\n".join(f"{link(f'Part {title}')}: " + " · ".join(map(link, headings)) for title, (_, headings) in zip(TITLES, parts))
        contents += f"\n\n{link('Notices')}"
        named = {"**Bytes**, by names": [f"`{key[3]}`: the byte {byte}" for key, byte in self.bytes.items()]}
        subjects = {**{f"**{subject}**": lines.values() for subject, lines in GLOSSARY.items()}, **named}
        glossary = "\n\n".join(f"{subject}\n\n" + "\n".join(f"- {line}" for line in lines) for subject, lines in subjects.items())
        joined = lambda pieces: "\n\n".join(piece.strip() for piece in pieces) + "\n"
        intros = [FIRST.format(chain=quoted(self.chain())), SECOND, ARGUMENTS, REGIONS]
        bodies = [joined([f"## Part {title}", intro, *body]) for title, intro, (body, _) in zip(TITLES, intros, parts)]
        groups = [self.groups[0], [*self.groups[1], *self.groups[-2]], *self.groups[2:-2]]
        of_parts = [[key for _, keys, _ in part for key in keys] for part in groups]
        row = lambda name, keys, time: f"| {name} | {len(keys)} | {sum(self.walk.specs[key]['lines'] for key in keys):,} | {time:.0f} |"
        counted, times = [key for keys in of_parts for key in keys], [*map(minutes, bodies)]
        rows = "\n".join([*map(row, TITLES, of_parts, times), row("All", counted, sum(times))])
        uncounted = what_is_uncounted([*self.keys, *self.bytes])
        head = HEAD.format(rows=rows, uncounted=uncounted, contents=contents, glossary=glossary, contract=block(self.contract, "rust"), ended="\n\n".join(ended))
        return joined([head, *bodies, LAST.format(count=len(self.keys) - len(counted)), *notices])

    # ---- what a reader would miss

    def cases(self, key):
        """The cases and fields that a declaration has."""
        inside = self.declared[key].text.partition("{")[2]
        cases = re.findall(r"(?:^|,)\s*(\w+)", re.sub(r"\([^()]*\)| \{[^{}]*\}", "", inside)) if self.declared[key].kind == "enum" else []
        return {*cases, *re.findall(r"(\w+):", inside)}

    def check(self):
        """Finds names that the page doesn't explain, and words of the glossary that nothing uses."""
        fields = {"now", "old", "new"} | {name for key in self.shown if key in self.declared for name in self.cases(key)}
        for key in self.keys:
            fields |= set(re.findall(r"^ +(?:pub )?(\w+) : ", self.walk.specs[key]["text"], re.M))
        for key in self.keys:
            one = self.walk.specs[key]
            text = re.sub(r'"(?:\\.|[^"\\])*"', '""', one["text"])
            modules = {f"{name}." for name in one["names"].modules}
            unknown = [name for name, used in self.walk.uses[key] if not used or used[0] == "std" and used[1] not in WORDS
                       or used[0] == "spec" and used not in self.keys and used not in self.bytes or used[0] == "src" and self.type_key(used) not in self.shown]
            unknown += [name for before, name in re.findall(r"([\w)']+\.)([A-Za-z_]\w*)", text) if before not in modules and name not in fields]
            unknown += [name for name in re.findall(r"[{;]\s*(\w+)\s+=\s", text) if name not in fields and not re.fullmatch("[A-Z]", name)]
            for name in dict.fromkeys(unknown):
                self.problems.append(f"{one['path']}: {key[3]} uses {name}, which the page doesn't explain")
        words = WORDS | {key[3] for key in self.bytes}
        self.problems += [f"scripts/prove/statement.py: no definition uses the word {word} of the glossary" for word in sorted(words - self.said)]
        self.problems += [f"scripts/prove/statement.py: the glossary lacks the word {word}, which the page uses" for word in sorted(self.said - words)]

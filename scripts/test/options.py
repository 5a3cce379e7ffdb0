#!/usr/bin/env python3
"""Makes lists of options from the one table of them, crates/iv_args/src/options.rt: the usage and the list of each help text, the list of views in
the general help, the synopsis and the heads of the views in the man page, the completions, the options in the tables of README and FORMAT, and the
keyword arguments of the Python package with what its docstrings say of them. An option that the list of its view in the man page lacks is added there by its meaning.

    python3 scripts/test/options.py --write            writes them into these files
    python3 scripts/test/options.py build/bedkeep      compares them with these files, and with the help of the built program, which
                                                       has to accept the options of the table and no others

The second also compares the table with the lists of the man page, whose texts may say more. An option has to be refused if it is given twice,
without its value, or beside one that excludes it.
"""
import os
import re
import subprocess
import sys
import textwrap
from pathlib import Path
from typing import NamedTuple

ROOT = Path(__file__).resolve().parent.parent.parent
TABLE = "crates/iv_args/src/options.rt"
VALUES = {"Nothing": "", "Genome": "GENOME", "Bed": "BED", "Fasta": "FASTA", "Width": "N", "Limit": "N", "Distance": "N",
          "Columns": "LIST", "Operations": "LIST"}
FILES = ("GENOME", "BED", "FASTA")
ZSH_VALUES = {"Nothing": "", "Genome": ":genome file:_files", "Bed": ":BED file:_files", "Fasta": ":FASTA file:_files", "Width": ":columns:(3 4 5 6)",
              "Limit": ":records:", "Distance": ":bases:", "Columns": ":columns:",
              "Operations": ":operation:_values -s , operation count sum min max collapse distinct"}

# the keyword arguments of the Python package, by the kind of their value
ARGUMENTS = {"Nothing": "bool = False", "Distance": "Optional[int] = None", "Columns": "Union[int, Sequence[int]] = ()",
             "Operations": "Union[str, Sequence[str]] = ()"}
# what its docstrings say: of an option's value, and of an argument that isn't one of a view
TYPES = {"Nothing": "bool", "Distance": "int", "Columns": "int or sequence of int", "Operations": "str or sequence of str"}
SAID = {"genome": ("path or dict", "The genome file, or the length of each chromosome."),
        "bed": ("path or table", "The records, in any order: start counts from 0, and end is not included."),
        "a": ("path or table", "The records, in any order: start counts from 0, and end is not included."),
        "b": ("path or table", "The records of the second file."),
        "fasta": ("path", "The bases of the sequences."),
        "width": ("int, optional", "The number of columns of a BED file without a record, 3 to 6."),
        "program": ("path, optional", "The program, instead of the one that is found.")}
# rows of the package have the bases of a record on its line
ALWAYS = ("-tab",)


class Option(NamedTuple):
    name: str
    kind: str
    meaning: str
    shared: str = ""

    @property
    def value(self):
        return VALUES[self.kind]

    @property
    def usage(self):
        return f"{self.name} {self.value}".rstrip()


class Run(NamedTuple):
    name: str
    meaning: str
    needed: list
    others: list
    view: list
    view_usage: str

    @property
    def options(self):
        return [*self.needed, *self.view, *self.others]

    @property
    def usage(self):
        """Its options as a usage shows them, in pieces that aren't broken."""
        pieces = [option.usage for option in self.needed]
        pieces += re.findall(r"\[[^][]*(?:\[[^][]*\])?\]|[^][ ]+", self.view_usage)
        return pieces + [f"[{option.usage}]" for option in self.others]

    def excluded(self, name):
        """The options that can't be given beside one."""
        groups = [re.findall(r"-\w+", group) for group in re.findall(r"[^][ ]+(?:\|[^][ ]+)+", self.view_usage)]
        return [other for group in groups if name in group for other in group if other != name]


def text_of(path):
    return (ROOT / path).read_text(encoding="utf-8")


def read_options(text, named):
    """The options in a list of the table: each is written there, or is a constant."""
    written = r'option!\(b"([^"]*)" => (\w+), b"([^"]*)"\)|([A-Z_]+)'
    return [named[found[4]]._replace(shared=found[4].lower()) if found[4] else Option(*found.groups()[:3]) for found in re.finditer(written, text)]


def read_table():
    """All kinds of run of the table."""
    table = text_of(TABLE)
    named = {name: read_options(text, {})[0] for name, text in re.findall(r"^const (\w+): OptionUsage =\s(.*?);$", table, re.M | re.S)}
    runs = []
    for text in re.findall(r"^const \w+: RunUsage = (.*?\n\});", table, re.M | re.S):
        lists = [read_options(re.search(rf"^    {name}: &\[(.*?)\],$", text, re.M | re.S)[1], named) for name in ("needed", "others", "view")]
        name, meaning, usage = (re.search(rf'^    {name}:\s*b"(.*)",$', text, re.M)[1] for name in ("name", "meaning", "view_usage"))
        run = Run(name, meaning, *lists, usage)
        words = [option.usage for option in run.view]
        if re.findall(r"-\w+(?: [A-Z]+)?", usage) != words:
            sys.exit(f"{TABLE}: the usage of {name} is {usage}, and its options are {' '.join(words)}")
        runs.append(run)
    return runs


def wrapped(front, pieces, width=80):
    """Pieces in lines of at most this width, below one another."""
    lines, line = [], front.rstrip(" ")
    for piece in pieces:
        if len(line) + 1 + len(piece) > width:
            lines.append(line)
            line = " " * (len(front) - 1)
        line += f" {piece}"
    return "\n".join([*lines, line])


def help_usage(run):
    return wrapped(f"usage: bedkeep {run.name} ", run.usage)


def help_list(run):
    """The list of the options in a help text."""
    return "".join(textwrap.fill(option.meaning, 80, initial_indent=f"  {option.usage:<12}", subsequent_indent=" " * 14, break_on_hyphens=False) + "\n"
                   for option in run.options)


def general_usage(runs):
    """The usage of all kinds of run in the general help, which leaves out what is for large files."""
    lines = [wrapped(f"       bedkeep {run.name} ", [piece for piece in run.usage if "-limit" not in piece]) + "\n" for run in runs]
    return "".join(lines).replace("       ", "usage: ", 1)


def help_views(runs):
    """The list of views in the general help: each with its options below it."""
    lines = ""
    for run in runs[1:]:
        lines += textwrap.fill(run.meaning, 80, initial_indent=f"  {run.name:<18}", subsequent_indent=" " * 20, break_on_hyphens=False) + "\n"
        lines += "".join(textwrap.fill(option.meaning, 80, initial_indent=f"    {option.usage:<16}", subsequent_indent=" " * 20, break_on_hyphens=False) + "\n"
                         for option in run.view)
    return lines


def replaced(text, pattern, new, where):
    """A text with another one instead of the one part of it that matches."""
    if len(re.findall(pattern, text, re.M | re.S)) != 1:
        sys.exit(f"{where}: no place for what the table makes: {pattern}")
    return re.sub(pattern, lambda _: new, text, flags=re.M | re.S)


def in_help(text, runs):
    text = replaced(text, r"^usage: bedkeep session -g.*?(?=^ {7}bedkeep --help )", general_usage(runs), "help.rt")
    text = replaced(text, r"(?<=^Views, with the same options in a script and on the command line:\n).*?(?=^$)", help_views(runs), "help.rt")
    for run in runs:
        front, head, rest = text.partition(f'const {run.name.upper()}: &[u8] =')
        part, end, back = rest.partition('";\n')
        part = replaced(part, r"usage: .*?(?=\n\n)", help_usage(run), f"the help of {run.name}")
        part = replaced(part, r"^  -g .*?(?=^$)", help_list(run), f"the help of {run.name}")
        text = front + head + part + end + back
    return text


def macros_of(usage):
    """A piece of a usage as macros of the man page."""
    usage = re.sub(r"-(\w+)", r"Fl \1", usage.replace("|", " | "))
    return re.sub(r" ([A-Z]{3,}|N)\b", r" Ar \1", usage)


def in_man(text, runs):
    synopsis = "".join(f".Nm\n.Cm {run.name}\n" + "".join(
        "." + macros_of(piece).replace("[", "Op ").replace("]", "") + "\n" for piece in run.usage) for run in runs)
    text = replaced(text, r"(?<=^\.Sh SYNOPSIS\n).*?(?=^\.Nm\n\.Fl -help)", synopsis, "the man page")
    for run in runs[1:]:
        *pieces, last = [macros_of(piece) for piece in run.usage[len(run.needed):len(run.usage) - len(run.others)]] or [""]
        pieces = [re.sub(r"^\[(.*)\]$", r"Oo \1 Oc", piece) for piece in pieces] + [last.replace("[", "Op ").replace("]", "")]
        text = replaced(text, rf"^\.It Cm {run.name}( (Oo|Op|Fl) [^\n]*)?$", " ".join([".It Cm", run.name, *pieces]).rstrip(), "the man page")
        text = with_list(text, run)
    return text


def with_list(text, run):
    """The man page whose list of a view has the options of the table, in its order: each with the text that it has there, or with its meaning."""
    if not run.view:
        return text
    views = text.index(".Sh OPTIONS OF A VIEW\n")
    found = re.compile(rf'^\.It Cm {run.name}( [^\n]*)?\n.*?^\.Bl -tag -width "-o LIST" -compact\n(?P<items>.*?)^\.El$', re.M | re.S).search(text, views)
    if found is None:
        sys.exit(f"the man page: {run.name} has no list of options")
    there = {item.split()[0]: item for item in re.split(r"^\.It Fl ", found["items"], flags=re.M)[1:]}
    made = {option.name[1:]: f"{macros_of(option.usage)[3:]}\n{sentence(option.meaning)}\n" for option in run.view}
    items = "".join(f".It Fl {there.get(name, item)}" for name, item in made.items())
    return text[:found.start("items")] + items + text[found.end("items"):]


def sentence(words):
    return f"{words[0].upper()}{words[1:]}."


def bash_kind(option):
    """What completes the value of an option, nothing if it has none."""
    if option.value in FILES:
        return "file"
    return {"Nothing": "", "Width": "width", "Operations": "operation"}.get(option.kind, "other")


def in_bash(text, runs):
    options = "".join(f"        {run.name}) echo '{' '.join(option.name for option in run.options)}' ;;\n" for run in runs)
    kinds = {}
    for run in runs:
        for option in run.options:
            kinds.setdefault(option.name, {})[run.name] = bash_kind(option)
    values = {}
    for name, of_runs in kinds.items():
        for run, kind in of_runs.items():
            # An option that is the same in all runs that have it stands for all runs.
            values.setdefault(kind, {})[f"*:{name}" if len(set(of_runs.values())) == 1 else f"{run}:{name}"] = None
    value = "".join(f"        {' | '.join(names)}) echo {kind} ;;\n" for kind, names in values.items() if kind)
    taken = "".join(f"        {run.name}:{option.name}) echo '{' '.join([option.name, *run.excluded(option.name)])}' ;;\n"
                    for run in runs for option in run.view if run.excluded(option.name))
    for name, of, arms in ("options", "$1", options), ("value", "$1:$2", value), ("taken", "$1:$2", taken + '        *) echo "$2" ;;\n'):
        text = replaced(text, rf"(?<=^_bedkeep_{name}\(\) \{{\n)(.*?)(?=^    esac$)", f"    case {of} in\n{arms}", "bedkeep.bash")
    return replaced(text, r"(?<=local kinds=')[^']*", " ".join(run.name for run in runs), "bedkeep.bash")


def zsh_spec(run, option):
    """An option as the completion for zsh has it, with what completes its value."""
    excluded = f"({' '.join(run.excluded(option.name))})" if run.excluded(option.name) else ""
    return f"'{excluded}{option.name}[{option.meaning}]{ZSH_VALUES[option.kind]}'"


def in_zsh(text, runs):
    kinds = "".join(f"    '{run.name}:{run.meaning}'\n" for run in runs)
    shared, arms = {}, ""
    for run in runs:
        names = [option.shared for option in run.options if option.shared]
        shared.update((option.shared, zsh_spec(run, option)) for option in run.options if option.shared)
        lines = [" ".join(f"${name}" for name in names), *(zsh_spec(run, option) for option in run.options if not option.shared)]
        if len(lines) == 1:
            arms += f"    {run.name}) specs=({lines[0]}) ;;\n"
        else:
            arms += f"    {run.name})\n        specs=(\n{''.join(f'            {line}' + chr(10) for line in lines)}        )\n        ;;\n"
    text = replaced(text, r"(?<=^kinds=\(\n).*?(?=^\)$)", kinds, "_bedkeep")
    text = replaced(text, r"^local \w+='-.*?(?=^$)", "".join(f"local {name}={spec}\n" for name, spec in shared.items()), "_bedkeep")
    return replaced(text, r"^    session\).*?(?=^    \*\) return 1)", arms, "_bedkeep")


def in_readme(text, runs):
    for run in runs[1:]:
        names = " ".join(f"`{option.usage}`" for option in run.view)
        cell = f"{'one of ' if run.view_usage.startswith('-') else ''}{names} |".lstrip()
        text = replaced(text, rf"(?<=^\| `{run.name}` \| )[^|]*\|(?=[^|]*\|$)", cell, "README")
    return text


def in_words(piece):
    """A piece of a usage as FORMAT says it."""
    if found := re.fullmatch(r"\[(-\w+ LIST) \[(-\w+ LIST)\]\]", piece):
        return f"`{found[1]}`; `{found[2]}`, only beside `{found[1].split()[0]}`"
    names = ", ".join(f"`{name}`" for name in piece.strip("[]").split("|"))
    return names if "|" not in piece else f"{'at most' if piece.startswith('[') else 'exactly'} one of {names}"


def in_format(text, runs):
    rows = ""
    for run in runs[1:]:
        pieces = run.usage[len(run.needed):len(run.usage) - len(run.others)]
        rows += f"| `{run.name}` | {'; '.join(map(in_words, pieces)) or 'none'} |\n"
    return replaced(text, r"(?<=^\| Subcommand \| Options \|\n\|---\|---\|\n).*?(?=^$)", rows, "FORMAT")


def parameters(run, names):
    """What a docstring says of these arguments."""
    of_view = {option.name.lstrip("-"): option for option in run.view}
    lines = ""
    for name in names:
        if name in of_view:
            said = TYPES[of_view[name].kind] + ", optional", re.sub(r"\bN\b", f"`{name}`", sentence(of_view[name].meaning).replace(", separated by commas", ""))
        else:
            said = SAID[name]
        lines += f"    {name} : {said[0]}\n" + textwrap.fill(said[1], 124, initial_indent=" " * 8, subsequent_indent=" " * 8) + "\n"
    return lines


def in_package(text, runs):
    for run in runs[1:]:
        if not re.search(rf"^def {run.name}\(", text, re.M):
            continue
        given = [(option.name.lstrip("-"), option) for option in run.view]
        pieces = [f"{name}: {ARGUMENTS[option.kind]}," for name, option in given if option.name not in ALWAYS]
        pieces += ["width: Optional[int] = None,", "program: Optional[Path] = None) -> Rows:"]
        front, files = re.search(rf"^(def {run.name}\()([^*]*)\*,", text, re.M).groups()
        head = wrapped(front, [*re.findall(r"\w+: \w+,", files), "*,", *pieces], 123).replace("( ", "(", 1)
        text = replaced(text, rf"^def {run.name}\(.*?-> Rows:$", head, f"{run.name} of the package")
        names = [*re.findall(r"(\w+):", files), *(piece.partition(":")[0] for piece in pieces)]
        front, begin, rest = text.partition(f"def {run.name}(")
        part, end, back = rest.partition("    return _run(")
        part = replaced(part, r"(?<=^    ----------\n).*?(?=^    Raises$)", parameters(run, names) + "\n", f"{run.name} of the package")
        text = front + begin + part + end + back
        words = ", ".join([f'"{run.name}"', *(f"{name}={True if option.name in ALWAYS else name}" for name, option in given)])
        text = replaced(text, rf'(?<=_words\()"{run.name}"[^)]*', words, f"{run.name} of the package")
    return text


MADE = {"crates/iv_args/src/help.rt": in_help, "man/bedkeep.1": in_man, "completions/bedkeep.bash": in_bash, "completions/_bedkeep": in_zsh, "README.md": in_readme,
        "docs/FORMAT.md": in_format, "python/bedkeep/runs.py": in_package}


def in_macros(lines):
    """The options in lines of the man page, each with the name of its value."""
    return {f"-{name}": value for name, value in re.findall(r"\bFl ([\w-]+)(?: Ar (\w+))?", " ".join(lines))}


def in_files(page):
    """The options that each kind of run has beside those of its view, in their list in the man page."""
    part = page.partition(".Ss Options of each run\n")[2].partition("\n.El\n")[0]
    return in_macros(re.findall(r"^\.It (.*)$", part, re.M))


def in_views(page):
    """The options in the list of each view in the man page."""
    part = page.partition(".Sh OPTIONS OF A VIEW\n")[2].partition("\n.Ss ")[0]
    views = [view.splitlines() for view in re.split(r"^\.It Cm (?=\w)", part, flags=re.M)[1:]]
    return {lines[0].split()[0]: in_macros([line for line in lines[1:] if line.startswith(".It Fl ")]) for lines in views}


def compare(what, wanted, found, faults):
    """Notes the options that are in one of two places alone, or have another value there."""
    for option in sorted(wanted.keys() | found.keys()):
        here, there = (options.get(option, "isn't there") or "has no value" for options in (found, wanted))
        if here != there:
            faults.append(f"{what}: {option}: {here}; in the table: {there}")


def is_accepted(program, words):
    """Whether arguments over files that aren't there are accepted: the files are opened once they are."""
    return subprocess.run([program, *words], stdin=subprocess.DEVNULL, capture_output=True).returncode != 2


def in_program(program, runs, faults):
    """Notes options of the table that the program refuses, and those that it accepts where the table hasn't them."""
    given = {"": [], "LIST": ["1"], "N": ["4"], **dict.fromkeys(FILES, ["no file"])}
    every = {option.name: option for run in runs for option in run.options}
    for run in runs:
        needed = [word for option in run.needed for word in (option.name, "no file")]
        own = {option.name: option for option in [*run.view, *run.others]}
        for name, option in {**every, **own}.items():
            if name in (option.name for option in run.needed):
                continue
            words = [run.name, *needed, name, *(["count", "-c", "1"] if option.kind == "Operations" else given[option.value])]
            if run.view_usage.startswith("-") and not run.excluded(name):
                words.append(run.view[0].name)
            refused = [[*words, other, *given[own[other].value]] for other in run.excluded(name)]
            if name in own:
                refused += [words + words[1 + len(needed):], *([[run.name, *needed, name]] if option.value else [])]
            for wanted, words in ((name in own, words), *((False, words) for words in refused)):
                if is_accepted(program, words) != wanted:
                    faults.append(f"{'refused, and the table has it' if wanted else 'accepted, and not by the table'}: {' '.join(words)}")


def faults_of(program, runs):
    faults = [f"{path} isn't what {TABLE} makes of it: scripts/test/options.py --write" for path, make in MADE.items() if make(text_of(path), runs) != text_of(path)]
    said = {run.name: subprocess.run([program, "--help", run.name], capture_output=True, text=True, check=True).stdout for run in runs}
    faults += [f"the help of {run.name} that the program prints isn't that of the table" for run in runs if not said[run.name].startswith(help_usage(run) + "\n\n") or f"\n{help_list(run)}\n" not in said[run.name]]
    in_program(program, runs, faults)
    page = text_of("man/bedkeep.1")
    views = in_views(page)
    shared = {option.name: option.value for run in runs for option in [*run.needed, *run.others]}
    compare("the list of each run's options in the man page", shared, in_files(page), faults)
    for run in runs[1:]:
        own = {option.name: option.value for option in run.view}
        compare(f"the list of {run.name} in the man page", own, views.get(run.name, {}), faults)
    return faults


def main():
    if len(sys.argv) != 2:
        sys.exit("usage: options.py --write|PROGRAM")
    runs = read_table()
    if sys.argv[1] == "--write":
        for path, make in MADE.items():
            (ROOT / path).write_text(make(text_of(path), runs), encoding="utf-8")
        return
    try:
        faults = faults_of(os.path.abspath(sys.argv[1]), runs)
    except (OSError, subprocess.CalledProcessError) as error:
        sys.exit(f"options.py: {error}")
    if faults:
        sys.exit("\n".join(faults))
    print("the help, the man page, the completions, FORMAT, README and the package have the options of the table")


if __name__ == "__main__":
    main()

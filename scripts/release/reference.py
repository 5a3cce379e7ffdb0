#!/usr/bin/env python3
"""Makes a page of HTML of all that the Python package has, from its docstrings. The page needs no other file.

    scripts/release/reference.py FILE
"""
import html
import inspect
import re
import sys
from pathlib import Path
from textwrap import dedent

# What the examples of the docstrings need. `session` is one over the first four files, for each docstring another one.
FILES = {
    "sizes": "chr1\t1000\nchr2\t500\n",
    "genes.bed": "chr1\t100\t200\tgeneA\nchr1\t300\t400\tgeneB\n",
    "mask.bed": "chr1\t150\t350\n",
    "bases.fa": ">chr1\n" + "ACGTT" * 200 + "\n",
    "next.bed": "chr1\t100\t200\tgeneA\nchr1\t320\t400\tgeneB\n",
    "short.bed": "chr1\t0\t7\n",
    "exons.bed": "chr1\t100\t200\tgeneA\t0\t+\t100\t200\t0\t2\t10,20\t0,80\n",
    "corrections": "# geneA ends later\nreplace\tchr1\t100\t200\tgeneA\tchr1\t100\t250\tgeneA\nremove\tchr1\t300\t401\tgeneB\n",
}
SESSION = "sizes", "genes.bed", "mask.bed", "bases.fa"
CALLED = {"__len__": "len(session)", "__iter__": "iter(session)", "__contains__": "record in session"}  # methods without a name of their own
LISTS = "Parameters", "Attributes", "Returns", "Raises"
HEADING = re.compile(r"^(\w+)\n-{3,}\n", re.M)
LONGEST = 60  # what is shown of a line of a file

STYLE = """
:root { color-scheme: light dark; --text: #1b1f24; --back: #fff; --soft: #f3f4f6; --line: #d0d7de; --link: #0b57a4 }
@media (prefers-color-scheme: dark) { :root { --text: #e3e6ea; --back: #15181c; --soft: #20252b; --line: #3a424c; --link: #7cb7ff } }
* { box-sizing: border-box }
body { margin: 0 auto; padding: 1rem; max-width: 56rem; font: 1rem/1.55 system-ui, sans-serif; color: var(--text); background: var(--back) }
a { color: var(--link) }
nav ul { display: flex; flex-wrap: wrap; gap: 0 1rem; margin: 0; padding: 0; list-style: none }
nav li ul { font-size: .9em; margin: 0 0 .5rem 1rem }
nav li:has(ul) { flex-basis: 100% }
h2, h3 { font: 600 1rem/1.4 ui-monospace, monospace; overflow-wrap: anywhere; border-top: 1px solid var(--line); padding-top: 1rem; margin-top: 2rem }
h3 { margin-left: 0; border-top-style: dotted }
h4 { margin: 1rem 0 .25rem; font-size: .9rem }
code, pre { font: .875em/1.5 ui-monospace, monospace }
pre { background: var(--soft); padding: .75rem; overflow-x: auto; border-radius: .25rem }
dt { font: .875em/1.5 ui-monospace, monospace; overflow-wrap: anywhere }
dd { margin: 0 0 .4rem 1.25rem }
"""


def public(package):
    """What the package has: the name of each entry, and the entry; those of a class after it, and exceptions at the end."""
    entries = {name: entry for name in package.__all__ if inspect.isroutine(entry := getattr(package, name)) or inspect.isclass(entry)}
    for name, entry in sorted(entries.items(), key=lambda one: is_exception(one[1])):
        yield name, entry
        if inspect.isclass(entry):
            listed = sections(entry).get("Attributes", "")
            for member, value in vars(entry).items():
                is_shown = inspect.isfunction(value) or isinstance(value, property) and not re.search(rf"^{member} :", listed, re.M)
                if is_shown and (not member.startswith("_") or member in CALLED and value.__doc__):
                    yield f"{name}.{member}", value


def is_exception(entry):
    return inspect.isclass(entry) and issubclass(entry, BaseException)


def signature_of(entry):
    """The arguments of a call, or those that make one of a class. None if callers make none."""
    made_by_calls = isinstance(entry, property) or is_exception(entry) or inspect.isclass(entry) and not sections(entry).keys() & {"Parameters", "Attributes"}
    return None if made_by_calls else inspect.signature(entry)


def parameters_of(entry):
    """The parameters that callers give."""
    signature = signature_of(entry)
    return [one for one in signature.parameters.values() if one.name != "self"] if signature else []


def sections(entry):
    """The parts of a docstring by their headings; the first one has none."""
    first, *others = HEADING.split(inspect.getdoc(entry) or "")
    return {"": first.strip("\n"), **{heading: text.strip("\n") for heading, text in zip(others[::2], others[1::2])}}


def title(name, entry):
    """How an entry is called, with what it returns."""
    method = name.rpartition(".")[2]
    signature = signature_of(entry)
    if method in CALLED:
        name, text = CALLED[method], ""
    else:
        bare = [one.replace(annotation=one.empty) for one in parameters_of(entry)]
        text = str(inspect.Signature(bare)) if signature else ""
    returned = signature.return_annotation if signature and not inspect.isclass(entry) else "None"
    return name + text + ("" if returned == "None" else f" -> {returned}")


def code(text):
    """Text with what is in backticks as code."""
    return re.sub(r"`([^`]+)`", r"<code>\1</code>", html.escape(text, quote=False))


def paragraphs(text):
    """Paragraphs; one that is indented is code."""
    for part in re.split(r"\n\n(?=\S)|(?<=\S)\n\n(?= {4})", text):
        yield f"<pre>{html.escape(dedent(part), quote=False)}</pre>" if part.startswith("    ") else f"<p>{code(part)}</p>"


def definitions(text):
    """A list of terms, each with what is said of it in the lines below, which are indented."""
    yield "<dl>"
    for term in re.split(r"\n(?=\S)", text):
        head, _, said = term.partition("\n")
        yield f"<dt>{html.escape(head, quote=False)}</dt><dd>{code(dedent(said))}</dd>"
    yield "</dl>"


def body(entry):
    """What a docstring says."""
    for heading, text in sections(entry).items():
        if not heading:
            yield from paragraphs(text)
        else:
            yield f"<h4>{heading}</h4>"
            yield from definitions(text) if heading in LISTS else [f"<pre>{html.escape(text, quote=False)}</pre>"]


def contents(names):
    """The names of all entries, those of a class below its own."""
    yield "<nav><ul>"
    for name in (name for name in names if "." not in name):
        members = "".join(link(member) for member in names if member.startswith(f"{name}."))
        yield link(name, f"<ul>{members}</ul>" if members else "")
    yield "</ul></nav>"


def link(name, below=""):
    shown = name.rpartition(".")[2]
    return f'<li><a href="#{name}">{html.escape(CALLED.get(shown, shown))}</a>{below}</li>'


def page(package):
    """The lines of the page."""
    entries = dict(public(package))
    heading = f"bedkeep {package.__version__} from Python"
    yield f'<!doctype html>\n<html lang="en"><head><meta charset="utf-8"><title>{heading}</title>'
    yield f'<meta name="viewport" content="width=device-width, initial-scale=1"><style>{STYLE}</style></head><body><h1>{heading}</h1>'
    yield from contents(list(entries))
    yield "<main>"
    yield from paragraphs(inspect.getdoc(package))
    yield f"<p>In the examples <code>session</code> is <code>bedkeep.Session({', '.join(map(repr, SESSION))})</code>, and the files are:</p>"
    for name, text in FILES.items():
        lines = (line if len(line) <= LONGEST else f"{line[:LONGEST]} .." for line in text.split("\n"))
        shown = "\n".join(lines)
        yield f"<p><code>{name}</code></p><pre>{html.escape(shown, quote=False)}</pre>"
    for name, entry in entries.items():
        level = 3 if "." in name else 2
        yield f'<h{level} id="{name}">{html.escape(title(name, entry), quote=False)}</h{level}>'
        yield from body(entry)
    yield "</main></body></html>"


def main():
    if len(sys.argv) != 2:
        sys.exit(__doc__)
    sys.dont_write_bytecode = True
    sys.path.insert(0, str(Path(__file__).resolve().parent.parent.parent / "python"))
    import bedkeep

    Path(sys.argv[1]).write_text("\n".join(page(bedkeep)) + "\n", encoding="utf-8")


if __name__ == "__main__":
    main()

"""The whole page: one HTML file with its style and its script inside."""
from __future__ import annotations

import os
from collections import Counter
from importlib import resources
from typing import Iterable, Mapping, NamedTuple, Sequence

from ..commands.corrections import Line
from .cards import THERE, Card, html_of
from .intervals import sequence_of
from .markup import counted, escaped, number
from .overview import overview
from .totals import Totals

GROUPS = ["refused", THERE, "warnings", "done", "conflict", "already so", "changed", "moved", "fits but for", "taken out", "follows",
          "gone", "bad line", "copies", "together", "without a reason"]
KEYS = ("Keys: <kbd>j</kbd> <kbd>k</kbd> next and last card, <kbd>n</kbd> next refused one, <kbd>x</kbd> seen, "
        "<kbd>/</kbd> search, <kbd>Esc</kbd> all")


class Contents(NamedTuple):
    """What the page is made of.

    scripts, bed: as they were given; sums: the SHA-256 of each input; version: the program's
    lines: all of the scripts; cards: of all corrections; before, after: the track; distance: of the blocks
    note: what else is to be known, if the cards aren't all lines one after another
    """

    scripts: Sequence[str]
    bed: str
    sums: Sequence[tuple[str, str]]
    version: str
    lines: Sequence[Line]
    cards: Sequence[Card]
    lengths: Mapping[str, int]
    before: Totals
    after: Totals
    distance: int
    has_second: bool
    note: str = ""

    @property
    def run(self) -> list[Line]:
        return [line for line in self.lines if line.is_run]


def page(contents: Contents) -> str:
    title = f"{', '.join(map(os.path.basename, contents.scripts))} over {os.path.basename(contents.bed)}"
    cards = "".join(html_of(card, len(contents.scripts) > 1) for card in contents.cards)
    key = contents.sums[-1][1][:16]
    return f"""<!doctype html>
<html lang="en"><head><meta charset="utf-8"><meta name="viewport" content="width=device-width,initial-scale=1">
<meta name="color-scheme" content="light dark"><title>{escaped(title)}</title><style>
{_text("style.css")}</style></head>
<body data-key="{key}"><header><h1>{escaped(title)}</h1><p class=quiet>{_head(contents)}</p>{_counts(contents)}</header>
<main><h2>Sequences</h2>{overview(contents.run, contents.lengths, contents.before, contents.after)}
<h2>Corrections</h2>{_colours(contents)}
{_bar(contents)}
<div id="cards">
{cards}</div><p id="none" class=quiet hidden>No card is left by these filters.</p></main>
{_footer(contents)}
<script>
{_text("page.js")}</script></body></html>
"""


def _text(name: str) -> str:
    return resources.files(__package__).joinpath(name).read_text(encoding="utf-8")


def _head(contents: Contents) -> str:
    views = sum(bool(line.text) and not line.text.startswith("#") and not line.is_run for line in contents.lines)
    left = f" {counted(views, 'line')} of views {'is' if views == 1 else 'are'} left out." if views else ""
    return " ".join(filter(None, [f"{escaped(contents.version)}.{left}", contents.note]))


def _counts(contents: Contents) -> str:
    """Some numbers before and after all corrections."""
    run = contents.run
    refused, there = sum(bool(line.refusal) for line in run), sum(bool(line.there and not line.refusal) for line in run)
    done, warned = len(run) - refused - there, sum(bool(line.warning) for line in run)
    figures = [("corrections", number(len(run)), ""), ("done", number(done), "yes" if done else ""),
               ("refused", number(refused), "no" if refused else "")]
    figures += [(what, number(count), "meant") for what, count in ((THERE, there), ("warnings", warned)) if count]
    for what, before, after in (("records", contents.before.records, contents.after.records),
                                ("blocks", contents.before.blocks, contents.after.blocks),
                                ("bases covered", contents.before.covered, contents.after.covered)):
        old, new = sum(before.values()), sum(after.values())
        change = f"{number(old)} → {number(new)} <small>{new - old:+,}</small>"
        figures.append((what, change if old != new else f"{number(new)} <small>as before</small>", ""))
    boxes = "".join(f'<div class="{kind}">{what}<b>{value}</b></div>' for what, value, kind in figures)
    return f"<div class=sum>{boxes}</div>"


def _colours(contents: Contents) -> str:
    distance = f" -d {contents.distance}" if contents.distance else ""
    colours = [("box", "record"), ("block", f"block of <code>merge{distance}</code>"), ("yes", "put in"),
               ("dashed", "taken out, or refused"), ("wished", "would have been put in"), ("meant", "perhaps meant")]
    if contents.has_second:
        colours.append(("second", "second file"))
    key = "".join(f"<span><i class={colour}></i>{what}</span>" for colour, what in colours)
    return f"<p class=key>{key}</p><p class=keys>{KEYS}</p>"


def _bar(contents: Contents) -> str:
    counts = Counter(group for card in contents.cards for group in card.groups)
    groups = [group for group in GROUPS if counts[group]] + [group for group in counts if group not in GROUPS]
    buttons = "".join(f'<button class=group data-group="{escaped(group)}">{escaped(group)} '
                      f"<small>{number(counts[group])}</small></button>" for group in groups)
    order = {name: place for place, name in enumerate(contents.lengths)}
    names = {name for card in contents.cards for name in card.sequences} - {""}
    listed = sorted(names, key=lambda name: (order.get(name, len(order)), name))
    commands = sorted({line.command for line in contents.run if sequence_of(line)})
    return ('<div id="bar"><input id="find" type=search aria-label="search" placeholder="search: a name, a reason, a position">'
            f'<select id="command" aria-label="command"><option value="">each command</option>{_options(commands)}</select>'
            f'<select id="sequence" aria-label="sequence"><option value="">each sequence</option>{_options(listed)}</select>'
            f'<button id="compact">compact</button><div id="groups"><button class="group on" data-group="">all '
            f'<small>{number(len(contents.cards))}</small></button>{buttons}'
            '<button class=group data-group="unseen">not seen</button><span id="shown" class=quiet></span></div></div>')


def _options(values: Iterable[str]) -> str:
    return "".join(f"<option>{escaped(value)}</option>" for value in values)


def _footer(contents: Contents) -> str:
    sums = "".join(f"<tr><td>{escaped(name)}</td><td><code>{digest}</code></td></tr>" for name, digest in contents.sums)
    follow = "" if contents.note else "The pictures between follow its verdicts line by line, and arrive at that track. "
    return ("<footer><h2>What this page rests on</h2><p class=quiet>Each verdict, and the track and its blocks before and after "
            f"{'them' if contents.note else 'all lines'}, are the program's. {follow}These "
            f"files were read (SHA-256):</p><div class=scroll><table class=sums><tbody>{sums}</tbody></table></div></footer>")

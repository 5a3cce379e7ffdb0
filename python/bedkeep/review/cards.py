"""The cards of the page, each of a line or of several: verdict, reason, the lines, what is to be said of them, and pictures."""
from __future__ import annotations

from itertools import groupby, zip_longest
from typing import Iterable, NamedTuple, Sequence

from ..commands.corrections import Line
from .alike import Unit
from .intervals import sequence_of
from .markup import escaped, is_whole, number, with_tabs
from .parts import BOLD, CODE, LINE, LINK, RECORDS, Note, Part, columns_of
from .reviewer import Reviewed

THERE = "already there"
AUTHORS = 3  # that are named on a card


class Card(NamedTuple):
    """What is shown together. reviewed: of each line of the unit"""

    unit: Unit
    reviewed: Sequence[Reviewed]

    @property
    def state(self) -> str:
        """What became of its lines: `refused` if of one."""
        states = [state_of(one.line) for one in self.reviewed]
        return min(states, key=["refused", "there", "done"].index)

    @property
    def groups(self) -> list[str]:
        """By what the filters find it."""
        own = [self.unit.kind] if self.unit.kind else []
        return list(dict.fromkeys([*own, *(group for one in self.reviewed for group in _groups_of(one))]))

    @property
    def sequences(self) -> list[str]:
        return list(dict.fromkeys(sequence_of(one.line) for one in self.reviewed))

    @property
    def commands(self) -> list[str]:
        return list(dict.fromkeys(one.line.command for one in self.reviewed))


def state_of(line: Line) -> str:
    return "refused" if line.refusal else "there" if line.there else "done"


def _groups_of(reviewed: Reviewed) -> list[str]:
    line = reviewed.line
    groups = [THERE if state_of(line) == "there" else state_of(line)]
    if line.refusal:
        groups.append(reviewed.finding.kind)
    if line.warning:
        groups.append("warnings")
    if reviewed.is_copy:
        groups.append("copies")
    if line.group:
        groups.append("together")
    if not any(line.comments):
        groups.append("without a reason")
    return groups


def html_of(card: Card, several: bool) -> str:
    """several: whether the lines are of several scripts, so that each names its own."""
    first = card.reviewed[0].line
    own = len({one.line.comments for one in card.reviewed}) > 1  # reasons and authors of each line, or of all
    why = "" if own else _why([one.line for one in card.reviewed])
    shown = card.reviewed[:len(card.unit.shown)]
    title = f"<h3>{escaped(card.unit.title)}</h3>" if card.unit.title else ""
    parts = [_line(one, several, own) for one in shown] if len(card.reviewed) > 1 else [_body(one) for one in shown]
    listed = _all(card, several) if card.unit.is_long else ""
    return (f'<article id=L{first.number} class={card.state} data-groups="{escaped("|".join(card.groups))}" '
            f'data-command="{escaped("|".join(card.commands))}" data-sequence="{escaped(chr(9).join(card.sequences))}" '
            f'data-lines="{_ranges(one.line.number for one in card.reviewed)}" data-search="{escaped(_searched(shown, several))}">'
            f'<header><a class=number href="#L{first.number}">{escaped(_places(card, several))}</a>{_verdict(card)}'
            '<label><input type=checkbox class=seen> seen</label></header>'
            f'{why}{title}{"".join(parts)}{listed}</article>\n')


def _why(lines: Sequence[Line]) -> str:
    """The reason of lines, who made them, and when, as far as that is known."""
    reasons = "".join(f"<p class=reason>{escaped(comment)}</p>" for comment in lines[0].comments if comment)
    said = dict.fromkeys(", ".join(filter(None, [line.author.name, line.author.date[:10]])) for line in lines)
    listed = [text for text in said if text]
    authors = "; ".join(listed[:AUTHORS]) + (f"; {number(len(listed) - AUTHORS)} more" if len(listed) > AUTHORS else "")
    return (reasons or "<p class=none>no reason given</p>") + (f"<p class=author>{escaped(authors)}</p>" if authors else "")


def _searched(shown: Iterable[Reviewed], several: bool) -> str:
    """What the search looks at, beside the list of all lines."""
    texts = [text for one in shown for text in (one.line.text.replace("\t", " "), *one.line.comments, one.line.refusal,
                                                one.line.warning, one.line.author.name, _place(one.line, several))]
    return " ".join(dict.fromkeys(texts)).lower()


def _place(line: Line, several: bool) -> str:
    return f"{line.file}: line {line.place}" if several else f"line {line.place}"


def _places(card: Card, several: bool) -> str:
    lines = [one.line for one in card.reviewed]
    if len(lines) == 1 or card.unit.kind and not card.unit.is_long:
        return ", ".join(_place(line, several) for line in lines)
    file = f"{lines[0].file}: " if several else ""
    return f"{file}lines {number(lines[0].place)} to {number(lines[-1].place)}"


def _ranges(numbers: Iterable[int]) -> str:
    """Numbers, those that follow each other as 4-9."""
    ranges = []
    for _, run in groupby(enumerate(numbers), key=lambda pair: pair[1] - pair[0]):
        listed = [value for _, value in run]
        ranges.append(f"{listed[0]}-{listed[-1]}")
    return ",".join(ranges)


def _verdict(card: Card) -> str:
    """The verdict on all lines of a card, and chips for what else is to be known."""
    lines = [one.line for one in card.reviewed]
    kinds = dict.fromkeys(one.finding.kind for one in card.reviewed if one.line.refusal)
    chips = [f"<span class=state>{THERE if card.state == 'there' else card.state}</span>"]
    chips += [f"<span class=kind>{card.unit.kind}</span>"] if card.unit.kind else []
    chips += ["<span class=kind>together</span>"] if card.unit.together else []
    chips += [f"<span class=kind>{escaped(kind)}</span>" for kind in kinds]
    chips += ['<span class="kind warned">warning</span>'] if any(line.warning for line in lines) else []
    chips += ["<span class=kind>second file</span>"] if any(line.is_second for line in lines) else []
    refusals = dict.fromkeys(line.refusal for line in lines if line.refusal)
    return "".join(chips) + (f"<b class=why>{escaped('; '.join(list(refusals)[:2]))}</b>" if refusals else "")


def _line(reviewed: Reviewed, several: bool, own: bool) -> str:
    """A line of several. own: whether its reason isn't that of the card"""
    why = _why([reviewed.line]) if own else ""
    return f"<section><p class=line>{escaped(_place(reviewed.line, several))}</p>{why}{_body(reviewed)}</section>"


def _body(reviewed: Reviewed) -> str:
    """A line with what is to be said of it and its pictures."""
    warning = f"<p class=warning>{escaped(reviewed.line.warning)}</p>" if reviewed.line.warning else ""
    notes = "".join(f"<li>{html_of_note(note)}</li>" for note in reviewed.notes)
    return f"<pre>{_written(reviewed.line)}</pre>{warning}{f'<ul>{notes}</ul>' if notes else ''}{reviewed.figures}"


def html_of_note(note: Note) -> str:
    return "".join(map(_html_of_part, note))


def _html_of_part(part: Part) -> str:
    if part.kind == RECORDS:
        return _beside(part)
    if part.kind == LINE:
        button = f'<button class=copy data-text="{escaped(part.text)}">copy</button> ' if is_whole(part.text) else ""
        return f"{button}<code>{with_tabs(part.text)}</code>"
    text = escaped(part.text)
    if part.kind == LINK:
        return f'<a href="#L{part.number}">{text}</a>'
    return {BOLD: f"<b>{text}</b>", CODE: f"<code>{text}</code>"}.get(part.kind, text)


def _beside(part: Part) -> str:
    """Records below each other, each after its title, columns marked that differ."""
    lines = []
    for title, record in part.rows:
        cells = [(f"<mark>{escaped(text)}</mark>" if column.differs else escaped(text)) + " " * (column.width - len(text))
                 for text, column in zip(record, columns_of(part.rows))]
        lines.append("  ".join([title.ljust(7), *cells]).rstrip())
    return f"<pre>{chr(10).join(lines)}</pre>"


def _all(card: Card, several: bool) -> str:
    """The list of all lines of a card that shows only the first ones. The search looks at it."""
    rows = "\n".join(escaped(f"{_place(one.line, several)}  {one.line.text}".replace("\t", " ")) for one in card.reviewed)
    return f"<details><summary>all {number(len(card.reviewed))} lines</summary><pre class=all>{rows}</pre></details>"


def _written(line: Line) -> str:
    """The line, a replace in two rows with what differs between them. A bad line shows its TABs."""
    if not line.is_edit and line.refusal:
        return with_tabs(line.text)
    if not line.old or not line.new:
        return escaped("  ".join([line.command, *line.fields]))
    half = len(line.fields) // 2 if line.old_tail or not line.new_tail else len(line.old)
    old, new = line.fields[:half], line.fields[half:]
    widths = [max(len(a), len(b)) for a, b in zip_longest(old, new, fillvalue="")]
    by = "by".rjust(len(line.command))
    return f"{line.command}  {columns(old, new, widths)}\n{by}  {columns(new, old, widths)}"


def columns(mine: Sequence[str], other: Sequence[str], widths: Sequence[int]) -> str:
    """Columns below each other, those marked that differ."""
    marked = (escaped(a) if a == b else f"<mark>{escaped(a)}</mark>" for a, b in zip_longest(mine, other[:len(mine)]))
    return "  ".join(text + " " * (width - len(a)) for text, a, width in zip(marked, mine, widths)).rstrip()

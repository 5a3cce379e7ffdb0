"""The page of what two scripts don't make alike of one track: its cards have the lines of both that are about one record."""
from __future__ import annotations

from typing import Sequence

from ..commands.carry import Carrier
from ..commands.corrections import Line
from ..commands.input_files import Inputs
from ..encoding import encoded
from ..files import whole
from .alike import Unit
from .cards import Card
from .output import sums_of
from .overview import shown_lengths
from .page import Contents, page
from .run import review
from .totals import Totals

NOTE = ("Each card has what one script makes of a record, and the other one not, or otherwise; each script is by itself. The numbers "
        "before and after are those of what both make alike.")
Rest = Sequence[tuple[str, Sequence[Line]]]  # the lines of each card, with its class


def write_rest(inputs: Inputs, rest: Rest, both: Sequence[Line], path: str, copies: bool, leave_blocks: bool) -> None:
    """Writes the page. both: the lines of what is alike; copies, leave_blocks: as for `apply`"""
    with whole(path) as file:
        file.write(encoded(page(contents_of(inputs, rest, both, copies, leave_blocks))))


def contents_of(inputs: Inputs, rest: Rest, both: Sequence[Line], copies: bool, leave_blocks: bool) -> Contents:
    """What the page shows: what isn't alike, and what is refused."""
    sums = list(sums_of(name for name in inputs.given if name != "-"))
    shown = {line.number for _, lines in rest for line in lines}.union(line.number for line in inputs.lines if line.refusal)
    seen = [review(inputs.with_lines(lines), 0, sums, copies, leave_blocks, shown) for lines in inputs.scripts]
    reviewed = {one.line.number: one for contents in seen for card in contents.cards for one in card.reviewed}
    cards = []
    for kind, lines in rest:
        listed = [reviewed[line.number] for line in lines]
        cards.append(Card(Unit([one.finding for one in listed], kind=kind), listed))
    cards += [card for contents in seen for card in contents.cards if card.state == "refused"]
    lines = [one.line for card in cards for one in card.reviewed]
    with inputs.session(leave_blocks=True) as session:
        before = Totals(session, 0, shown_lengths(lines, inputs.lengths))
        Carrier(session, copies=True).carry(both)
        after = before.after(session, {record[0] for line in both if line.is_done for record in line.records()})
    return seen[0]._replace(scripts=inputs.given[2:], lines=lines, cards=cards, before=before, after=after, note=NOTE)

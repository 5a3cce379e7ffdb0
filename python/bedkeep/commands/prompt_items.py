"""The lines of a script that no longer fit, at the prompt: one at a time is in hand, and the next correction decides about it."""
from __future__ import annotations

from typing import Optional, Sequence

from .core import Core
from .prompt_says import Says, indented, would
from .reports import of_line
from .worklist import OPEN, Item


class Items:
    """Goes through the worklist of a core. in_hand: the item that the next correction decides about"""

    def __init__(self, core: Core, says: Says) -> None:
        self._core, self._says = core, says
        self.in_hand: Optional[Item] = None
        self._last = 0  # the number of the one that was shown last

    def count(self) -> str:
        """How many lines need a decision, as a sentence; nothing if there is no worklist."""
        worklist = self._core.worklist
        if not worklist or not worklist.items:
            return ""
        left = len(worklist.open_items())
        return f"{left} of {worklist.count} {'needs' if left == 1 else 'need'} a decision" + ("; `next` shows one" if left else "")

    def next(self, _: str) -> None:
        """Takes the next open item into hand, and shows it with what taking it would change."""
        self._core.join()
        listed = self._core.worklist.open_items() if self._core.worklist else []
        if not listed:
            self.in_hand = None
            print("no line needs a decision")
            return
        self.in_hand = item = next((one for one in listed if one.number > self._last), listed[0])
        self._last = item.number
        indented(f"# {comment}" for comment in item.lines[0].comments)
        for finding in item.findings:
            print(*(list(of_line(finding)) or [f"    {finding.line.text}"]), sep="\n")
        if item.is_needless:
            print("`take` or `drop REASON` leaves it out, and any other correction is taken instead")
        if item.offered:
            self._would(item)
            print("`take` does this, `drop REASON` leaves the line out, and any other correction is taken instead")
        for offer in item.offers:
            self._says.offer(list(offer.lines), offer.note)

    def _would(self, item: Item) -> None:
        answer = self._core.attempt(item.offered)
        if "refused" in answer:
            self._says.refused(answer, item.offered)
        else:
            would(answer, False)

    def taken(self) -> Sequence[str]:
        """The lines of the item in hand as they are offered; none if it can be left out, and is. ValueError if there is nothing to take."""
        item = self._held()
        if item.is_needless:
            self.drop("it is so already")
        elif not item.offered:
            raise ValueError("no line fits as it is: write another one, or drop REASON")
        return item.offered

    def drop(self, reason: str) -> None:
        """Leaves the item in hand out, for a reason."""
        self._core.drop(self._held().number, reason)
        self.settle()

    def later(self, _: str) -> None:
        self._held()
        self.in_hand = None

    def settle(self) -> None:
        """Says how many are left, once the item in hand has its decision."""
        if self.in_hand and self.in_hand.state != OPEN:
            self.in_hand = None
            print(self.count())

    def _held(self) -> Item:
        if not self.in_hand:
            raise ValueError("no line is in hand; `next` shows one that needs a decision" if self.count() else "no line needs a decision")
        return self.in_hand

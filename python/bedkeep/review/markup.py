"""Texts and numbers as they are written into the page."""
from __future__ import annotations

import html
import re

CONTROL = re.compile(r"[\x00-\x08\x0a-\x1f\x7f\ud800-\udfff]")
LONGEST = 24  # characters of a name in a picture


def escaped(text: str) -> str:
    """A text for HTML, also in quotes. A control character is shown by its symbol, and a byte that is no text by `�`."""
    return html.escape(CONTROL.sub(_symbol, text))


def _symbol(found: re.Match[str]) -> str:
    code = ord(found[0])
    return chr(0x2400 + code) if code < 0x20 else "\u2421" if code == 0x7f else "\ufffd"


def is_whole(text: str) -> bool:
    """Whether the page shows a text as it is, so that it can be copied from there."""
    return not CONTROL.search(text)


def with_tabs(text: str) -> str:
    """The text of a line, each TAB marked."""
    return escaped(text).replace("\t", "<i class=tab>\t</i>")


def shortened(text: str) -> str:
    return text if len(text) < LONGEST else text[:LONGEST - 2] + "…"


def number(value: int) -> str:
    return f"{value:,}"


def counted(value: int, what: str) -> str:
    """A number with a noun: 1 base, 2 bases."""
    return f"{number(value)} {what}{'' if value == 1 else 's'}"


def bases(value: int) -> str:
    """A length in few characters."""
    if value >= 1_000_000_000:
        return f"{number(value // 1_000_000)} Mb"
    if value >= 1_000_000:
        return f"{value / 1_000_000:.3g} Mb"
    return f"{value / 1000:.3g} kb" if value >= 10_000 else f"{number(value)} b"

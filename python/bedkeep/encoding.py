"""Texts of bytes in any encoding, and paths."""
from __future__ import annotations

import os
from typing import Union

Path = Union[str, "os.PathLike[str]"]


def decoded(text: bytes) -> str:
    """The text of bytes in any encoding; `encoded` gives the same bytes again."""
    return text.decode("utf-8", "surrogateescape")


def encoded(text: str) -> bytes:
    """The bytes of a text."""
    return text.encode("utf-8", "surrogateescape")

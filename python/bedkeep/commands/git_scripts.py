"""Merges scripts of corrections as git's merge drivers do, paragraph by paragraph, so that each line keeps its reason.

What one side changed is taken. If one side only added paragraphs, they come after those of the other; one that both added is there
once. What both changed otherwise is a conflict.
"""
from __future__ import annotations

import os
import tempfile
from itertools import chain
from typing import Iterator, Optional, Sequence

from ..encoding import Path, encoded
from ..script import is_reason, is_signature, paragraphs
from .git_merge import Merged, said_of, text_of
from .git_texts import BASE, NAMES, OURS, THEIRS, File, Part, Style

Paragraph = tuple[str, ...]  # its lines, as `script.paragraphs` has them


def merge_scripts(base: Path, ours: Path, theirs: Path, style: Style = Style()) -> Merged:
    """Merges two versions of a script, either of which gzip may have packed. No file is changed."""
    with tempfile.TemporaryDirectory(prefix="bedkeep-") as folder:
        files = [File(given, os.path.join(folder, name)) for given, name in zip((base, ours, theirs), NAMES)]
        listed = [list(_paragraphs(file.lines())) for file in files]
        known = {_without_end(paragraph): paragraph for paragraph in chain(listed[BASE], listed[THEIRS], listed[OURS])}
        numbers = {paragraph: number for number, paragraph in enumerate(known)}
        for file, side in zip(files, listed):
            with open(file.path, "wb") as copy:  # a line for each paragraph
                copy.writelines(encoded(f"{numbers[_without_end(paragraph)]}\n") for paragraph in side)
        merged = style._replace(kind="diff3").merged([file.path for file in files])
        parts = list(_parts(merged, list(known.values()), style))
        return Merged(text_of(parts, files), files[OURS].is_packed, list(said_of(parts, [])), [])


def _paragraphs(lines: Sequence[str]) -> Iterator[Paragraph]:
    return (tuple(lines[places.start:places.stop]) for places in paragraphs(lines) if places)


def _without_end(paragraph: Paragraph) -> Paragraph:
    """The paragraph without an empty line that ends it, which one side may have written for what it added."""
    return paragraph[:-1] if not paragraph[-1] else paragraph


def _is_heading(line: str) -> bool:
    return is_reason(line) or is_signature(line)


def _parts(merged: Sequence[Part], known: Sequence[Paragraph], style: Style) -> Iterator[Part]:
    """The parts of the merged script. merged: the same with the numbers of paragraphs as lines"""
    last = ""  # the line above
    for part in merged:
        settled = _settled(part)
        if settled is None:
            base, ours, theirs = ([line for number in side for line in known[int(number)]] for side in part.sides or ())
            yield style.conflict((base, ours, theirs))
            last = ""
            continue
        lines: list[str] = []
        for number in settled:
            paragraph = known[int(number)]
            lines += [""] * _would_join(last, paragraph[0]) + list(paragraph)
            last = paragraph[-1]
        yield Part(lines)


def _settled(part: Part) -> Optional[Sequence[str]]:
    """The paragraphs of a part, or None if both sides changed them otherwise than by adding others."""
    if not part.sides:
        return part.lines
    base, *sides = part.sides
    for one, other in (sides[1], sides[0]), (sides[0], sides[1]):
        if one[:len(base)] == base:
            return [*other, *(number for number in one[len(base):] if number not in other)]
    return None


def _would_join(last: str, first: str) -> bool:
    """Whether a paragraph would be taken for a part of the one above it."""
    return bool(last and first) and (not _is_heading(first) or _is_heading(last) and not is_signature(first))

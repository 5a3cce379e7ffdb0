"""Writes the page, and what comes with it for IGV."""
from __future__ import annotations

import hashlib
import os
import sys
import tempfile
from typing import Iterable, Iterator, Optional, Sequence

from ..commands.input_files import Inputs
from ..commands.options import write_refused
from ..encoding import encoded
from ..errors import Error
from ..files import refuse_inputs, whole
from .igv import colour_rows, session_rows
from .page import Contents, page
from .run import review


def write_page(genome: str, bed: str, corrections: Sequence[str], path: str, second: Optional[str] = None, distance: int = 0,
               igv: Optional[str] = None, copies: bool = False, leave_blocks: bool = False,
               refused: Optional[str] = None) -> Contents:
    """Writes the page and what comes with it, and returns what it shows. Nothing is written if something fails before that.

    distance: of the blocks; igv: what IGV calls the genome; copies, leave_blocks, refused: as for `apply`
    """
    if path == "-":
        raise Error("-o needs a file, since others come beside the page")
    with tempfile.TemporaryDirectory(prefix="bedkeep-") as folder:
        files = [_kept(name, folder) for name in (genome, bed, *([second] if second else []), *corrections)]
        stem = os.path.splitext(path)[0]
        outputs = [f"{stem}.corrections.bed", f"{stem}.session.xml", *([] if igv else [f"{stem}.chrom.sizes"]), path]
        for output in outputs:
            refuse_inputs(output, files)
        sums = list(sums_of(files))
        with Inputs(files[0], files[1], files[-len(corrections):], files[2] if second else None) as inputs:
            contents = review(inputs, distance, sums, copies, leave_blocks)
            write_refused(refused, inputs)
        tracks = [*files[1:-len(corrections)], outputs[0]]
        for output, text in zip(outputs, [*_for_igv(contents, tracks, path, igv), page(contents)]):
            with whole(output) as file:
                file.write(encoded(text))
    return contents


def _for_igv(contents: Contents, tracks: Sequence[str], path: str, igv: Optional[str]) -> Iterator[str]:
    """The texts of the track of the corrections, of the session that has it beside the other tracks, and of its genome."""
    lines = contents.run
    home = os.path.dirname(os.path.realpath(path))
    rows = colour_rows(lines, {name: place for place, name in enumerate(contents.lengths)})
    yield "".join(f"{row}\n" for row in rows)
    sizes = f"{os.path.splitext(os.path.basename(path))[0]}.chrom.sizes"
    yield "".join(f"{row}\n" for row in session_rows(lines, tracks, igv or sizes, home))
    if not igv:
        yield "".join(f"{name}\t{length}\n" for name, length in contents.lengths.items())


def _kept(path: str, folder: str) -> str:
    """The path of an input that can be read more than once: standard input is copied."""
    if path != "-":
        return path
    copy = os.path.join(folder, "standard input")
    with open(copy, "xb") as file:
        file.write(sys.stdin.buffer.read())
    return copy


def sums_of(paths: Iterable[str]) -> Iterator[tuple[str, str]]:
    """The SHA-256 of files as they are."""
    for path in paths:
        with open(path, "rb") as file:
            yield path, hashlib.sha256(file.read()).hexdigest()

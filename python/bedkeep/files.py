"""Files that are read plain or packed by gzip, with `-` for standard input, and written whole or not at all."""
from __future__ import annotations

import errno
import gzip
import itertools
import os
import shutil
import sys
import zlib
from contextlib import contextmanager, suppress
from typing import BinaryIO, Iterator, Optional, cast

from .bgzf import ENDINGS, Blocks
from .encoding import Path, decoded
from .errors import Error

GZIP = b"\x1f\x8b"
NUMBERS = itertools.count()  # of the files that this process writes


@contextmanager
def opened(path: Path) -> Iterator[BinaryIO]:
    """A file to read from, unpacked if gzip packed it; `-` is standard input."""
    name = os.fspath(path)
    with open(0, "rb", closefd=False) if name == "-" else open(name, "rb") as file:
        if file.peek(2)[:2] != GZIP:
            yield file
            return
        try:
            with gzip.open(file) as unpacked:
                yield cast(BinaryIO, unpacked)
        except (EOFError, zlib.error, gzip.BadGzipFile) as failure:
            raise Error(f"{name}: {failure}") from None


def read_bytes(path: Path) -> bytes:
    """All bytes of a file, as `opened` has them."""
    with opened(path) as file:
        return file.read()


def lines_of(path: Path, begins: Optional[bytes] = None) -> Iterator[str]:
    """The lines of a file, without their ends; or those that begin with one of some bytes."""
    with opened(path) as file:
        for line in file:
            if begins and line[0] not in begins:
                continue
            yield line_text(line)


def line_text(line: bytes) -> str:
    """The text of a line without its end: LF or CR LF."""
    text = decoded(line[:-1] if line.endswith(b"\n") else line)
    return text[:-1] if text.endswith("\r") else text


def is_plain(path: Path) -> bool:
    """Whether the program can read a file as it is, and we as often as we want."""
    return os.path.isfile(path) and not is_packed(path)


def is_packed(path: Path) -> bool:
    """Whether gzip packed a regular file. One that can't be read isn't; who reads it says so."""
    if os.path.isfile(path):
        with suppress(OSError), open(path, "rb") as file:
            return file.read(2) == GZIP
    return False


def plain(path: Path, folder: str) -> str:
    """The path of a file that the program can read, which is a copy if that is needed."""
    name = os.fspath(path)
    if name != "-" and is_plain(name):
        return name
    target = os.path.join(folder, f"plain-{len(os.listdir(folder))}")
    with opened(name) as file, open(target, "wb") as copy:
        shutil.copyfileobj(file, copy)
    return target


@contextmanager
def whole(path: Path, new: bool = False) -> Iterator[BinaryIO]:
    """A file to write, which gets its name once all is written: it is there whole, or not at all. Failures have its name.

    One whose name ends in .gz or .bgz is packed, by BGZF. `-` is standard output. That and a device or a pipe are written as they
    are. new: raises an Error if there is a file already.
    """
    try:
        with _written(os.fspath(path), new) as file:
            yield file
    except BrokenPipeError:
        raise
    except OSError as failure:
        if failure.filename is None:  # Writes have no name in their failures.
            failure.filename = "standard output" if os.fspath(path) == "-" else os.fspath(path)
        raise


@contextmanager
def _written(path: str, new: bool) -> Iterator[BinaryIO]:
    if path == "-":
        yield sys.stdout.buffer
        sys.stdout.flush()
        return
    if new and os.path.lexists(path):
        raise Error(f"{path} is there already")
    if os.path.exists(path) and not os.path.isfile(path):
        with open(path, "wb") as device:
            yield device
        return
    target = os.path.realpath(path)
    folder = os.path.dirname(target)
    astray = os.path.exists(target) and not os.path.exists(path)  # absent/../file, which realpath alone finds
    if astray or not os.path.isdir(folder):
        raise FileNotFoundError(errno.ENOENT, "no such folder", os.path.dirname(path) if astray else folder)
    beside = os.path.join(folder, f".bedkeep-{os.getpid()}-{next(NUMBERS)}")
    try:
        with open(beside, "xb") as file:
            blocks = Blocks(file)
            yield cast(BinaryIO, blocks) if path.endswith(ENDINGS) else file
            if path.endswith(ENDINGS):
                blocks.finish()
            file.flush()
            os.fsync(file.fileno())
        if os.path.exists(target):
            shutil.copymode(target, beside)
        os.replace(beside, target)
    except BaseException as failure:
        if not isinstance(failure, FileExistsError):
            with suppress(FileNotFoundError):
                os.unlink(beside)
        if isinstance(failure, OSError) and failure.filename == beside:
            failure.filename, failure.filename2 = path, None
        raise


def stamp(path: Path) -> Optional[tuple[int, ...]]:
    """What differs when a regular file was written again."""
    if not os.path.isfile(path):
        return None
    state = os.stat(path)
    return state.st_dev, state.st_ino, state.st_size, state.st_mtime_ns


def same_file(one: Path, other: Path) -> bool:
    """Whether a file is there under both names."""
    return os.path.exists(one) and os.path.exists(other) and os.path.samefile(one, other)


def refuse_inputs(output: Path, inputs: list[str]) -> None:
    """Raises an Error if the output is one of the inputs."""
    for path in inputs:
        if path != "-" and same_file(path, output):
            raise Error(f"{path}: an input is never written over")

"""What a session or a run is given, and the texts in memory that the program reads if that is no plain file.

The program reads paths. What isn't one becomes a text in memory, which the program that is started with `descriptors` can open.
"""
from __future__ import annotations

import os
import shutil
from typing import BinaryIO, Callable, Union

from .encoding import encoded
from .errors import BadOptions, Ended
from .files import is_packed, opened
from .given import Genome, Text, Track, genome_of, track_of
from .program import other_version


class Sources:
    """Paths that the program can open, and the descriptors that it needs for that. They are open until `close`.

    names: what messages call a path that isn't the one that was given; texts: the paths of what was given without a file
    """

    def __init__(self) -> None:
        self.descriptors: list[int] = []
        self.names: dict[str, str] = {}
        self.texts: set[str] = set()

    def __enter__(self) -> Sources:
        return self

    def __exit__(self, *_: object) -> None:
        self.close()

    def genome(self, given: Genome) -> str:
        """The path of a genome file, or of the lengths that are given otherwise."""
        return self.unpacked(self._path(genome_of(given)))

    def track(self, given: Track) -> str:
        """The path of a BED file, packed or not, or of the records of what else is given."""
        return self._path(track_of(given))

    def unpacked(self, path: str) -> str:
        """The path, or that of its text in memory if gzip packed it."""
        return self._copy(path) if is_packed(path) else path

    def kept(self, path: str) -> str:
        """The path, or that of its text in memory if it is a pipe, which can't be read twice."""
        return path if not os.path.exists(path) or os.path.isfile(path) or os.path.isdir(path) else self._copy(path)

    def name_of(self, path: str) -> str:
        """What messages call a path."""
        return self.names.get(path, path)

    def renamed(self, failure: Ended, program: str) -> Ended:
        """The failure of a program at its start, about a file by its name. One of arguments may come from the program's version."""
        path, separator, rest = failure.message.partition(": ")
        hint = (*(other_version(program) if isinstance(failure, BadOptions) else ()), *failure.hint)
        return type(failure)(failure.status, self.name_of(path) + separator + rest, hint)

    def free(self) -> None:
        """Frees the memory of texts that were read."""
        for descriptor in self.descriptors:
            os.ftruncate(descriptor, 0)

    def close(self) -> None:
        """Closes what a program that is already started has open itself."""
        while self.descriptors:
            os.close(self.descriptors.pop())

    def _path(self, given: Union[str, Text]) -> str:
        if isinstance(given, str):
            return given
        text = encoded(given.text)
        path = self._written(given.name, lambda file: file.write(text))
        self.texts.add(path)
        return path

    def _copy(self, path: str) -> str:
        """The path of a text in memory that a file has, unpacked."""
        with opened(path) as file:
            return self._written(path, lambda copy: shutil.copyfileobj(file, copy))

    def _written(self, name: str, write: Callable[[BinaryIO], object]) -> str:
        """The path of a text in memory; messages call it by the name."""
        descriptor = os.memfd_create("bedkeep")
        self.descriptors.append(descriptor)
        with open(descriptor, "wb", closefd=False) as file:
            write(file)
        path = f"/dev/fd/{descriptor}"
        self.names[path] = name
        return path

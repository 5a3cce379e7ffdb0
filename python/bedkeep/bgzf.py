"""BGZF: gzip in blocks, as bgzip writes it, so that tabix can read from the middle. Whatever unpacks gzip reads it."""
from __future__ import annotations

import io
import struct
import zlib
from typing import Any, BinaryIO

ENDINGS = (".gz", ".bgz")  # of the names of packed files
SIZE = 0xFF00  # bytes of a block before it is packed
HEAD = b"\x1f\x8b\x08\x04\0\0\0\0\0\xff\x06\0BC\x02\0"  # then the size of the block less 1
TAIL = struct.Struct("<II")  # the checksum and the size of what was packed
LAST = bytes.fromhex("1f8b08040000000000ff0600424302001b0003000000000000000000")


class Blocks(io.RawIOBase):
    """Packs what is written into blocks of a file, which is complete after `finish`."""

    def __init__(self, file: BinaryIO) -> None:
        self._file = file
        self._rest = bytearray()

    def write(self, data: Any) -> int:
        self._rest += data
        while len(self._rest) >= SIZE:
            self._pack(bytes(self._rest[:SIZE]))
            del self._rest[:SIZE]
        return len(data)

    def finish(self) -> None:
        if self._rest:
            self._pack(bytes(self._rest))
        self._file.write(LAST)

    def _pack(self, data: bytes) -> None:
        packer = zlib.compressobj(wbits=-zlib.MAX_WBITS)
        packed = packer.compress(data) + packer.flush()
        size = len(HEAD) + 2 + len(packed) + TAIL.size
        self._file.write(HEAD + struct.pack("<H", size - 1) + packed + TAIL.pack(zlib.crc32(data), len(data)))

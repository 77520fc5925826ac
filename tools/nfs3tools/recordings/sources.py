"""Files that are read: as they are, or what is in compressed ones."""
from __future__ import annotations

import contextlib
import sys
import typing

from ..shared.kinds import LONGEST_MAGIC, PACKED_BY, PCAP, SECTION
from .unpacking import READ_AT_ONCE, Damaged, Readable, unpacked


SHORTEST = 24  # bytes of a recording


class NoRecording(Exception):
    """The file is neither pcap nor pcapng. `packed_by` is the program that compressed it, if that
    is known."""

    def __init__(self, text: str, packed_by: str | None = None) -> None:
        super().__init__(text)
        self.packed_by = packed_by


class Source:
    """Bytes that are taken from the front, in pieces of any size. Those of a compressed file are
    what is in it."""

    def __init__(self, file: Readable) -> None:
        self.file, self.block, self.begin = file, b'', 0
        self.damage: Damaged | None = None
        content = unpacked(file, self.peek(LONGEST_MAGIC), self.block)
        self.is_unpacked = content is not None
        if content is not None:
            self.file, self.block, self.begin = content, b'', 0

    def peek(self, size: int) -> bytes:
        """Returns the next bytes without taking them: `size`, or fewer at the end."""
        if self.begin + size > len(self.block):
            self.fill(size)
        return self.block[self.begin:self.begin + size]

    def take(self, size: int) -> bytes:
        """Takes the next bytes: `size`, or fewer at the end."""
        end = self.begin + size
        if end > len(self.block):
            self.fill(size)
            end = min(size, len(self.block))
        piece = self.block[self.begin:end]
        self.begin = end
        return piece

    def read(self, size: int, /) -> bytes:
        return self.take(size)

    def fill(self, size: int) -> None:
        """Reads until `size` bytes are there, or the file ends. Raises `Damaged` if it is not known
        whether it does."""
        parts, there = [self.block[self.begin:]], len(self.block) - self.begin
        while there < size and (more := self.more()):
            parts.append(more)
            there += len(more)
        self.block, self.begin = b''.join(parts), 0
        if there < size and self.damage:
            raise self.damage

    def more(self) -> bytes:
        """Reads a block, none after the end or damage."""
        try:
            return b'' if self.damage else self.file.read(READ_AT_ONCE)
        except Damaged as damaged:
            self.damage = damaged
            return b''

    def blocks(self) -> typing.Iterator[bytes]:
        """Iterates over all bytes that are left, in blocks. After them `damage` says why they
        end, if not with the file."""
        block = self.block[self.begin:] or self.more()
        while block:
            yield block
            block = self.more()


@contextlib.contextmanager
def opened(path: str) -> typing.Iterator[typing.IO[bytes]]:
    """Opens a file to read, or standard input for `-`."""
    if path == '-':
        yield sys.stdin.buffer
        return
    with open(path, 'rb', buffering=0) as file:
        yield file


def check_recording(source: Source) -> None:
    """Raises `NoRecording` if no recording begins there, and `Damaged`."""
    magic = source.peek(LONGEST_MAGIC)
    if magic[:4] in PCAP or magic[:4] == SECTION:
        if len(source.peek(SHORTEST)) < SHORTEST:
            raise NoRecording('its header is cut short')
        return
    for begin, packer in PACKED_BY.items():
        if magic.startswith(begin):
            raise NoRecording(f'it is compressed by {packer}', packer)
    raise NoRecording('it is neither pcap nor pcapng' if magic else 'it is empty')

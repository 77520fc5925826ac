"""Capture files: reading both versions, writing version 1 (docs/FORMATS.md)."""
from __future__ import annotations

import contextlib
import typing

from ..shared.kinds import MAGICS
from .sources import Source
from .spool import Spool, Stored
from .unpacking import READ_AT_ONCE, Damaged

CHUNK = 1 << 16
MOST_CONNECTIONS, MOST_BYTES = 65_535, 1 << 30


class BadCapture(Exception):
    """The file ends before the capture does, or a word of the container is none."""


class Streamed(typing.Protocol):
    size: int

    def blocks(self) -> typing.Iterator[bytes]:
        """Iterates over all bytes in order, in blocks of 65,536 and a last one."""


StreamPair = tuple[Streamed, Streamed]
# Of the client and of the server; None is not stored
Streams = tuple[typing.Optional[Stored], typing.Optional[Stored]]


def word(number: int) -> bytes:
    return number.to_bytes(4, 'big')


class Container:
    """Takes a capture apart."""

    def __init__(self, source: Source, spool: Spool) -> None:
        self.source, self.spool = source, spool

    def connections(self) -> typing.Iterator[tuple[Stored, Stored]]:
        """Iterates over the streams of whole connections. May raise `BadCapture` after them."""
        take = self.pair_of_version()
        while (mark := self.word()) == 1:
            streams = Stored(self.spool), Stored(self.spool)
            take(streams)
            yield streams
        if mark or self.source.peek(1):
            raise BadCapture

    def connection(self, number: int) -> tuple[Stored, Stored] | None:
        """Returns the streams of one connection, also of one that is not whole, if there is one of
        this number, from 1. Those before it are not stored."""
        streams, begun = (Stored(self.spool), Stored(self.spool)), 0
        with contextlib.suppress(BadCapture, Damaged):
            take = self.pair_of_version()
            while begun < number and self.word() == 1:
                begun += 1
                take(streams if begun == number else (None, None))
        return streams if 0 < begun == number else None

    def pair_of_version(self) -> typing.Callable[[Streams], None]:
        """Returns what takes both streams of a connection in the version of this capture."""
        return (self.pair_of_version_1 if self.source.take(8) == MAGICS[0]
                else self.pair_of_version_2)

    def pair_of_version_1(self, streams: Streams) -> None:
        for stored in streams:
            while size := self.word():
                self.payload(size, stored)

    def pair_of_version_2(self, streams: Streams) -> None:
        while side := self.word():
            if side > 2:
                raise BadCapture
            size = self.word()
            if not size:
                raise BadCapture
            self.payload(size, streams[side - 1])

    def payload(self, left: int, stored: Stored | None) -> None:
        """Takes the bytes of a chunk, and appends them if they are to be stored."""
        while left:
            piece = self.source.take(min(left, READ_AT_ONCE))
            if not piece:
                raise BadCapture
            if stored is not None:
                stored.append(piece)
            left -= len(piece)

    def word(self) -> int:
        piece = self.source.take(4)
        if len(piece) < 4:
            raise BadCapture
        return int.from_bytes(piece, 'big')


def capture_of(connections: typing.Iterable[StreamPair]) -> typing.Iterator[bytes]:
    """Iterates over the bytes of a capture of version 1, in chunks of 65,536 bytes."""
    yield MAGICS[0]
    for pair in connections:
        yield word(1)
        for stream in pair:
            for block in stream.blocks():
                yield word(len(block)) + block
            yield word(0)
    yield word(0)


def place_in(connections: typing.Iterable[StreamPair], byte: int) -> tuple[int, int, int] | None:
    """Where a byte of that capture comes from: the connection's index, 0 for the client's stream or
    1, and the byte of the stream. None for a byte of the magic, a word, or after the end."""
    at = len(MAGICS[0])
    for index, pair in enumerate(connections):
        at += 4
        for side, stream in enumerate(pair):
            size = stream.size + 4 * -(-stream.size // CHUNK)
            if at <= byte < at + size:
                chunk, offset = divmod(byte - at, CHUNK + 4)
                return (index, side, chunk * CHUNK + offset - 4) if offset >= 4 else None
            at += size + 4
    return None

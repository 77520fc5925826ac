"""The temporary file of bytes that are too many for memory."""
from __future__ import annotations

import array
import bisect
import os
import tempfile
import typing

WRITTEN_AT_ONCE = 1 << 16
UNWRITTEN_AT_MOST = 8 << 20  # bytes of all streams together that are not in the temporary file yet


class Spool:
    """The temporary file in which streams stand. It is made when the first bytes are written."""

    def __init__(self) -> None:
        self.file: typing.IO[bytes] | None = None
        self.size = self.unwritten = 0
        self.stored: list['Stored'] = []

    def append(self, piece: bytes | bytearray) -> int:
        """Writes a piece, and gives where it stands."""
        begin, done = self.size, 0
        self.size += len(piece)
        try:
            if self.file is None:
                self.file = tempfile.TemporaryFile(prefix='nfs3canon', buffering=0)
            while done < len(piece):
                done += os.pwrite(self.file.fileno(), piece[done:] if done else piece, begin + done)
        except OSError as failed:
            raise OSError(failed.errno, failed.strerror or str(failed),
                          'a temporary file') from failed
        return begin

    def read(self, begin: int, size: int) -> bytes:
        return os.pread(self.file.fileno(), size, begin) if self.file else b''

    def spare(self) -> None:
        """Writes what all streams hold in memory, if it is much."""
        if self.unwritten > UNWRITTEN_AT_MOST:
            for stored in self.stored:
                stored.write()

    def close(self) -> None:
        if self.file:
            self.file.close()


NONE_WRITTEN = array.array('Q')  # is never changed


class Stored:
    """Bytes to which more are appended: short ones stay in memory, the others go to the spool."""
    __slots__ = 'spool', 'size', 'written', 'begins', 'places', 'unwritten'

    def __init__(self, spool: Spool) -> None:
        self.spool, self.size = spool, 0
        self.written = 0
        self.begins, self.places = NONE_WRITTEN, NONE_WRITTEN  # of each part that was written
        self.unwritten = bytearray()
        spool.stored.append(self)

    def append(self, piece: bytes) -> None:
        self.unwritten += piece
        self.size += len(piece)
        self.spool.unwritten += len(piece)
        if len(self.unwritten) >= WRITTEN_AT_ONCE:
            self.write()
        elif self.spool.unwritten > UNWRITTEN_AT_MOST:
            self.spool.spare()

    def write(self) -> None:
        """Moves the bytes that are in memory to the spool."""
        if self.unwritten:
            if not self.begins:
                self.begins, self.places = array.array('Q'), array.array('Q')
            self.begins.append(self.written)
            self.places.append(self.spool.append(self.unwritten))
            self.written = self.size
            self.spool.unwritten -= len(self.unwritten)
            self.unwritten = bytearray()

    def read(self, begin: int, size: int) -> bytes:
        """Returns the bytes from `begin` on: `size` of them, or fewer at the end."""
        end, pieces = min(begin + size, self.size), []
        part = bisect.bisect_right(self.begins, begin) - 1
        while begin < min(end, self.written):
            part_end = self.begins[part + 1] if part + 1 < len(self.begins) else self.written
            piece = self.spool.read(self.places[part] + begin - self.begins[part],
                                    min(end, part_end) - begin)
            if not piece:
                raise OSError('the temporary file is shorter than it was')
            pieces.append(piece)
            begin += len(piece)
            part += begin == part_end
        if begin < end:
            pieces.append(bytes(self.unwritten[begin - self.written:end - self.written]))
        return pieces[0] if len(pieces) == 1 else b''.join(pieces)

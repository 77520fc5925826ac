"""Finds what a place names, in a capture or in a recording of which one could be made.

A capture is read piece by piece, so memory grows neither with it nor with the record. Of a
recording is in memory what `take` keeps there.
"""
from __future__ import annotations

import contextlib
import typing

from ..recordings.container import Container
from ..recordings.parts import files_of
from ..recordings.records import (
    FETCHED_AT_ONCE, LONGEST_BODY, Extent, Window, body_of, extents, fragments, xids)
from ..recordings.selection import Options
from ..recordings.sources import Source, opened
from ..recordings.spool import Spool, Stored
from ..recordings.taken import (
    FrameRef, NotTaken, Taken, TakenStream, copied, range_of_place, take, whole)
from ..recordings.unpacking import Damaged
from ..shared.kinds import MAGICS
from ..shared.places import SIDES, NoPlace, Place

# Bytes: the xid, mtype and rpcvers, and then the program, the version and the procedure.
UP_TO_PROCEDURE = 24


class StoredBody:
    """The bytes of a record's body, of which a piece at a time is in memory."""

    def __init__(self, stored: Stored) -> None:
        self.window, self.size = Window(stored), stored.size

    def __len__(self) -> int:
        return self.size

    def __getitem__(self, part: slice, /) -> bytes:
        begin, end, _ = part.indices(self.size)
        return self.window.read(begin, max(0, end - begin))


class FoundRecord(typing.NamedTuple):
    """A record: its body, the client's stream of its connection, and the frames of its place."""
    body: StoredBody
    calls: TakenStream
    frames: list[FrameRef]


class Call(typing.NamedTuple):
    """A call: the number of its record, and its program, version and procedure."""
    record: int
    numbers: tuple[int, int, int]


class Within:
    """A capture, or the recording `taken`, of which one could be made."""

    def __init__(self, spool: Spool, file: typing.IO[bytes] | None, taken: Taken | None) -> None:
        self.spool, self.file, self.taken = spool, file, taken

    def streams(self, connection: int) -> tuple[TakenStream, TakenStream]:
        """Returns the streams of a connection. Raises `NoPlace` if there is none of this number."""
        if self.taken is not None and 0 < connection <= len(self.taken.connections):
            taken = self.taken.connections[connection - 1]
            return taken.client, taken.server
        stored = None
        if self.file is not None:
            self.file.seek(0)
            stored = Container(Source(self.file), self.spool).connection(connection)
        if stored is None:
            raise NoPlace(f'there is no connection {connection}')
        return (TakenStream(stored[0], None, whole(stored[0])),
                TakenStream(stored[1], None, whole(stored[1])))

    def record(self, place: Place) -> FoundRecord:
        """Returns what a place names. Raises `NoPlace` if there is no such record or byte."""
        streams = self.streams(place.connection)
        stream = streams[SIDES.index(place.side)]
        # (the records before it leave nothing in memory)
        numbered = enumerate(extents(Window(stream), 0, stream.size), 1)
        extent = next((one for number, one in numbered if number == place.record), None)
        if extent is None:
            raise NoPlace(f'there is no {place._replace(byte=None)}')
        frames = stream.frames(*range_of_place(stream, extent, place))
        return FoundRecord(self.body(stream, extent), streams[0], frames)

    def body(self, stream: TakenStream, extent: Extent) -> StoredBody:
        """Copies the body of a record, of one that is too long the first 16,777,216 bytes."""
        stored = Stored(self.spool)
        for begin, end in fragments(Window(stream), extent):
            end = min(end, begin + LONGEST_BODY - stored.size)
            for at in range(begin, end, FETCHED_AT_ONCE):
                stored.append(stream.read(at, min(FETCHED_AT_ONCE, end - at)))
        return StoredBody(stored)


def call_with_xid(calls: TakenStream, xid: bytes, but: int | None = None) -> Call | None:
    """Returns the first call with an xid, if there is one; a record number can be left out."""
    window = Window(calls)
    for number, (extent, one, _) in enumerate(xids(window, 0, calls.size), 1):
        if one == int.from_bytes(xid, 'big') and number != but:
            head = body_of(window, extent, UP_TO_PROCEDURE)
            if len(head) == UP_TO_PROCEDURE:
                return Call(number, numbers_in(head))
    return None


def numbers_in(head: bytes) -> tuple[int, int, int]:
    """Returns the program, the version and the procedure of a call."""
    program, version, procedure = (int.from_bytes(head[at:at + 4], 'big') for at in (12, 16, 20))
    return program, version, procedure


@contextlib.contextmanager
def located(path: str, options: Options) -> typing.Iterator[Within]:
    """Opens a capture, or takes a recording as `take` does, and raises what `take` does."""
    files = files_of(path)
    with contextlib.ExitStack() as stack:
        file = stack.enter_context(opened(files[0]))
        if path == '-' or not file.seekable():
            file = stack.enter_context(copied(file))
            files = [file.name]
        try:
            if len(files) == 1 and Source(file).peek(8) in MAGICS:
                yield Within(stack.enter_context(contextlib.closing(Spool())), file, None)
            else:
                taken = stack.enter_context(take(path if len(files) > 1 else files[0], options))
                yield Within(taken.spool, None, taken)
        except Damaged as damaged:
            raise NotTaken(str(damaged)) from damaged

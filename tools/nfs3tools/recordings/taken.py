"""What is taken of a recording or of a capture: its connections, each with the streams of both
sides.

`take` reads pcap and pcapng (also compressed, `-` for standard input, and the parts of one
recording by a pattern) and captures (`NFS3CAP1`, `NFS3CAP2`). Positions of `check`, `show` and
`same` on the file that `write_capture` writes are positions of `taken`: connections have the
numbers of `TakenConnection.number`, and records are those of its streams.
"""
from __future__ import annotations

import bisect
import contextlib
import functools
import itertools
import sys
import tempfile
import typing

from ..shared.kinds import MAGICS
from ..shared.outputs import CAPTURE, write_file
from ..shared.places import SIDES, FilePlace, NoPlace, Place, Side
from ..shared.printed import escaped
from ..shared.progress import Progress
from .connections import Connection, connections_in
from .container import (
    CHUNK, MOST_BYTES, MOST_CONNECTIONS, BadCapture, Container, capture_of, place_in)
from .coverage import NFS_PORTS, PORT_MAPPER, Covered, called_in, of_connection
from .extract import pcapng_of
from .index import SEQUENCE_SPACE
from .parts import Part, files_of, pattern_beside, skipped_of
from .passed_over import notes_of, nothing_in, others_in, remarks_of
from .reading import FileRange, ReadRecording, plain_file, read_recording, write
from .records import (
    Extent, Heads, ReadableBytes, Window, body_of, extent_of, extents, fragments, heads_of)
from .selection import (
    BEGUN_BEFORE, Options, Selected, count, is_of_rpc, missing_of, select)
from .sources import NoRecording, Source, check_recording, opened
from .spool import Spool, Stored
from .streams import Brought, Stream
from .unpacking import READ_AT_ONCE, Damaged, Readable

# Why connections are left out.
NO_RPC, NO_POSITION = (
    'no RPC', 'no position was found from which its records follow one another')
NOTHING, NOTHING_MORE = Brought(0, 0, 0), Brought(sys.maxsize, 0, 0)


class NotTaken(Exception):
    """The file is no recording or capture; its text is the message for the user. `packed_by` is the
    program that compressed it, if that is known and the file is not one of several parts."""

    def __init__(self, text: str, packed_by: str | None = None) -> None:
        super().__init__(text)
        self.packed_by = packed_by


class FrameRef(typing.NamedTuple):
    """A frame of the recording: its number, from 1 as Wireshark counts, also through all parts of a
    recording, and its time in nanoseconds since 1970 (UTC), 0 if it has none."""
    number: int
    time: int


class Completion(typing.NamedTuple):
    """How many bytes a record has with its marks, and the frame that completed it: its number and
    its time, 0 if it has none or is not noted."""
    size: int
    frame: int
    time: int


class Record(typing.NamedTuple):
    """A record of a stream: its number, from 1, and its body, the bytes of its fragments joined."""
    number: int
    body: bytes


class TakenStream:
    """The bytes of one side that are taken. Those of a capture stay in memory if they are few, else
    in a temporary file; those of a recording are `sent` there."""

    def __init__(self, stored: ReadableBytes, sent: Stream | None,
                 ranges: list[tuple[int, int]]) -> None:
        self.stored, self.sent, self.ranges = stored, sent, ranges
        self.begins = list(itertools.accumulate((end - begin for begin, end in ranges), initial=0))
        self.size = self.begins[-1]  # bytes

    @functools.cached_property
    def heads(self) -> Heads:
        if self.sent and self.is_all:
            return heads_of(Window(self.sent), self.size, self.sent.forward())
        return heads_of(Window(self), self.size)

    @property
    def is_all(self) -> bool:
        """Whether it is all that was sent."""
        return self.sent is not None and self.size == self.sent.size

    def read(self, begin: int, size: int) -> bytes:
        """Returns the bytes from `begin` on: `size` of them, or fewer at the stream's end."""
        return b''.join(self.stored.read(low, high - low)
                        for low, high in self.ranges_of(begin, begin + size))

    def ranges_of(self, begin: int, end: int) -> typing.Iterator[tuple[int, int]]:
        """Iterates over the ranges of the stored bytes in which these bytes are."""
        end, part = min(end, self.size), bisect.bisect_right(self.begins, begin) - 1
        while begin < end:
            part_end = min(end, self.begins[part + 1])
            shift = self.ranges[part][0] - self.begins[part]
            yield begin + shift, part_end + shift
            begin, part = part_end, part + 1

    def part(self, runs: typing.Iterable[tuple[int, int]]) -> 'TakenStream':
        """Returns a stream of some runs of the bytes, from where each begins to where it ends."""
        ranges = [piece for begin, end in runs for piece in self.ranges_of(begin, end)]
        return TakenStream(self.stored, self.sent, ranges)

    def sequences(self, begin: int, end: int) -> typing.Iterator[tuple[int, int]]:
        """Iterates over the pieces of some bytes, by sequence number and size."""
        first = self.sent.first if self.sent else 0
        for low, high in self.ranges_of(begin, end):
            yield (first + low) % SEQUENCE_SPACE, high - low

    def blocks(self) -> typing.Iterator[bytes]:
        """Iterates over all bytes in order, in blocks of 65,536 and a last one."""
        for begin in range(0, self.size, CHUNK):
            yield self.read(begin, CHUNK)

    def records(self) -> typing.Iterator[Record]:
        """Iterates over the records in order. The last one may be cut."""
        window = Window(self)
        for number, extent in enumerate(extents(window, 0, self.size), 1):
            yield Record(number, body_of(window, extent))

    def extent(self, number: int) -> Extent | None:
        """Returns where a record stands, if there is one of this number, from 1."""
        begins = self.heads.begins
        return (extent_of(Window(self), begins[number - 1], self.size)
                if 0 < number <= len(begins) else None)

    def brought(self) -> typing.Iterator[Brought]:
        """Iterates over the frames that brought the bytes, in order of the bytes, if they are of a
        recording. Each has the place of its first byte in the stream, which for the first of them
        may be before the stream."""
        for (low, high), at in zip(self.ranges, self.begins):
            if self.sent is not None:
                shift, found = at - low, self.sent.between(low, high)
                yield from found if not shift else (
                    brought._replace(begin=brought.begin + shift) for brought in found)

    def completions(self) -> typing.Iterator[Completion]:
        """Iterates over the records in order: what completed each. Of the frames that brought bytes
        of a record the one with the largest number completed it. The last record may be cut."""
        brought, held = self.brought(), NOTHING
        following = next(brought, NOTHING_MORE)
        for extent in extents(Window(self), 0, self.size):
            begin, end = extent[:2]
            last = held if following.begin > begin else NOTHING
            while following.begin < end:
                held, following = following, next(brought, NOTHING_MORE)
                last = held if held.number > last.number else last
            yield Completion(end - begin, last.number, last.time)

    def first_frames(self) -> typing.Iterator[int]:
        """Iterates over the records: the frame that brought the first byte, 0 if none is noted."""
        brought, held = self.brought(), NOTHING
        following = next(brought, NOTHING_MORE)
        for extent in extents(Window(self), 0, self.size):
            while following.begin <= extent.begin:
                held, following = following, next(brought, NOTHING_MORE)
            yield held.number

    def count_records(self) -> int:
        """Returns the number of records, of which the last may be cut."""
        return len(self.heads.begins)

    def frames(self, begin: int, end: int) -> list[FrameRef]:
        """Returns the frames that brought the bytes, in order of their numbers, each once."""
        if self.sent is None:
            return []
        brought = itertools.chain.from_iterable(
            self.sent.between(*piece) for piece in self.ranges_of(begin, end))
        return sorted({FrameRef(one.number, one.time) for one in brought})


class TakenConnection(typing.NamedTuple):
    """A connection that is taken; of a capture what is said of its ends is empty.

    number, stream_number: from 1, as in places, and Wireshark's tcp.stream, from 0
    client_end, server_end: as '192.0.2.7:700' or '[2001:db8::7]:700'
    ends: both, first the one that sent the first segment, as '192.0.2.7:700 and 192.0.2.1:2049'
    why: how it is known which end is the client, as 'by the SYN'
    notes: what was left out of its streams, as 'client: 12 bytes are missing ..'
    missing: the bytes of both sides that were sent and are not in the recording, as far as it shows
    lacks: why it is in part, other than for these bytes
    is_closed: whether the recording shows that an end closed or reset it
    opened_by: the frames of the SYN of each end, as far as they were recorded
    """
    number: int
    stream_number: int | None
    client_end: str
    server_end: str
    ends: str
    why: str
    client: TakenStream
    server: TakenStream
    notes: list[str]
    missing: int = 0
    lacks: tuple[str, ...] = ()
    is_closed: bool = False
    opened_by: tuple[int, ...] = ()

    @property
    def server_port(self) -> int | None:
        return int(self.server_end.rpartition(':')[2]) if self.server_end else None

    def stream(self, side: Side) -> TakenStream:
        return self.client if side == 'client' else self.server

    def capture(self) -> typing.Iterator[bytes]:
        """Iterates over the bytes of a capture of this connection alone."""
        return capture_of([(self.client, self.server)])


class Taken:
    """The connections of a recording or capture, and those that are left out. As a context manager
    it removes the temporary files at its end.

    read: the recording; of a capture `None`
    remarks, notes: what else is not judged, though it is of no connection, and what is said of
        the whole, a sentence each
    damage: why what follows could not be read, or None; a recording that ends in the middle of a
        frame is not damaged
    nothing: what is said if there is no connection
    parts: those of a recording that has several, in order
    is_packed: whether nfs3streams finds whole just the connections that are taken
    """

    def __init__(self, spool: Spool, read: ReadRecording | None,
                 ports: frozenset[int] = NFS_PORTS) -> None:
        self.spool, self.read, self.ports = spool, read, ports
        self.connections: list[TakenConnection] = []
        self.left_out: list[Covered] = []
        self.remarks: list[Covered] = []
        self.notes: list[str] = []
        self.damage: str | None = None
        self.nothing = 'no connection to judge'
        self.parts: list[Part] = []
        self.is_packed = False

    @property
    def is_recording(self) -> bool:
        return self.read is not None

    @property
    def begun(self) -> int:
        """The time of the first frame, in nanoseconds since 1970; 0 if it is not known."""
        return self.read.begun if self.read else 0

    @property
    def ended(self) -> int:
        """The time of the last frame."""
        return self.read.times[-1] if self.read and self.read.times else 0

    @property
    def missing(self) -> int:
        """The bytes of all connections that are missing from the recording."""
        return (sum(one.missing for one in self.connections)
                + sum(one.missing for one in self.left_out))

    def covered_connection(self, connection: TakenConnection) -> Covered:
        """Returns under which word a connection that is taken comes."""
        covered = of_connection(called_in(connection.client.heads), connection.server_port,
                                self.ports, connection.missing, connection.lacks)
        return covered._replace(number=connection.number, ends=connection.ends)

    def covered(self) -> typing.Iterator[Covered]:
        """Iterates over all connections and remarks, each under its word."""
        yield from map(self.covered_connection, self.connections)
        yield from self.not_taken()

    def not_taken(self) -> typing.Iterator[Covered]:
        yield from self.left_out
        yield from self.remarks

    def count_records(self) -> int:
        """Returns how many records all streams have."""
        return sum(stream.count_records() for connection in self.connections
                   for stream in (connection.client, connection.server))

    def pairs(self) -> list[tuple[TakenStream, TakenStream]]:
        return [(connection.client, connection.server) for connection in self.connections]

    def write_capture(self, path: str, inputs: typing.Iterable[str] = ()) -> None:
        """Writes the connections as a capture of version 1, in place of an older one perhaps.
        Raises what `capture` and `write_file` do; then the file is as it was."""
        write_file(path, self.capture(), inputs, (CAPTURE,))

    def capture(self) -> typing.Iterable[bytes]:
        """Returns them as a capture of version 1, in blocks. Raises `NotTaken` if too many."""
        size = sum(stream.size for pair in self.pairs() for stream in pair)
        if len(self.connections) > MOST_CONNECTIONS:
            raise NotTaken(f'{len(self.connections)} connections are more than the '
                           f'{MOST_CONNECTIONS} of a capture')
        if size > MOST_BYTES:
            raise NotTaken(f'{size} bytes of streams are more than the {MOST_BYTES} of a capture')
        return capture_of(self.pairs())

    def frames(self, place: Place | FilePlace) -> list[FrameRef]:
        """Returns the frames that carry a byte, or all that carry a record if the place names no
        byte, or nothing if no frames are noted. Of a byte it is the first that brought it, and at
        the end of a body that of the last byte. Raises `NoPlace` if there is no such record or
        byte."""
        if isinstance(place, FilePlace):
            found = place_in(self.pairs(), place.byte)
            if found is None:
                raise NoPlace(f'byte {place.byte} of the capture is not of a stream, '
                              'so no frame carries it')
            index, side, at = found
            return self.connections[index].stream(SIDES[side]).frames(at, at + 1)
        stream, extent = self.record_at(place)
        return stream.frames(*range_of_place(stream, extent, place))

    def record_at(self, place: Place) -> tuple[TakenStream, Extent]:
        """Returns the stream of a record, and where it is there. Raises `NoPlace` if it is not."""
        # (some may be left out)
        at = bisect.bisect_left([one.number for one in self.connections], place.connection)
        if at == len(self.connections) or self.connections[at].number != place.connection:
            raise NoPlace(f'there is no connection {place.connection}')
        stream = self.connections[at].stream(place.side)
        extent = stream.extent(place.record)
        if extent is None:
            raise NoPlace(f'there is no {place._replace(byte=None)}')
        return stream, extent

    def all_frames(self) -> typing.Iterator[FrameRef]:
        """Iterates over the frames that brought bytes, stream by stream, if frames are noted."""
        for stream in itertools.chain.from_iterable(self.pairs()):
            yield from (FrameRef(number, time) for _, number, time in stream.brought())

    def ends(self) -> tuple[FrameRef, FrameRef] | None:
        """Returns the first and the last of these frames, if there are some."""
        first = min(self.all_frames(), default=None)
        return None if first is None else (first, max(self.all_frames()))

    def __enter__(self) -> 'Taken':
        return self

    def __exit__(self, *_: object) -> None:
        self.spool.close()
        if self.read:
            self.read.close()


def range_of_place(stream: TakenStream, extent: Extent, place: Place) -> tuple[int, int]:
    """The bytes of a stream that a place names: the whole record, or the byte of its body."""
    if place.byte is None:
        return extent.begin, extent.end
    left, last = place.byte, extent.begin
    for begin, end in fragments(Window(stream), extent):
        if left < end - begin:
            return begin + left, begin + left + 1
        left, last = left - (end - begin), max(last, end - 1)
    if left:
        raise NoPlace(f'there is no {place}: the body is shorter')
    return last, last + 1


# --- Taking ---

def take(path: str, options: Options = Options(), shows_progress: bool = True) -> Taken:
    """Reads a recording or a capture, `-` for standard input. A path that is the name of no file is
    a pattern, whose files are parts of one recording. `shows_progress` is whether it is shown on a
    terminal how much of what is compressed was read. Raises `NotTaken`, `Missing`, and
    `OSError`."""
    progress, files = Progress(shows_progress), files_of(path)
    try:
        taken = (take_parts(files, options, progress) if len(files) > 1
                 else take_file(files[0], options, progress))
    except NoRecording as refused:
        raise NotTaken(str(refused), refused.packed_by) from refused
    except Damaged as damaged:
        raise NotTaken(str(damaged)) from damaged
    finally:
        progress.end()
    taken.notes += [f'{escaped(name)} is no recording, and is skipped' for name in skipped_of(path)]
    return taken


def take_file(path: str, options: Options, progress: Progress) -> Taken:
    """Takes a recording or capture of one file."""
    with opened(path) as file:
        source = Source(file)
        if source.peek(8) in MAGICS:
            return of_capture(source)
        taken = taken_in(read_source(source, path, progress, options.checked_by), options)
    begun = sum(BEGUN_BEFORE in left_out.lacks for left_out in taken.left_out)
    pattern = pattern_beside(path) if begun else None
    if pattern:
        taken.notes.append(f'it begins in the middle of {count(begun, "connection")}: if it is a '
                           'part of a recording, as of `tcpdump -C`, name all parts in its place, '
                           f'as {pattern}')
    return taken


def read_source(source: Source, path: str, progress: Progress,
                checked_by: str = '') -> ReadRecording:
    """Reads a recording, which may be compressed."""
    check_recording(source)
    progress.begin('reading the recording')
    with plain_file(source, path, progress) as (name, damage):
        return read_recording(name, damage, checked_by)


class PartRead(typing.NamedTuple):
    """A part of a recording that was read: its file, the time of its first frame, how many it has,
    why not all of it could be read, and where it is in a file of all parts."""
    path: str
    begun: int
    frames: int
    cut: str | None
    damage: str | None
    place: FileRange


def take_parts(files: list[str], options: Options, progress: Progress) -> Taken:
    """Takes several files as the parts of one recording, in the order of the times of their first
    frames, and of their numbers if these are equal."""
    with tempfile.TemporaryFile() as unsorted, tempfile.NamedTemporaryFile(
            prefix='nfs3canon') as joined:
        parts = [part_read(path, progress, unsorted) for path in files]
        parts.sort(key=lambda part: (part.begun, len(part.path), part.path))
        for part in parts:
            copy_range(unsorted, part.place, joined)
        joined.flush()
        taken = taken_in(read_recording(joined.name, checked_by=options.checked_by), options)
    before = 0
    for part in parts:
        taken.parts.append(Part(part.path, before))
        add_end(taken, part, options, f'{part.path}: ')
        before += part.frames
    return taken


def part_read(path: str, progress: Progress, unsorted: typing.IO[bytes]) -> PartRead:
    """Reads a part of a recording, and appends its frames to a file."""
    try:
        with opened(path) as file:
            read = read_source(Source(file), path, progress)
    except (NoRecording, Damaged) as refused:
        raise NotTaken(f'{escaped(path)}: {refused}') from refused
    with contextlib.closing(read):
        begin = unsorted.tell()
        for piece in pcapng_of(read.frames()):
            write(unsorted, piece)
        return PartRead(path, read.begun, read.index.frames, read.cut, read.damage,
                        (begin, unsorted.tell() - begin))


def copy_range(source: typing.IO[bytes], place: FileRange, target: typing.IO[bytes]) -> None:
    at, size = place
    source.seek(at)
    while size:
        block = source.read(min(size, READ_AT_ONCE))
        write(target, block)
        size -= len(block)


@contextlib.contextmanager
def copied(content: Readable) -> typing.Iterator[typing.IO[bytes]]:
    """A temporary file with what is read."""
    with tempfile.NamedTemporaryFile(prefix='nfs3canon') as copy:
        while block := content.read(READ_AT_ONCE):
            copy.write(block)
        copy.flush()
        copy.seek(0)
        yield copy


def of_capture(source: Source) -> Taken:
    """The connections of a capture, up to the first that is not whole."""
    taken = Taken(Spool(), None)
    try:
        for streams in Container(source, taken.spool).connections():
            client, server = (TakenStream(stored, None, whole(stored)) for stored in streams)
            taken.connections.append(TakenConnection(
                len(taken.connections) + 1, None, '', '', '', '', client, server, []))
    except BadCapture:
        taken.damage = 'the capture is not whole, or has a word that cannot be there'
    except Damaged as damaged:
        taken.damage = str(damaged)
    return taken


def whole(stored: Stored) -> list[tuple[int, int]]:
    return [(0, stored.size)] if stored.size else []


def taken_in(read: ReadRecording, options: Options) -> Taken:
    """Takes the connections of a recording, which is closed if that fails."""
    with contextlib.ExitStack() as stack:
        stack.callback(read.close)
        taken = Taken(Spool(), read, (options.ports or NFS_PORTS) - {PORT_MAPPER})
        take_all(taken, read, options)
        stack.pop_all()
    return taken


def take_all(taken: Taken, read: ReadRecording, options: Options) -> None:
    others = others_in(read, taken.ports)
    taken.notes += notes_of(read, others)
    taken.remarks += remarks_of(others)
    taken.nothing = nothing_in(others)
    add_end(taken, read, options)
    packed = set[int]()
    for connection in connections_in(read.index, read.file, options.ports):
        packed |= {connection.number} if connection.is_packed else set()
        add(taken, connection, options)
    taken.is_packed = (packed == {one.stream_number for one in taken.connections}
                       and all(one.is_all for pair in taken.pairs() for one in pair))


def add_end(taken: Taken, read: ReadRecording | PartRead, options: Options,
            name: str = '') -> None:
    """Adds why not all of a recording could be read. A name is before what is said."""
    if read.cut and options.is_growing:
        taken.notes.append(name + read.cut)
    elif read.cut:
        taken.remarks.append(Covered('in part', name + read.cut))
    if read.damage:
        taken.notes.append(name + read.damage)
        taken.damage = taken.damage or name + read.damage


def add(taken: Taken, connection: Connection, options: Options) -> None:
    """Takes a connection, or says why it is left out."""
    if connection.is_bare:
        taken.left_out.append(without_calls(connection, 'no payload'))
        return
    if not is_of_rpc(connection, options.ports):
        taken.left_out.append(without_calls(connection, NO_RPC))
        return
    selected = select(connection, options.is_growing)
    if any(kept.ranges for kept in selected.kept):
        number = len(taken.connections) + 1
        taken.connections.append(taken_connection(number, connection, selected))
    else:
        taken.left_out.append(left_out_of(connection, selected))


def left_out_of(connection: Connection, selected: Selected) -> Covered:
    missing, why = sum(map(missing_of, connection.streams)), NO_POSITION
    if missing and not any(stream.size for stream in connection.streams):
        why = f'{count(missing, "byte")} acknowledged and not recorded'
    return Covered('left out', why, ends=' and '.join(connection.ends), missing=selected.missing,
                   lacks=(BEGUN_BEFORE,) if connection.client is None else ())


def without_calls(connection: Connection, why: str) -> Covered:
    """What is said of a connection in which there are no calls."""
    return Covered('left out', why, ends=' and '.join(connection.ends), shows_calls=False)


def taken_connection(number: int, connection: Connection, selected: Selected) -> TakenConnection:
    streams = connection.streams[selected.client], connection.streams[1 - selected.client]
    client, server = (TakenStream(stream, stream, kept.ranges)
                      for stream, kept in zip(streams, selected.kept))
    return TakenConnection(
        number, connection.number, connection.ends[selected.client],
        connection.ends[1 - selected.client], ' and '.join(connection.ends), selected.why, client,
        server, selected.notes, selected.missing, selected.lacks, connection.is_closed,
        connection.opened_by)

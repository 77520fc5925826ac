"""The index of a recording, which nfs3streams writes (docs/FORMATS.md, 'Indexes'): frames, and the
connections with their runs. It is mapped, and read where it lies."""
from __future__ import annotations

import ipaddress
import struct
import typing
from collections.abc import Iterator

MAGIC = b'NFS3IDX1'
# The magic; how many frames and connections, how many octets were read, and why no more.
INDEX_HEADER = struct.Struct('<8s4Q')
# Its time, where its octets are in the recording, how many there are and were on the wire, its link
# type, and whether it has a segment.
FRAME_ROW = struct.Struct('<2Q4I')
DECISION = struct.Struct('<Q')  # what is said of a connection
# Each end's address, version of IP and port; and which end is the client.
CONNECTION_ROW = struct.Struct('<16s2I16s2IQ')
# Whether something was sent; the number of position 2^30; where the stream begins and ends, up to
# where it was acknowledged, where it was reset, each with its frame, which is 0 if that is not
# known; strays and the frame of the first; how many pairs and runs follow.
STREAM_ROW = struct.Struct('<14Q')
# Words of 64 bits of a run: the position, the place in the recording, the frame above the size; and
# of a pair: the position, the place of the bytes that count, and the same three of the others.
RUN_WORDS, PAIR_WORDS = 3, 4
FIRST_POSITION = 1 << 30
SEQUENCE_SPACE = 1 << 32
NANOSECONDS = 1_000_000_000
# Why the reading of a recording ended, and why a frame has no segment, by their codes.
AT_ITS_END, CUT_SHORT = 0, 1
ENDINGS = ('the end', 'cut short', 'no recording', 'a frame is too long',
           'the byte order of a section is unknown', 'a block of an impossible size',
           'the two lengths of a block differ', 'a block is too short',
           'a frame of an interface that is not described', 'too many frames')
WHOLE = 2  # what is said of a connection that is whole
HAS_SEGMENT, HEADER_IS_CUT = 0, 2


class BadIndex(Exception):
    """What nfs3streams wrote is no index."""


class FrameRow(typing.NamedTuple):
    """A frame: nanoseconds since 1970, 0 if it has no time; where its octets are, and how many; how
    many it had on the wire; its link type; and `HAS_SEGMENT`, or why it has none.
    """
    time: int
    at: int
    size: int
    wire: int
    link: int
    outcome: int


class End(typing.NamedTuple):
    address: bytes
    port: int

    def __str__(self) -> str:
        host = str(ipaddress.ip_address(self.address))
        return f'[{host}]:{self.port}' if len(self.address) == 16 else f'{host}:{self.port}'


class StreamRow(typing.NamedTuple):
    """What one end sent, by `STREAM_ROW`, with its runs and pairs."""
    first: int
    marks: tuple[int, ...]
    runs: memoryview
    pairs: memoryview


class ConnectionRow(typing.NamedTuple):
    """A connection: its ends, what each of them sent, the place of the client among them, and
    whether nfs3streams finds it whole."""
    ends: tuple[End, End]
    client: int | None
    streams: tuple[StreamRow | None, StreamRow | None]
    is_packed: bool


class Index:
    """The index of a recording.

    ended, read: why its reading ended, and how many octets were read
    times: the times of all frames
    """

    def __init__(self, content: memoryview) -> None:
        if len(content) < INDEX_HEADER.size:
            raise BadIndex
        head = INDEX_HEADER.unpack_from(content)
        magic, self.frames, self.connections, self.read, self.ended = head
        self.decisions = INDEX_HEADER.size + self.frames * FRAME_ROW.size
        self.begin = self.decisions + self.connections * DECISION.size
        if magic != MAGIC or self.begin > len(content):
            raise BadIndex
        self.content = content
        rows = content[INDEX_HEADER.size:self.decisions]
        self.times, words = rows.cast('Q')[::4], rows.cast('I')
        self.sizes, self.wires, self.outcomes = words[4::8], words[5::8], words[7::8]

    def frame(self, number: int) -> FrameRow:
        """Returns a frame by its number, from 1."""
        return FrameRow._make(
            FRAME_ROW.unpack_from(self.content, INDEX_HEADER.size + (number - 1) * FRAME_ROW.size))

    def rows(self) -> Iterator[ConnectionRow]:
        """Iterates over the connections, in the order of their first segments."""
        at = self.begin
        for number in range(self.connections):
            lower, version, port, higher, other_version, other_port, client = (
                CONNECTION_ROW.unpack_from(self.content, at))
            at += CONNECTION_ROW.size
            heads = [STREAM_ROW.unpack_from(self.content, at + side * STREAM_ROW.size)
                     for side in (0, 1)]
            at += 2 * STREAM_ROW.size
            streams = list[typing.Optional[StreamRow]]()
            for is_there, first, *marks, pairs, runs in heads:
                middle = at + runs * RUN_WORDS * 8
                end = middle + pairs * PAIR_WORDS * 8
                words = self.content[at:middle].cast('Q'), self.content[middle:end].cast('Q')
                streams.append(StreamRow(first, tuple(marks), *words) if is_there else None)
                at = end
            decision, = DECISION.unpack_from(self.content, self.decisions + number * DECISION.size)
            ends = end_of(lower, version, port), end_of(higher, other_version, other_port)
            yield ConnectionRow(ends, client - 1 if client else None, (streams[0], streams[1]),
                                decision == WHOLE)


def end_of(address: bytes, version: int, port: int) -> End:
    return End(address[:4] if version == 4 else address, port)

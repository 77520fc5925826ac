"""Connections of TCP, as the index of a recording has them."""
from __future__ import annotations

from collections.abc import Iterator

from .index import ConnectionRow, Index, StreamRow
from .streams import PlacesReader, Stream

NO_WORDS = memoryview(b'').cast('Q')
NOTHING_SENT = StreamRow(0, (0,) * 10, NO_WORDS, NO_WORDS)


class Connection:
    """Two ends, the one that sent first before the other, each with its stream.

    number: from 0, as Wireshark counts tcp.stream
    client: the end whose SYN has no ACK, if one was recorded
    is_packed: whether nfs3streams finds it whole
    """

    def __init__(self, number: int, row: ConnectionRow, file: PlacesReader,
                 times: memoryview) -> None:
        both = [Stream(stream or NOTHING_SENT, file, times, row.is_packed)
                for stream in row.streams]
        turn = sorted((0, 1), key=lambda end: (
            row.streams[end] is None, first_frame(both[end], both[1 - end])))
        self.number, self.is_packed = number, row.is_packed
        self.ends = str(row.ends[turn[0]]), str(row.ends[turn[1]])
        self.ports = row.ends[0].port, row.ends[1].port
        self.streams = both[turn[0]], both[turn[1]]
        self.client = None if row.client is None else turn.index(row.client)

    @property
    def is_bare(self) -> bool:
        """Whether no payload was recorded, and none is known to be missing."""
        return not any(stream.runs or stream.gap_at_end() for stream in self.streams)

    @property
    def first_payload(self) -> int:
        """The end that sent payload first."""
        first = [min(map(stream.frame_of, range(len(stream.positions))), default=1 << 64)
                 for stream in self.streams]
        return int(first[1] < first[0])

    @property
    def opened_by(self) -> tuple[int, ...]:
        """The frames of the SYN of both ends, as far as they were recorded."""
        return tuple(stream.opened.frame for stream in self.streams if stream.opened)

    @property
    def is_closed(self) -> bool:
        """Whether an end closed or reset it."""
        return any(stream.end is not None for stream in self.streams) or any(
            map(self.is_reset_by, (0, 1)))

    def is_reset_by(self, side: int) -> bool:
        """Whether an end reset it, and sent nothing after that."""
        stream = self.streams[side]
        return stream.reset is not None and stream.size <= stream.reset.position


def first_frame(stream: Stream, other: Stream) -> int:
    """The first frame that is known to be of an end, with the stream of the other."""
    marks = stream.opened, stream.end, stream.reset, other.acknowledged
    return min([mark.frame for mark in marks if mark]
               + [stream.frame_of(0) for _ in stream.positions[:1]], default=1 << 64)


def connections_in(index: Index, file: PlacesReader,
                   ports: frozenset[int]) -> Iterator[Connection]:
    """Iterates over the connections that have one of these ports; over all if there are none."""
    for number, row in enumerate(index.rows()):
        if not ports or not ports.isdisjoint((row.ends[0].port, row.ends[1].port)):
            yield Connection(number, row, file, index.times)

"""What a capture shows by its container alone: a model beside the program's, which looks into no
record, and the reader of the tests.

It does not use the reader of tools/nfs3tools/recordings/container.py, which gives neither the place
of a fault nor its reason.
"""
from dataclasses import dataclass, field
from typing import NoReturn, TypeVar

from examples.messages import MAGIC, MAGIC_2, chunk, version_1, word

MOST_CONNECTIONS, MOST_BYTES = 65_535, 1_073_741_824
CUT = 'CaptureCut'
Out = TypeVar('Out', str, bytes)
Streams = tuple[bytearray, bytearray]


class Shown(Exception):
    """A fault of the container."""


def no_streams() -> Streams:
    return bytearray(), bytearray()


@dataclass
class Connection:
    """The streams of the client and of the server, as far as they can be looked at, and how many of
    them are whole. In version 2 none can be looked at before the side word 0."""
    streams: Streams = field(default_factory=no_streams)
    whole: int = 0


class Container:
    """A capture, read up to the first fault of its container: `connections` has each whose word 1
    is there, and `line` is the fault, or None."""

    def __init__(self, capture: bytes) -> None:
        self.capture, self.at, self.total = capture, 0, 0
        self.connections: list[Connection] = []
        self.line: str | None = None
        try:
            self.read()
        except Shown as shown:
            self.line = '%s\n' % shown

    def read(self) -> None:
        """Reads the whole capture. Raises `Shown` at the first fault."""
        for wanted in zip(MAGIC, MAGIC_2):
            if self.taken(1)[0] not in wanted:
                self.refuse(self.at - 1, 'BadMagic')
        read_connection = self.read_version_2 if self.capture.startswith(
            MAGIC_2) else self.read_version_1
        while self.word(1):
            if len(self.connections) == MOST_CONNECTIONS:
                self.refuse(self.at - 4, 'TooManyConnections')
            self.connections.append(Connection())
            read_connection(self.connections[-1])
        if self.at < len(self.capture):
            self.refuse(self.at, 'AfterEnd')

    def read_version_1(self, connection: Connection) -> None:
        for stream in connection.streams:
            while size := self.length(0):
                self.append(stream, size)
            connection.whole += 1

    def read_version_2(self, connection: Connection) -> None:
        streams = no_streams()
        while side := self.word(2):
            self.append(streams[side - 1], self.length(1))
        connection.streams, connection.whole = streams, 2

    def append(self, stream: bytearray, size: int) -> None:
        """Appends the content of a chunk to a stream, or what is there of it."""
        stream += self.capture[self.at:self.at + size]
        self.taken(size)

    def word(self, most: int) -> int:
        """Reads a connection word or a side word, which is at most `most`."""
        number = int.from_bytes(self.taken(4), 'big')
        if number > most:
            self.refuse(self.at - 4, 'BadMark')
        return number

    def length(self, least: int) -> int:
        """Reads a length word, which is at least `least`, and adds it to the bytes of all
        streams."""
        number = int.from_bytes(self.taken(4), 'big')
        self.total += number
        if number < least:
            self.refuse(self.at - 4, 'BadMark')
        if self.total > MOST_BYTES:
            self.refuse(self.at - 4, 'TooManyBytes')
        return number

    def taken(self, size: int) -> bytes:
        """Reads so many bytes."""
        if len(self.capture) - self.at < size:
            self.refuse(len(self.capture), CUT)
        self.at += size
        return self.capture[self.at - size:self.at]

    @staticmethod
    def refuse(at: int, reason: str) -> NoReturn:
        raise Shown('file %d: %s' % (at, reason))

    def whole(self) -> list[Streams]:
        """Returns the streams of the connections that are whole."""
        return [connection.streams for connection in self.connections if connection.whole == 2]

    def older(self) -> bytes:
        """Returns the connections that are whole as a capture of version 1, a chunk for each
        stream."""
        return b''.join(version_1((in_one(client), in_one(server))
                                  for client, server in self.whole()))

    def answer(self, command: str, older: tuple[int, Out, str]) -> tuple[int, Out, str]:
        """Returns the status and the outputs of a command for a capture of version 2, from those
        for `older`. `canon` writes to standard output. A record's fault is known at its
        connection's side word 0, and so before the container's."""
        status, out, _ = older
        if status != 0 or self.line is None:
            return older
        if isinstance(out, bytes) and command == 'canon':
            return (2, out[:-4] + word(1) * (len(self.connections) - len(self.whole()))
                    if self.connections else b'', self.line)
        return 2, out if command == 'show' else out[:0], self.line


def in_one(stream: bytes | bytearray) -> list[bytes]:
    """Returns the chunks of a stream: one, or none if it is empty."""
    return [chunk(bytes(stream))] if stream else []


def bodies_of(stream: bytes | bytearray) -> list[bytes]:
    """Returns the bodies of a stream's records, up to the first record that is cut."""
    bodies, body, at = [], b'', 0
    while at + 4 <= len(stream):
        head = int.from_bytes(stream[at:at + 4], 'big')
        end = at + 4 + (head & 0x7fffffff)
        if end > len(stream):
            break
        body += stream[at + 4:end]
        at = end
        if head >> 31:
            bodies.append(body)
            body = b''
    return bodies

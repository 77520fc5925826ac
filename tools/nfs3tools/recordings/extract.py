"""Recordings of frames: some of a recording, as they were recorded, as a pcap of their own; those
of several files as a pcapng."""
from __future__ import annotations

import struct
from collections.abc import Iterable, Iterator, Sequence

from ..shared.kinds import PCAP
from ..shared.outputs import Refused
from .index import NANOSECONDS
from .reading import Frame

SNAP_LENGTH = 1 << 18  # of tcpdump
MICROSECOND = 1_000
SECTION_HEADER = struct.pack('<IHHq', 0x1a2b3c4d, 1, 0, -1)
SECTION_BLOCK, INTERFACE_BLOCK, PACKET_BLOCK = 0x0a0d0d0a, 1, 6
IN_NANOSECONDS = struct.pack('<HHI', 9, 1, 9)  # an option of an interface
PCAP_MAGICS = {scale: magic for magic, (order, scale) in PCAP.items() if order == '<'}


def pcap_of(frames: Sequence[Frame]) -> Iterator[bytes]:
    """Iterates over the bytes of a recording of these frames, with their times and their link type.
    Raises `Refused` if no pcap can hold them."""
    links = {frame.link for frame in frames}
    if len(links) > 1:
        types = ', '.join(map(str, sorted(links)))
        raise Refused(f'the frames have the link types {types}, and a pcap has one')
    if any(not 0 <= frame.time < NANOSECONDS << 32 for frame in frames):
        raise Refused('a frame has a time that a pcap cannot have')
    unit = 1 if any(frame.time % MICROSECOND for frame in frames) else MICROSECOND
    longest = max([SNAP_LENGTH, *(len(frame.data) for frame in frames)])
    yield PCAP_MAGICS[unit] + struct.pack('<HHiIII', 2, 4, 0, 0, longest,
                                          links.pop() if links else 1)
    for frame in frames:
        seconds, rest = divmod(frame.time, NANOSECONDS)
        yield struct.pack('<4I', seconds, rest // unit, len(frame.data), frame.length) + frame.data


def pcapng_of(frames: Iterable[Frame]) -> Iterator[bytes]:
    """Iterates over the bytes of a recording of these frames, of any link types."""
    yield block_of(SECTION_BLOCK, SECTION_HEADER)
    interfaces = dict[int, int]()
    for frame in frames:
        if frame.link not in interfaces:
            interfaces[frame.link] = len(interfaces)
            yield block_of(INTERFACE_BLOCK, struct.pack('<HHI', frame.link, 0, 0) + IN_NANOSECONDS)
        head = struct.pack('<5I', interfaces[frame.link], frame.time >> 32, frame.time & 0xffffffff,
                           len(frame.data), frame.length)
        yield block_of(PACKET_BLOCK, head + frame.data)


def block_of(kind: int, body: bytes) -> bytes:
    """A block of pcapng."""
    body += bytes(-len(body) % 4)
    size = len(body) + 12
    return struct.pack('<II', kind, size) + body + struct.pack('<I', size)

"""Frames whose payload of TCP is trimmed to the bytes that are wanted of it, as if they had been
sent so: sequence numbers are moved, those of SYN right before these bytes, and the lengths and
checksums of IP and TCP made anew. All else of a frame stays, but FIN after bytes that are gone.
"""
from __future__ import annotations

import struct
from collections.abc import Iterable, Mapping, Sequence

from .index import SEQUENCE_SPACE
from .layers import ACK, FIN, SYN, TCP, TcpHeaders, number_at, tcp_headers
from .reading import Frame

SEQUENCE_AT, ACKNOWLEDGED_AT, FLAGS_AT, CHECKSUM_AT = 4, 8, 13, 16  # in a header of TCP
ADDRESSES_4, ADDRESSES_6 = (12, 20), (8, 40)  # in a header of IP
IPV6_SIZE = 40  # bytes of a header without extensions
LONGEST_DATAGRAM = 0xffff  # bytes of a datagram that has its length in its header
SequenceRange = tuple[int, int]  # the sequence number of the first, and how many
Ends = tuple[bytes, bytes]  # the address and port of who sent a segment, and of who got it


def trimmed(frames: Iterable[Frame],
            wanted: Mapping[int, Sequence[SequenceRange]]) -> tuple[list[Frame], list[int]]:
    """Returns frames without the bytes before the first and after the last of those that are wanted
    of each, by its number, and SYN right before what is left. The second are the numbers of those
    that cannot be trimmed."""
    found, whole = list[Frame](), list[int]()
    for frame in frames:
        shorter = with_bytes(frame, wanted[frame.number]) if frame.number in wanted else frame
        found.append(shorter or frame)
        whole += [frame.number] if shorter is None else []
    begins = beginnings(found)
    return [beside(frame, begins) for frame in found], whole


def beginnings(frames: Iterable[Frame]) -> dict[Ends, int]:
    """Returns the lowest sequence number of the payload of each end."""
    found = dict[Ends, int]()
    for frame in frames:
        headers = tcp_headers(frame)
        if headers and headers.payload < headers.end:
            ends = ends_of(frame.data, headers)
            sequence = number_at(frame.data, headers.segment + SEQUENCE_AT, 4)
            ahead = sequence - found.setdefault(ends, sequence)
            if ahead % SEQUENCE_SPACE >= SEQUENCE_SPACE // 2:
                found[ends] = sequence
    return found


def ends_of(data: bytes, headers: TcpHeaders) -> Ends:
    low, high = addresses_at(data, headers.datagram)
    middle, ports = (low + high) // 2, headers.segment
    return (data[low:middle] + data[ports:ports + 2], data[middle:high] + data[ports + 2:ports + 4])


def addresses_at(data: bytes, at: int) -> tuple[int, int]:
    """Returns where both addresses of a datagram begin and end."""
    low, high = ADDRESSES_4 if data[at] >> 4 == 4 else ADDRESSES_6
    return at + low, at + high


def beside(frame: Frame, begins: Mapping[Ends, int]) -> Frame:
    """Returns a SYN right before the payload of its end, acknowledging no more than what comes
    before that of the other. Any other frame is returned as it is."""
    headers, data = tcp_headers(frame), frame.data
    if (headers is None or not data[headers.segment + FLAGS_AT] & SYN
            or headers.payload < headers.end):
        return frame
    ends, at = ends_of(data, headers), headers.segment
    first = begins.get(ends, number_at(data, at + SEQUENCE_AT, 4) + 1)
    other = begins.get(ends[::-1]) if data[at + FLAGS_AT] & ACK else None
    moved = with_payload(data, headers, (first - 1) % SEQUENCE_SPACE, 0, 0, other)
    return frame._replace(data=moved, length=len(moved))


def with_bytes(frame: Frame, wanted: Iterable[SequenceRange]) -> Frame | None:
    """Returns a frame with the bytes that are wanted of it; `None` if it cannot be trimmed."""
    headers = tcp_headers(frame)
    if headers is None:
        return None
    sequence = number_at(frame.data, headers.segment + SEQUENCE_AT, 4)
    size = headers.end - headers.payload
    pieces = [piece for piece in (within(sequence, size, *one) for one in wanted)
              if piece[0] < piece[1]]
    begin = min((low for low, _ in pieces), default=0)
    end = max((high for _, high in pieces), default=size)
    if begin == 0 and end == size:
        return frame
    if frame.data[headers.segment + FLAGS_AT] & SYN:
        return None
    data = with_payload(frame.data, headers, (sequence + begin) % SEQUENCE_SPACE, begin, end)
    return frame._replace(data=data, length=len(data))


def within(own: int, own_size: int, sequence: int, size: int) -> tuple[int, int]:
    """Returns where bytes begin and end in the payload of a segment, if there are some."""
    half = SEQUENCE_SPACE // 2
    begin = (sequence - own + half) % SEQUENCE_SPACE - half
    return max(0, begin), min(own_size, begin + size)


def with_payload(data: bytes, headers: TcpHeaders, sequence: int, begin: int, end: int,
                 acknowledged: int | None = None) -> bytes:
    """Returns a frame with a part of its payload, a sequence number, and perhaps another
    acknowledgment number."""
    at, payload = headers.datagram, data[headers.payload:headers.end]
    header = bytearray(data[headers.segment:headers.payload])
    struct.pack_into('>I', header, SEQUENCE_AT, sequence)
    if acknowledged is not None:
        struct.pack_into('>I', header, ACKNOWLEDGED_AT, acknowledged)
    if end < len(payload):
        header[FLAGS_AT] &= ~FIN
    content = bytes(header) + payload[begin:end]
    outer = bytearray(data[at:headers.segment])
    size = len(outer) + len(content)
    if size > LONGEST_DATAGRAM:  # as of a card that cuts segments itself, which says no length then
        size = 0
    if outer[0] >> 4 == 4:
        struct.pack_into('>H', outer, 2, size)
        struct.pack_into('>H', outer, 10, 0)
        struct.pack_into('>H', outer, 10, checksum(bytes(outer)))
    else:
        struct.pack_into('>H', outer, 4, size and size - IPV6_SIZE)
    addresses = data[slice(*addresses_at(data, at))]
    return data[:at] + bytes(outer) + with_checksum(content, addresses)


def with_checksum(content: bytes, addresses: bytes) -> bytes:
    """Returns a segment with its checksum (RFC 9293, section 3.1)."""
    content = content[:CHECKSUM_AT] + bytes(2) + content[CHECKSUM_AT + 2:]
    pseudo = addresses + struct.pack('>II', len(content), TCP)
    return content[:CHECKSUM_AT] + struct.pack('>H', checksum(pseudo + content)) + content[
        CHECKSUM_AT + 2:]


def checksum(content: bytes) -> int:
    """Returns the checksum of the internet (RFC 1071)."""
    words: tuple[int, ...] = struct.unpack(f'>{len(content) // 2}H', content[:len(content) & ~1])
    total = sum(words) + (content[-1] << 8 if len(content) % 2 else 0)
    while total >> 16:
        total = (total & 0xffff) + (total >> 16)
    return ~total & 0xffff

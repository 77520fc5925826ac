"""Recordings of all kinds, packet by packet, around the segments of examples/packets.py."""
import struct
from collections.abc import Iterable

from examples.packets import IPV4, IPV6

NANOSECONDS = 0xa1b23c4d
SECTION, INTERFACE, OBSOLETE, SIMPLE, NAMES, ENHANCED = 0x0a0d0d0a, 1, 2, 3, 4, 6
ETHERNET = 1


def block(kind: int, body: bytes, order: str = '<') -> bytes:
    body += bytes(-len(body) % 4)
    size = struct.pack(order + 'I', 12 + len(body))
    return struct.pack(order + 'I', kind) + size + body + size


def section(order: str = '<') -> bytes:
    return block(SECTION, struct.pack(order + 'IHHq', 0x1a2b3c4d, 1, 0, -1), order)


def interface(link: int = ETHERNET, order: str = '<', kept: int = 65_535, unit: int | None = None,
              offset: int | None = None) -> bytes:
    """`unit` is if_tsresol, `offset` if_tsoffset in seconds."""
    options = b''
    if unit is not None:
        options += struct.pack(order + 'HHB3x', 9, 1, unit)
    if offset is not None:
        options += struct.pack(order + 'HHq', 14, 8, offset)
    return block(INTERFACE, struct.pack(order + 'HHI', link, 0, kept) + options
                 + (bytes(4) if options else b''), order)


def enhanced(frame: bytes, number: int = 0, index: int = 0, order: str = '<',
             length: int | None = None) -> bytes:
    """A frame at so many units of the interface's time."""
    sizes = len(frame), len(frame) if length is None else length
    return block(ENHANCED, struct.pack(order + '5I', index, number >> 32, number & 0xffffffff,
                                       *sizes) + frame, order)


def simple(frame: bytes, order: str = '<') -> bytes:
    return block(SIMPLE, struct.pack(order + 'I', len(frame)) + frame, order)


def obsolete(frame: bytes, number: int = 0, index: int = 0, order: str = '<') -> bytes:
    return block(OBSOLETE, struct.pack(order + 'HH4I', index, 0, number >> 32, number & 0xffffffff,
                                       len(frame), len(frame)) + frame, order)


def pcapng(frames: Iterable[bytes], order: str = '<') -> bytes:
    """A section with one interface, and a block of another kind between."""
    packets = (enhanced(frame, number, 0, order) for number, frame in enumerate(frames))
    return section(order) + interface(order=order) + block(NAMES, bytes(4), order) + b''.join(
        packets)


def part_of(frame: bytes, begin: int, end: int, further: int = 0) -> bytes:
    """A frame of Ethernet, IP and TCP with a part of its payload, and right checksums. It may
    acknowledge further bytes."""
    at, payload = (14 + (20 if frame[14] >> 4 == 4 else 40)), frame[-len(frame):]
    content = frame[at:at + 20] + payload[at + 20:][begin:end]
    sequence = (int.from_bytes(content[4:8], 'big') + begin) % (1 << 32)
    numbers = struct.pack('>II', sequence, int.from_bytes(content[8:12], 'big') + further)
    content = content[:4] + numbers + content[12:16] + bytes(2) + content[18:]
    size = len(content).to_bytes(4, 'big')
    if at == 34:
        head = frame[14:16] + (20 + len(content)).to_bytes(2, 'big') + frame[18:24] + bytes(
            2) + frame[26:34]
        head = head[:10] + ones_complement(head) + head[12:]
        addresses = head[12:]
    else:
        head = frame[14:18] + size[2:] + frame[20:54]
        addresses = head[8:]
    total = ones_complement(addresses + size + b'\0\0\0\6' + content)
    return frame[:14] + head + content[:16] + total + content[18:]


def ones_complement(content: bytes) -> bytes:
    """The checksum of RFC 1071."""
    total = 0
    for at in range(0, len(content), 2):
        total += int.from_bytes(content[at:at + 2].ljust(2, b'\0'), 'big')
        total = total - 0xffff if total > 0xffff else total
    return (0xffff - total).to_bytes(2, 'big')


def cooked(content: bytes) -> bytes:
    """As `tcpdump -i any` records it (link type 113)."""
    return struct.pack('>HHH8xH', 0, 1, 6, content_kind(content)) + content


def cooked_2(content: bytes) -> bytes:
    """Version 2 of it (276)."""
    return struct.pack('>HHIHBB8x', content_kind(content), 0, 1, 1, 0, 6) + content


def loopback(content: bytes, order: str = '<') -> bytes:
    """As BSD records its loopback (0); in the byte order of the network (108)."""
    return struct.pack(order + 'I', 2 if content[0] >> 4 == 4 else 30) + content


def content_kind(content: bytes) -> int:
    return IPV6 if content[0] >> 4 == 6 else IPV4


def in_snap(content: bytes) -> bytes:
    """A frame of IEEE 802.3 with the headers LLC and SNAP (RFC 1042)."""
    carried = b'\xaa\xaa\3\0\0\0' + struct.pack('>H', content_kind(content)) + content
    return bytes(12) + struct.pack('>H', min(len(carried), 1_500)) + carried


def udp(source: int, target: int, content: bytes) -> bytes:
    """A datagram of UDP, without a checksum."""
    return struct.pack('>4H', source, target, 8 + len(content), 0) + content


def in_vxlan(frame: bytes, port: int = 4789) -> bytes:
    """A frame of Ethernet in a datagram of UDP (RFC 7348)."""
    return udp(50_000, port, struct.pack('>II', 0x0800_0000, 7 << 8) + frame)


def in_geneve(kind: int, content: bytes, options: bytes = b'') -> bytes:
    """The same (RFC 8926), of what has this kind."""
    return udp(50_000, 6_081, struct.pack('>BBHI', len(options) // 4, 0, kind, 7 << 8) + options
               + content)


def in_gre(kind: int, content: bytes, key: bytes = b'', number: bytes = b'') -> bytes:
    """What has this kind in GRE (RFC 2890), perhaps with a key and a number of four bytes."""
    return struct.pack('>HH', 0x2000 * bool(key) | 0x1000 * bool(number),
                       kind) + key + number + content


def in_labels(content: bytes, labels: int = 2) -> bytes:
    """A frame of Ethernet with a datagram behind labels of MPLS (RFC 3032)."""
    packed = b''.join(struct.pack('>I', (16 + number) << 12 | (number == labels - 1) << 8 | 64)
                      for number in range(labels))
    return bytes(12) + struct.pack('>H', 0x8847) + packed + content


def in_session(content: bytes) -> bytes:
    """A frame of Ethernet with a datagram in a session of PPPoE (RFC 2516)."""
    kind = 0x0021 if content[0] >> 4 == 4 else 0x0057
    return bytes(12) + struct.pack('>HBBHHH', 0x8864, 0x11, 0, 1, 2 + len(content), kind) + content


def fragments(content: bytes, size: int, identification: int = 77) -> list[bytes]:
    """A datagram of IPv4 in fragments of `size` bytes, a multiple of eight."""
    head, payload = content[:20], content[20:]
    return [struct.pack('>BBHHH', 0x45, 0, 20 + len(payload[at:at + size]), identification,
                        at // 8 | (0x2000 if at + size < len(payload) else 0)) + head[8:]
            + payload[at:at + size] for at in range(0, len(payload), size)]


def fragments_6(content: bytes, size: int, identification: int = 77) -> list[bytes]:
    """The same of IPv6."""
    head, payload = content[:40], content[40:]
    return [struct.pack('>IHBB', 6 << 28, 8 + len(payload[at:at + size]), 44, 64) + head[8:]
            + struct.pack('>BBHI', head[6], 0, at | (at + size < len(payload)), identification)
            + payload[at:at + size] for at in range(0, len(payload), size)]


def extended(content: bytes, headers: list[tuple[int, bytes]]) -> bytes:
    """A datagram of IPv6 with extension headers, each its kind and its bytes."""
    kinds = [kind for kind, _ in headers] + [content[6]]
    packed = b''.join(bytes([kinds[at + 1]]) + body[1:] for at, (_, body) in enumerate(headers))
    return content[:4] + struct.pack('>HB', len(packed) + len(content) - 40,
                                     kinds[0]) + content[7:40] + packed + content[40:]

"""Recordings of packets, as `tcpdump` writes them, out of TCP segments (pcap, link type
Ethernet)."""
import ipaddress
import struct
from collections.abc import Iterable, Sequence

FIN, SYN, RST, ACK = 1, 2, 4, 16
CLIENT, SERVER = '192.0.2.7', '192.0.2.1'
IPV4, IPV6, VLAN = 0x0800, 0x86dd, 0x8100


def segment(ports: tuple[int, int], sequence: int, acknowledged: int, flags: int,
            payload: bytes = b'', options: bytes = b'') -> bytes:
    """A TCP segment. Checksums are left out, as network cards that make them themselves leave them
    out."""
    words = (5 + len(options) // 4) << 4
    head = struct.pack('>2H2IBB3H', *ports, sequence % (1 << 32), acknowledged % (1 << 32), words,
                       flags, 65_535, 0, 0)
    return head + options + payload


def datagram(source: str, target: str, content: bytes, protocol: int = 6) -> bytes:
    """An IP datagram of version 4 or 6, as the addresses are."""
    addresses = [ipaddress.ip_address(host) for host in (source, target)]
    packed = b''.join(address.packed for address in addresses)
    if addresses[0].version == 6:
        return struct.pack('>IHBB', 6 << 28, len(content), protocol, 64) + packed + content
    head = struct.pack('>BBHHHBBH', 0x45, 0, 20 + len(content), 0, 0, 64, protocol, 0)
    return head + packed + content


def ethernet(content: bytes, tags: Iterable[tuple[int, int]] = ()) -> bytes:
    """An Ethernet frame of a datagram; each tag of a VLAN is its type and its number."""
    packed = b''.join(struct.pack('>HH', *tag) for tag in tags)
    return bytes(12) + packed + struct.pack('>H', IPV6 if content[0] >> 4 == 6 else IPV4) + content


class Talk:
    """A connection, whose segments are made one by one as frames."""

    def __init__(self, port: int = 700, service: int = 2049,
                 hosts: tuple[str, str] = (CLIENT, SERVER),
                 first: tuple[int, int] = (1_000, 5_000), vlan: int | None = None) -> None:
        self.ports, self.hosts, self.next = (port, service), hosts, list(first)
        self.tags = [] if vlan is None else [(VLAN, vlan)]

    def datagram(self, side: int, flags: int, payload: bytes = b'', ahead: int = 0,
                 options: bytes = b'') -> bytes:
        """A segment of one side, 0 the client; `ahead` is how far it stands beyond the next
        byte."""
        ports = self.ports if side == 0 else (self.ports[1], self.ports[0])
        content = segment(ports, self.next[side] + ahead, self.next[1 - side], flags, payload,
                          options)
        return datagram(self.hosts[side], self.hosts[1 - side], content)

    def frame(self, side: int, flags: int, payload: bytes = b'', ahead: int = 0) -> bytes:
        return ethernet(self.datagram(side, flags, payload, ahead), self.tags)

    def sent(self, side: int, payload: bytes) -> bytes:
        frame = self.frame(side, ACK, payload)
        self.next[side] += len(payload)
        return frame

    def opened(self) -> list[bytes]:
        """The three segments of the handshake."""
        frames = [self.frame(0, SYN)]
        self.next[0] += 1
        frames.append(self.frame(1, SYN | ACK))
        self.next[1] += 1
        return [*frames, self.frame(0, ACK)]

    def closed(self) -> list[bytes]:
        frames = [self.frame(0, FIN | ACK)]
        self.next[0] += 1
        return [*frames, self.frame(1, FIN | ACK)]


def pcap(frames: Iterable[bytes], longest: int = 65_535, order: str = '<', magic: int = 0xa1b2c3d4,
         link: int = 1) -> bytes:
    """A recording that keeps the first bytes of each frame, a frame each microsecond (or
    nanosecond, as the magic says)."""
    header = struct.pack(order + 'IHHiIII', magic, 2, 4, 0, 0, longest, link)
    return header + b''.join(struct.pack(order + 'IIII', 1, number, len(frame[:longest]),
                                         len(frame)) + frame[:longest]
                             for number, frame in enumerate(frames))


def recording(*connections: Sequence[list[bytes]]) -> bytes:
    """A recording of connections, each with the records of its calls and of its replies; each
    record is a segment, and each reply comes right after its call."""
    frames = list[bytes]()
    for number, (calls, replies) in enumerate(connections):
        talk = Talk(700 + number)
        frames += talk.opened()
        for at in range(max(len(calls), len(replies))):
            frames += [talk.sent(side, records[at])
                       for side, records in enumerate((calls, replies)) if at < len(records)]
        frames += talk.closed()
    return pcap(frames)

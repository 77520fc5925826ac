"""The headers of frames: where those of IP and TCP are, and what frames carry that have no segment
of TCP."""
from __future__ import annotations

import typing

from .reading import Frame

FIN, SYN, ACK = 1, 2, 16
ETHERNET = 1
IPV4, IPV6, ANY_IP = 0x0800, 0x86dd, -1
BRIDGED, PPPOE = 0x6558, 0x8864  # kinds of what a tunnel carries: Ethernet; PPP over Ethernet
DISCOVERY = 0x8863  # of a session of PPPoE
MPLS = {0x8847, 0x8848}
FIRST_KIND = 0x600  # of Ethernet; a lesser number is a length (IEEE 802.3)
SNAP = b'\xaa\xaa\x03\0\0\0'  # begins what has a kind of Ethernet after a length (RFC 1042)
PPP = {0x0021: IPV4, 0x0057: IPV6}
PPP_CONTROL = 0x8000  # from here on PPP carries nothing but its own messages (RFC 1661)
VLAN_TAGS = {0x8100, 0x88a8, 0x9100}
IP_IN_IP, TCP, UDP, IPV6_IN_IP, FRAGMENT, GRE, AUTHENTICATION = 4, 6, 17, 41, 44, 47, 51
VXLAN, GENEVE = {4789, 8472}, 6081  # ports of UDP; Linux has 8472 unless it is given the other
TUNNELS_AT_MOST = 4  # one in the other
# Of IPv6, each with its length in its second byte
EXTENSIONS = {0, 43, 60, AUTHENTICATION, 135, 139, 140}
# The names of what is no segment of TCP, by the kind of Ethernet, by the protocol of IP and by the
# port of UDP. What may have segments in it has a star.
ETHERTYPES = {0x0806: 'ARP', 0x88cc: 'LLDP', DISCOVERY: 'PPPoE', PPPOE: 'PPPoE*', 0x8847: 'MPLS*',
              0x8848: 'MPLS*', 0x88e5: 'MACsec*', 0x88be: 'ERSPAN*', 0x22eb: 'ERSPAN*'}
PROTOCOLS = {1: 'ICMP', 2: 'IGMP', 58: 'ICMP', IP_IN_IP: 'IP in IP*', UDP: 'UDP',
             IPV6_IN_IP: 'IP in IP*', GRE: 'GRE*', 50: 'ESP*',
             AUTHENTICATION: 'AH*', 97: 'EtherIP*', 108: 'IPComp*', 115: 'L2TP*', 132: 'SCTP',
             137: 'MPLS in IP*'}
PORTS = {2152: 'GTP-U*', 1701: 'L2TP*', 4500: 'ESP in UDP*', 3544: 'Teredo*', GENEVE: 'Geneve*',
         **dict.fromkeys(VXLAN, 'VXLAN*')}

# Where the kind of the network layer stands (None: in the datagram itself), and where the datagram
# begins, by link type.
LINKS: dict[int, tuple[int | None, int]] = {
    # Ethernet, and cooked as `tcpdump -i any` records it, in both versions
    ETHERNET: (12, 14), 113: (14, 16), 276: (0, 20),
    # the loopback of BSD, in the byte order of the machine and of the network
    0: (None, 4), 108: (None, 4),
    # raw IP
    12: (None, 0), 14: (None, 0), 101: (None, 0), 228: (None, 0), 229: (None, 0)}


class TcpHeaders(typing.NamedTuple):
    """Where the datagram of a frame begins and ends, and its segment, and the payload."""
    datagram: int
    segment: int
    payload: int
    end: int


def tcp_headers(frame: Frame) -> TcpHeaders | None:
    """Returns where the headers of a frame with a segment of TCP are, unless it is in a tunnel or
    behind a label."""
    data, (kind, at) = frame.data, network_layer(frame.data, *LINKS[frame.link])
    if kind not in (IPV4, IPV6, ANY_IP) or at >= len(data):
        return None
    if data[at] >> 4 == 4:
        protocol, begin = data[at + 9], at + (data[at] & 15) * 4
        size = number_at(data, at + 2)
        end = at + size if size else frame.length
    else:
        protocol, begin = after_extensions(data, data[at + 6], at + 40)
        size = number_at(data, at + 4)
        end = at + 40 + size if size else frame.length
    if protocol != TCP:
        return None
    return TcpHeaders(at, begin, begin + (data[begin + 12] >> 4) * 4, min(end, len(data)))


def number_at(data: bytes, at: int, size: int = 2) -> int:
    return int.from_bytes(data[at:at + size], 'big')


class Others:
    """Frames that have no segment of TCP, or none that is read.

    unread: frames of TCP whose headers are not whole or do not fit their length, by their port of
        NFS, `None` if it is not known
    lying: the same to and from other ports
    fragments: frames with a fragment of a datagram of TCP
    links: frames whose link type is not known, by link type
    datagrams: those of UDP to or from a port of NFS, by port
    kinds: frames of known link types that carry no segment of TCP, by kind; a star marks those that
        may have one in a tunnel
    """

    def __init__(self, ports: frozenset[int] = frozenset()) -> None:
        self.ports = ports  # of NFS
        self.lying = self.fragments = 0
        self.unread: dict[int | None, int] = {}
        self.links: dict[int, int] = {}
        self.datagrams: dict[int, int] = {}
        self.kinds: dict[str, int] = {}
        self.tunnels = 0  # round what is looked at

    def take(self, frame: Frame) -> None:
        link = LINKS.get(frame.link)
        if link is None:
            self.links[frame.link] = self.links.get(frame.link, 0) + 1
            return
        self.tunnels = 0
        self.of_kind(*network_layer(frame.data, *link), frame.data, frame.length)

    def of_kind(self, kind: int, at: int, data: bytes, length: int) -> None:
        """Counts what a link layer or a tunnel carries."""
        if kind == BRIDGED:
            kind, at = network_layer(data, at + 12, at + 14)
        kind, at = in_labels(data, kind, at)
        version = data[at] >> 4 if at < len(data) else 0
        if at > len(data) or at == len(data) and kind in (IPV4, IPV6, ANY_IP):
            self.count_unread(data, at)
        elif version == 4 and kind in (IPV4, ANY_IP):
            self.of_ipv4(data, at, length)
        elif version == 6 and kind in (IPV6, ANY_IP):
            self.of_ipv6(data, at, length)
        else:
            self.count('LLC/SNAP*' if is_snap(kind, data, at) else kind_named(kind))

    def count(self, name: str) -> None:
        self.kinds[name] = self.kinds.get(name, 0) + 1

    def of_ipv4(self, data: bytes, at: int, length: int) -> None:
        if at + 20 > len(data):
            self.count_unread(data, len(data))
            return
        total, place, protocol = number_at(data, at + 2), number_at(data, at + 6), data[at + 9]
        begin, end = at + (data[at] & 15) * 4, at + total if total else length
        is_first = not place & 0x1fff
        if protocol == UDP and is_first:
            self.count_datagram(data, begin)
        if begin < at + 20 or end < begin or end > length:
            self.count_unfit(protocol, data, begin if begin >= at + 20 and is_first else len(data))
        else:
            self.of_protocol(protocol, data, begin, end, place & 0x3fff > 0)

    def of_ipv6(self, data: bytes, at: int, length: int) -> None:
        if at + 40 > len(data):
            self.count_unread(data, len(data))
            return
        size = number_at(data, at + 4)
        end = at + 40 + size if size else length
        following, begin = after_extensions(data, data[at + 6], at + 40)
        is_fragment, is_first = following == FRAGMENT, True
        if following in EXTENSIONS or is_fragment and begin + 8 > len(data):
            self.count_unread(data, len(data))
            return
        if is_fragment:
            is_first = not number_at(data, begin + 2) & 0xfff8
            following, begin = data[begin], begin + 8
        if following == UDP and is_first:
            self.count_datagram(data, begin)
        if end < begin or end > length:
            self.count_unfit(following, data, begin)
        else:
            self.of_protocol(following, data, begin, end, is_fragment)

    def of_protocol(self, protocol: int, data: bytes, begin: int, end: int,
                    is_fragment: bool) -> None:
        """Counts what a datagram of IP, or a fragment of one, carries."""
        carried = None if is_fragment else in_tunnel(protocol, data, begin, end)
        if protocol == TCP:
            self.of_tcp(data, begin, end, is_fragment)
        elif carried is None or self.tunnels == TUNNELS_AT_MOST:
            self.count(protocol_named(protocol, data, begin) if carried is None
                       else 'many tunnels*')
        else:
            self.tunnels += 1
            self.of_kind(*carried, data, end)

    def of_tcp(self, data: bytes, at: int, end: int, is_fragment: bool) -> None:
        if is_fragment:
            self.fragments += 1
        elif at + 20 > min(end, len(data)):
            self.count_unread(data[:end], at)
        else:
            self.count_unfit(TCP, data, at)

    def count_datagram(self, data: bytes, at: int) -> None:
        """Counts a datagram of UDP, or the first fragment of one, if it has a port of NFS."""
        port = self.port_in(data, at)
        if port is not None:
            self.datagrams[port] = self.datagrams.get(port, 0) + 1

    def port_in(self, data: bytes, at: int) -> int | None:
        """Returns the port of NFS at which a header of TCP or UDP begins, if it has one."""
        ports = (number_at(data, begin) for begin in (at, at + 2))
        return next((port for port in ports if port in self.ports), None)

    def count_unfit(self, protocol: int, data: bytes, at: int) -> None:
        """Counts a frame whose headers do not fit its length, of which that of TCP is at `at`."""
        if protocol != TCP:
            self.count(protocol_named(protocol, data, at))
        elif not self.count_unread(data, at):
            self.lying += 1

    def count_unread(self, data: bytes, at: int) -> bool:
        """Counts a frame of which no segment is read, if it has a port of NFS or its ports are not
        there. Returns whether it does."""
        port = self.port_in(data, at)
        is_counted = port is not None or at + 4 > len(data)
        if is_counted:
            self.unread[port] = self.unread.get(port, 0) + 1
        return is_counted


def network_layer(data: bytes, kind_at: int | None, at: int) -> tuple[int, int]:
    """The kind of the network layer, and where it begins, after tags of VLANs."""
    if kind_at is None:
        return ANY_IP, at
    kind = number_at(data, kind_at)
    while kind in VLAN_TAGS and at + 4 <= len(data):
        kind, at = number_at(data, at + 2), at + 4
    return kind, at


def kind_named(kind: int) -> str:
    """The name of what a link layer or a tunnel carries, if that is neither IPv4 nor IPv6."""
    if kind in (ANY_IP, IPV4, IPV6):
        return 'an unknown version of IP*'
    return ETHERTYPES.get(kind, f'the kind 0x{kind:04x}' if kind >= FIRST_KIND else 'IEEE 802.3')


def is_snap(kind: int, data: bytes, at: int) -> bool:
    """Whether IEEE 802.3 carries IP behind the headers LLC and SNAP."""
    carried = number_at(data, at + 6)
    return kind < FIRST_KIND and data[at:at + 6] == SNAP and carried in (IPV4, IPV6)


def protocol_named(protocol: int, data: bytes, at: int) -> str:
    """The name of a protocol of IP, or of what is known by a port of UDP, whose header is at
    `at`."""
    ports = (number_at(data, begin) for begin in (at + 2, at))
    known = [PORTS[port] for port in ports if protocol == UDP and port in PORTS]
    return known[0] if known else PROTOCOLS.get(protocol, f'the protocol {protocol} of IP')


def in_labels(data: bytes, kind: int, at: int) -> tuple[int, int]:
    """The kind of what is in MPLS (RFC 3032) or in a session of PPPoE (RFC 2516), and where it
    begins; of anything else its own."""
    if kind == PPPOE:
        protocol = number_at(data, at + 6)
        own = DISCOVERY if protocol >= PPP_CONTROL else kind
        return (PPP[protocol], at + 8) if protocol in PPP else (own, at)
    if kind not in MPLS:
        return kind, at
    while at + 4 < len(data) and not data[at + 2] & 1:
        at += 4
    return (ANY_IP if data[at + 4:at + 5] and data[at + 4] >> 4 in (4, 6) else kind), at + 4


def in_tunnel(protocol: int, data: bytes, begin: int, end: int) -> tuple[int, int] | None:
    """The kind of what a datagram of IP carries as a tunnel, and where that begins; `None` if it
    carries nothing that is known."""
    if protocol in (IP_IN_IP, IPV6_IN_IP):
        return (IPV4 if protocol == IP_IN_IP else IPV6), begin
    if protocol == GRE and begin + 4 <= len(data):
        return in_gre(data, begin)
    if protocol == UDP and begin + 16 <= min(end, len(data)):
        port, head = number_at(data, begin + 2), begin + 8
        if port in VXLAN and data[head] & 0x08:  # RFC 7348
            return BRIDGED, head + 8
        if port == GENEVE and not data[head] >> 6:  # RFC 8926
            return (number_at(data, head + 2),
                    head + 8 + (data[head] & 0x3f) * 4)
    return None


def in_gre(data: bytes, begin: int) -> tuple[int, int] | None:
    """The same of GRE (RFC 2784, 2890) without routing."""
    flags, kind = (number_at(data, begin),
                   number_at(data, begin + 2))
    if flags & 0x4007:  # routing, or another version
        return None
    return kind, begin + 4 + 4 * bin(flags >> 12 & 0b1011).count('1')


def after_extensions(data: bytes, following: int, at: int) -> tuple[int, int]:
    """What follows the extension headers of IPv6, and where it begins."""
    while following in EXTENSIONS and at + 2 <= len(data):
        size = (data[at + 1] + 2) * 4 if following == AUTHENTICATION else (data[at + 1] + 1) * 8
        following, at = data[at], at + size
    return following, at

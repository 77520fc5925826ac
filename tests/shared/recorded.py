"""A model of nfs3streams, by its rules and nothing else: frames, segments, connections and streams
of a recording, what is said of each connection, the capture, and the index.

It shares no code with the tools, and keeps all octets of a recording in memory.
"""
from __future__ import annotations

import bisect
import struct
from collections.abc import Iterator, Sequence
from dataclasses import dataclass, field
from typing import NamedTuple

ENDINGS = ('End', 'Cut', 'NotRecording', 'TooLong', 'BadOrder', 'BadSize', 'Unequal', 'TooShort',
           'NoInterface', 'TooMany')
NO_SEGMENT = ('UnknownLink', 'Cut', 'NotIp', 'BadIp', 'Fragment', 'NotTcp', 'BadTcp')
FIN, SYN, RST, ACK = 1, 2, 4, 16
LONGEST_FRAME, LONGEST_BLOCK = 1 << 24, 16_781_312
SPACE, HALF, FIRST = 1 << 32, 1 << 30, 1 << 30  # numbers, how far one may be, the first position
SERVED = (2049, 20048, 111)
Address = bytes
End = tuple[int, Address, int]  # the version of IP, the address, the port


class Stop(Exception):
    """No part of a recording begins there: why."""


class Lacks(Exception):
    """A frame has no segment: why."""


class Frame(NamedTuple):
    number: int
    time: int
    link: int
    at: int
    octets: bytes
    wire: int


class Segment(NamedTuple):
    source: End
    target: End
    sequence: int
    acknowledged: int
    flags: int
    begin: int
    size: int
    missing: int


# --- Frames ---

def read_frames(content: bytes) -> tuple[list[Frame], int, str]:
    """Returns the frames, how many octets were read, and why there is no other part."""
    frames: list[Frame] = []
    parts = blocks(content, frames) if content[:4] == b'\n\r\r\n' else records(content, frames)
    end = 0
    try:
        for end in parts:
            pass
    except Stop as why:
        return frames, end, str(why)
    raise AssertionError


def records(content: bytes, frames: list[Frame]) -> Iterator[int]:
    """Iterates over the ends of the parts of a pcap."""
    orders = {b'\xa1\xb2\xc3\xd4': ('>', 1000), b'\xd4\xc3\xb2\xa1': ('<', 1000),
              b'\xa1\xb2\x3c\x4d': ('>', 1), b'\x4d\x3c\xb2\xa1': ('<', 1)}
    if len(content) < 4:
        raise Stop('Cut')
    if content[:4] not in orders:
        raise Stop('NotRecording')
    if len(content) < 24:
        raise Stop('Cut')
    order, unit = orders[content[:4]]
    link = struct.unpack_from(order + 'I', content, 20)[0] % (1 << 16)
    at = 24
    yield at
    while True:
        if at == len(content):
            raise Stop('End')
        if at + 16 > len(content):
            raise Stop('Cut')
        seconds, fraction, size, wire = struct.unpack_from(order + '4I', content, at)
        if size > LONGEST_FRAME:
            raise Stop('TooLong')
        if at + 16 + size > len(content):
            raise Stop('Cut')
        frames.append(Frame(len(frames) + 1, seconds * 10 ** 9 + fraction * unit, link, at + 16,
                            content[at + 16:at + 16 + size], max(wire, size)))
        at += 16 + size
        yield at


def blocks(content: bytes, frames: list[Frame]) -> Iterator[int]:
    """Iterates over the ends of the blocks of a pcapng."""
    at, order, interfaces = 0, '<', list[tuple[int, int, int, int]]()
    while True:
        rest = len(content) - at
        if rest < 12:
            raise Stop('Cut' if rest else 'End')
        is_section = content[at:at + 4] == b'\n\r\r\n'
        if is_section:
            magics = {b'\x1a\x2b\x3c\x4d': '>', b'\x4d\x3c\x2b\x1a': '<'}
            if content[at + 8:at + 12] not in magics:
                raise Stop('BadOrder')
            order, interfaces = magics[content[at + 8:at + 12]], []
        kind, size = struct.unpack_from(order + '2I', content, at)
        if size % 4 or not 12 <= size <= LONGEST_BLOCK:
            raise Stop('BadSize')
        if size > rest:
            raise Stop('Cut')
        if struct.unpack_from(order + 'I', content, at + size - 4)[0] != size:
            raise Stop('Unequal')
        block = content[at:at + size]
        if is_section and size < 28:
            raise Stop('TooShort')
        if kind == 1 and not is_section:
            if size < 20:
                raise Stop('TooShort')
            link, _, kept = struct.unpack_from(order + 'HHI', block, 8)
            interfaces.append((link, kept, *clock_of(order, block[:-4])))
        elif kind in (2, 3, 6):
            frames.append(packet(order, kind, block, interfaces, len(frames) + 1, at))
        at += size
        yield at


def clock_of(order: str, body: bytes) -> tuple[int, int]:
    """How many units a second has, and the offset in nanoseconds."""
    units, offset, at = 10 ** 6, 0, 16
    while at + 4 <= len(body):
        code, size = struct.unpack_from(order + 'HH', body, at)
        if code == 0:
            break
        value = body[at + 4:at + 4 + size]
        if code == 9 and size == len(value) == 1:
            units = min((2 if value[0] & 128 else 10) ** (value[0] & 127), 1 << 127)
        if code == 14 and size == len(value) == 8:
            offset = struct.unpack(order + 'q', value)[0] * 10 ** 9
        at += 4 + (size + 3) // 4 * 4
    return units, offset


def packet(order: str, kind: int, block: bytes, interfaces: list[tuple[int, int, int, int]],
           number: int, at: int) -> Frame:
    room = len(block) - 16
    if len(block) < (16 if kind == 3 else 32):
        raise Stop('TooShort')
    index = {2: struct.unpack_from(order + 'H', block, 8)[0],
             6: struct.unpack_from(order + 'I', block, 8)[0]}.get(kind, 0)
    if index >= len(interfaces):
        raise Stop('NoInterface')
    link, kept, units, offset = interfaces[index]
    if kind == 3:
        wire = struct.unpack_from(order + 'I', block, 8)[0]
        size = min(room, min(wire, kept) if kept else wire)
        return Frame(number, 0, link, at + 12, block[12:12 + size], wire)
    high, low, size, wire = struct.unpack_from(order + '4I', block, 12)
    if 32 + size > len(block):
        raise Stop('TooLong')
    time = max(0, (high << 32 | low) * 10 ** 9 // max(units, 1) + offset)
    return Frame(number, time if time < 1 << 63 else 0, link, at + 28, block[28:28 + size],
                 max(wire, size))


# --- Segments ---

def number(octets: bytes, at: int, size: int = 2) -> int:
    return int.from_bytes(octets[at:at + size], 'big')


def segment_in(frame: Frame) -> Segment:
    octets, link = frame.octets, frame.link
    typed = {1: (12, 14), 113: (14, 16), 276: (0, 20)}.get(link)
    bare = {0: 4, 108: 4, 12: 0, 14: 0, 101: 0, 228: 0, 229: 0}.get(link)
    if typed is None and bare is None:
        raise Lacks('UnknownLink')
    versions, at = (behind_types(octets, *typed) if typed else ((4, 6), within(octets, bare or 0)))
    for _ in range(5):
        source, target, protocol, begin, end = datagram(octets, versions, at, frame.wire)
        if protocol == 6:
            return tcp(octets, source, target, begin, end)
        kind, at = tunnel(octets, protocol, begin)
        versions, at = (behind_types(octets, at + 12, at + 14) if kind == 0x6558
                        else leads(octets, kind, within(octets, at)))
    raise Lacks('NotTcp')


def within(octets: bytes, at: int) -> int:
    if at > len(octets):
        raise Lacks('Cut')
    return at


def behind_types(octets: bytes, place: int, at: int) -> tuple[Sequence[int], int]:
    kind = number(octets, place)
    for _ in range(2):
        if kind in (0x8100, 0x88a8, 0x9100):
            kind, at = number(octets, at + 2), at + 4
    return leads(octets, kind, within(octets, at))


def leads(octets: bytes, kind: int, at: int) -> tuple[Sequence[int], int]:
    if kind in (0x0800, 0x86dd):
        return (4,) if kind == 0x0800 else (6,), at
    if kind in (0x8847, 0x8848):
        while at + 4 <= len(octets) and not octets[at + 2] & 1:
            at += 4
        return (4, 6), within(octets, at + 4)
    if kind != 0x8864:
        raise Lacks('NotIp')
    within(octets, at + 8)
    versions = {0x21: (4,), 0x57: (6,)}.get(number(octets, at + 6))
    if versions is None:
        raise Lacks('NotIp')
    return versions, at + 8


def datagram(octets: bytes, versions: Sequence[int], at: int,
             wire: int) -> tuple[tuple[int, bytes], tuple[int, bytes], int, int, int]:
    if at >= len(octets):
        raise Lacks('Cut')
    version = octets[at] >> 4
    if version not in versions:
        raise Lacks('NotIp')
    within(octets, at + (20 if version == 4 else 40))
    if version == 4:
        begin, protocol, size = at + (octets[at] & 15) * 4, octets[at + 9], number(octets, at + 2)
        end, is_fragment = at + size if size else wire, number(octets, at + 6) & 0x3fff
        if begin < at + 20:
            raise Lacks('BadIp')
        addresses = octets[at + 12:at + 16], octets[at + 16:at + 20]
    else:
        begin, protocol, size = at + 40, octets[at + 6], number(octets, at + 4)
        end = begin + size if size else wire
        while protocol in (0, 43, 60):
            within(octets, begin + 2)
            protocol, begin = octets[begin], begin + 8 * (octets[begin + 1] + 1)
        is_fragment = protocol == 44
        addresses = octets[at + 8:at + 24], octets[at + 24:at + 40]
    if not begin <= end <= wire:
        raise Lacks('BadIp')
    if is_fragment:
        raise Lacks('Fragment')
    source, target = addresses
    return (version, source), (version, target), protocol, begin, end


def tunnel(octets: bytes, protocol: int, at: int) -> tuple[int, int]:
    """The kind of what a datagram carries as a tunnel, and where that begins."""
    if protocol in (4, 41):
        return 0x0800 if protocol == 4 else 0x86dd, at
    if protocol == 47:
        within(octets, at + 4)
        flags = number(octets, at)
        if flags & 0x4007:
            raise Lacks('NotTcp')
        return number(octets, at + 2), at + 4 + 4 * bin(flags >> 12 & 0b1011).count('1')
    if protocol != 17:
        raise Lacks('NotTcp')
    port = number(octets, within(octets, at + 8) - 6)
    if port not in (4789, 8472, 6081):
        raise Lacks('NotTcp')
    within(octets, at + 16)
    if port != 6081 and octets[at + 8] & 8:
        return 0x6558, at + 16
    if port == 6081 and not octets[at + 8] >> 6:
        return number(octets, at + 10), at + 16 + 4 * (octets[at + 8] & 63)
    raise Lacks('NotTcp')


def tcp(octets: bytes, source: tuple[int, bytes], target: tuple[int, bytes], at: int,
        end: int) -> Segment:
    if end < at + 20:
        raise Lacks('BadTcp')
    within(octets, at + 20)
    begin, there = at + (octets[at + 12] >> 4) * 4, min(end, len(octets))
    if not at + 20 <= begin <= end:
        raise Lacks('BadTcp')
    return Segment((*source, number(octets, at)), (*target, number(octets, at + 2)),
                   number(octets, at + 4, 4), number(octets, at + 8, 4), octets[at + 13],
                   min(begin, there), there - min(begin, there), end - max(begin, there))


# --- Streams ---

class Run(NamedTuple):
    position: int
    at: int
    size: int
    frame: int


class Mark(NamedTuple):
    position: int
    frame: int


@dataclass
class Stream:
    """What one end sent. `log` has its payloads as they came, `spots` where the first of each byte
    lies, as runs in order."""
    first: int
    next: int
    log: list[Run] = field(default_factory=list)
    top: int = FIRST
    begin: Mark | None = None
    end: Mark | None = None
    acknowledged: Mark | None = None
    reset: Mark | None = None
    strays: int = 0
    stray: int = 0
    runs: list[Run] = field(default_factory=list)
    pairs: list[tuple[Run, Run]] = field(default_factory=list)

    def near(self, value: int, frame: int) -> int | None:
        """The position of a number; a stray has none, and counts."""
        low = self.top - HALF
        position = low + (value + FIRST - self.first - low) % SPACE
        if 0 <= position <= self.top + HALF:
            return position
        self.strays, self.stray = self.strays + 1, self.stray or frame
        return None

    def take(self, s: Segment, at: int, frame: int) -> None:
        first = (s.sequence + (s.flags & SYN > 0)) % SPACE
        position = self.near(first, frame)
        if position is not None:
            if s.flags & SYN:
                self.begin = self.begin or Mark(position, frame)
            if s.flags & FIN and not s.missing:
                mark = Mark(position + s.size, frame)
                self.end = min(self.end or mark, mark, key=lambda one: one.position)
            if s.flags & RST:
                self.reset = self.reset or Mark(position, frame)
            is_probe = s.size == 1 and position + 1 == self.top
            if s.size and not (is_probe or s.flags & RST):
                self.log.append(Run(position, at, s.size, frame))
                self.top = max(self.top, position + s.size)
        if s.missing and not s.flags & RST:
            self.acknowledge((first + s.size + s.missing) % SPACE, frame)

    def acknowledge(self, value: int, frame: int) -> None:
        position = self.near(value, frame)
        if position is not None and position > (self.acknowledged or Mark(-1, 0)).position:
            self.acknowledged = Mark(position, frame)

    def order(self) -> None:
        """Puts the bytes in order: of those that came twice the first count."""
        for run in self.log:
            end = run.position + run.size
            at = bisect.bisect_right(self.runs, (run.position,))
            at -= at > 0 and self.runs[at - 1].position + self.runs[at - 1].size > run.position
            low, new, begin = run.position, list[Run](), at
            while at < len(self.runs) and self.runs[at].position < end:
                one = self.runs[at]
                if low < one.position:
                    new.append(part(run, low, one.position))
                both = max(run.position, one.position), min(end, one.position + one.size)
                self.pairs.append((part(one, *both), part(run, *both)))
                new.append(one)
                low, at = one.position + one.size, at + 1
            if low < end:
                new.append(part(run, low, end))
            self.runs[begin:at] = new


def part(run: Run, low: int, high: int) -> Run:
    return Run(low, run.at + low - run.position, high - low, run.frame)


@dataclass
class Connection:
    """Two ends, the lower first, each with its stream, and the index of the client's."""
    ends: tuple[End, End]
    streams: list[Stream | None] = field(default_factory=lambda: [None, None])
    client: int | None = None

    def take(self, frame: Frame, s: Segment) -> None:
        side = self.side(s)
        first = (s.sequence + (s.flags & SYN > 0)) % SPACE
        sent = 0 if s.flags & RST else s.size + s.missing
        behind = (first + sent) % SPACE
        own = self.streams[side]
        if own is None:
            own = self.streams[side] = Stream(first, behind)
        elif (behind - own.next) % SPACE <= HALF:
            own.next = behind
        own.take(s, frame.at + s.begin, frame.number)
        other, acknowledges = self.streams[1 - side], s.flags & ACK
        if other is not None and acknowledges:
            other.acknowledge(s.acknowledged, frame.number)
        if s.flags & SYN and self.client is None:
            self.client = 1 - side if acknowledges else side

    def side(self, s: Segment) -> int:
        return int(s.source > s.target)

    def begins_another(self, s: Segment) -> bool:
        own = self.streams[self.side(s)]
        return own is not None and s.flags & SYN > 0 and (s.sequence + 1) % SPACE != own.first

    def distance(self, s: Segment) -> int:
        own = self.streams[self.side(s)]
        if own is None:
            return HALF
        return min((s.sequence - own.next) % SPACE, (own.next - s.sequence) % SPACE)


def connections_of(frames: list[Frame]) -> tuple[list[Connection], dict[int, str]]:
    """Returns all connections, and why frames have no segment, by their numbers."""
    found: list[Connection] = []
    recent: dict[tuple[End, End], tuple[Connection, Connection]] = {}
    lacking: dict[int, str] = {}
    for frame in frames:
        try:
            s = segment_in(frame)
        except Lacks as why:
            lacking[frame.number] = str(why)
            continue
        ends = (s.source, s.target) if s.source <= s.target else (s.target, s.source)
        newest, older = recent.get(ends, (None, None))
        if newest is None or newest.begins_another(s):
            one = Connection(ends)
            found.append(one)
            recent[ends] = one, newest or one
        else:
            assert older is not None
            is_older = (not s.flags & SYN and older.streams[older.side(s)] is not None
                        and older.distance(s) < newest.distance(s))
            one = older if is_older else newest
        one.take(frame, s)
    return found, lacking


# --- Decisions ---

class Flaw(NamedTuple):
    side: int  # 0 is the client's
    kind: str
    begin: int = 0
    end: int = 0
    frame: int = 0


def flaw_of(content: bytes, side: int, stream: Stream | None) -> Flaw | None:
    """What is wrong first with a stream."""
    if stream is None or stream.begin is None:
        return Flaw(side, 'NoSyn')
    missing = missing_of(stream)
    if missing:
        return Flaw(side, 'Missing', *missing)
    beyond = [run for run in stream.runs if stream.end and run.position + run.size
              > stream.end.position]
    if beyond and stream.end:
        at = max(beyond[0].position, stream.end.position)
        return Flaw(side, 'Beyond', at, 0, beyond[0].frame)
    if stream.strays:
        return Flaw(side, 'Stray', 0, 0, stream.stray)
    for first, again in stream.pairs:
        if (content[first.at:first.at + first.size] != content[again.at:again.at + again.size]):
            return Flaw(side, 'Changed', again.position, again.position + again.size, again.frame)
    return None


def missing_of(stream: Stream) -> tuple[int, int, int] | None:
    """The first bytes that were sent and are missing, and the frame that shows it."""
    at = stream.begin.position if stream.begin else FIRST
    last = stream.end or stream.acknowledged
    to = stream.end.position if stream.end else max(
        [run.position + run.size for run in stream.runs] + [last.position if last else 0])
    for run in stream.runs:
        if run.position > at:
            break
        at = max(at, run.position + run.size)
    if at >= to:
        return None
    behind = next((run for run in stream.runs if at < run.position <= to), None)
    if behind:
        return at, behind.position, behind.frame
    assert last
    return at, to, last.frame


def begins_with_call(content: bytes, stream: Stream | None) -> bool:
    if stream is None or stream.begin is None:
        return False
    begin = stream.begin.position
    head = bytes_between(content, stream, begin, begin + 16)
    return len(head) == 16 and head[8:] == bytes(7) + b'\2'


def bytes_between(content: bytes, stream: Stream, begin: int, end: int) -> bytes:
    parts = [part(run, max(begin, run.position), min(end, run.position + run.size))
             for run in stream.runs if run.position < end and begin < run.position + run.size]
    return b''.join(content[one.at:one.at + one.size] for one in parts)


def is_chosen(content: bytes, connection: Connection, ports: Sequence[int]) -> bool:
    if any(end[2] in (ports or SERVED) for end in connection.ends):
        return True
    client = connection.client
    return not ports and client is not None and begins_with_call(content,
                                                                 connection.streams[client])


def decide(content: bytes, connection: Connection, ports: Sequence[int]) -> str | Flaw:
    """Returns a word, or what is wrong first with a connection."""
    if not is_chosen(content, connection, ports):
        return 'NotChosen'
    if not any(stream and (stream.runs or missing_of(stream) or stream.strays)
               for stream in connection.streams):
        return 'Empty'
    if connection.client is None:
        return Flaw(0, 'NoSyn')
    sides = connection.client, 1 - connection.client
    flaws = (flaw_of(content, side, connection.streams[at]) for side, at in enumerate(sides))
    return next(filter(None, flaws), 'Whole')


# --- What is written ---

def capture_of(content: bytes, connections: list[Connection], decisions: list[str | Flaw]) -> bytes:
    out = b'NFS3CAP1'
    for connection, decision in zip(connections, decisions):
        if decision == 'Whole':
            assert connection.client is not None
            out += struct.pack('>I', 1)
            for at in (connection.client, 1 - connection.client):
                stream = connection.streams[at]
                assert stream and stream.begin
                sent = bytes_between(content, stream, stream.begin.position, 1 << 63)
                for low in range(0, len(sent), 65_536):
                    block = sent[low:low + 65_536]
                    out += struct.pack('>I', len(block)) + block
                out += bytes(4)
    return out + bytes(4)


class Read(NamedTuple):
    """What is read of a recording: how much, why no more, the frames, and why some have no
    segment, by their numbers."""
    end: int
    why: str
    frames: list[Frame]
    lacking: dict[int, str]


def index_of(read: Read, connections: list[Connection], decisions: list[str | Flaw]) -> bytes:
    """The index: its head, the frames, the decisions, and the connections."""
    reasons, words = ('', *NO_SEGMENT), ('NotChosen', 'Empty', 'Whole')
    out = b'NFS3IDX1' + struct.pack('<4Q', len(read.frames), len(connections), read.end,
                                    ENDINGS.index(read.why))
    for frame in read.frames:
        lack = reasons.index(read.lacking.get(frame.number, ''))
        out += struct.pack('<2Q4I', frame.time, frame.at, len(frame.octets), frame.wire, frame.link,
                           lack)
    for decision in decisions:
        out += struct.pack('<Q', 3 if isinstance(decision, Flaw) else words.index(decision))
    return out + b''.join(map(connection_bytes, connections))


def connection_bytes(connection: Connection) -> bytes:
    """Both ends, which is the client, the heads of both streams, and their runs and pairs."""
    out = b''.join(struct.pack('<16s2I', address, version, port)
                   for version, address, port in connection.ends)
    out += struct.pack('<Q', 0 if connection.client is None else connection.client + 1)
    return out + b''.join(map(stream_head, connection.streams)) + b''.join(
        run_bytes(stream) for stream in connection.streams if stream)


def stream_head(stream: Stream | None) -> bytes:
    if stream is None:
        return bytes(14 * 8)
    marks = [number for mark in (stream.begin, stream.end, stream.acknowledged, stream.reset)
             for number in mark or (0, 0)]
    return struct.pack('<14Q', 1, stream.first, *marks, stream.strays, stream.stray,
                       len(stream.pairs), len(stream.runs))


def run_bytes(stream: Stream) -> bytes:
    """Its runs, and bytes that came again behind where those lie that count."""
    runs = [struct.pack('<2Q2I', *run) for run in stream.runs]
    pairs = [struct.pack('<3Q2I', again.position, first.at, again.at, again.size, again.frame)
             for first, again in stream.pairs]
    return b''.join(runs + pairs)


class Answer(NamedTuple):
    """What nfs3streams answers: its status, what it prints, and OUT if it is written, as a capture
    and as an index."""
    status: int
    text: str
    capture: bytes | None
    index: bytes | None


def answer(content: bytes, ports: Sequence[int] = ()) -> Answer:
    frames, end, why = read_frames(content)
    if not end:
        return Answer(2, f'file 0: {why} after frame 0\n', None, None)
    connections, lacking = connections_of(frames)
    for connection in connections:
        for stream in filter(None, connection.streams):
            stream.order()
    decisions = [decide(content, connection, ports) for connection in connections]
    reasons = list(lacking.values())
    counts = ' '.join(f'{name}={reasons.count(reason)}' for name, reason in zip(
        ('unknown_link', 'cut', 'not_ip', 'bad_ip', 'fragment', 'not_tcp', 'bad_tcp'), NO_SEGMENT))
    lines = [f'frames={len(frames)} segments={len(frames) - len(reasons)} {counts} '
             f'connections={len(connections)} packed={decisions.count("Whole")}']
    if why != 'End':
        lines.append(f'file {end}: {why} after frame {len(frames)}')
    lines += [f'connection {number} {flaw_text(connection, decision)}'
              for number, (connection, decision) in enumerate(zip(connections, decisions), 1)
              if isinstance(decision, Flaw)]
    return Answer(2 if len(lines) > 1 else 0, '\n'.join(lines) + '\n',
                  capture_of(content, connections, decisions),
                  index_of(Read(end, why, frames, lacking), connections, decisions))


def flaw_text(connection: Connection, flaw: Flaw) -> str:
    client = connection.client
    stream = connection.streams[flaw.side ^ client] if client is not None else None
    begin = stream.begin.position if stream and stream.begin else 0
    after, frame = max(0, flaw.begin - begin), f', frame {flaw.frame}'
    told = {'NoSyn': 'NoSyn',
            'Missing': f'{flaw.end - flaw.begin} bytes are missing after {after}{frame}',
            'Beyond': f'bytes follow FIN after {after}{frame}',
            'Stray': f'a number is none of the stream{frame}',
            'Changed': f'{flaw.end - flaw.begin} bytes differ that came again after {after}{frame}'}
    return f'{("client", "server")[flaw.side]}: {told[flaw.kind]}'

"""Tests of the formats of recordings and of the layers of their frames, sound and damaged."""
import bz2
import gzip
import lzma
import os
import random
import shutil
import struct
import subprocess
import sys
import typing

from examples.packets import ACK, CLIENT, SERVER, SYN, Talk, datagram, ethernet, pcap
from tests.shared.running import ended

from ..nfs3tools.recordings.container import capture_of
from ..nfs3tools.recordings.taken import NotTaken, Taken
from ..nfs3tools.shared.places import SIDES
from .recordings import (
    NANOSECONDS, block, cooked, cooked_2, enhanced, extended, fragments, interface, loopback,
    obsolete, pcapng, section, simple)
from .scripts import ALL, TOP, Tools, packed, taken_of, whole

# --- Recordings ---

def recordings_of_all_kinds(tools: Tools) -> None:
    """Both orders and units of pcap, all packets of pcapng, and gzip."""
    frames = whole()
    for order in '<>':
        head = section(order) + interface(order=order)
        for what, recording in (
                ('pcap', pcap(frames, order=order)), ('pcapng', pcapng(frames, order)),
                ('nanoseconds', pcap(frames, order=order, magic=NANOSECONDS)),
                ('packets without times', head + b''.join(simple(one, order) for one in frames)),
                ('obsolete packets', head + b''.join(obsolete(one, order=order)
                                                     for one in frames))):
            tools.taken(f'{what} {order}', recording, [ALL])
    raw = [frame[14:] for frame in frames]
    several = section() + interface() + interface(101) + interface(113)
    mixed = (enhanced([frame, raw[at], cooked(raw[at])][at % 3], at, at % 3)
             for at, frame in enumerate(frames))
    one, two = (b''.join(enhanced(frame, 0, 0) for frame in some) for some in (frames[:6], raw[6:]))
    for what, recording in (
            ('two sections', pcapng(frames[:6]) + pcapng(frames[6:], '>')),
            ('three interfaces', several + b''.join(mixed)),
            ('the interfaces of the second section',
             several + one + section() + interface(101) + two),
            ('gzip', gzip.compress(pcap(frames))),
            ('gzip of pcapng', gzip.compress(pcapng(frames))),
            ('gzip in two members',
             gzip.compress(pcap(frames)[:300]) + gzip.compress(pcap(frames)[300:])),
            ('zeros after gzip', gzip.compress(pcap(frames)) + bytes(512))):
        tools.taken(what, recording, [ALL])


PACKERS: dict[str, typing.Callable[[bytes], bytes]] = {'gzip': gzip.compress, 'xz': lzma.compress,
                                                       'bzip2': bz2.compress}
if shutil.which('zstd'):
    PACKERS['zstd'] = lambda content: subprocess.run(['zstd', '-cq'], input=content,
                                                     stdout=subprocess.PIPE, check=True).stdout


def compressed_recordings(tools: Tools) -> None:
    """By each packer; one that is cut or damaged is never taken as whole."""
    content, several = pcap(whole()), pcapng(whole())
    for name, pack in PACKERS.items():
        packed_one = pack(content)
        tools.taken(name, packed_one, [ALL])
        tools.taken(name + ' of pcapng', pack(several), [ALL])
        tools.taken(name + ' of a capture', pack(packed(ALL)), [ALL])
        tools.taken(name + ' in pieces', pack(content[:99]) + pack(b'') + pack(content[99:300])
                    + pack(content[300:]), [ALL])
        other, step = PACKERS['gzip' if name == 'xz' else 'xz'](b'x'), 97 if name == 'zstd' else 7
        for what, recording in (('text after it', packed_one + b'text'),
                                ('another packer', packed_one + other),
                                *((f'{size} bytes', packed_one[:size])
                                  for size in range(1, len(packed_one), step))):
            tools.want(f'{name}, {what}', taken_as_whole(recording), None)
    for name in ('xz', 'bzip2'):
        zeros = PACKERS[name](content) + bytes(512)
        tools.taken('zeros after ' + name, zeros, [ALL])
        tools.taken('zeros in ' + name, PACKERS[name](content[:99]) + bytes(2_000_004)
                    + PACKERS[name](content[99:]), [ALL])
        chance, whole_one = random.Random(7), PACKERS[name](content)
        for _ in range(200):
            at, flipped = chance.randrange(len(whole_one)), 1 << chance.randrange(8)
            other = whole_one[:at] + bytes([whole_one[at] ^ flipped]) + whole_one[at + 1:]
            tools.want(f'{name}, byte {at}', taken_as_whole(other) in (None, packed(ALL)), True)
    begin, empty = os.times(), lzma.compress(b'')
    tools.taken('empty streams', empty * 20_000 + lzma.compress(content) + empty, [ALL])
    tools.want('seconds', os.times().user - begin.user < 10, True)


def taken_as_whole(recording: bytes) -> bytes | None:
    """The capture of a recording, unless something is said against that."""
    try:
        taken = taken_of(recording)
    except NotTaken:
        return None
    return None if taken.damage or taken.notes or taken.remarks else b''.join(
        capture_of(taken.pairs()))


def what_is_not_decompressed(tools: Tools) -> None:
    """A large window is refused, and a zstd that dies is reported."""
    large = lzma.compress(pcap(whole()), filters=[{'id': lzma.FILTER_LZMA2, 'dict_size': 1 << 30}])
    tools.refused('a window of 1 GB', large,
                  'the compressed file is damaged: Memory usage limit exceeded')
    if 'zstd' in PACKERS:
        tools.write('a.zst', PACKERS['zstd'](pcap(whole())))
        os.mkdir(tools.path('bin'))
        env = {**os.environ, 'PATH': tools.path('bin')}
        words = [sys.executable, str(TOP / 'tools/from_pcap'), 'a.zst', 'out']
        told = ('from_pcap: it is compressed by zstd: decompress it first, as in `zstd -dc FILE | '
                'tools/from_pcap - OUT`\n')
        tools.want('no zstd', ended(words, tools.folder, env=env).text(), (2, '', told))
        tools.write('bin/zstd', b'#!/bin/sh\nkill -9 $$\n')
        os.chmod(tools.path('bin/zstd'), 0o755)
        tools.want('killed', ended(words, tools.folder, env=env).text(),
                   (3, '', 'from_pcap: zstd was killed by signal 9 (Killed)\n'))
        tools.want('OUT', tools.exists('out'), False)


def times(tools: Tools) -> None:
    """The times of frames, by the unit and offset of their interface. One that does not fit 63 bits
    of nanoseconds is unknown."""
    frames, second, most, year = whole(), 1_000_000_000, (1 << 63) - 1, 31_536_000
    for what, recording, time in (
            *((f'{magic:x} {order}', pcap(frames, order=order, magic=magic), second + 3 * unit)
              for magic, unit in ((0xa1b2c3d4, 1_000), (NANOSECONDS, 1)) for order in '<>'),
            ('pcapng', pcapng(frames), 3_000), ('pcapng, big-endian', pcapng(frames, '>'), 3_000),
            *((f'unit {unit} offset {offset}, {number}',
               section() + interface(unit=unit, offset=offset)
               + b''.join(enhanced(frame, number) for frame in frames), time)
              for unit, offset, number, time in (
                  (3, 0, 7 << 30, (7 << 30) * 1_000_000), (0x80 | 10, 0, 1_536, second * 3 // 2),
                  (9, 5, 1, 5 * second + 1), (9, 0, most, most), (9, 0, most + 1, 0),
                  (9, 0, (1 << 64) - 1, 0), (0, 0, 1 << 40, 0),
                  (0, 0, 9_223_372_036, 9_223_372_036 * second), (0, 0, 9_223_372_037, 0),
                  (9, 1 << 62, 1, 0), (9, -(1 << 62), 1, 0), (9, -year, year * second + 1, 1)))):
        tools.write('a.pcap', recording)
        with taken_of(recording) as taken:
            noted = taken.connections[0].client.frames(0, 1)
            tools.want(what, [tuple(frame) for frame in noted], [(4, time)])
        found = tools.tool('where', 'a.pcap', 'connection 1 client record 1 byte 0')
        tools.want(what + ', where', (found[0], found[1].splitlines()[1:2]
                                      == ['frame 4, without a time'], found[2]), (0, not time, ''))


def empty_gzip_members(tools: Tools) -> None:
    """Any number of empty members costs what their bytes cost."""
    content, empty = pcap(whole()), gzip.compress(b'')
    begin = os.times()
    for size in (1, 700, len(content)):
        pieces = [gzip.compress(content[at:at + size]) for at in range(0, len(content), size)]
        tools.taken(f'members of {size} bytes', b''.join(pieces), [ALL])
    tools.taken('empty members', empty * 50_000 + gzip.compress(content[:99]) + empty * 450_000
                + gzip.compress(content[99:]) + empty, [ALL])
    tools.want('seconds', os.times().user - begin.user < 30, True)
    for size in range((1 << 20) - 2, (1 << 20) + 2):  # about a block that is read at once
        first = in_member(content[:99], size)
        tools.want(f'{size} bytes', (len(first), gzip.decompress(first)), (size, content[:99]))
        tools.taken(f'a member of {size} bytes', first + gzip.compress(content[99:]), [ALL])


def in_member(content: bytes, size: int) -> bytes:
    """A member of so many bytes: a comment in its head fills them (RFC 1952, section 2.3)."""
    plain = gzip.compress(content)
    return plain[:3] + b'\x10' + plain[4:10] + b'x' * (size - len(plain) - 1) + b'\0' + plain[10:]


def recordings_that_end_early(tools: Tools) -> None:
    """What is before the damage is taken, whatever a length claims."""
    frames, cut = whole(), 'in part: the recording ends inside a frame (frame 15)'
    plain, blocks, packed_whole = pcap(frames), pcapng(frames), gzip.compress(pcap(frames))
    last = len(frames[-1])
    tools.told('cut in its last frame', plain[:-10], [ALL], [cut])
    tools.told('cut in the head of it', plain[:-last - 3], [ALL], [cut])
    tools.told('pcapng cut in its last frame', blocks[:-10], [ALL], [cut])
    tools.told('pcapng cut in the head of it', blocks[:-len(enhanced(frames[-1])) + 9], [ALL],
               [cut])
    lines = tools.taken('gzip cut short', packed_whole[:-12], [ALL])
    tools.want('gzip cut short', lines[-1], cut + ': the compressed file is cut short')
    lines = tools.taken('gzip with a wrong sum', packed_whole[:-8] + bytes(8), [ALL])
    tools.want('gzip with a wrong sum', 'the recording is damaged after frame 15: the compressed '
               'file is damaged' in lines[0], True)
    claim = struct.pack('<4I', 1, 0, 0xffffffff, 0xffffffff)
    claimed = 'the recording is damaged after frame 15: a frame is too long'
    tools.told('a frame of 4 GB', plain + claim + frames[0], [ALL], [claimed])


def blocks_that_are_damaged(tools: Tools) -> None:
    """What is before a damaged block of pcapng is taken, and the damage is reported."""
    frames = whole()
    blocks, impossible = pcapng(frames), 'a block of an impossible size'
    for what, damage, words in (
            ('a block of 4 GB', struct.pack('<3I', 6, 0xfffffffc, 0), impossible),
            ('a block of 13 bytes', struct.pack('<4I', 6, 13, 0, 0), impossible),
            ('a block of 8 bytes', struct.pack('<3I', 6, 8, 8), impossible),
            ('a section of 24 bytes', struct.pack('<6I', 0x0a0d0d0a, 24, 0x1a2b3c4d, 1, 0, 24),
             'a block is too short'),
            ('a section without an order', struct.pack('<3I', 0x0a0d0d0a, 28, 7),
             'the byte order of a section is unknown'),
            ('two lengths', block(6, bytes(20))[:-4] + struct.pack('<I', 28),
             'the two lengths of a block differ'),
            ('no such interface', enhanced(frames[0], 0, 1),
             'a frame of an interface that is not described'),
            ('a short packet', block(6, bytes(8)), 'a block is too short'),
            ('more bytes than its block', block(6, struct.pack('<5I', 0, 0, 0, 99, 99)),
             'a frame is too long')):
        told = taken_of(blocks + damage + enhanced(frames[0]))
        tools.want(what, (b''.join(capture_of(told.pairs())),
                          words in (told.damage or '') or told.damage), (packed(ALL), True))


def recordings_that_are_none(tools: Tools) -> None:
    """What is no recording is refused with its reason."""
    for what, recording, message in (
            ('nothing', b'', 'it is empty'),
            ('text', b'no recording', 'it is neither pcap nor pcapng'),
            ('gzip of text', gzip.compress(b'no recording'), 'it is neither pcap nor pcapng'),
            ('three bytes of gzip', gzip.compress(b'x')[:3], 'the compressed file is cut short'),
            ('xz', b'\xfd7zXZ\0\0', 'the compressed file is cut short'),
            ('zstd', b'\x28\xb5\x2f\xfd', ''),
            ('lz4', b'\x04\x22\x4d\x18', 'it is compressed by lz4'),
            ('a magic alone', pcap([])[:4], 'its header is cut short')):
        tools.refused(what, recording, message)


def link_layers(tools: Tools) -> None:
    for hosts in ((CLIENT, SERVER), ('2001:db8::7', '2001:db8::1')):
        frames, kind = whole(hosts=hosts), 0x86dd if ':' in hosts[0] else 0x0800
        raw = [frame[14:] for frame in frames]
        tagged = [cooked(content)[:14] + struct.pack('>HHH', 0x8100, 7, kind) + content
                  for content in raw]
        for what, some, link in (
                ('Ethernet', frames, 1), ('a VLAN', whole(hosts=hosts, vlan=7), 1),
                ('a VLAN in a VLAN', [ethernet(content, [(0x88a8, 9), (0x8100, 7)])
                                      for content in raw], 1),
                ('padding', [frame.ljust(60, b'\xee') for frame in frames], 1),
                ('cooked', map(cooked, raw), 113), ('cooked, version 2', map(cooked_2, raw), 276),
                ('cooked, with a VLAN', tagged, 113), ('loopback', map(loopback, raw), 0),
                *((f'loopback in the other order, {link}',
                   [loopback(content, '>') for content in raw], link) for link in (0, 108)),
                *((f'raw IP {link}', raw, link)
                  for link in (12, 14, 101, 229 if ':' in hosts[0] else 228))):
            tools.taken(what, pcap(some, link=link), [ALL])
    lines = tools.taken('another link type', pcap(frames, link=147), [])
    tools.want('another link type', lines,
               ['not checked: 15 frames of the link type 147 are not read; what is in them is not '
                'known'])
    other = [ethernet(datagram(CLIENT, SERVER, bytes(30), 17)), bytes(12) + b'\x08\x06' + bytes(28),
             b'', bytes(13), bytes(14)]
    short = ('in part: 2 frames are not taken, since their headers are not whole or do not fit '
             'their length')
    tools.told('UDP, ARP and short frames', pcap(other + whole()), [ALL], [short])


def internet_layers(tools: Tools) -> None:
    """Options and extension headers, lengths of 0, and those that lie."""
    talk, v4, v6 = Talk(), whole(), whole(hosts=('2001:db8::7', '2001:db8::1'))
    headers = [(0, bytes(8)), (60, b'\0\1' + bytes(14)), (43, bytes(8))]
    for what, frames in (
            ('options of IPv4', [
                ethernet(b'\x46' + content[1:2] + struct.pack('>H', len(content) + 4)
                         + content[4:20] + b'\1\1\1\0' + content[20:])
                for content in (frame[14:] for frame in v4)]),
            ('total length 0', [frame[:16] + b'\0\0' + frame[18:] for frame in v4]),
            ('payload length 0', [frame[:18] + b'\0\0' + frame[20:] for frame in v6]),
            ('extension headers', [ethernet(extended(frame[14:], headers)) for frame in v6])):
        tools.taken(what, pcap(frames), [ALL])
    with_options = [ethernet(talk.datagram(0, SYN, options=b'\2\4\5\xb4')), *v4[1:3]]
    talk.next = [number + 1 for number in talk.next]
    content = ethernet(talk.datagram(0, ACK, ALL[0], options=b'\1\1\x08\x0a' + bytes(8)))
    tools.taken('options of TCP', pcap([*with_options, content]), [(ALL[0], b'')])
    for lying in (v4[4][:16] + b'\xff\xff' + v4[4][18:], v4[4][:46] + b'\xf0' + v4[4][47:58]):
        lines = tools.taken('a header that lies', pcap([*v4[:4], lying, *v4[5:], v4[4]]), [ALL])
        tools.want('a header that lies', lines[-1], 'in part: 1 frame to or from port 2049 is not '
                   'taken, since its headers are not whole or do not fit its length')


# --- Damaged at random ---

def frames_of(recording: bytes) -> list[bytes]:
    """The records of a recording as pcap has them, little-endian."""
    at, frames = 24, []
    while at + 16 <= len(recording):
        end = at + 16 + int.from_bytes(recording[at + 8:at + 12], 'little')
        frames.append(recording[at:end])
        at = end
    return frames


def mutated(tools: Tools) -> None:
    """No traceback, and no byte in a capture that its frame does not have."""
    chance = random.Random(11)
    v6 = whole(hosts=('2001:db8::7', '2001:db8::1'), vlan=3)
    bases = [pcap(whole()), pcapng(whole()), pcap(v6),
             pcap(whole() + whole(port=701, first=(7, 9))), pcap(whole()[4:]), pcap(whole(), 154),
             gzip.compress(pcap(whole())),
             pcap(ethernet(piece) for number, frame in enumerate(whole())
                  for piece in fragments(frame[14:], 64, number))]
    for number in range(1_500):
        base = bases[number % len(bases)]
        recording = mutation(chance, base)
        try:
            taken = taken_of(recording)
        except NotTaken:
            continue
        except Exception as wrong:  # what is wanted is that there is none
            tools.want(f'mutation {number}', repr(wrong), 'none')
            continue
        if recording[:4] == base[:4] == b'\xd4\xc3\xb2\xa1' and base is not bases[-1]:
            tools.want(f'bytes of mutation {number}',
                       bytes_not_on_the_wire(taken, frames_of(recording)), [])


def mutation(chance: random.Random, base: bytes) -> bytes:
    content = bytearray(base)
    for _ in range(chance.choice((1, 1, 2, 5, 20))):
        at = chance.randrange(len(content))
        match chance.randrange(6):
            case 0:
                content[at] ^= 1 << chance.randrange(8)
            case 1:
                content[at] = chance.choice((0, 1, 127, 128, 255))
            case 2:
                del content[at:at + chance.choice((1, 4, 16, 60))]
            case 3:
                content[at:at] = chance.randbytes(chance.choice((1, 4, 16, 60)))
            case 4:
                other = chance.randrange(len(content))
                content[at:at + 60] = content[other:other + 60]
            case 5:
                content[at & ~3:(at & ~3) + 4] = chance.choice((bytes(4), b'\xff' * 4, b'\0\0\1\0',
                                                                b'\x80\0\0\x28'))
        content = content or bytearray(base)
    return bytes(content[:chance.randrange(len(content))] if chance.random() < 0.1 else content)


def bytes_not_on_the_wire(taken: Taken, frames: list[bytes]) -> list[int]:
    """The frames that are said to carry bytes of a stream, and do not."""
    wrong = []
    for connection in taken.connections:
        for side in SIDES:
            sent = connection.stream(side).sent
            assert sent
            brought = list(sent.between(0, sent.size))
            ends = [*(one.begin for one in brought[1:]), sent.size]
            wrong += [one.number for one, end in zip(brought, ends)
                      if sent.read(one.begin, end - one.begin) not in frames[one.number - 1][16:]]
    return wrong

#!/usr/bin/env python3
"""Tests nfs3streams on recordings that are cut at each byte, have impossible lengths or nested
tunnels, or are made to cost time and memory.

    python3 tests/faults/recordings.py [PROGRAM] [--only TEXT] [-v]

Where no line is given by hand, status, text and OUT are those of the model
(tests/shared/recorded.py).
"""
import os
import pathlib
import struct
import sys
from collections.abc import Callable, Iterable
from typing import NamedTuple

sys.path.insert(0, str(pathlib.Path(__file__).resolve().parents[2]))
from tests.program.streams import (
    ACK, CLIENT, COUNTS, OPENED, SERVER, SYN, WHOLE, Folder, answered, recording, segment, sent)
from tests.shared.recorded import answer
from tests.shared.running import try_tests

TOP = pathlib.Path(__file__).resolve().parents[2]
FIRST_BYTES = 2_000  # of a recording, at each of which it is cut
RAW_IP, IN_IP = 101, 4  # a link type, and the protocol of IP in IP
TUNNELS_AT_MOST = 4
PAIR = (b'callmore', b'reply')
ALL_COUNTS = {'unknown_link': 0, 'cut': 0, 'not_ip': 0, 'bad_ip': 0, 'fragment': 0, 'not_tcp': 0,
              'bad_tcp': 0}
# How much longer twice as much may take, and how often it is measured: the least counts.
MOST_RATIO, ROUNDS = 2.8, 4
BYTES_OF_A_RUN, BYTES_OF_A_CONNECTION, BYTES_OF_ALL = 120, 1_200, 16_000_000
# Runs a command, whose output is thrown away, and prints its status, the seconds of processor time
# that it took, and the most memory that it had, in KiB.
MEASURED = """import resource, subprocess, sys
status = subprocess.run(sys.argv[1:], stdout=subprocess.DEVNULL).returncode
used = resource.getrusage(resource.RUSAGE_CHILDREN)
print(status, used.ru_utime + used.ru_stime, used.ru_maxrss)"""


class Cost(NamedTuple):
    """Seconds of processor time, and the most bytes of memory."""
    seconds: float
    memory: int


def wants_model(folder: Folder, name: str, content: bytes) -> None:
    """Status, text and OUT are those of the model."""
    wanted = answer(content, ())
    folder.write('in', content)
    status, out, error = folder.run('nfs3streams', 'in', 'out')
    folder.want(name, (status, out or error, folder.read('out')),
                (wanted.status, wanted.text, wanted.capture))
    if wanted.capture is not None:
        os.remove(folder.path('out'))


# --- Recordings in blocks ---

def block(kind: int, body: bytes, size: int | None = None) -> bytes:
    """Returns a block of pcapng, which may say another size than it has."""
    body += bytes(-len(body) % 4)
    length = struct.pack('<I', 12 + len(body) if size is None else size)
    return struct.pack('<I', kind) + length + body + length


SECTION = block(0x0a0d0d0a, struct.pack('<IHHq', 0x1a2b3c4d, 1, 0, -1))
INTERFACE = block(1, struct.pack('<HHI', RAW_IP, 0, 0))


def packet(frame: bytes, interface: int = 0, size: int | None = None) -> bytes:
    """Returns an enhanced packet block, which may say another size than it has."""
    kept = len(frame) if size is None else size
    return block(6, struct.pack('<5I', interface, 0, 1, kept, kept) + frame)


def in_blocks(frames: Iterable[bytes]) -> bytes:
    return SECTION + INTERFACE + b''.join(map(packet, frames))


# --- Damage ---

def cut_at_each_byte(folder: Folder) -> None:
    """What came before the cut counts."""
    recorded = (TOP / 'examples/knfsd_readdir.pcap').read_bytes()
    for name, content in (('pcap', recorded), ('pcapng', in_blocks(WHOLE * 6))):
        for size in range(min(FIRST_BYTES, len(content))):
            wants_model(folder, f'{name} cut at {size}', content[:size])


def impossible_lengths(folder: Folder) -> None:
    """A length that cannot be ends the recording there, and takes no memory."""
    frames = recording(*WHOLE)
    large = struct.pack('<IIII', 1, 0, 0xffffffff, 0xffffffff)
    folder.converts('a captured length of 4 GB', frames + large + bytes(100), [PAIR], 2,
                    COUNTS.format(5, 1, 1) + f'file {len(frames)}: TooLong after frame 5\n')
    blocks = in_blocks(WHOLE)
    for name, after, why in (
            ('a block of length 0', block(6, bytes(20), 0), 'BadSize'),
            ('a block of length 3', block(6, bytes(20), 3), 'BadSize'),
            ('a block of 4 GB', block(6, bytes(20), 0xfffffffc), 'BadSize'),
            ('two lengths', block(6, bytes(20))[:-4] + bytes(4), 'Unequal'),
            ('an interface that is not there', packet(WHOLE[0], interface=1), 'NoInterface'),
            ('a packet longer than its block', packet(WHOLE[0], size=1_000), 'TooLong')):
        folder.converts(name, blocks + after, [PAIR], 2,
                        COUNTS.format(5, 1, 1) + f'file {len(blocks)}: {why} after frame 5\n')


def headers_beyond_their_frames(folder: Folder) -> None:
    """The header of IP or TCP says that it is longer than its frame, or shorter than it can be."""
    for name, at, byte, why in (
            ('IP of 60 bytes', 0, 0x4f, 'bad_ip'), ('IP of 16 bytes', 0, 0x44, 'bad_ip'),
            ('TCP of 60 bytes', 32, 0xf0, 'bad_tcp'), ('TCP of 16 bytes', 32, 0x40, 'bad_tcp'),
            ('TCP behind 48 bytes of IP', 0, 0x4c, 'bad_tcp')):
        frame = bytearray(segment(CLIENT, SERVER, 400, ACK, bytes(10)))
        frame[at] = byte
        counts = ' '.join(f'{one}={number}' for one, number in {**ALL_COUNTS, why: 1}.items())
        folder.converts(name, recording(*WHOLE, frame), [PAIR], 0,
                        f'frames=6 segments=5 {counts} connections=1 packed=1\n')


def tunnels(folder: Folder) -> None:
    """Segments in four tunnels are read, those in a fifth are not."""
    def inside(frame: bytes, depth: int) -> bytes:
        for _ in range(depth):
            size = struct.pack('>H', 20 + len(frame))
            frame = b'\x45\0' + size + bytes(5) + bytes([IN_IP]) + bytes(2) + bytes(8) + frame
        return frame
    for depth in range(TUNNELS_AT_MOST + 2):
        frames = recording(*(inside(frame, depth) for frame in WHOLE))
        wants_model(folder, f'{depth} tunnels', frames)
        is_read = depth <= TUNNELS_AT_MOST
        counts = {**ALL_COUNTS, 'not_tcp': 0 if is_read else 5}
        folder.converts(f'{depth} tunnels', frames, [PAIR] * is_read, 0,
                        f'frames=5 segments={5 * is_read} '
                        + ' '.join(f'{one}={number}' for one, number in counts.items())
                        + f' connections={1 * is_read} packed={1 * is_read}\n')


# --- Time and memory ---

def opened_from(port: int) -> list[bytes]:
    client = CLIENT[0], port
    return [segment(client, SERVER, 100, SYN), segment(SERVER, client, 500, SYN | ACK, b'', 101)]


def backwards(count: int) -> list[bytes]:
    """A byte in each segment, the last one first."""
    return [*OPENED, *(sent(100 + number, b'a') for number in range(count, 0, -1))]


def twice(count: int) -> list[bytes]:
    """A byte in each segment, each sent again once all of them came."""
    return [*OPENED, *(sent(100 + number, b'a') for number in range(1, count // 2)),
            *(sent(100 + number, b'a') for number in range(1, count // 2))]


def with_gaps(count: int) -> list[bytes]:
    """A byte in each segment, after which one is missing."""
    return [*OPENED, *(sent(100 + 2 * number, b'a') for number in range(count))]


def connections(count: int) -> list[bytes]:
    """Connections of two frames, from other addresses and ports."""
    return [frame for number in range(count // 2) for frame in (
        segment((f'10.0.{number >> 16}.7', number & 0xffff), SERVER, 100, SYN),
        segment(SERVER, (f'10.0.{number >> 16}.7', number & 0xffff), 500, SYN | ACK, b'', 101))]


def one_port_again(count: int) -> list[bytes]:
    """Connections of the same two ends, one after another."""
    return [frame for number in range(count // 2) for frame in (
        segment(CLIENT, SERVER, 100 + 3_000 * number, SYN),
        answered(501, b'reply', acknowledged=101 + 3_000 * number))]


def cost(folder: Folder, name: str) -> Cost:
    """What a run takes, without this process, whose memory would count at first."""
    status, out, error = folder.run('nfs3streams', name, 'out',
                                    before=[sys.executable, '-c', MEASURED])
    done, seconds, memory = out.split()
    folder.want(f'{name}: status', (status, done in ('0', '2'), error), (0, True, ''))
    return Cost(float(seconds), int(memory) * 1024)


def linear(make: Callable[[int], list[bytes]], count: int, each: int) -> Callable[[Folder], None]:
    """A test that twice as many frames do not take much more than twice as long, and at most so
    many bytes of memory for each frame."""
    def test(folder: Folder) -> None:
        for name, number in (('half', count // 2), ('whole', count)):
            folder.write(name, recording(*make(number)))
        ratios = list[float]()
        for _ in range(ROUNDS):
            half, whole = cost(folder, 'half'), cost(folder, 'whole')
            ratios.append(whole.seconds / max(half.seconds, 0.01))
            if ratios[-1] <= MOST_RATIO:
                break
        folder.want('how much longer twice as much takes', min(ratios) <= MOST_RATIO or ratios,
                    True)
        most = BYTES_OF_ALL + each * count
        folder.want('memory', whole.memory <= most or whole.memory, True)
    test.__name__ = 'cost_of_' + make.__name__
    return test


TESTS: tuple[Callable[[Folder], None], ...] = (
    cut_at_each_byte, impossible_lengths, headers_beyond_their_frames, tunnels,
    linear(backwards, 1_000_000, BYTES_OF_A_RUN), linear(twice, 400_000, BYTES_OF_A_RUN),
    linear(with_gaps, 400_000, BYTES_OF_A_RUN),
    linear(connections, 200_000, BYTES_OF_A_CONNECTION // 2),
    linear(one_port_again, 200_000, BYTES_OF_A_CONNECTION // 2))

if __name__ == '__main__':
    try_tests(__doc__, Folder, TESTS)

#!/usr/bin/env python3
"""Times `tools/from_pcap` beside tshark on recordings that it makes, and prints a table with a row
for each.

    recordings.py [--megabytes N] [--runs N] [FOLDER]

Each recording has four connections with READ replies of 8,000 bytes or a packet, in packets of at
most so many bytes of payload. The seconds are those of the fastest run of each, which take turns,
from its start to its end; in brackets is the processor time (user and system) of that with the
least. The memory is the most that was resident in any run of `tools/from_pcap`.
"""
import argparse
import os
import pathlib
import struct
import subprocess
import sys
import tempfile
import time
from collections.abc import Iterable
from typing import BinaryIO, NamedTuple

HERE = pathlib.Path(__file__).resolve().parent
sys.path.insert(0, str(HERE.parents[1]))
from examples.messages import (
    NFS, call, fh, fragment, hyper, ok, opaque, post_op_attr, success, word)
from examples.packets import Talk

MEGA = 1_000_000


class Cost(NamedTuple):
    """What a run took: seconds, seconds of the processor, and bytes of memory."""
    seconds: float
    processor: float
    memory: int


def make(path: pathlib.Path, size: int, packet: int) -> None:
    """Writes a recording of about `size` bytes in packets with at most `packet` bytes of
    payload."""
    talks, xid, count = [Talk(700 + number) for number in range(4)], 0, max(8_000, packet - 100)
    with open(path, 'wb') as file:
        frames = Frames(file)
        for talk in talks:
            frames.write(talk.opened())
        while file.tell() < size:
            for talk in talks:
                xid += 1
                asked = fragment(call(xid, NFS, 3, 6, fh(b'abcde') + hyper(0) + word(count)))
                read = ok(post_op_attr(None), word(count), word(1),
                          opaque(bytes([xid & 255]) * count))
                answer = fragment(success(xid, read))
                frames.write([talk.sent(0, asked),
                              *(talk.sent(1, answer[at:at + packet])
                                for at in range(0, len(answer), packet))])
        for talk in talks:
            frames.write(talk.closed())


class Frames:
    """Writes frames as pcap has them, a microsecond after one another."""

    def __init__(self, file: BinaryIO) -> None:
        self.file, self.count = file, 0
        file.write(struct.pack('<IHHiIII', 0xa1b2c3d4, 2, 4, 0, 0, 262_144, 1))

    def write(self, frames: Iterable[bytes]) -> None:
        for frame in frames:
            self.file.write(struct.pack('<IIII', self.count // MEGA, self.count % MEGA, len(frame),
                                        len(frame)) + frame)
            self.count += 1


def run(words: list[str]) -> Cost:
    """Runs a command line, and returns what it took. Ends this script if the run fails."""
    begin = time.perf_counter()
    process = subprocess.Popen(words, stdout=subprocess.DEVNULL, stderr=subprocess.DEVNULL)
    _, status, usage = os.wait4(process.pid, 0)
    if status:
        sys.exit(f'{words[0]} ended with status {status}')
    return Cost(time.perf_counter() - begin, usage.ru_utime + usage.ru_stime,
                usage.ru_maxrss * 1_024)


def main() -> None:
    parser = argparse.ArgumentParser(description=__doc__,
                                     formatter_class=argparse.RawDescriptionHelpFormatter)
    parser.add_argument('folder', nargs='?', default=tempfile.gettempdir())
    parser.add_argument('--megabytes', type=int, default=200)
    parser.add_argument('--runs', type=int, default=5)
    chosen = parser.parse_args()
    print('| Packets | Bytes | tools/from_pcap, s | MB/s | Memory, MB | tshark, s | Ratio '
          '|\n|--:|--:|--:|--:|--:|--:|--:|')
    for packet in (100, 1_000, 1_448, 60_000):
        path = pathlib.Path(chosen.folder) / f'packets_{packet}.pcap'
        make(path, chosen.megabytes * MEGA // (4 if packet < 1_000 else 1), packet)
        words = [[str(HERE.parents[1] / 'tools/from_pcap'), str(path), str(path) + '.nfs3cap'],
                 ['tshark', '-r', str(path), '-T', 'fields', '-e', 'frame.number']]
        both = [[run(line) for line in words] for _ in range(chosen.runs)]
        ours, theirs = (Cost(*map(min, zip(*(pair[side] for pair in both)))) for side in range(2))
        memory = max(pair[0].memory for pair in both)
        size = path.stat().st_size
        print(f'| {packet:,} | {size:,} | {ours.seconds:.2f} ({ours.processor:.2f}) | '
              f'{size / MEGA / ours.seconds:.0f} | {memory / MEGA:.1f} | '
              f'{theirs.seconds:.2f} ({theirs.processor:.2f}) | '
              f'{ours.seconds / theirs.seconds:.2f} |', flush=True)
        path.unlink()
        os.unlink(str(path) + '.nfs3cap')


if __name__ == '__main__':
    main()

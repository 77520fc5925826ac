#!/usr/bin/env python3
"""Tests nfs3streams: on the recordings of examples/ against the reader of `tools/from_pcap` and
against a model, on small recordings with one fault each, whose captures and lines are known, and on
random ones against the model.

    python3 tests/program/streams.py [PROGRAM] [--only TEXT] [-v]

With RECORDINGS set to a folder, its recordings are compared too.
"""
import os
import pathlib
import random
import re
import struct
import sys
from collections.abc import Callable, Iterator

sys.path.insert(0, str(pathlib.Path(__file__).resolve().parents[2]))
from tests.shared.recorded import answer
from tests.shared.running import Runs, ended, try_tests

TOP = pathlib.Path(__file__).resolve().parents[2]
CLIENT, SERVER = ('192.0.2.7', 700), ('192.0.2.1', 2049)
SYN, FIN, RST, ACK = 2, 1, 4, 16
# The mark, the xid, CALL and the version of RPC.
CALL = bytes.fromhex('80000028 00000001 00000000 00000002')
COUNTS = ('frames={0} segments={0} unknown_link=0 cut=0 not_ip=0 bad_ip=0 fragment=0 not_tcp=0 '
          'bad_tcp=0 connections={1} packed={2}\n')
Pair = tuple[bytes, bytes]


# ---- recordings

def segment(source: tuple[str, int], target: tuple[str, int], number: int, flags: int,
            payload: bytes = b'', acknowledged: int = 0) -> bytes:
    """Returns a frame of raw IP with a segment of TCP."""
    tcp = struct.pack('>HHIIBBHHH', source[1], target[1], number % 2 ** 32, acknowledged % 2 ** 32,
                      0x50, flags, 65535, 0, 0) + payload
    addresses = b''.join(bytes(map(int, end[0].split('.'))) for end in (source, target))
    return struct.pack('>BBHHHBBH', 0x45, 0, 20 + len(tcp), 0, 0, 64, 6, 0) + addresses + tcp


def recording(*frames: bytes) -> bytes:
    """Returns a pcap of frames of raw IP."""
    return struct.pack('<IHHiIII', 0xa1b2c3d4, 2, 4, 0, 0, 262144, 101) + b''.join(
        struct.pack('<IIII', at, 0, len(frame), len(frame)) + frame
        for at, frame in enumerate(frames, 1))


def sent(number: int, payload: bytes, flags: int = ACK, acknowledged: int = 501) -> bytes:
    """Returns a frame of the client."""
    return segment(CLIENT, SERVER, number, flags, payload, acknowledged)


def answered(number: int, payload: bytes, flags: int = ACK, acknowledged: int = 101) -> bytes:
    """Returns a frame of the server."""
    return segment(SERVER, CLIENT, number, flags, payload, acknowledged)


OPENED = [segment(CLIENT, SERVER, 100, SYN), segment(SERVER, CLIENT, 500, SYN | ACK, b'', 101)]
WHOLE = [*OPENED, sent(101, b'call'), answered(501, b'reply', acknowledged=105),
         sent(105, b'more', acknowledged=506)]


def ported(port: int, frames: list[bytes]) -> list[bytes]:
    """Returns frames between other ports: those of the server become this one."""
    old, new = struct.pack('>H', SERVER[1]), struct.pack('>H', port)
    return [frame[:20] + frame[20:24].replace(old, new) + frame[24:] for frame in frames]


# ---- captures

def streams_of(stream: bytes) -> tuple[bytes, bytes]:
    """Returns the bytes of the chunks at the front, and what follows the word 0."""
    out = b''
    while size := int.from_bytes(stream[:4], 'big'):
        out, stream = out + stream[4:4 + size], stream[4 + size:]
    return out, stream[4:]


def pairs_of(capture: bytes) -> list[Pair]:
    """Returns the pairs of streams of a capture of version 1."""
    if capture[:8] != b'NFS3CAP1':
        raise ValueError('no capture')
    pairs, rest = list[Pair](), capture[8:]
    while int.from_bytes(rest[:4], 'big') == 1:
        client, rest = streams_of(rest[4:])
        server, rest = streams_of(rest)
        pairs.append((client, server))
    if rest != bytes(4):
        raise ValueError('no end')
    return pairs


class Folder(Runs):
    """A folder, and runs of nfs3streams there."""

    def converts(self, name: str, frames: bytes, wanted: list[Pair] | None, status: int,
                 text: str, *words: str) -> None:
        """A recording gives these pairs, or no file, this status and this text. A text of a refusal
        is on standard error."""
        self.write('in', frames)
        found = self.run('nfs3streams', *words, 'in', 'out')
        outputs = (text, '') if wanted is not None else ('', text)
        self.want(name, found, (status, *outputs))
        made = self.read('out')
        self.want(f'{name}: OUT', made if made is None else pairs_of(made), wanted)
        if made is not None:
            os.remove(self.path('out'))


# ---- the tests

def whole_connections(folder: Folder) -> None:
    """The streams of whole connections are packed, also if segments come in another order, twice,
    or in parts."""
    pair = (b'callmore', b'reply')
    for name, frames in (
            ('in order', WHOLE), ('swapped', [*WHOLE[:2], WHOLE[4], *WHOLE[2:4]]),
            ('twice', [*WHOLE, WHOLE[2], WHOLE[3]]),
            ('in parts', [*OPENED, sent(103, b'llmo'), sent(101, b'call'), sent(105, b'more'),
                          answered(501, b'reply', acknowledged=109)]),
            ('with FIN', [*WHOLE, sent(109, b'', FIN | ACK, 506),
                          answered(506, b'', FIN | ACK, 110)])):
        folder.converts(name, recording(*frames), [pair], 0, COUNTS.format(len(frames), 1, 1))


def numbers_that_wrap(folder: Folder) -> None:
    """Sequence numbers go on after 2^32 - 1."""
    first = 2 ** 32 - 3
    frames = [segment(CLIENT, SERVER, first, SYN),
              segment(SERVER, CLIENT, 500, SYN | ACK, b'', first + 1),
              sent(first + 1, b'call'), sent(first + 5, b'more')]
    folder.converts('wraps', recording(*frames), [(b'callmore', b'')], 0, COUNTS.format(4, 1, 1))


def flaws(folder: Folder) -> None:
    """A connection that is not whole is printed with what is wrong, and not packed."""
    for name, frames, line in (
            ('no SYN of the client', WHOLE[1:],
             'connection 1 client: NoSyn'),
            ('no SYN of the server', [WHOLE[0], *WHOLE[2:]],
             'connection 1 server: NoSyn'),
            ('missing in between', [*OPENED, WHOLE[4]],
             'connection 1 client: 4 bytes are missing after 0, frame 3'),
            ('missing by an acknowledgment', [*WHOLE[:4], answered(506, b'', acknowledged=109)],
             'connection 1 client: 4 bytes are missing after 4, frame 5'),
            ('missing before FIN', [*WHOLE[:3], sent(109, b'', FIN | ACK)],
             'connection 1 client: 4 bytes are missing after 4, frame 4'),
            ('behind FIN', [*WHOLE, sent(109, b'', FIN | ACK, 506), sent(110, b'x', ACK, 506)],
             'connection 1 client: bytes follow FIN after 9, frame 7'),
            ('a wild number', [*WHOLE, sent(109 + 2 ** 31, b'x', ACK, 506)],
             'connection 1 client: a number is none of the stream, frame 6'),
            ('other content', [*WHOLE, sent(101, b'cell')],
             'connection 1 client: 4 bytes differ that came again after 0, frame 6')):
        folder.converts(name, recording(*frames), [], 2,
                        COUNTS.format(len(frames), 1, 0) + line + '\n')


def several_connections(folder: Folder) -> None:
    """Whole connections are packed beside others, in the order of the recording."""
    other = ported(20048, WHOLE)
    frames = [*WHOLE[1:], *other]
    folder.converts('one of two', recording(*frames), [(b'callmore', b'reply')], 2,
                    COUNTS.format(len(frames), 2, 1) + 'connection 1 client: NoSyn\n')


def chosen_connections(folder: Folder) -> None:
    """Chosen are the usual ports, calls of RPC, and the ports that are named."""
    call = CALL + bytes(24)
    begun = [*OPENED, sent(101, call)]
    pair = (b'callmore', b'reply')
    for name, frames, wanted, words in (
            ('the port of NFS', WHOLE, [pair], []), ('MOUNT', ported(20048, WHOLE), [pair], []),
            ('the port mapper', ported(111, WHOLE), [pair], []),
            ('another port', ported(80, WHOLE), [], []),
            ('a call', ported(80, begun), [(call, b'')], []),
            ('a port', ported(80, WHOLE), [pair], ['--port', '80']),
            ('ports', ported(80, WHOLE), [pair], ['--port=79,80']),
            ('twice', ported(80, WHOLE), [pair], ['--port', '79', '--port', '80']),
            ('other ports', WHOLE, [], ['--port', '80'])):
        folder.converts(name, recording(*frames), wanted, 0,
                        COUNTS.format(len(frames), 1, len(wanted)), *words)


def damaged_recordings(folder: Folder) -> None:
    """A recording that is cut has what came before. A file without a header is refused."""
    frames, pair = recording(*WHOLE), (b'call', b'reply')
    at = len(recording(*WHOLE[:4]))
    folder.converts('cut', frames[:-1], [pair], 2, COUNTS.format(4, 1, 1)
                    + f'file {at}: Cut after frame 4\n')
    long = frames[:at + 8] + struct.pack('<II', 2 ** 25, 2 ** 25) + frames[at + 16:]
    folder.converts('a long frame', long, [pair], 2, COUNTS.format(4, 1, 1)
                    + f'file {at}: TooLong after frame 4\n')
    folder.converts('no frames', recording(), [], 0, COUNTS.format(0, 0, 0))
    for name, content, why in (('empty', b'', 'Cut'), ('a text', b'NFS\n' * 9, 'NotRecording'),
                               ('a compressed file', b'\x1f\x8b\x08' + bytes(40), 'NotRecording'),
                               ('half a header', frames[:12], 'Cut')):
        folder.converts(name, content, None, 2, f'file 0: {why} after frame 0\n')


def files_that_are_refused(folder: Folder) -> None:
    """The recording is a regular file, and not the output."""
    folder.write('in', recording(*WHOLE))
    os.mkfifo(folder.path('fifo'))
    os.symlink('in', folder.path('link'))
    keep = os.open(folder.path('fifo'), os.O_RDWR)
    irregular = 'the recording is no regular file: write it into one first\n'
    for words, status, text in (
            (['fifo', 'out'], 3, irregular), (['/dev/null', 'out'], 3, irregular),
            (['.', 'out'], 3, irregular), (['in', 'in'], 4, 'output names an input\n'),
            (['in', 'link'], 4, 'output names an input\n'),
            (['none', 'out'], 3, 'open failed: none\n'),
            (['in', 'none/out'], 3, 'open failed: none/out\n')):
        folder.want(' '.join(words), folder.run('nfs3streams', *words), (status, '', text))
    os.close(keep)
    folder.want('no OUT', folder.read('out'), None)
    lines = COUNTS.format(5, 1, 1)
    folder.want('standard output', folder.run('nfs3streams', 'in', '/dev/stdout')[::2],
                (0, lines))


def lines_that_are_refused(folder: Folder) -> None:
    """A line that clap does not take, or ports that are none, ends with the status 4."""
    folder.write('in', recording(*WHOLE))
    for words in ([], ['in'], ['in', 'out', 'more'], ['--no', 'in', 'out'], ['--help'],
                  *(['--port', ports, 'in', 'out'] for ports in (
                      '0', '65536', '', '2049,', ',2049', 'nfs', '-1', '20 49'))):
        status, out, error = folder.run('nfs3streams', *words)
        folder.want(' '.join(words), (status, out, 'nfs3streams' in error), (4, '', True))
    folder.want('no OUT', folder.read('out'), None)
    folder.want('after --', folder.run('nfs3streams', '--', 'in', 'out')[0], 0)
    for words in (['--index=1', 'in', 'idx'], ['--index', 'in']):
        folder.want(' '.join(words), folder.run('nfs3streams', *words)[0], 4)
    for words in (['--index', 'in', 'idx'], ['in', 'idx', '--index', '--index']):
        folder.want(' '.join(words), folder.run('nfs3streams', *words)[0], 0)
        folder.want(f'index: {" ".join(words)}', (folder.read('idx') or b'')[:8], b'NFS3IDX1')


def recordings() -> Iterator[pathlib.Path]:
    """Yields the recordings that both readers are asked about."""
    named = os.environ.get('RECORDINGS')
    for folder in (TOP / 'examples', *([pathlib.Path(named)] if named else [])):
        for path in sorted(folder.iterdir()):
            if path.suffix in ('.pcap', '.pcapng'):
                yield path


def as_from_pcap(folder: Folder) -> None:
    """OUT has what `tools/from_pcap` has of the connections that are whole."""
    for path in recordings():
        status, out, error = folder.run('nfs3streams', str(path), 'out')
        other = ended([str(TOP / 'tools/from_pcap'), str(path), 'other'],
                      folder.folder).text()
        mine, others = pairs_of(folder.read('out') or b''), pairs_of(folder.read('other') or b'')
        folder.want(path.name, (status in (0, 2), error, other[0]), (True, '', 0))
        if status == 0:
            folder.want(f'{path.name}: all', mine, others)
        else:
            folder.want(f'{path.name}: whole ones', [pair for pair in mine if pair not in others],
                        [])
            folder.want(f'{path.name}: others', 'connection ' in out, True)


# ---- random recordings

class Sender:
    """Makes the frames of a connection by chance, most of them as an end sends them."""

    def __init__(self, chance: random.Random) -> None:
        self.chance = chance
        self.ends = ('192.0.2.7', 700 + chance.randrange(2)), (
            '192.0.2.1', chance.choice((2049, 2049, 20048, 80)))
        self.numbers = [chance.choice((chance.randrange(2 ** 32), 2 ** 32 - chance.randrange(99)))
                        for _ in range(2)]

    def frame(self, side: int, flags: int, payload: bytes = b'', ahead: int = 0) -> bytes:
        return segment(self.ends[side], self.ends[1 - side], self.numbers[side] + ahead, flags,
                       payload, self.numbers[1 - side])

    def sent(self, side: int, flags: int, payload: bytes = b'') -> bytes:
        """Returns a frame after which the numbers go on."""
        frame = self.frame(side, flags, payload)
        self.numbers[side] += len(payload) + (flags & (SYN | FIN) > 0)
        return frame

    def odd(self) -> bytes:
        """Returns a frame that repeats bytes, keeps alive, resets, or belongs to nothing."""
        chance = self.chance
        ahead = chance.choice((-1, -1, -20, -300, 50, 2 ** 30, 2 ** 30 + 1, -2 ** 30, 2 ** 31))
        payload = chance.randbytes(chance.choice((0, 1, 1, 19, 40)))
        flags = chance.choice((ACK, ACK, ACK, FIN | ACK, SYN, RST, RST | ACK, SYN | ACK))
        return self.frame(chance.randrange(2), flags, payload, ahead)

    def frames(self) -> list[bytes]:
        chance, is_odd = self.chance, self.chance.choice((0, 0, 0.02, 0.1))
        found = [self.sent(0, SYN), self.sent(1, SYN | ACK)]
        if chance.random() < 0.3:
            found.append(self.sent(0, ACK, CALL + bytes(24)))
        for _ in range(chance.choice((0, 3, 20))):
            payload = chance.randbytes(chance.randrange(60))
            found.append(self.sent(chance.randrange(2), ACK, payload))
            found += [self.odd()] if chance.random() < is_odd else []
        ending = chance.choice(([], [(0, FIN | ACK), (1, FIN | ACK), (0, ACK)],
                                [(1, FIN | ACK), (0, ACK)], [(0, RST | ACK)]))
        return found + [self.sent(side, flags) for side, flags in ending]


def disturbed(chance: random.Random, frames: list[bytes]) -> list[bytes]:
    """Loses frames, and has some come later or twice."""
    lost, late, twice = (chance.choice(rates) for rates in ((0, 0, 0.01, 0.1), (0, 0, 0.1),
                                                            (0, 0, 0.1)))
    left = list[tuple[float, bytes]]()
    for at, frame in enumerate(frames):
        if chance.random() >= lost:
            left.append((at + (chance.choice((1.5, 30.5)) if chance.random() < late else 0), frame))
            left += [(at + chance.choice((0.5, 5.5)), frame)] if chance.random() < twice else []
    return [frame for _, frame in sorted(left, key=lambda one: one[0])]


def random_recording(seed: int) -> bytes:
    """Returns a recording of one to three connections, of which some frames are not kept whole, or
    are no segments, and whose end may be missing."""
    chance = random.Random(seed)
    turns = [Sender(chance).frames() for _ in range(chance.choice((1, 1, 2, 3)))]
    mixed = [turn.pop(0) for turn in iter(
        lambda: chance.choice([turn for turn in turns if turn] or [[]]), [])]
    content, cut = recording(), chance.choice((0, 0, 0.05))
    for frame in disturbed(chance, mixed):
        frame = bytes(frame) if chance.random() > 0.01 else chance.randbytes(30)
        kept = chance.randrange(len(frame)) if chance.random() < cut else len(frame)
        content += struct.pack('<IIII', 1, 0, kept, len(frame)) + frame[:kept]
    return content[:chance.randrange(len(content))] if chance.random() < 0.05 else content


def random_recordings(folder: Folder) -> None:
    """Of random recordings capture and index are those of the model."""
    for seed in range(1_500):
        as_the_model(folder, f'seed {seed}', random_recording(seed), () if seed % 5 else (80,))


def recordings_of_the_model(folder: Folder) -> None:
    """Of recorded ones, too."""
    for path in recordings():
        as_the_model(folder, path.name, path.read_bytes(), ())


def as_the_model(folder: Folder, name: str, content: bytes, ports: tuple[int, ...]) -> None:
    """Status, text and OUT are those of the model, as a capture and as an index."""
    folder.write('in', content)
    wanted = answer(content, ports)
    words = [word for port in ports for word in ('--port', str(port))]
    for flags, out in ([], wanted.capture), (['--index'], wanted.index):
        status, text, error = folder.run('nfs3streams', *flags, *words, 'in', 'out')
        folder.want(' '.join([name, *flags]),
                    (status, without_changes(text or error), folder.read('out')),
                    (wanted.status, without_changes(wanted.text), out))
        if out is not None:
            os.remove(folder.path('out'))


def without_changes(text: str) -> str:
    """Returns a text without what follows the side of a stream with other content, since which of
    several such payloads is named is not said."""
    return re.sub(r': \d+ bytes differ .*', ': bytes differ', text)


TESTS: tuple[Callable[[Folder], None], ...] = (
    whole_connections, numbers_that_wrap, flaws, several_connections, chosen_connections,
    damaged_recordings, files_that_are_refused, lines_that_are_refused, as_from_pcap,
    recordings_of_the_model, random_recordings)

if __name__ == '__main__':
    try_tests(__doc__, Folder, TESTS)

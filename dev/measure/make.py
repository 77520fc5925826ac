#!/usr/bin/env python3
"""Writes big captures on which the program is measured.

    make.py readdir OUT         a READDIR reply of 100,000 entries, and its call
    make.py long OUT            a raw call with the longest body that a record may have
    make.py mixed MEGABYTES OUT what a file server sees: attributes, names, folders, and data of 32
    to 64 KiB
    make.py small MEGABYTES OUT GETATTR, LOOKUP and ACCESS alone
    make.py recorded MEGABYTES OUT
                                calls in the proportions and sizes of a recorded Linux client, with
                                400 files
    make.py plain MEGABYTES OUT the same of a short recording without data: 53 handles, connections
    of 15 calls, and
                                two chunks in each
    make.py interleaved MEGABYTES OUT
                                the messages of `mixed` in version 2, each a chunk, in the order in
                                which they are sent
    make.py xids OUT            one connection of 1,000,000 NULL calls with different xids, and
    their replies

All are well formed, and the same at each run. Messages are written as they are made, so memory
stays small.
"""
import argparse
import itertools
import pathlib
import random
import sys
from collections.abc import Callable, Iterable, Iterator, Sequence
from typing import BinaryIO, NamedTuple, TypeVar

sys.path.insert(0, str(pathlib.Path(__file__).resolve().parents[2]))
from examples.messages import (
    CLIENT, DIR, NFS, NFSACL, NFS_PROCEDURES, REG, SERVER, UNSTABLE, auth_sys, call, dirop, entries,
    entry, entryplus, fattr, fh, hyper, ok, opaque, optional, post_op_attr, record, sattr, success,
    version_1, version_2, wcc, word)

LONGEST_BODY = 16_777_216
CALLS = 2_000               # in a connection, if nothing else is said
LATEST = 16                 # how many calls later a reply may come
MOST_MEGABYTES = 1_000      # a capture's streams may have 1,073,741,824 bytes

KIB = 1_024
CREDENTIAL = auth_sys(0x1d2c, b'client.example', 1000, 1000, [4, 24, 1000])
WRITE_VERIFIER = bytes.fromhex('6553f100000a1b2c')
COOKIE_VERIFIER = bytes.fromhex('00000000000000c7')


T = TypeVar('T')
# The chunks of a connection, those of the calls and those of the replies, which are made as they
# are asked for.
Sides = tuple[Iterator[bytes], Iterator[bytes]]


class Mix(NamedTuple):
    """What is called: of a hundred calls, how many are of each procedure; and how many files there
    are. The first of them are folders."""
    shares: dict[str, int]
    files: int = 10_000
    folders: int = 100
    least: int = 32 * 1_024  # of the bytes that are read or written at once
    most: int = 64 * 1_024
    calls: int = CALLS       # in a connection


class Exchange(NamedTuple):
    """A call and its reply: the procedure, the number of the file, and how many bytes are read or
    written."""
    xid: int
    procedure: str
    file: int
    size: int


def handle(file: int) -> bytes:
    """A handle of 28 bytes, as servers make them: a file system's number, the file's, and a
    generation."""
    return bytes.fromhex('01000701') + bytes(7) + b'\x42' + hyper(file) + hyper(0x5dee1f00)


def attributes(file: int, is_folder: bool) -> bytes:
    if is_folder:
        return fattr(DIR, file, size=4096, mode=0o755, nlink=2)
    return fattr(REG, file, size=file * 977)


def name(file: int) -> bytes:
    return b'file%05d.dat' % file


class Server:
    """What a server would answer, with what many messages share made once."""

    def __init__(self, chance: random.Random, mix: Mix) -> None:
        self.files, self.folders = mix.files, mix.folders
        self.handles = [handle(file) for file in range(mix.files)]
        self.attributes = [attributes(file, file < mix.folders) for file in range(mix.files)]
        self.changes = [wcc(4096, known) for known in self.attributes]
        self.data = chance.randbytes(128 * KIB)

    def content(self, exchange: Exchange) -> bytes:
        """The data that are read or written: other bytes for each file."""
        return self.data[exchange.file:exchange.file + exchange.size]

    def arguments(self, exchange: Exchange) -> bytes:
        this = fh(self.handles[exchange.file])
        match exchange.procedure:
            case 'GETATTR':
                return this
            case 'SETATTR':
                return this + sattr(mode=0o644) + optional(None)
            case 'LOOKUP' | 'REMOVE':
                return dirop(self.handles[exchange.file % self.folders], name(exchange.file))
            case 'ACCESS':
                return this + word(0x1f)
            case 'READ':
                return this + hyper(0) + word(exchange.size)
            case 'WRITE':
                return this + hyper(0) + word(exchange.size) + word(UNSTABLE) + opaque(
                    self.content(exchange))
            case 'COMMIT':
                return this + hyper(0) + word(0)
            case 'READDIRPLUS':
                return fh(self.handles[exchange.file % self.folders]) + hyper(0) + bytes(8) + word(
                    8 * KIB) + word(32 * KIB)
        raise ValueError(exchange.procedure)

    def results(self, exchange: Exchange) -> bytes:
        file = exchange.file
        known = post_op_attr(self.attributes[file])
        match exchange.procedure:
            case 'GETATTR':
                return ok(self.attributes[file])
            case 'LOOKUP':
                return ok(fh(self.handles[file]), known,
                          post_op_attr(self.attributes[file % self.folders]))
            case 'ACCESS':
                return ok(known, word(0x1f))
            case 'READ':
                return ok(known, word(exchange.size), word(0), opaque(self.content(exchange)))
            case 'WRITE':
                return ok(self.changes[file], word(exchange.size), word(UNSTABLE), WRITE_VERIFIER)
            case 'SETATTR' | 'REMOVE':
                return ok(self.changes[file])
            case 'COMMIT':
                return ok(self.changes[file], WRITE_VERIFIER)
            case 'READDIRPLUS':
                return ok(self.listing(file % self.folders))
        raise ValueError(exchange.procedure)

    def listing(self, folder: int) -> bytes:
        """The first 50 files of a folder."""
        files = range(self.folders + folder, self.files, self.folders)[:50]
        items = [entryplus(file, name(file), cookie, self.attributes[file], self.handles[file])
                 for cookie, file in enumerate(files, 1)]
        return entries(self.attributes[folder], COOKIE_VERIFIER, items, is_end=False)


MIXED = Mix({'GETATTR': 26, 'LOOKUP': 20, 'ACCESS': 20, 'READ': 18, 'WRITE': 9, 'COMMIT': 4,
             'READDIRPLUS': 3})
SMALL = Mix({'GETATTR': 40, 'LOOKUP': 35, 'ACCESS': 25})
RECORDED = Mix({'GETATTR': 54, 'LOOKUP': 26, 'ACCESS': 2, 'READ': 9, 'WRITE': 7, 'COMMIT': 1,
                'READDIRPLUS': 1},
               files=400, folders=20, least=4 * KIB, most=12 * KIB)
PLAIN = Mix({'GETATTR': 12, 'SETATTR': 32, 'LOOKUP': 20, 'ACCESS': 7, 'REMOVE': 25,
             'READDIRPLUS': 4},
            files=53, folders=5, calls=15)

# About how many bytes a call and its reply have, without data.
BYTES = {'GETATTR': 260, 'SETATTR': 310, 'LOOKUP': 390, 'ACCESS': 260, 'REMOVE': 330, 'READ': 280,
         'WRITE': 310, 'COMMIT': 300, 'READDIRPLUS': 8_000}


def exchanges(chance: random.Random, mix: Mix, room: int) -> tuple[list[Exchange], int]:
    """Returns a connection's exchanges, and about how many bytes they have. They end when the room
    is used up."""
    first_xid = chance.getrandbits(31)
    taken, used = list[Exchange](), 0
    for procedure in chance.choices(list(mix.shares), list(mix.shares.values()), k=mix.calls):
        size = chance.randrange(mix.least, mix.most + 1) if procedure in ('READ', 'WRITE') else 0
        taken.append(Exchange(first_xid + len(taken), procedure,
                              chance.randrange(mix.folders, mix.files), size))
        used += BYTES[procedure] + size
        if used >= room:
            break
    return taken, used


def reordered(chance: random.Random, items: Sequence[T]) -> list[T]:
    """Returns the items, each less than `LATEST` places from its own: a server answers what is done
    first."""
    places = [i + chance.uniform(0, LATEST) for i in range(len(items))]
    return [items[i] for i in sorted(range(len(items)), key=places.__getitem__)]


def conversations(mix: Mix, megabytes: int) -> Iterator[Sides]:
    """Yields the chunks of each connection."""
    chance = random.Random(1)
    server = Server(chance, mix)
    room = megabytes * 1_000_000
    while room > 0:
        taken, used = exchanges(chance, mix, room)
        room -= used
        calls = (record(call(exchange.xid, NFS, 3, NFS_PROCEDURES.index(exchange.procedure),
                             server.arguments(exchange),
                             credential=CREDENTIAL)) for exchange in taken)
        yield calls, (record(success(exchange.xid, server.results(exchange)))
                      for exchange in reordered(chance, taken))


def write_connections(out: BinaryIO, mix: Mix, megabytes: int) -> None:
    out.writelines(version_1(conversations(mix, megabytes)))


def write_streams(out: BinaryIO, mix: Mix, megabytes: int) -> None:
    """Writes each stream as one chunk."""
    out.writelines(version_1((joined(calls), joined(replies))
                             for calls, replies in conversations(mix, megabytes)))


def joined(chunks: Iterable[bytes]) -> list[bytes]:
    return [opaque(b''.join(chunk[4:] for chunk in chunks))]


def write_interleaved(out: BinaryIO, mix: Mix, megabytes: int) -> None:
    out.writelines(version_2(in_order(*sides) for sides in conversations(mix, megabytes)))


def in_order(calls: Iterable[bytes], replies: Iterable[bytes]) -> Iterator[bytes]:
    """Yields the chunks of a connection of version 2, in which each reply comes after its call."""
    nothing: list[bytes | None] = [None] * LATEST
    for sent in itertools.zip_longest(calls, itertools.chain(nothing, replies)):
        yield from (side + chunk for side, chunk in zip((CLIENT, SERVER), sent) if chunk)


def write_readdir(out: BinaryIO) -> None:
    """Writes a READDIR call and its reply, whose body has 2,800,048 bytes."""
    arguments = fh(b'\xaa') + hyper(0) + bytes(8) + word(4 << 20)
    items = (entry(cookie, b'a', cookie) for cookie in range(1, 100_001))
    reply = success(1, ok(entries(None, COOKIE_VERIFIER, items, is_end=True)))
    asked = call(1, NFS, 3, NFS_PROCEDURES.index('READDIR'), arguments)
    out.writelines(version_1([([record(asked)], [record(reply)])]))


def write_long(out: BinaryIO) -> None:
    """Writes a raw call whose body is as long as a record may be."""
    head = len(call(1, NFSACL, 3, 1))
    out.writelines(version_1([([record(call(1, NFSACL, 3, 1, bytes(LONGEST_BODY - head)))], [])]))


def write_xids(out: BinaryIO) -> None:
    """Writes one connection of 1,000,000 NULL calls with different xids, and their replies in the
    other order."""
    xids = range(1_000_000)
    out.writelines(version_1([((record(call(xid, NFS, 3, 0)) for xid in xids),
                               (record(success(xid)) for xid in reversed(xids)))]))


def megabytes(text: str) -> int:
    number = int(text)
    if not 1 <= number <= MOST_MEGABYTES:
        raise argparse.ArgumentTypeError(f'1 to {MOST_MEGABYTES}')
    return number


# What writes each kind of capture. Those of so many megabytes are by themselves.
WHOLE: dict[str, Callable[[BinaryIO], None]] = {'readdir': write_readdir, 'long': write_long,
                                                'xids': write_xids}
SIZED: dict[str, tuple[Callable[[BinaryIO, Mix, int], None], Mix]] = {
    'mixed': (write_connections, MIXED), 'small': (write_connections, SMALL),
    'recorded': (write_connections, RECORDED),
    'plain': (write_streams, PLAIN), 'interleaved': (write_interleaved, MIXED)}


def main() -> None:
    parser = argparse.ArgumentParser(description=__doc__,
                                     formatter_class=argparse.RawDescriptionHelpFormatter)
    kinds = parser.add_subparsers(dest='kind', required=True)
    for kind in (*WHOLE, *SIZED):
        arguments = kinds.add_parser(kind)
        if kind in SIZED:
            arguments.add_argument('megabytes', type=megabytes)
        arguments.add_argument('out')
    chosen = parser.parse_args()
    with open(chosen.out, 'wb') as out:
        if chosen.kind in SIZED:
            write, mix = SIZED[chosen.kind]
            write(out, mix, chosen.megabytes)
        else:
            WHOLE[chosen.kind](out)


if __name__ == '__main__':
    main()

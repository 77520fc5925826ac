"""Random captures: what clients and servers of NFS version 3 and MOUNT version 3 might send each
other.

All choices come out of a seed, and all that a canonical form renames out of `Names`. So one seed
with other names is the same traffic up to renaming.
"""
import random
from collections.abc import Callable, Iterable, Sequence
from dataclasses import dataclass, replace
from typing import NamedTuple, TypeVar

from examples import messages
from examples.messages import (
    AUTH_NONE, CLIENT, DONT_CHANGE, EXCLUSIVE, MOUNT, NFS, NFSACL, SERVER, SET_TO_SERVER_TIME,
    Bodies, array, auth_sys, call, chunk, dirop, entries, entry, entryplus, exports, failed, fattr,
    fh, fragment, guard, how, hyper, made, mountlist, nfstime, ok, opaque, post_op_attr, sattr,
    set_to_client_time, success, version_1, version_2, wcc, word)

HANDLES, VERIFIERS, CONNECTIONS, XIDS = 7, 3, 3, 10
WRITE, COMMIT = 7, 21
STATUSES = (1, 2, 5, 6, 13, 17, 18, 19, 20, 21, 22, 27, 28, 30, 31, 63, 66, 69, 70, 71,
            *range(10001, 10009))
MOUNT_STATUSES = (1, 2, 5, 13, 20, 22, 63, 10004, 10006)

T = TypeVar('T')
# Makes a part of a message.
Part = Callable[['Traffic'], bytes]
# A handle or a write verifier: its kind, and its number among the names of that kind.
Value = tuple[str, int]
# The client's and the server's stream of a connection.
Streams = tuple[bytes, bytes]

# Arguments and the results of a success, by the number of the procedure (RFC 1813, sections 3.3 and
# 5.2); of NFS also what stands after another status: 'p' for post_op_attr, 'w' for wcc_data.
NFS_PROCEDURES: list[tuple[Part, Part, str | None]] = [
    (lambda t: b'', lambda t: b'', None),
    (lambda t: fh(t.handle()), lambda t: t.fattr(), ''),
    (lambda t: fh(t.handle()) + t.sattr() + guard(t.maybe(t.time)), lambda t: t.wcc(), 'w'),
    (lambda t: t.dirop(), lambda t: fh(t.handle()) + t.poa() + t.poa(), 'p'),
    (lambda t: fh(t.handle()) + t.word(), lambda t: t.poa() + t.word(), 'p'),
    (lambda t: fh(t.handle()), lambda t: t.poa() + t.string(), 'p'),
    (lambda t: fh(t.handle()) + t.hyper() + t.word(), lambda t: t.poa() + t.word() + t.flag()
     + t.data(), 'p'),
    (lambda t: fh(t.handle()) + t.hyper() + t.word() + t.below(3) + t.data(),
     lambda t: t.wcc() + t.word() + t.below(3) + t.verifier(), 'w'),
    (lambda t: t.dirop() + t.how(), lambda t: t.made(), 'w'),
    (lambda t: t.dirop() + t.sattr(), lambda t: t.made(), 'w'),
    (lambda t: t.dirop() + t.sattr() + t.string(), lambda t: t.made(), 'w'),
    (lambda t: t.dirop() + t.node(), lambda t: t.made(), 'w'),
    (lambda t: t.dirop(), lambda t: t.wcc(), 'w'),
    (lambda t: t.dirop(), lambda t: t.wcc(), 'w'),
    (lambda t: t.dirop() + t.dirop(), lambda t: t.wcc() + t.wcc(), 'ww'),
    (lambda t: fh(t.handle()) + t.dirop(), lambda t: t.poa() + t.wcc(), 'pw'),
    (lambda t: fh(t.handle()) + t.hyper() + t.octets(8) + t.word(), lambda t: t.entries(t.entry),
     'p'),
    (lambda t: fh(t.handle()) + t.hyper() + t.octets(8) + t.word() + t.word(),
     lambda t: t.entries(t.entryplus), 'p'),
    (lambda t: fh(t.handle()), lambda t: t.poa() + t.octets(52), 'p'),
    (lambda t: fh(t.handle()), lambda t: t.poa() + t.octets(48), 'p'),
    (lambda t: fh(t.handle()), lambda t: t.poa() + t.octets(8) + t.flag() + t.flag() + t.flag()
     + t.flag(), 'p'),
    (lambda t: fh(t.handle()) + t.hyper() + t.word(), lambda t: t.wcc() + t.verifier(), 'w')]
MOUNT_PROCEDURES: list[tuple[Part, Part]] = [
    (lambda t: b'', lambda t: b''),
    (lambda t: t.string(), lambda t: ok(fh(t.handle()), array(t.some(t.word)))
     if t.likely() else failed(t.chance.choice(MOUNT_STATUSES))),
    (lambda t: b'', lambda t: mountlist(t.some(lambda: (t.text(), t.text())))),
    (lambda t: t.string(), lambda t: b''),
    (lambda t: b'', lambda t: b''),
    (lambda t: b'', lambda t: exports(t.some(lambda: (t.text(), t.some(t.name)))))]


@dataclass(frozen=True)
class Names:
    """What replaces the handles, write verifiers and xids of a capture, and its residual bytes.
    The handle 0 is empty."""
    handles: list[bytes]
    verifiers: list[bytes]
    xids: list[list[int]]
    residual: bytes = b'\0'

    @staticmethod
    def drawn(chance: random.Random) -> 'Names':
        """Returns names of which no two are alike. No byte of a handle is 0, so none is taken for a
        residual byte."""
        drawn = {bytes(chance.choices(range(1, 256),
                                      k=chance.choice((1, 4, 5, 8, 27, 28, 32, 63, 64))))
                 for _ in range(99)}
        handles = [b''] + chance.sample(sorted(drawn), HANDLES - 1)
        verifiers = [hyper(number) for number in chance.sample(range(1 << 40), VERIFIERS)]
        return Names(handles, verifiers,
                     [chance.sample(range(1 << 32), XIDS) for _ in range(CONNECTIONS)])

    def turned(self) -> 'Names':
        """Returns names that differ from these in each byte, and in whether the length of a handle
        is even, and take as many bytes."""
        def other(handle: bytes) -> bytes:
            turned = bytes(255 - byte for byte in handle)
            return turned[:-1] if len(handle) % 4 == 0 else turned + b'\xff'
        xids = [[0xffffffff - xid for xid in each] for each in self.xids]
        return Names([b''] + list(map(other, self.handles[1:])),
                     [bytes(255 - byte for byte in v) for v in self.verifiers], xids)

    def merged(self, kind: str, kept: int, lost: int) -> 'Names':
        """Returns these names, but one handle or verifier replaces two."""
        names = Names(list(self.handles), list(self.verifiers), self.xids)
        of_kind = {'handles': names.handles, 'verifiers': names.verifiers}[kind]
        of_kind[lost] = of_kind[kept]
        return names

    def padded(self) -> 'Names':
        """Returns these names with other residual bytes."""
        return replace(self, residual=b'\xff')


class Seen(NamedTuple):
    """A record: its place as the program prints it, and the handles and write verifiers that it
    has."""
    place: str
    values: list[Value]


class Made(NamedTuple):
    """A body, and the handles and write verifiers that it has."""
    body: bytes
    values: list[Value]


class Chosen(NamedTuple):
    """A procedure, with what makes its arguments and its results."""
    program: int
    version: int
    procedure: int
    arguments: Part
    results: Part


class Traffic:
    """The connections of a capture, each its calls and its replies, and what is `seen` in each
    record, in the order of the file."""

    def __init__(self, seed: int, names: Names) -> None:
        self.chance, self.names = random.Random(seed), names
        self.here: list[Value] = []
        messages.RESIDUAL = names.residual
        self.connections: list[Bodies] = []
        self.seen: list[Seen] = []
        for number in range(1, self.chance.choice((0, 1, 2, 2, 3, 3, 3)) + 1):
            calls, replies = self.conversation(names.xids[number - 1])
            self.connections.append(([made.body for made in calls],
                                     [made.body for made in replies]))
            self.seen += [Seen('connection %d %s record %d' % (number, side, record), made.values)
                          for side, bodies in (('client', calls), ('server', replies))
                          for record, made in enumerate(bodies, 1)]

    def conversation(self, xids: Sequence[int]) -> tuple[list[Made], list[Made]]:
        """Returns the calls and the replies of a connection, with some of the xids."""
        calls, replies = list[Made](), list[Made]()
        for xid in xids[:self.chance.randrange(XIDS + 1)]:
            chosen = self.chosen()
            for _ in range(self.chance.choice((1, 1, 1, 2))):
                calls.append(self.kept(lambda traffic: traffic.call(xid, chosen)))
            for _ in range(self.chance.choice((0, 1, 1, 1, 2))):
                replies.append(self.kept(lambda traffic: traffic.reply(xid, chosen.results)))
        self.chance.shuffle(calls)
        self.chance.shuffle(replies)
        return calls, replies

    def kept(self, make: Part) -> Made:
        """Returns a body, and the values that were drawn for it."""
        self.here = []
        return Made(make(self), self.here)

    def chosen(self) -> Chosen:
        """Returns a procedure. One of ten is carried raw."""
        kind = self.chance.randrange(10)
        if kind == 0:
            known = self.chance.choice(((NFSACL, 3, 1), (NFS, 4, 1), (NFS, 3, 22), (100000, 2, 3)))
            return Chosen(*known, Traffic.rest, Traffic.rest)
        if kind < 3:
            number = self.chance.randrange(len(MOUNT_PROCEDURES))
            return Chosen(MOUNT, 3, number, *MOUNT_PROCEDURES[number])
        number = self.chance.choice((WRITE, COMMIT, *range(len(NFS_PROCEDURES))))
        arguments, done, otherwise = NFS_PROCEDURES[number]
        return Chosen(NFS, 3, number, arguments, done if otherwise is None
                      else lambda t: t.answered(done, otherwise))

    def answered(self, done: Part, otherwise: str) -> bytes:
        """Returns results with a status; `otherwise` has a letter for each part that follows a
        status other than 0."""
        if self.likely():
            return ok(done(self))
        parts = {'p': self.poa, 'w': self.wcc}
        return failed(self.chance.choice(STATUSES), *(parts[part]() for part in otherwise))

    def call(self, xid: int, chosen: Chosen) -> bytes:
        return call(xid, *chosen[:3], chosen.arguments(self), credential=self.credential())

    def reply(self, xid: int, results: Part) -> bytes:
        kind = self.chance.randrange(12)
        if kind > 1:
            return success(xid, results(self))
        if kind == 0:
            denied = self.chance.choice((word(0) + self.octets(8), word(1) + self.below(15)))
            return word(xid) + word(1) + word(1) + denied
        status = self.chance.randrange(1, 6)
        return word(xid) + word(1) + word(0) + AUTH_NONE + word(status) + (
            self.octets(8) if status == 2 else b'')

    def credential(self) -> bytes:
        groups = [self.chance.choice((100, 1000, self.chance.randrange(1 << 32)))
                  for _ in range(self.chance.choice((0, 1, 16)))]
        return auth_sys(1, self.text(), 1000, 100,
                        groups) if self.likely() else word(0) + opaque(self.text())

    # --- Parts ---

    def likely(self) -> bool:
        return self.chance.random() < 0.7

    def maybe(self, make: Callable[[], T]) -> T | None:
        return make() if self.likely() else None

    def some(self, make: Callable[[], T]) -> list[T]:
        return [make() for _ in range(self.chance.randrange(4))]

    def octets(self, count: int) -> bytes:
        return self.chance.randbytes(count)

    def text(self) -> bytes:
        return self.octets(self.chance.choice((0, 1, 2, 3, 4, 9, 255)))

    def rest(self) -> bytes:
        return self.octets(self.chance.randrange(40))

    def data(self) -> bytes:
        return opaque(
            self.octets(self.chance.choice((0, 1, 7, 8, 300, 70_000 if self.chance.random() < 0.05
                                            else 4_096))))

    def string(self) -> bytes:
        return opaque(self.text())

    def word(self) -> bytes:
        return self.octets(4)

    def hyper(self) -> bytes:
        return self.octets(8)

    def time(self) -> bytes:
        return nfstime(self.chance.randrange(1 << 32), self.chance.randrange(10 ** 9))

    def below(self, end: int) -> bytes:
        return word(self.chance.randrange(end))

    def flag(self) -> bytes:
        return self.below(2)

    def handle(self) -> bytes:
        number = self.chance.randrange(HANDLES)
        self.here.append(('handles', number))
        return self.names.handles[number]

    def verifier(self) -> bytes:
        number = self.chance.randrange(VERIFIERS)
        self.here.append(('verifiers', number))
        return self.names.verifiers[number]

    def name(self) -> bytes:
        """Returns the name of a file. Of four, one is of the form that Linux gives to removed files
        that are open, or nearly."""
        if self.chance.randrange(4):
            return self.text()
        digits = bytes(self.chance.choices(b'0123456789abcdef', k=24))
        return self.chance.choice((b'.nfs' + digits, b'.nfs' + digits, b'.nfs' + digits[1:],
                                   b'.nfs' + digits + b'0', b'.nfs' + digits.upper(),
                                   b'.nfs' + digits[1:] + b'g', b'.nfS' + digits))

    def dirop(self) -> bytes:
        return dirop(self.handle(), self.name())

    def how(self) -> bytes:
        mode = self.chance.randrange(3)
        return how(mode, self.octets(8) if mode == EXCLUSIVE else self.sattr())

    def node(self) -> bytes:
        kind = self.chance.randrange(1, 8)
        attributes = self.sattr() if kind in (3, 4, 6, 7) else b''
        return word(kind) + attributes + (self.octets(8) if kind in (3, 4) else b'')

    def set_time(self) -> bytes:
        return self.chance.choice((DONT_CHANGE, SET_TO_SERVER_TIME,
                                   set_to_client_time(self.time())))

    def sattr(self) -> bytes:
        mode = self.chance.choice((None, 0o644))
        return sattr(mode, mode, None, mode, self.set_time(), self.set_time())

    def fattr(self) -> bytes:
        return fattr(self.chance.randrange(1, 8), self.chance.randrange(1 << 64),
                     size=self.chance.randrange(1 << 40))

    def poa(self) -> bytes:
        return post_op_attr(self.maybe(self.fattr))

    def wcc(self) -> bytes:
        return wcc(self.chance.choice((None, 4_096)), self.maybe(self.fattr))

    def made(self) -> bytes:
        return made(self.maybe(self.handle), self.maybe(self.fattr), self.wcc())

    def entry(self) -> bytes:
        return entry(self.chance.randrange(1 << 64), self.name(), self.chance.randrange(1 << 64))

    def entryplus(self) -> bytes:
        number, name, cookie = self.chance.randrange(1 << 64), self.name(), self.chance.randrange(
            1 << 64)
        return entryplus(number, name, cookie, self.maybe(self.fattr), self.maybe(self.handle))

    def entries(self, make: Callable[[], bytes]) -> bytes:
        return entries(self.maybe(self.fattr), self.octets(8), self.some(make),
                       bool(self.chance.randrange(2)))


def in_fragments(chance: random.Random, body: bytes) -> bytes:
    """Returns a record in up to four fragments, some of them empty."""
    cuts = sorted(chance.randrange(len(body) + 1) for _ in range(chance.randrange(4)))
    pieces = [body[begin:end] for begin, end in zip([0, *cuts], [*cuts, len(body)])]
    return b''.join(fragment(piece, is_last=False) for piece in pieces[:-1]) + fragment(pieces[-1])


def pieces_of(chance: random.Random, stream: bytes) -> list[bytes]:
    """Returns a stream in pieces of up to 99,999 bytes. A short stream can also be in single bytes,
    or in pieces of up to 999."""
    most = chance.choice((1, 999, 99_999)) if len(stream) < 3_000 else 99_999
    pieces, at = [], 0
    while at < len(stream):
        size = chance.randrange(most) + 1
        pieces.append(stream[at:at + size])
        at += size
    return pieces


def streams_of(chance: random.Random, connections: Iterable[Bodies]) -> list[Streams]:
    """Returns both streams of each connection, their records in fragments."""
    def stream(bodies: Sequence[bytes]) -> bytes:
        return b''.join(in_fragments(chance, body) for body in bodies)
    return [(stream(calls), stream(replies)) for calls, replies in connections]


def in_pieces(chance: random.Random, connections: Iterable[Bodies]) -> bytes:
    """Returns a capture of these connections, with its records in fragments and its streams in
    chunks, cut anywhere."""
    def chunks(stream: bytes) -> list[bytes]:
        return list(map(chunk, pieces_of(chance, stream)))
    return b''.join(version_1((chunks(client), chunks(server))
                              for client, server in streams_of(chance, connections)))


def in_version_2(chance: random.Random, streams: Iterable[Streams]) -> bytes:
    """Returns a capture of version 2 of both streams of each connection, cut anywhere, the sides in
    any order."""
    connections = []
    for pair in streams:
        left = {side: pieces_of(chance, stream)[::-1]
                for side, stream in zip((CLIENT, SERVER), pair)}
        sides = [side for side, pieces in left.items() for _ in pieces]
        chance.shuffle(sides)
        connections.append([side + chunk(left[side].pop()) for side in sides])
    return b''.join(version_2(connections))

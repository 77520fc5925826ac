#!/usr/bin/env python3
"""Runs the built program on captures and command lines that are larger than any of the other tests.

    python3 tests/program/large.py [PROGRAM] [--only TEXT] [-v]

PROGRAM is crates/nfs3canon/out/nfs3canon if none is named. No contract says that an allocation
fails only if the system refuses it: a program that gives up early, with `out of memory`, is proved
as well. So each test here goes past one size at which such a program might give up, and wants the
answer that a small capture would get. The last line is 'N passed, M failed', and the status is 1 if
any failed. It takes less than a minute on four cores.
"""
import hashlib
import os
import pathlib
import sys
from collections.abc import Callable, Iterable, Iterator

sys.path.insert(0, str(pathlib.Path(__file__).resolve().parents[2]))
from examples import messages
from examples.messages import (
    MOUNT, NFS, call, dirop, fh, fragment, hyper, ok, post_op_attr, success, wcc, word)
from tests.shared.running import Runs, pipe_of, try_tests
from tests.shared.texts import mixed
from tests.shared.traffic import COMMIT

# More than any table of a connection or of a capture has in the other tests.
MANY = 1_500_000
UNKNOWN = 0x20000001  # a program that no RFC defines (RFC 5531, section 8.3: the range for users)
LONGEST = 1 << 24  # the bytes that a record's body may have
PRIME = 0x9e3779b1  # odd, so that its multiples by different numbers of four bytes are different


class Place(Runs):
    """A folder, and runs of the program there."""

    def counted(self, name: str, calls: int = 0, replies: int = 0, handles: int = 0,
                connections: int = 1) -> None:
        """`check` counts so many."""
        line = 'ok connections=%d calls=%d replies=%d handles=%d\n' % (connections, calls, replies,
                                                                       handles)
        self.want('check ' + name, self.run('check', name), (0, line, ''))

    def rewritten(self, name: str, form: bytes) -> None:
        """`canon` writes these bytes, and `same` finds no difference between them and the
        capture."""
        self.want('status of canon ' + name, self.run('canon', name, 'out')[::2], (0, ''))
        self.want('what canon writes of ' + name, self.read('out') == form, True)
        self.want('same %s out' % name, self.run('same', name, 'out'), (0, 'same\n', ''))

    def listed(self, name: str, lines: Iterable[bytes]) -> None:
        """`show` prints these lines."""
        wanted, got = hashlib.sha256(), hashlib.sha256()
        for line in lines:
            wanted.update(line + b'\n')
        with self.begin('show', name) as process:
            while piece := pipe_of(process.stdout).read(1 << 20):
                got.update(piece)
            error = pipe_of(process.stderr).read()
        self.want('show ' + name, (process.returncode, error, got.hexdigest()),
                  (0, b'', wanted.hexdigest()))


def scrambled(number: int) -> int:
    """A word for each number below 2^32, no two alike, and in no order."""
    return number * PRIME & 0xffffffff


def capture(calls: Iterable[bytes], replies: Iterable[bytes]) -> bytes:
    """A capture of one connection with these bodies, a record and a chunk each."""
    return b''.join(messages.version_1([(map(messages.record, calls),
                                         map(messages.record, replies))]))


# --- Tables ---

def getattrs(xid: Callable[[int], int], handle: Callable[[int], bytes]) -> Iterator[bytes]:
    """Calls of different xids and handles."""
    head = call(0, NFS, 3, 1)[4:]
    return (word(xid(number)) + head + fh(handle(number)) for number in range(MANY))


def calls_and_handles_of_one_connection(place: Place) -> None:
    given = getattrs(scrambled, lambda number: hyper(scrambled(number)))
    place.write('a', capture(given, []))
    place.counted('a', calls=MANY, handles=MANY)
    form = getattrs(lambda number: number + 1, lambda number: word(number + 1))
    place.rewritten('a', capture(form, []))


def nulls(xid: Callable[[int], int]) -> bytes:
    """NULL calls of different xids, and their replies, the last one first."""
    head, rest = call(0, NFS, 3, 0)[4:], success(0)[4:]
    calls = (word(xid(number)) + head for number in range(MANY))
    return capture(calls, (word(xid(number)) + rest for number in reversed(range(MANY))))


def xids_and_replies_of_one_connection(place: Place) -> None:
    place.write('a', nulls(scrambled))
    place.counted('a', calls=MANY, replies=MANY)
    place.rewritten('a', nulls(lambda number: number + 1))


def commits(count: int, verifier: Callable[[int], bytes]) -> bytes:
    """COMMITs, each answered with another write verifier."""
    calls = (call(number + 1, NFS, 3, COMMIT, fh(word(1)) + bytes(12)) for number in range(count))
    return capture(calls, (success(number + 1, ok(wcc(), verifier(number)))
                           for number in range(count)))


def write_verifiers(place: Place) -> None:
    count = 100_000
    place.write('a', commits(count, lambda number: word(7) + word(scrambled(number))))
    place.counted('a', calls=count, replies=count, handles=1)
    place.rewritten('a', commits(count, lambda number: hyper(number + 1)))


def records_of_same(place: Place) -> None:
    """The one that differs is the last but one of many."""
    count = 200_000
    def accesses(last: int) -> bytes:
        """ACCESS calls, of which the last but one asks for other rights."""
        asked = [1] * (count - 2) + [last, 1]
        return capture((call(number, NFS, 3, 4, fh(b'file') + word(bits))
                        for number, bits in enumerate(asked)), [])
    place.write('a', accesses(1))
    place.write('b', accesses(2))
    place.want('same a a', place.run('same', 'a', 'a'), (0, 'same\n', ''))
    place.want('same a b', place.run('same', 'a', 'b'),
               (1, 'differ at connection 1 client record %d\n' % (count - 1), ''))


# --- Streams and records ---

def streams_of_version_2(place: Place) -> None:
    """The streams of a connection of version 2 are kept, here 80 MB of one side and 40 MB of the
    other."""
    def bodies(make: Callable[[int], bytes], count: int) -> list[bytes]:
        return [make(number + 1) + bytes([number]) * 1_000_000 for number in range(count)]
    calls = bodies(lambda xid: call(xid, UNKNOWN, 1, 1), 80)
    replies = bodies(success, 40)
    place.write('a',
                mixed([[('>', fragment(body)) for body in calls]
                       + [('<', fragment(body)) for body in replies]]))
    place.counted('a', calls=80, replies=40)
    place.rewritten('a', capture(calls, replies))


def records_of_the_largest_size(place: Place) -> None:
    """Of a call that is carried raw, in either version."""
    body = call(1, UNKNOWN, 1, 1)
    body += bytes(range(256)) * ((LONGEST - len(body)) // 256)
    body += bytes(LONGEST - len(body))
    line = (b'1 client 1 xid=1 RAW mtype=0 rpcvers=2 prog=%d vers=1 proc=1 cred_flavor=0 '
            b'cred_body= verf_flavor=0 verf_body= rest=%b'
            % (UNKNOWN, body[40:].hex().encode()))
    for name, content in (('a', capture([body], [])), ('b', mixed([[('>', fragment(body))]]))):
        place.write(name, content)
        place.counted(name, calls=1)
        place.listed(name, [line])
        place.rewritten(name, capture([body], []))


# --- Texts ---

def escaped(text: bytes) -> bytes:
    """As a listing quotes a string: a byte outside 20 to 7e, a quotation mark and a backslash are
    two hexadecimal digits after `\\x`."""
    return b''.join(bytes([byte]) if 0x20 <= byte <= 0x7e and byte not in b'"\\' else b'\\x%02x'
                    % byte for byte in text)


def looked_up(number: int, name: bytes) -> bytes:
    """The line that `show` prints of a LOOKUP call."""
    return (b'1 client %d xid=%d NFSPROC3_LOOKUP mtype=0 rpcvers=2 prog=100003 vers=3 proc=3 '
            b'cred_flavor=0 cred_body= verf_flavor=0 '
            b'verf_body= fh=61 name="%b"' % (number, number, escaped(name)))


def names_in_messages(place: Place) -> None:
    """Of lengths about those at which a buffer may end, plain and with bytes that are escaped."""
    names = [kind[:1] * size for kind in (b'n', b'"', b'\xff')
             for size in (255, 256, 257, 4_095, 4_096, 4_097, 65_536, 1_000_000)]
    place.write('a', capture((call(number, NFS, 3, 3, dirop(b'a', name))
                              for number, name in enumerate(names, 1)), []))
    place.counted('a', calls=len(names), handles=1)
    place.listed('a', (looked_up(number, name) for number, name in enumerate(names, 1)))


def links_in_messages(place: Place) -> None:
    """The path of a READLINK is a string as well."""
    path = bytes(range(256)) * 64
    place.write('a', capture([call(1, NFS, 3, 5, fh(b'a'))],
                             [success(1, ok(post_op_attr(), messages.opaque(path)))]))
    head = b'xid=1 NFSPROC3_READLINK mtype='
    place.listed('a', [
        b'1 client 1 ' + head + b'0 rpcvers=2 prog=100003 vers=3 proc=5 cred_flavor=0 cred_body= '
        b'verf_flavor=0 verf_body= fh=61',
        b'1 server 1 ' + head + b'1 reply_stat=0 verf_flavor=0 verf_body= accept_stat=0 status=0 '
        b'attr=0 path="%b"'
        % escaped(path)])


# --- Long lines of many items ---

ATTRIBUTES = messages.fattr(1, 7)
SHOWN_ATTRIBUTES = (
    b' attr=1 type=1 mode=420 nlink=1 uid=1000 gid=1000 size=0 used=0 rdev1=0 rdev2=0 fsid=66 '
    b'fileid=7'
    + b''.join(b' %b_sec=1744830464 %b_nsec=250000000' % (name, name)
               for name in (b'atime', b'mtime', b'ctime')))


def name_of(number: int) -> bytes:
    """Of different lengths, some with bytes that are escaped."""
    return b'"' * (number % 3) + b'n' * (number % 40)


def shown_entry(number: int) -> bytes:
    return b' entry=1 fileid=%d name="%b" cookie=%d' % (number * PRIME, escaped(name_of(number)),
                                                        number)


def names_listed(xid: int, count: int) -> tuple[bytes, bytes]:
    """A READDIR reply, and its line."""
    items = (messages.entry(number * PRIME, name_of(number), number) for number in range(count))
    results = b''.join(map(shown_entry, range(count)))
    return success(xid, ok(messages.entries(None, bytes(8), items, True))), (
        b'1 server %d xid=%d NFSPROC3_READDIR mtype=1 reply_stat=0 verf_flavor=0 verf_body= '
        b'accept_stat=0 status=0 attr=0 '
        b'cookieverf=0000000000000000%b entry=0 eof=1' % (xid, xid, results))


def entries_listed(xid: int, count: int) -> tuple[bytes, bytes]:
    """A READDIRPLUS reply, and its line. Some entries have attributes, and most a handle."""
    def attributes(number: int) -> bytes | None:
        return ATTRIBUTES if number % 7 else None
    def handle(number: int) -> bytes | None:
        return b'h' * (number % 64 + 1) if number % 5 else None
    def shown(number: int) -> bytes:
        own = handle(number)
        return shown_entry(number) + (SHOWN_ATTRIBUTES if number % 7 else b' attr=0') + (
            b' handle=1 fh=' + own.hex().encode() if own else b' handle=0')
    items = (messages.entryplus(number * PRIME, name_of(number), number, attributes(number),
                                handle(number)) for number in range(count))
    return success(xid, ok(messages.entries(ATTRIBUTES, bytes(8), items, False))), (
        b'1 server %d xid=%d NFSPROC3_READDIRPLUS mtype=1 reply_stat=0 verf_flavor=0 verf_body= '
        b'accept_stat=0 status=0%b '
        b'cookieverf=0000000000000000%b entry=0 eof=0' % (xid, xid, SHOWN_ATTRIBUTES,
                                                          b''.join(map(shown, range(count)))))


def lists_in_messages(place: Place) -> None:
    """Lines of half a megabyte to ten."""
    replies = [names_listed(xid, count)
               for xid, count in enumerate((6_000, 11_000, 12_000, 13_000, 140_000), 1)]
    replies += [entries_listed(xid, count)
                for xid, count in enumerate((1_500, 2_500, 2_700, 2_900, 30_000), 6)]
    sizes = [len(line) for _, line in replies]
    place.want('sizes', [min(sizes) < 700_000, max(sizes) > 9_000_000], [True, True])
    calls = [call(xid, NFS, 3, 16, fh(b'd') + bytes(20)) for xid in range(1, 6)]
    calls += [call(xid, NFS, 3, 17, fh(b'd') + bytes(24)) for xid in range(6, 11)]
    place.write('a', capture(calls, [reply for reply, _ in replies]))
    place.counted('a', calls=10, replies=10, handles=65)
    head = (b'1 client %d xid=%d NFSPROC3_%b mtype=0 rpcvers=2 prog=100003 vers=3 proc=%d '
            b'cred_flavor=0 cred_body= verf_flavor=0 verf_body= fh=64 '
           b'cookie=0 cookieverf=0000000000000000 %b')
    asked = [head % (xid, xid, b'READDIR', 16, b'count=0') for xid in range(1, 6)]
    asked += [head % (xid, xid, b'READDIRPLUS', 17, b'dircount=0 maxcount=0')
              for xid in range(6, 11)]
    place.listed('a', [*asked, *(line for _, line in replies)])


def two_names_in_one_message(place: Place) -> None:
    """Each is long, and a handle of one byte comes between them."""
    first, second = bytes(range(256)) * 300, b'n' * 100_000
    place.write('a', capture([call(1, NFS, 3, 14, dirop(b'a', first) + dirop(b'b', second))], []))
    place.listed('a', [
        b'1 client 1 xid=1 NFSPROC3_RENAME mtype=0 rpcvers=2 prog=100003 vers=3 proc=14 '
        b'cred_flavor=0 cred_body= verf_flavor=0 verf_body= '
        b'fh=61 name="%b" fh=62 name="%b"' % (escaped(first), escaped(second))])


def words_of_one_message(place: Place) -> None:
    """The flavors of a MNT reply, which are nothing but words."""
    flavors = [number * PRIME & 0xffffffff for number in range(300_000)]
    place.write('a', capture([call(1, MOUNT, 3, 1, messages.opaque(b'/'))],
                             [success(1, ok(fh(b'a'), messages.array(list(map(word, flavors)))))]))
    place.listed('a', [
        b'1 client 1 xid=1 MOUNTPROC3_MNT mtype=0 rpcvers=2 prog=100005 vers=3 proc=1 '
        b'cred_flavor=0 cred_body= verf_flavor=0 verf_body= dirpath="/"',
        b'1 server 1 xid=1 MOUNTPROC3_MNT mtype=1 reply_stat=0 verf_flavor=0 verf_body= '
        b'accept_stat=0 status=0 fh=61 flavors=300000%b'
        % b''.join(b' flavor=%d' % flavor for flavor in flavors)])


# --- Command lines ---

NULL = messages.capture(([call(1, NFS, 3, 0)], [success(1)]))


def words_of_the_line(place: Place) -> None:
    """A word that no file can have as its name is printed whole."""
    place.write('a', NULL)
    for size in (256, 4_096, 10_000, 100_000):
        name = 'x' * size
        for words in (['check', name], ['show', name], ['canon', name, 'out'], ['same', 'a', name],
                      ['canon', 'a', name],
                      ['pack', name, 'a', 'a'], ['pack', 'out', 'a', name]):
            what = ' '.join(words)[:40]
            place.want(what, place.run(*words), (3, '', 'open failed: %s\n' % name))
    place.want('files', place.names(), ['a'])


def names_of_files(place: Place) -> None:
    for size in (200, 255):
        place.write('i' * size, NULL)
        place.counted('i' * size, calls=1, replies=1)
        answer = place.run('canon', 'i' * size, 'o' * size)
        place.want('canon', answer, (0, 'ok connections=1 calls=1 replies=1 handles=0\n', ''))
        place.want('what it writes', place.read('o' * size) == NULL, True)
    folder = place.path('/'.join(['d' * 250] * 12))
    os.makedirs(folder)
    pathlib.Path(folder, 'a').write_bytes(NULL)
    name = os.path.relpath(os.path.join(folder, 'a'), place.folder)
    place.counted(name, calls=1, replies=1)
    place.want('canon in a folder', place.run('canon', name, name + '.form')[0], 0)
    place.want('what it writes', pathlib.Path(folder, 'a.form').read_bytes() == NULL, True)


def streams_of_a_line(place: Place) -> None:
    """As many as the system takes words of this length."""
    place.write('call', fragment(call(1, NFS, 3, 0)))
    place.write('reply', fragment(success(1)))
    count = 20_000
    place.want('pack', place.run('pack', 'out', *['call', 'reply'] * count), (0, '', ''))
    place.counted('out', calls=count, replies=count, connections=count)


TESTS: list[Callable[[Place], None]] = [
    calls_and_handles_of_one_connection, xids_and_replies_of_one_connection, write_verifiers,
    records_of_same, streams_of_version_2,
    records_of_the_largest_size, names_in_messages, links_in_messages, lists_in_messages,
    two_names_in_one_message,
    words_of_one_message, words_of_the_line, names_of_files, streams_of_a_line]


if __name__ == '__main__':
    try_tests(__doc__, Place, TESTS)

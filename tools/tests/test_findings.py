"""Tests of what tools/compare says of differences, and of whose a field is in each procedure, by
RFC 1813 and RFC 5531."""
import functools
import random
from collections.abc import Sequence
from typing import Any, NamedTuple

from examples import messages
from examples.messages import (
    BLK, DIR, EXCLUSIVE, MOUNT, NFS, NFSACL, NOENT, NOW, REG, UNCHECKED, auth_sys, call, dirop,
    failed, fattr, fh, guard, how, hyper, made, ok, opaque, post_op_attr, sattr, set_to_client_time,
    success, wcc, word)

from ..nfs3tools.comparison.values.classes import Mask, Way, mask_of
from ..nfs3tools.comparison.values.long_values import parting_between
from ..nfs3tools.comparison.verdict.differences import Comparison
from ..nfs3tools.exchanges.listing import Message, line_of
from ..nfs3tools.reporting.telling import signed_rows
from .comparisons import Comparisons, Conversation, conversation_of
from .scripts import EXAMPLES

H, VERIFIER = b'handle', b'verifier'
FILE, FOLDER = fattr(REG, 5, 6), fattr(DIR, 7, 8)


class Findings(Comparisons):
    """Runs of tools/compare in the order of the runs, without the verdict in words."""

    def compare(self, *words: str) -> tuple[int, list[str], str]:
        status, out, error = super().compare('--order', 'strict', *words)
        return status, [line for line in out if ' matched' not in line], error

    def differs(self, name: str, what: str, first: Conversation, second: Conversation,
                *lines: str) -> None:
        """These lines are printed of an item that differs in two runs."""
        self.put_both(first, second)
        found = [line for line in self.compare('a', 'b')[1] if line[4:].startswith(f'{name}=')]
        self.want(what, found, [*lines])


def names_of_hosts(place: Findings) -> None:
    """The names of hosts in replies to DUMP are any, with those of machines in credentials."""
    def run(host: bytes, folder: bytes) -> Conversation:
        return [call(1, MOUNT, 3, 2, b'')], [success(1, messages.mountlist([(host, folder)]))]
    place.put_both(run(b'box', b'/a'), run(b'another', b'/a'))
    place.want('masked', place.compare('a', 'b')[0], 0)
    place.want('compared', [line for line in place.compare('--mask=-machines', 'a', 'b')[1]
                            if line.startswith(('  - ', '  + '))],
               ['  - entry 1.hostname="box"', '  + entry 1.hostname="another"'])
    place.put('b', run(b'another', b'/b'))
    place.want('folders', place.compare('a', 'b')[0], 1)


# --- Long values ---

def written(data: bytes, offset: int = 65_536) -> Conversation:
    asked = fh(H) + hyper(offset) + word(len(data)) + word(0) + opaque(data)
    return conversation_of([(7, asked, ok(wcc(), word(9), word(0), VERIFIER))])


def read(data: bytes, offset: int) -> Conversation:
    return conversation_of([(6, fh(H) + hyper(offset) + word(9),
                             ok(post_op_attr(), word(9), word(0), opaque(data)))])


def data_of_files(place: Findings) -> None:
    """Of data is said where in the file it differs first, and how much."""
    whole = b'o' * 8_192
    def with_z(*places: int) -> bytes:
        return bytes(ord('z') if at in places else byte for at, byte in enumerate(whole))
    oo = '6f' * 8
    wants = functools.partial(place.differs, 'data')
    wants('one byte', written(whole), written(with_z(4_104)), f'  - data=..{oo} {oo}..',
          f'  + data=..{oo} 7a{oo[2:]}..    # 1 of 8,192 bytes differs, at offset 69640 of the '
          'file (byte 4104 of the data)')
    wants('many bytes', read(whole, 1_000), read(with_z(3, *range(5_000, 6_500)), 1_000),
          f'  - data={oo[:6]} {oo}{oo[:10]}..',
          f'  + data={oo[:6]} 7a{oo}{oo[:8]}..    # 1,501 of 8,192 bytes differ, the first at '
          'offset 1003 of the file (byte 3 of the data)')
    wants('less data', read(whole, 0), read(whole[:4_096], 0), f'  - data=..{oo} {oo}..',
          f'  + data=..{oo}    # one is the beginning of the other, up to offset 4096 of the file '
          '(byte 4096 of the data); their lengths are 8,192 and 4,096')
    wants('less that differs', written(with_z(0, 2)), written(whole[:100]),
          f'  - data=7a6f7a6f{oo[:8]}{oo}..',
          f'  + data={oo}{oo}..    # 2 of the first 100 bytes differ, the first at offset 65536 of '
          'the file (byte 0 of the data); their lengths are 8,192 and 100')
    wants('none', read(b'', 5), read(whole, 5), '  - data=',
          f'  + data={oo}{oo}..    # their lengths are 0 and 8,192')
    wants('short data', written(b'abc'), written(b'abd'), '  - data=616263', '  + data=616264')
    wants('other offsets', read(whole, 1), read(with_z(8_191), 2), f'  - data=..{oo} 6f',
          f'  + data=..{oo} 7a    # 1 of 8,192 bytes differs, at byte 8191')


def values_that_part(place: Findings) -> None:
    """Where two values part is what a comparison byte by byte says."""
    chance = random.Random(8)
    for _ in range(3_000):
        one = bytes(chance.choices(b'ab\0"', k=chance.choice((0, 1, 15, 16, 17, 40))))
        other = bytearray(one[:chance.choice((0, 8, 40, 40, 40))])
        for _ in range(chance.randrange(3) if other else 0):
            other[chance.randrange(len(other))] = chance.choice(b'xa')
        other += bytes(chance.choices(b'ay', k=chance.choice((0, 0, 1, 20))))
        if one == other:
            continue
        places = [at for at, (byte, to) in enumerate(zip(one, other)) if byte != to]
        wanted = (places or [min(len(one), len(other))])[0], len(places), (len(one), len(other))
        for spell in (bytes.hex, listed_string):
            found = parting_between(spell(one), spell(bytes(other)), 1_000)
            place.want('where', ((found.at, found.differing, found.sizes), found.offset),
                       (wanted, 1_000 + wanted[0]))
            place.want('what is shown', found.shown[0] != found.shown[1], True)


def listed_string(content: bytes) -> str:
    """Returns a string as docs/FORMATS.md says that a listing has it."""
    return '"' + ''.join(chr(byte) if 0x20 <= byte <= 0x7e and byte not in (0x22, 0x5c)
                         else f'\\x{byte:02x}' for byte in content) + '"'


def long_names(place: Findings) -> None:
    """Names are printed round the first byte that differs, whole up to 60 characters."""
    def linked(path: bytes, name: bytes = b'n') -> Conversation:
        return conversation_of([(10, dirop(H, name) + sattr() + opaque(path),
                                 failed(NOENT, wcc()))])
    long = b'a' * 200
    wants = functools.partial(place.differs, 'path')
    wants('the last letter', linked(long + b'x'), linked(long + b'y'), '  - path=.."aaaaaaaax"',
          '  + path=.."aaaaaaaay"    # 1 of 201 bytes differs, at byte 200')
    wants('what cannot be printed', linked(b'ab"\\' + long), linked(b'ab"\n\xff' + long[:-1]),
          '  - path="ab\\x22\\x5c' + 'a' * 12 + '"..', '  + path="ab\\x22\\x0a\\xff' + 'a' * 11
          + '"..    # 2 of 204 bytes differ, the first at byte 3')
    wants('58 letters', linked(b'a' * 58), linked(b'b' * 58), f'  - path="{"a" * 58}"',
          f'  + path="{"b" * 58}"')
    place.differs(
        'name', 'two names', linked(b'p', long), linked(b'p', long + b'b'),
        '  - name=.."aaaaaaaa"',
        '  + name=.."aaaaaaaab"    # one is the beginning of the other, up to byte 200; their '
        'lengths are 200 and 201')


def long_handles(place: Findings) -> None:
    """A handle that corresponds to two is whole; raw bytes have the other run's handles."""
    one, two, other = bytes(range(64)), bytes(range(1, 65)), bytes(range(2, 66))
    def asked(first: bytes, second: bytes, acl: bytes, rest: bytes) -> Conversation:
        return [call(1, NFS, 3, 1, fh(first)), call(2, NFS, 3, 1, fh(second)),
                call(3, NFSACL, 3, 1, fh(acl) + rest)], []
    first = asked(one, two, one, bytes(100))
    place.differs('fh', 'handles', first, asked(other, other, other, bytes(99) + b'!'),
                  f'  - fh={two.hex()}', f'  + fh={other.hex()}    # elsewhere {other.hex()} of '
                  f'the second run is {one.hex()} of the first')
    place.differs('rest', 'raw bytes', first, asked(other, one, other, bytes(99) + b'!'),
                  '  - rest=..0000000000000000 00',
                  '  + rest=..0000000000000000 21    # 1 of 168 bytes differs, at byte 167; '
                  'the file handles of the first are written as those of the second')
    both = list[list[Message]]()
    for run in (asked(b'aaaa', two, b'aaaa', b''), asked(b'bbbb', one, b'aaaa', b'')):
        place.put('a', run)
        both.append([line_of(line).message() for line in place.run('show', 'a')[1].splitlines()])
    comparison = Comparison({})
    lines = [line for pair in zip(*both) for difference in comparison.of_messages(*pair)
             for line in map(str, signed_rows(difference))]
    place.want('the same bytes for another file', lines, [
        '  - rest=00000004 62626262',
        '  + rest=00000004 61616161    # 4 of 8 bytes differ, the first at byte 4; '
        'the file handles of the first are written as those of the second'])


# --- Names of numbers ---

ASKED, NOTHING = dirop(H, b'a'), post_op_attr()
MOUNTED = [ok(fh(H), messages.array([word(flavor)])) for flavor in (1, 6)]
STORED = [ok(wcc(), word(0), word(how_stable), VERIFIER) for how_stable in (1, 0)]
# Replies without their xids: MSG_DENIED with AUTH_ERROR, and SYSTEM_ERR (RFC 5531, section 9).
DENIED = [b''.join(map(word, (1, 1, 1, why))) for why in (1, 13)]
NOT_DONE, DONE = b''.join(map(word, (1, 0, 0, 0, 5))), success(0)[4:]


class Number(NamedTuple):
    """Two calls of a procedure, perhaps with replies, and an item with its values in them."""
    procedure: int
    calls: Sequence[bytes]
    replies: Sequence[bytes]
    said: str
    program: int = NFS


def done(*results: bytes) -> list[bytes]:
    return [DONE + one for one in results]


SAME, FILES, EXPORTS = [ASKED] * 2, [fh(H)] * 2, [opaque(b'/a')] * 2
NUMBERS = [
    Number(3, SAME, done(failed(NOENT, NOTHING), failed(10_008, NOTHING)),
           'status: 2 (NFS3ERR_NOENT), 10008 (NFS3ERR_JUKEBOX)'),
    Number(3, SAME, done(failed(13, NOTHING), ok(fh(H), NOTHING, NOTHING)),
           'status: 13 (NFS3ERR_ACCES), 0 (NFS3_OK)'),
    Number(1, EXPORTS, done(failed(13), failed(10_006)),
           'status: 13 (MNT3ERR_ACCES), 10006 (MNT3ERR_SERVERFAULT)', MOUNT),
    Number(1, EXPORTS, done(*MOUNTED), 'flavor: 1 (AUTH_SYS), 6 (RPCSEC_GSS)', MOUNT),
    Number(1, [fh(b'type')] * 2, done(ok(fattr(REG, 1)), ok(fattr(messages.SOCK, 1))),
           'obj.type: 1 (NF3REG), 6 (NF3SOCK)'),
    Number(1, [fh(b'mode')] * 2, done(*(ok(fattr(REG, 1, mode=mode)) for mode in (0o4755, 0))),
           'obj.mode: 4755 (2541), 0000 (0)'),
    Number(9, [ASKED + sattr(0o755), ASKED + sattr(0o700)], [], 'set.mode: 0755 (493), 0700 (448)'),
    Number(9, [ASKED + sattr(), ASKED + sattr(atime=word(1))], [],
           'set_atime: 0 (DONT_CHANGE), 1 (SET_TO_SERVER_TIME)'),
    Number(9, [ASKED + sattr(), ASKED + sattr(uid=1)], [], 'set_uid: 0 (FALSE), 1 (TRUE)'),
    Number(7, [fh(H) + bytes(20), fh(H) + bytes(12) + word(2) + bytes(4)], [],
           'stable: 0 (UNSTABLE), 2 (FILE_SYNC)'),
    Number(7, [fh(H) + bytes(20)] * 2, done(*STORED), 'committed: 1 (DATA_SYNC), 0 (UNSTABLE)'),
    Number(8, [ASKED + how(0, sattr()), ASKED + how(1, sattr())], [],
           'how: 0 (UNCHECKED), 1 (GUARDED)'),
    Number(6, [fh(H) + bytes(12)] * 2,
           done(*(ok(NOTHING, word(0), word(is_end), word(0)) for is_end in (0, 1))),
           'eof: 0 (FALSE), 1 (TRUE)'),
    Number(12, SAME, done(ok(wcc(1)), ok(wcc())), 'dir.before: 1 (TRUE), 0 (FALSE)'),
    Number(4, [fh(H) + word(31), fh(H) + word(0)], [],
           'access: 31 (READ|LOOKUP|MODIFY|EXTEND|DELETE), 0 (none)'),
    Number(4, [fh(H) + word(0)] * 2, done(*(ok(NOTHING, word(bits)) for bits in (0x23, 0x141))),
           'access: 35 (READ|LOOKUP|EXECUTE), 321 (READ|0x140)'),
    Number(19, FILES, done(*(ok(NOTHING, bytes(44), word(bits)) for bits in (27, 1))),
           'properties: 27 (LINK|SYMLINK|HOMOGENEOUS|CANSETTIME), 1 (LINK)'),
    Number(1, [fh(b'links')] * 2, done(*(ok(fattr(REG, 1, nlink=nlink)) for nlink in (2, 1))),
           'obj.nlink: 2, 1'),
    Number(0, [b'', b''], [DONE, DENIED[1]], 'reply_stat: 0 (MSG_ACCEPTED), 1 (MSG_DENIED)'),
    Number(0, [b'', b''], [DONE, NOT_DONE], 'accept_stat: 0 (SUCCESS), 5 (SYSTEM_ERR)'),
    Number(0, [b'', b''], DENIED, 'auth_stat: 1 (AUTH_BADCRED), 13 (RPCSEC_GSS_CREDPROBLEM)')]


def names_of_numbers(place: Findings) -> None:
    """Numbers have the names of the RFCs, and modes are in octal."""
    for side, run in enumerate('ab'):
        calls, replies = list[bytes](), list[bytes]()
        for xid, one in enumerate(NUMBERS):
            calls += [call(2 * xid, NFS, 3, 3, dirop(H, b'row %d' % xid)),
                      call(2 * xid + 1, one.program, 3, one.procedure, one.calls[side])]
            replies += [word(2 * xid + 1) + reply for reply in one.replies[side:side + 1]]
        place.put(run, (calls, replies))
    said = [one.said.partition(': ')[::2] for one in NUMBERS]
    found = [line[2:] for line in place.compare('--all', 'a', 'b')[1]
             if line.startswith('  ') and line[4:].partition('=')[0] in dict(said)]
    place.want('values', sorted(found), sorted(
        f'{sign} {name}={value}' for name, values in said
        for sign, value in zip('-+', values.split(', '))))


# --- Findings that say the same ---

def asked_for(*files: tuple[bytes, int], more: int = 0) -> Conversation:
    """LOOKUP of each file, GETATTR of each with its link count, and more of the first."""
    return conversation_of([
        *((3, dirop(H, b'f%d' % at), ok(fh(handle), NOTHING, NOTHING))
          for at, (handle, _) in enumerate(files)),
        *((1, fh(handle), ok(fattr(REG, 1, nlink=nlink)))
          for handle, nlink in (*files, *files[:1] * more))])


def equal_findings(place: Findings) -> None:
    """Findings that say the same are one, with their number and first place."""
    place.put_both(asked_for((b'1', 3), (b'2', 3), (b'3', 3), (b'4', 3), more=1),
                   asked_for((b'1', 2), (b'2', 2), (b'3', 2), (b'4', 1), more=1))
    summary = 'fields that differ, and how often: obj.nlink of GETATTR 5'
    def where(record: int) -> str:
        return f'connection 1 server record {record} | connection 1 server record {record}'
    place.wants('folded', 1, [
        f'4 replies of GETATTR on 3 paths, first ?/f0: {where(5)}', '  - obj.nlink=3',
        '  + obj.nlink=2',
        f'GETATTR reply ?/f3: {where(8)}', '  - obj.nlink=3', '  + obj.nlink=1', summary])
    every = [(5, 0, 2), (6, 1, 2), (7, 2, 2), (8, 3, 1), (9, 0, 2)]
    place.wants('all', 1, [*(line for record, file, nlink in every for line in (
        f'GETATTR reply ?/f{file}: {where(record)}', '  - obj.nlink=3',
        f'  + obj.nlink={nlink}')), summary], '--all')
    place.put_both(asked_for((b'1', 3), more=2), asked_for((b'1', 2), more=2))
    place.wants('one path', 1, [f'3 replies of GETATTR ?/f0, first: {where(2)}',
                                '  - obj.nlink=3', '  + obj.nlink=2', f'{summary[:-1]}3'])


ASKED_ALONE: list[tuple[int, bytes, str, Sequence[str]]] = [
    (2, fh(b'dir') + sattr(0o640) + guard(), 'SETATTR', ['fh=646972', 'set.mode=0640 (416)']),
    (2, fh(b'dir') + sattr(None, 5, None, 7, set_to_client_time(NOW), word(1)) + guard(NOW),
     'SETATTR', ['fh=646972', 'set.uid=5', 'set.size=7', 'set_mtime=1 (SET_TO_SERVER_TIME)']),
    (9, dirop(b'dir', b'new') + sattr(0o755), 'MKDIR ?/new', ['set.mode=0755 (493)']),
    (8, dirop(b'dir', b'new') + how(EXCLUSIVE, VERIFIER), 'CREATE ?/new',
     ['how=2 (EXCLUSIVE)', f'createverf={VERIFIER.hex()}']),
    (14, dirop(b'dir', b'new') + dirop(b'to', b'b'), 'RENAME ?/new', ['to.fh=746f', 'to.name="b"']),
    (10, dirop(b'dir', b'new') + sattr() + opaque(b'far'), 'SYMLINK ?/new', ['path="far"']),
    (7, fh(b'dir') + hyper(5) + word(2) + word(1) + opaque(b'hi'), 'WRITE',
     ['fh=646972', 'offset=5', 'count=2', 'stable=1 (DATA_SYNC)', 'data=6869'])]


def arguments_of_one_run(place: Findings) -> None:
    """A call of one run alone has its arguments, but for those that say nothing."""
    null = [call(1, NFS, 3, 0)], [success(1)]
    place.put('a', null)
    for number, arguments, what, wanted in ASKED_ALONE:
        place.put('b', (null[0] + [call(2, NFS, 3, number, arguments)], null[1]))
        heading = f'only in the %s run: {what}: connection 1 client record 2'
        for words, lines in (
                (['a', 'b'], [heading % 'second', *(f'  + {one}' for one in wanted)]),
                (['b', 'a'], [heading % 'first', *(f'  - {one}' for one in wanted)]),
                (['--brief', 'a', 'b'],
                 [': '.join([heading % 'second', '; '.join(f'+{one}' for one in wanted)])])):
            status, out, _ = place.compare(*words)
            place.want(f'{what} {words}', (status, out[2:]), (1, lines))
    place.compare('--json', 'out.json', 'a', 'b')
    found = place.json('out.json')['findings'][0]['arguments']
    place.want('json', [(one['label'], one['value'], one['name']) for one in found][1:4],
               [('offset', '5', None), ('count', '2', None), ('stable', '1', 'DATA_SYNC')])


def calls_of_one_run_with_other_arguments(place: Findings) -> None:
    """SETATTRs that set other values are several findings."""
    first = 3, dirop(H, b'x'), ok(fh(b'x'), NOTHING, NOTHING)
    more = [*((2, fh(b'x') + sattr(mode) + guard()) for mode in (0o600, 0o640, 0o640)),
            *((7, fh(b'x') + hyper(at) + word(1) + word(2) + opaque(b'a')) for at in range(3))]
    calls, replies = conversation_of([first, *((number, asked, b'') for number, asked in more)])
    place.put_both((calls[:1], replies[:1]), (calls, replies[:1]))
    found = [line for line in place.compare('a', 'b')[1][2:] if not line.startswith('  ')]
    only = 'only in the second run: '
    place.want('found', found, [f'{only}SETATTR ?/x: connection 1 client record 2',
                                f'{only}2 calls of SETATTR ?/x, first: connection 1 '
                                'client record 3',
                                f'{only}3 calls of WRITE ?/x, first: connection 1 client '
                                'record 5'])


def the_first_twenty(place: Findings) -> None:
    """Findings that say the same count once for the 20 that are printed."""
    files = [(b'%d' % number, 3) for number in range(1, 25)]
    place.put('a', asked_for(*files, more=9))
    for number, last in ((20, 'GETATTR'), (22, '.. and 2 more (--all prints them)')):
        place.put('b', asked_for(*((handle, 100 + at if at < number else nlink)
                                   for at, (handle, nlink) in enumerate(files)), more=9))
        found, every = ([line for line in place.compare(*words, 'a', 'b')[1][2:]
                         if not line.startswith(('  ', 'fields'))] for words in ([], ['--all']))
        place.want(f'{number} findings', (
            len(found), found[-1][:len(last)], found[0].partition(':')[0], len(every),
            every[-1].startswith('GETATTR')),
            (20 + (number > 20), last, '10 replies of GETATTR ?/f0, first', number + 9,
             True))


def of_attributes(number: int) -> Conversation:
    """GETATTR and READDIRPLUS, whose attributes have a mode and a count of links."""
    attributes = fattr(REG, 1, 0, nlink=number, mode=0o640 + number)
    listing = messages.entries(FOLDER, bytes(8), [messages.entryplus(1, name, 0, attributes)
                                                  for name in (b'a', b'b,c.')], is_end=True)
    return conversation_of([(1, fh(H), ok(attributes)), (17, fh(H) + bytes(24), ok(listing))])


def fields_that_are_known(place: Findings) -> None:
    """A line of known findings may have a field of any procedure, path and value."""
    place.put_both(of_attributes(1), of_attributes(2))
    place.write('known', '* reply: *nlink=* ×*\n'.encode())
    place.wants('a name', 1, [
        *(line for name, labels in (('GETATTR', ['obj']),
                                    ('READDIRPLUS', ['entry "a"', 'entry "b,c."']))
          for at in [1 + (name != 'GETATTR')] for line in [
              f'{name} reply: connection 1 server record {at} | connection 1 server record {at}',
              *(f'  {sign} {label}.mode={mode}' for label in labels
                for sign, mode in (('-', '0641 (417)'), ('+', '0642 (418)')))]),
        'fields that differ, and how often: entry.mode of READDIRPLUS 2, obj.mode of GETATTR 1',
        '2 known'], '--known', 'known')


# --- JSON ---

def mounted(name: bytes, status: int, data: bytes, more: int = 0) -> Conversation:
    """MNT, a LOOKUP with a status, a WRITE of some data, and NULLs."""
    mounting = call(1, MOUNT, 3, 1, opaque(b'/m')), success(1, ok(fh(b'root'), messages.array([])))
    looking = call(2, NFS, 3, 3,
                   dirop(b'root', name)), success(2, failed(status, post_op_attr(FOLDER)))
    writing = (call(3, NFS, 3, 7, fh(b'root') + hyper(1_000) + word(40) + word(2) + opaque(data)),
               success(3, ok(wcc(), word(40), word(2), VERIFIER)))
    null = [(call(4 + number, NFS, 3, 0), success(4 + number)) for number in range(more)]
    return tuple(map(list, zip(mounting, looking, writing, *null)))


def at(side: str, record: int) -> dict[str, object]:
    return {'position': f'connection 1 {side} record {record}', 'frames': []}


CHANGED_ONE = {'kind': 'changed', 'is_call': True, 'remark': '', 'arguments': []}
FIELD = {'remark': '', 'names': [None, None], 'apart': None}
FOUND = [
    {**CHANGED_ONE, 'procedure': 'NFSPROC3_LOOKUP', 'is_call': False, 'path': '/m/x',
     **dict.fromkeys(('first', 'second'), at('server', 2)), 'differences': [
         {**FIELD, 'field': 'status', 'label': 'status', 'first': '2', 'second': '13',
          'names': ['NFS3ERR_NOENT', 'NFS3ERR_ACCES']}]},
    {**CHANGED_ONE, 'procedure': 'NFSPROC3_WRITE', 'path': '/m',
     **dict.fromkeys(('first', 'second'), at('client', 3)), 'differences': [
         {**FIELD, 'field': 'data', 'label': 'data', 'first': '6f' * 40, 'second': '6f' * 38,
          'apart': {'at': 38, 'offset': 1_038, 'differing': 0, 'sizes': [40, 38],
                    'shown': ['..' + '6f' * 8 + ' 6f6f', '..' + '6f' * 8],
                    'sha256': [None, None]}}]},
    {**CHANGED_ONE, 'kind': 'only', 'procedure': 'NFSPROC3_NULL', 'path': None,
     'differences': [], 'first': at('client', 4), 'second': None}]


def as_json(place: Findings) -> None:
    """A comparison as an object: verdict, mask, both runs, and each finding."""
    place.put_both(mounted(b'x', 2, b'o' * 40, more=1), mounted(b'x', 13, b'o' * 38))
    counts = dict.fromkeys(('refused', 'in part', 'left out', 'without calls', 'not checked',
                            'errors'), 0)
    whole = {'connections': 1, 'missing': 0, 'not_judged': [], 'left_out': {},
             'counts': {'judged': 1, 'ok': 1, 'raw': {}, **counts}}
    order = dict.fromkeys(('calls', 'replies', 'connections', 'on_another_connection'), 0)
    fields = [{'procedure': f'NFSPROC3_{procedure}', 'field': field, 'count': 1}
              for procedure, field in (('LOOKUP', 'status'), ('WRITE', 'data'))]
    wanted: dict[str, Any] = {
        'version': 2, 'accepted': None, 'verdict': 'differ', 'same_under': None,
        'position': 'connection 1 server record 2', 'mask': {'times': 'zero', 'ids': 'number'},
        'runs': [{'name': 'a', 'calls': 4, 'only': 1, **whole},
                 {'name': 'b', 'calls': 3, 'only': 0, **whole}],
        'order': {'together': 3, **order}, 'fields': fields, 'left_out': [],
        'findings': FOUND}
    for words, runs, status, changes in (
            (['--mask', 'times,ids'], 'ab', 1, {}),
            (['--mask', 'none'], 'aa', 0, {
                'verdict': 'same', 'position': None, 'mask': {}, 'fields': [], 'findings': [],
                'order': {'together': 4, **order},
                'runs': [{**wanted['runs'][0], 'only': 0}] * 2})):
        found = place.compare(*words, '--json', 'out.json', *runs)[0]
        place.want(f'{words}', (found, place.json('out.json')), (status, {**wanted, **changes}))


def each_error_names_its_run(place: Findings) -> None:
    """Whichever of two runs cannot be read or is refused, its name is in the one line."""
    place.put('a', asked_for((b'1', 3)))
    place.write('text', b'no recording')
    place.write('empty', b'')
    place.write('bad', (EXAMPLES / 'bad_status.nfs3cap').read_bytes())
    for name, told in (('text', ''), ('empty', ''), ('absent', ''),
                       ('bad', 'connection 1 server record 1 byte 24: BadEnum\n')):
        for words in ((name, 'a'), ('a', name)):
            status, out, error = place.compare(*words)
            place.want(f'{words}', (status, out, error.startswith(f'compare: {name}: {told}'),
                                    error.count('\n')), (2, [], True, 1))


SETTINGS = sattr(0o644, 1, 2, 3, set_to_client_time(NOW), set_to_client_time(NOW))

# --- Labels ---

TIMES = 'atime_sec atime_nsec mtime_sec mtime_nsec ctime_sec ctime_nsec'
ATTRIBUTES = 'type mode nlink uid gid size used rdev1 rdev2 fsid fileid ' + TIMES
CREDENTIAL = ('mtype rpcvers prog vers proc cred_flavor cred_length cred.stamp cred.machinename '
              'cred.uid cred.gid cred.gids cred.group cred.group verf_flavor verf_body')
ACCEPTED = 'mtype reply_stat verf_flavor verf_body accept_stat'
SET = ('set_mode set.mode set_uid set.uid set_gid set.gid set_size set.size set_atime '
       'set.atime_sec set.atime_nsec set_mtime set.mtime_sec set.mtime_nsec')


def attr(owner: str) -> list[str]:
    return [f'{owner}.{name}' for name in ('attr', *ATTRIBUTES.split())]


def change(owner: str) -> list[str]:
    """wcc_data with attributes before and after."""
    before = 'size mtime_sec mtime_nsec ctime_sec ctime_nsec'.split()
    return [f'{owner}.before', *(f'{owner} before.{name}' for name in before),
            *attr(f'{owner} after')]


def listed(owner: str) -> list[str]:
    """An entry of READDIRPLUS with attributes and a handle."""
    return ['entry', f'{owner} listed.fileid', f'{owner}.name', f'{owner}.cookie', *attr(owner),
            f'{owner}.handle', f'{owner}.fh']


# What the last character of a word in a row stands for, after the name of its owner.
PARTS = {'?': attr, '!': change, '-': lambda owner: change(owner)[:6], '+': listed}


def labels_in(text: str) -> list[str]:
    out = list[str]()
    for one in text.replace('SET', SET).replace('~', '\0').split():
        one = one.replace('\0', ' ')
        out += PARTS[one[-1]](one[:-1]) if one[-1] in PARTS else [one]
    return out


A, W = post_op_attr(FILE), wcc(4, FILE)
NEW = made(H, FILE, W)
ENTRIES = messages.entries(FOLDER, VERIFIER,
                           [messages.entry(1, b'a.b', 2), messages.entry(3, b'c', 4)], is_end=True)
ENTRIES_PLUS = messages.entries(FOLDER, VERIFIER, [
    messages.entryplus(1, b'a.b', 2, FILE, H), messages.entryplus(3, b'c', 4),
    messages.entryplus(5, b'd"', 6, FOLDER, H)], is_end=True)
NAMED, BOTH = dirop(H, b'a'), dirop(H, b'a') + dirop(H, b'b')
OF_OBJECT = ' '.join(f'obj.{name}' for name in ATTRIBUTES.split())

# Of each procedure its arguments, the results of a success and those of a failure, and the labels
# of each of the three.
Row = tuple[bytes, bytes, bytes | None, str, str, str]
NFS_ROWS: list[Row] = [
    (b'', b'', None, '', '', ''),
    (fh(H), FILE, b'', 'fh', OF_OBJECT, ''),
    (fh(H) + SETTINGS + guard(NOW), W, W, 'fh SET check guard.ctime_sec guard.ctime_nsec', 'obj!',
     'obj!'),
    (NAMED, fh(H) + A + A, A, 'fh name', 'fh obj? dir?', 'dir?'),
    (fh(H) + word(1), A + word(1), A, 'fh access', 'obj? access', 'obj?'),
    (fh(H), A + opaque(b'p'), A, 'fh', 'obj? path', 'obj?'),
    (fh(H) + hyper(1) + word(2), A + word(2) + word(1) + opaque(b'hi'), A, 'fh offset count',
     'obj? count eof data', 'obj?'),
    (fh(H) + hyper(1) + word(2) + word(0) + opaque(b'hi'), W + word(2) + word(0) + VERIFIER, W,
     'fh offset count stable data', 'obj! count committed verf', 'obj!'),
    (NAMED + how(UNCHECKED, SETTINGS), NEW, W, 'fh name how SET', 'handle fh obj? dir!', 'dir!'),
    (NAMED + SETTINGS, NEW, W, 'fh name SET', 'handle fh obj? dir!', 'dir!'),
    (NAMED + SETTINGS + opaque(b'p'), NEW, W, 'fh name SET path', 'handle fh obj? dir!', 'dir!'),
    (NAMED + word(BLK) + SETTINGS + word(1) + word(2), NEW, W, 'fh name type SET spec1 spec2',
     'handle fh obj? dir!', 'dir!'),
    (NAMED, W, W, 'fh name', 'dir!', 'dir!'),
    (NAMED, W, W, 'fh name', 'dir!', 'dir!'),
    (BOTH, W + W, W + W, 'from.fh from.name to.fh to.name', 'from-dir! to-dir!',
     'from-dir! to-dir!'),
    (fh(H) + NAMED, A + W, A + W, 'file.fh link.fh link.name', 'file? dir!', 'file? dir!'),
    (fh(H) + hyper(0) + bytes(8) + word(9), ENTRIES, A, 'fh cookie cookieverf count',
     'dir? cookieverf entry entry~"a.b".fileid entry~"a.b".name entry~"a.b".cookie entry '
     'entry~"c".fileid entry~"c".name entry~"c".cookie entry eof', 'dir?'),
    (fh(H) + hyper(0) + bytes(8) + word(9) + word(9), ENTRIES_PLUS, A,
     'fh cookie cookieverf dircount maxcount', 'dir? cookieverf entry~"a.b"+ entry '
     'entry~"c"~listed.fileid entry~"c".name entry~"c".cookie entry~"c".attr entry~"c".handle '
     'entry~"d\\x22"+ entry eof', 'dir?'),
    (fh(H), A + bytes(52), A, 'fh', 'obj? tbytes fbytes abytes tfiles ffiles afiles invarsec',
     'obj?'),
    (fh(H), A + bytes(48), A, 'fh', 'obj? rtmax rtpref rtmult wtmax wtpref wtmult dtpref '
     'maxfilesize delta_sec delta_nsec properties', 'obj?'),
    (fh(H), A + bytes(24), A, 'fh', 'obj? linkmax name_max no_trunc chown_restricted '
     'case_insensitive case_preserving', 'obj?'),
    (fh(H) + hyper(0) + word(0), W + VERIFIER, W, 'fh offset count', 'obj! verf', 'obj!')]
MOUNT_ROWS: list[Row] = [
    (b'', b'', None, '', '', ''),
    (opaque(b'/a'), fh(H) + messages.array([word(1), word(6)]), b'', 'dirpath',
     'fh flavors flavor flavor', ''),
    (b'', messages.mountlist([(b'h', b'/a'), (b'i', b'/b')]), None, '',
     'entry entry~1.hostname entry~1.directory entry entry~2.hostname entry~2.directory entry', ''),
    (opaque(b'/a'), b'', None, 'dirpath', '', ''),
    (b'', b'', None, '', '', ''),
    (b'', messages.exports([(b'/a', []), (b'/b', [b'g', b'h'])]), None, '',
     'entry entry~1.directory entry~1.group entry entry~2.directory entry~2.group '
     'entry~2~group~1.name entry~2.group entry~2~group~2.name entry~2.group entry', '')]
# Messages with fewer parts.
OTHERS: list[tuple[int, bytes, bytes, str, str]] = [
    (2, fh(H) + sattr() + guard(), ok(wcc()),
     'fh set_mode set_uid set_gid set_size set_atime set_mtime check',
     'status obj.before obj~after.attr'),
    (8, NAMED + how(EXCLUSIVE, VERIFIER), ok(made(None, None, wcc(4))), 'fh name how createverf',
     'status handle obj.attr dir- dir~after.attr'),
    (14, BOTH, failed(NOENT, wcc(None, FILE), wcc(4)), 'from.fh from.name to.fh to.name',
     'status from-dir.before from-dir~after? to-dir- to-dir~after.attr')]


def of_exchange(place: Findings, program: int, procedure: int, arguments: bytes,
                replies: Sequence[bytes]) -> list[Message]:
    credential = auth_sys(1, b'box', 2, 3, [4, 5])
    place.put('a', ([call(7, program, 3, procedure, arguments, credential=credential)], replies))
    status, out, error = place.run('show', 'a')
    place.want('listing', (status, error), (0, ''))
    return [line_of(line).message() for line in out.splitlines()]


def labels_of(message: Message) -> list[str]:
    return [item.label for item in message.items]


def labels_of_every_procedure(place: Findings) -> None:
    """Whose each item is, of all procedures, by the names of RFC 1813, sections 3.3 and 5.2."""
    place.want('rows', (len(NFS_ROWS), len(MOUNT_ROWS)), (22, 6))
    for program, rows in ((NFS, NFS_ROWS), (MOUNT, MOUNT_ROWS)):
        for number, (arguments, done, wrong, asked, *answered) in enumerate(rows):
            replies = [done] if wrong is None else [ok(done), failed(NOENT, wrong)]
            found = [labels_of(message) for message in of_exchange(
                place, program, number, arguments, [success(7, reply) for reply in replies])]
            head = ACCEPTED.split() + ['status'] * (wrong is not None)
            place.want(f'program {program}, procedure {number}', found, [
                CREDENTIAL.split() + labels_in(asked),
                *(head + labels_in(words) for _, words in zip(replies, answered))])


def labels_of_fewer_parts(place: Findings) -> None:
    for number, arguments, reply, *words in OTHERS:
        wanted = [labels_in(some) for some in words]
        found = of_exchange(place, NFS, number, arguments, [success(7, reply)])
        place.want(f'procedure {number}', [labels_of(message)[-len(some):]
                                           for message, some in zip(found, wanted)], wanted)
    rejected = [word(7) + word(1) + word(1) + word(0) + word(2) + word(2),
                word(7) + word(1) + word(1) + word(1) + word(5),
                word(7) + word(1) + word(0) + bytes(8) + word(2) + word(3) + word(3)]
    place.want('replies that have no results', [' '.join(labels_of(message)) for message in
                                                of_exchange(place, NFS, 3, NAMED, rejected)[1:]], [
        'mtype reply_stat reject_stat low high', 'mtype reply_stat reject_stat auth_stat',
        'mtype reply_stat verf_flavor verf_body accept_stat low high'])
    raw = of_exchange(place, NFSACL, 1, fh(H), [success(7, word(0))])
    place.want('raw', [labels_of(message)[-1] for message in raw], ['rest', 'rest'])
    place.put('a', ([call(7, NFS, 3, 0)], []))
    place.want('without a credential',
               labels_of(line_of(place.run('show', 'a')[1].splitlines()[0]).message())[5:],
               ['cred_flavor', 'cred_body', 'verf_flavor', 'verf_body'])


# --- Classes that whose an item is decides, or its value ---

def differing_under(place: Findings, mask: Mask, first: tuple[int, bytes, bytes],
                    second: tuple[int, bytes, bytes]) -> list[str]:
    """Returns the labels that differ between two exchanges under a mask."""
    comparison = Comparison(mask)
    (one, reply), (other, answer) = (of_exchange(place, NFS, number, arguments,
                                                 [success(7, results)])
                                     for number, arguments, results in (first, second))
    return [difference.label for difference in
            [*comparison.of_messages(one, other),
             *comparison.of_messages(reply, answer, one, other)]]


def sizes_of_changes(place: Findings) -> None:
    """The class wcc has sizes and counts of links of what replies say changed."""
    mask = {'wcc': Way.ZERO}
    def wants(what: str, number: int, arguments: tuple[bytes, bytes], results: tuple[bytes, bytes],
              *labels: str) -> None:
        pair = [(number, arguments[side], ok(results[side])) for side in range(2)]
        place.want(what, differing_under(place, mask, *pair), [*labels])
    def file(number: int) -> bytes:
        return fattr(REG, 1, number, nlink=number)[:28] + bytes(8) + fattr(REG, 1)[36:]
    def folder(number: int) -> bytes:
        return fattr(DIR, 1, number, nlink=number)[:28] + bytes(8) + fattr(DIR, 1)[36:]
    asked = dirop(H, b'a'), dirop(H, b'a')
    wants('before and after', 12, asked, (wcc(1, file(2)), wcc(3, file(4))))
    wants('a file', 1, (fh(H), fh(H)), (file(1), file(2)), 'obj.nlink', 'obj.size')
    wants('a directory', 1, (fh(H), fh(H)), (folder(1), folder(2)))
    wants('another kind of file', 1, (fh(H), fh(H)), (folder(1), file(1)), 'obj.type')
    wants('a file in a directory', 3, asked,
          (fh(H) + post_op_attr(file(1)) + post_op_attr(folder(1)),
           fh(H) + post_op_attr(file(2)) + post_op_attr(folder(2))), 'obj.nlink', 'obj.size')
    wants('settings', 2, tuple(fh(H) + sattr(size=size) + guard() for size in (1, 2)),
          (wcc(1), wcc(2)), 'set.size')
    def listing(number: int) -> bytes:
        entries = [messages.entryplus(1, b'a', 0, file(number)),
                   messages.entryplus(2, b'b', 0, folder(number))]
        return messages.entries(folder(number), bytes(8), entries, is_end=True)
    wants('entries', 17, (fh(H) + bytes(24), fh(H) + bytes(24)), (listing(1), listing(2)),
          'entry "a".nlink', 'entry "a".size')
    place.want('without it', differing_under(place, {}, (12, asked[0], ok(wcc(1, file(2)))),
                                             (12, asked[1], ok(wcc(3, file(4))))),
               ['dir before.size', 'dir after.nlink', 'dir after.size'])


def names_of_removed_files(place: Findings) -> None:
    """Names of .nfs and 24 digits are any in calls and replies, and others are compared."""
    one, other, third = b'.nfs' + b'0' * 24, b'.nfs' + b'a1' * 12, b'.nfs' + b'7' * 24

    def removed(*names: bytes) -> tuple[int, bytes, bytes]:
        return 14, dirop(H, names[0]) + dirop(H, names[1]), ok(wcc(), wcc())

    def listing(*names: bytes) -> tuple[int, bytes, bytes]:
        entries = [messages.entry(number, name, 0) for number, name in enumerate(names)]
        return 16, fh(H) + bytes(20), ok(messages.entries(None, bytes(8), entries, is_end=True))
    mask, numbers, nothing = mask_of('sillynames'), mask_of('sillynames=number'), mask_of('none')
    for what, how_masked, first, second, *labels in (
            ('others', mask, removed(one, third), removed(other, one)),
            ('one for two', mask, removed(one, third), removed(other, other)),
            ('no numbers', numbers, removed(one, one), removed(other, third)),
            ('without the mask', nothing, removed(one, one), removed(other, other), 'from.name',
             'to.name'),
            *((f'{name!r}', mask, removed(one, one), removed(name, one), 'from.name')
              for name in (other + b'0', other[:-1], b'x' + other[1:], other.upper(), b'a')),
            ('entries', mask, listing(b'a', one, third), listing(b'a', third, other)),
            ('an entry more', mask, listing(b'a', one), listing(b'a', third, other), 'entry.name'),
            ('without the mask', nothing, listing(b'a', one), listing(b'a', other),
             *['entry.name'] * 2)):
        place.want(what, differing_under(place, how_masked, first, second), [*labels])

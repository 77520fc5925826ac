"""Tests of `tools/meaning`: each rule, items that are changed, exchanges that are hidden."""
import collections
import contextlib
import functools
import itertools
import json
import os
import random
import re
from collections.abc import Callable, Iterable, Iterator
from pathlib import Path
from typing import Any, NamedTuple, Optional, Union

from examples.messages import (
    DIR, EXCLUSIVE, FIFO, FILE_SYNC, GUARDED, LNK, NFS, NFS_PROCEDURES, NOENT, REG, UNCHECKED,
    UNSTABLE, call, capture, dirop, entries, entry, entryplus, failed, fattr, fh, guard, how, hyper,
    made, nfstime, ok, opaque, optional, post_op_attr, sattr, set_to_client_time, success, word)
from examples.packets import Talk
from tools.nfs3tools.exchanges.kept import Kept
from tools.nfs3tools.judgement.verdict import kept_in, of_covered
from tools.nfs3tools.meaning.across import findings_in
from tools.nfs3tools.meaning.recorded import Recorded, RecordedExchange
from tools.nfs3tools.meaning.rules import RULES, Looked
from tools.nfs3tools.recordings.selection import Options
from tools.nfs3tools.recordings.taken import take

from .cases import PROGRAM
from .pages import Written
from .scripts import TOP, Tools, in_turn, sums, timed

FOLDER, FILE, OTHER, VERIFIER, RESTARTED = b'folder', b'file', b'other', b'verifier', b'restart.'
EARLY, LATER, LATEST = (nfstime(seconds, 250_000_000) for seconds in (100, 200, 300))
SECONDS, NOSPC = 10**9, 28
# Recordings of the repository, or all of a folder.
FOLDER_OF_RECORDINGS = os.environ.get('RECORDINGS')
RECORDINGS = sorted(Path(FOLDER_OF_RECORDINGS).glob('*.pcap') if FOLDER_OF_RECORDINGS
                    else [*(TOP / 'examples').glob('*_a.pcap'), TOP / 'examples/knfsd_readdir.pcap',
                          *(TOP / 'tools/tests/recorded').glob('*-a.pcap.xz')])
SHARE_FOUND = 0.75
OLD_CACHE = 'live-cached'  # a recording of a server whose attributes are old
HIDDEN, ALARMS_AT_MOST = (0.02, 0.1, 0.4), 2


# --- Exchanges ---

class Step(NamedTuple):
    """A procedure, its arguments and its results, or none if it gets no reply."""
    procedure: str
    asked: bytes
    results: Optional[bytes]


def shown(kind: int = REG, fileid: int = 5, size: int = 5, mode: int = 0o644, mtime: bytes = EARLY,
          ctime: bytes = EARLY) -> bytes:
    return fattr(kind, fileid, size, mode)[:60] + EARLY + mtime + ctime


def folder(mtime: bytes = EARLY) -> bytes:
    return shown(DIR, 2, 4096, 0o755, mtime, mtime)


def changed(now: bytes, size: int = 5, was: bytes = EARLY) -> bytes:
    """wcc_data of an object with attributes of before."""
    return optional(hyper(size) + was + was) + post_op_attr(now)


IN_FOLDER = changed(folder(LATER), 4096)


def asked(handle: bytes = FILE, **now: Any) -> Step:
    """A GETATTR of a file, or of the folder as it was at a time."""
    return Step('GETATTR', fh(handle), ok(folder(**now) if handle == FOLDER else shown(**now)))


def read(data: bytes, count: int = 100, size: int = 5, is_end: int = 1,
         number: Optional[int] = None, now: Optional[bytes] = None) -> Step:
    told = post_op_attr(now or shown(size=size)) + word(len(data) if number is None else number)
    return Step('READ', fh(FILE) + hyper(0) + word(count), ok(told + word(is_end) + opaque(data)))


def write(now: bytes = shown(), count: int = 5, stable: int = FILE_SYNC, committed: int = FILE_SYNC,
          written: int = 5, verifier: bytes = VERIFIER) -> Step:
    return Step('WRITE', fh(FILE) + hyper(0) + word(count) + word(stable) + opaque(b'alpha'),
                ok(changed(now), word(written), word(committed), verifier))


def wrote(at: int = 0, size: int = 8, stable: int = UNSTABLE, verifier: bytes = VERIFIER,
          handle: bytes = FILE) -> Step:
    """A WRITE to a file of 8 bytes."""
    return Step('WRITE', fh(handle) + hyper(at) + word(size) + word(stable) + opaque(bytes(size)),
                ok(changed(shown(size=8), 8), word(size), word(stable), verifier))


def committed(at: int = 0, size: int = 0, verifier: bytes = VERIFIER, held: int = 8) -> Step:
    return Step('COMMIT', fh(FILE) + hyper(at) + word(size),
                ok(changed(shown(size=held), held), verifier))


def setting(wanted: bytes, now: bytes, size: int = 5, was: bytes = EARLY,
            ctime: Optional[bytes] = None) -> Step:
    return Step('SETATTR', fh(FILE) + wanted + guard(ctime), ok(changed(now, size, was)))


def time_set(nanoseconds: int) -> Step:
    time = nfstime(9, nanoseconds)
    return setting(sattr(mtime=set_to_client_time(time)), shown(mtime=time, ctime=LATER))


def set_mode(mode: int, ctime: bytes, size: int = 5) -> Step:
    """A SETATTR of the mode 0600, if the ctime is the early one."""
    return setting(sattr(mode=0o600), shown(mode=mode, ctime=LATEST), size, ctime, EARLY)


def removed(name: bytes, above: bytes = FOLDER, was: bytes = EARLY) -> Step:
    return Step('REMOVE', dirop(above, name), ok(changed(folder(LATER), 4096, was)))


def renamed(name: bytes, above: bytes, other: bytes) -> Step:
    """A RENAME out of the folder, or in it."""
    return Step('RENAME', dirop(FOLDER, name) + dirop(above, other), ok(IN_FOLDER, IN_FOLDER))


def linked(nlink: int) -> Step:
    now = shown(ctime=LATER)
    return Step('LINK', fh(FILE) + dirop(FOLDER, b'b'),
                ok(post_op_attr(now[:8] + word(nlink) + now[12:]), IN_FOLDER))


def symbolic(text: bytes) -> Step:
    return Step('READLINK', fh(FILE), ok(post_op_attr(shown(LNK)), opaque(text)))


def looked_up(name: bytes, handle: bytes = FILE, fileid: int = 5, mtime: bytes = EARLY,
              kind: int = DIR) -> Step:
    above = shown(kind, 2, 4096, 0o755, mtime, mtime)
    return Step('LOOKUP', dirop(FOLDER, name),
                ok(fh(handle) + post_op_attr(shown(fileid=fileid)) + post_op_attr(above)))


def not_found(name: bytes, mtime: bytes, above: bytes = FOLDER) -> Step:
    return Step('LOOKUP', dirop(above, name), failed(NOENT, post_op_attr(folder(mtime))))


def made_folder(mode: int = 0o700, kind: int = DIR, asked: int = 0o700, uid: Optional[int] = None,
                name: bytes = b'new', above: bytes = FOLDER, was: bytes = EARLY) -> Step:
    return Step('MKDIR', dirop(above, name) + sattr(asked, uid, uid),
                ok(made(name, shown(kind, 9, 0, mode, LATER, LATER),
                        changed(folder(LATER), 4096, was))))


def made_file(way: int, asked: bytes, now: bytes, above: bytes = changed(folder(), 4096)) -> Step:
    """A CREATE of the name `a`."""
    return Step('CREATE', dirop(FOLDER, b'a') + how(way, asked), ok(made(FILE, now, above)))


def listed(*items: bytes, count: int = 4096, is_end: bool = True, mtime: bytes = EARLY) -> Step:
    return Step('READDIR', fh(FOLDER) + hyper(0) + bytes(8) + word(count),
                ok(entries(folder(mtime), bytes(8), items, is_end)))


def listed_plus(now: Optional[bytes], most: int = 4096) -> Step:
    """A READDIRPLUS of the name `a` with attributes, or of none."""
    some = [] if now is None else [entryplus(5, b'a', 1, now, None)]
    return Step('READDIRPLUS', fh(FOLDER) + hyper(0) + bytes(8) + word(4096) + word(most),
                ok(entries(folder(), bytes(8), some, True)))


def limits(best: int, to_write: int = 4096) -> Step:
    sizes = b''.join(map(word, (4096, best, 512, to_write, to_write, to_write // 8, 4096)))
    return Step('FSINFO', fh(FOLDER),
                ok(post_op_attr(folder()) + sizes + hyper(1 << 40) + nfstime(0, 1) + word(27)))


def accessible(granted: int) -> Step:
    return Step('ACCESS', fh(FILE) + word(1), ok(post_op_attr(shown()) + word(granted)))


# --- A fault of each rule ---

Case = tuple[str, list[Step], list[Step]]  # a rule, what breaks it, and what does not


def case(rule: str, broken: Union[Step, list[Step]], sound: Union[Step, list[Step]],
         *before: Step) -> Case:
    """What breaks a rule and what does not, each after some steps."""
    first, second = ([*before, *([some] if isinstance(some, Step) else some)]
                     for some in (broken, sound))
    return rule, first, second


READ, WRITTEN, ASKED, MADE, LISTED = (
    read(b'alpha'), write(), asked(), made_folder(), listed(entry(5, b'a', 1)))
ASKED_LATER = asked(mtime=LATER, ctime=LATER)
AT_REST, AT_REST_LATER = asked(FOLDER), asked(FOLDER, mtime=LATER)
NAMED, REMOVED = looked_up(b'a'), removed(b'a')
THERE, GONE = looked_up(b'a', mtime=LATER), not_found(b'a', LATER)
CREATED = made_file(GUARDED, sattr(mode=0o644), shown(size=0, mtime=LATER, ctime=LATER), IN_FOLDER)
UNCHECKED_CREATED = made_file(
    UNCHECKED, sattr(mode=0o644), shown(mode=0o444, mtime=LATEST, ctime=LATEST),
    changed(folder(LATEST), 4096, LATER))
# (the data of these are committed, at servers that were started once and again)
OLD_START, ANEW = (wrote(0, 8, FILE_SYNC, verifier, OTHER) for verifier in (VERIFIER, RESTARTED))
COMMITTED, COMMITTED_ANEW = committed(held=5), committed(verifier=RESTARTED, held=5)
UNCOMMITTED = write(stable=UNSTABLE, committed=UNSTABLE)
WRITE_FAILED = wrote()._replace(
    results=failed(NOSPC, optional(None) + post_op_attr(shown(size=8))))
CUT = setting(sattr(size=4), shown(size=4, mtime=LATER, ctime=LATER), 8)
ODD = nfstime(9, 0xffffffff)
BY_OTHERS = asked(OTHER), asked(OTHER, mtime=LATER, ctime=LATER)
CASES = [
    case('read-data', read(b'alphb'), READ, READ),
    case('read-eof', read(b'alpha', is_end=0), READ),
    case('read-past-end', read(b'alpha', size=4), READ),
    case('read-count-data', read(b'alpha', number=4, size=4), READ),
    case('read-count-asked', read(b'alpha', 3), read(b'alpha', 5)),
    case('write-size', write(shown(size=4)), WRITTEN),
    case('write-committed', [write(committed=UNSTABLE), COMMITTED], [WRITTEN, COMMITTED]),
    case('write-count-asked', write(shown(size=6), written=6), WRITTEN),
    case('write-count-data', write(shown(size=6), count=6), WRITTEN),
    case('verifier', write(verifier=RESTARTED), WRITTEN, WRITTEN),
    case('not-committed', UNCOMMITTED, [UNCOMMITTED, COMMITTED]),
    case('listing', listed(entry(9, b'b', 1)), LISTED, AT_REST, NAMED),
    case('name-gone', THERE, GONE, AT_REST, REMOVED, AT_REST_LATER),
    case('name-there', GONE, THERE, AT_REST, CREATED, AT_REST_LATER),
    case('name-object', looked_up(b'a', OTHER, 6), NAMED, AT_REST, NAMED),
    case('handle-object', asked(fileid=6), ASKED, ASKED),
    case('same-ctime', asked(mode=0o600), ASKED, ASKED, ASKED),
    case('returns', [ASKED_LATER, ASKED], [ASKED_LATER, asked(mtime=LATEST, ctime=LATEST)],
         ASKED, ASKED),
    case('set-attributes', set_mode(0o644, EARLY), set_mode(0o600, EARLY)),
    case('made-attributes', made_folder(0o755), MADE),
    case('made-type', made_folder(kind=REG), MADE),
    case('guard', set_mode(0o600, LATER), set_mode(0o600, EARLY)),
    case('entries-size', listed(entry(5, b'a', 1), count=131),
         listed(entry(5, b'a', 1), count=132)),
    case('entries-none', listed(is_end=False), listed()),
    case('entry-cookies', listed(entry(5, b'a', 1), entry(6, b'b', 1)),
         listed(entry(5, b'a', 1), entry(6, b'b', 2))),
    case('entry-names', listed(entry(5, b'a', 1), entry(6, b'a', 2)),
         listed(entry(5, b'a', 1), entry(6, b'b', 2))),
    case('entry-fileid', listed_plus(shown(fileid=6)), listed_plus(shown())),
    case('mode-bits', asked(mode=0o100644), ASKED),
    case('nsec', asked(mtime=nfstime(100, SECONDS)), ASKED),
    case('write-ctime', write(shown(mtime=LATEST, ctime=LATER)),
         write(shown(mtime=LATEST, ctime=LATEST)), ASKED),
    case('dir-type', looked_up(b'a', kind=REG), NAMED),
    case('access-asked', accessible(3), accessible(1)),
    case('fsinfo', limits(8192), limits(4096)),
    case('write-nothing', write(written=0), WRITTEN),
    case('verifier-back', WRITTEN, ANEW, WRITTEN, ANEW),
    case('readlink-text', symbolic(b'here'), symbolic(b'there'), symbolic(b'there')),
    case('link-nlink', linked(1), linked(2)),
    case('link-nlink', linked(3), linked(2), ASKED),
    case('wcc-before', set_mode(0o600, EARLY, 6), set_mode(0o600, EARLY), ASKED, ASKED),
    # What takes a finding away is beside the same without it.
    # A COMMIT or a WRITE of a part, or a cut, takes this part.
    case('not-committed', [], committed(4, 4), wrote(), committed(0, 4)),
    case('not-committed', [], wrote(4, 4, FILE_SYNC, RESTARTED), wrote(),
         committed(0, 0, RESTARTED), wrote(0, 4, FILE_SYNC, RESTARTED)),
    case('not-committed', wrote(0, 4, UNSTABLE, RESTARTED),
         [wrote(0, 4, UNSTABLE, RESTARTED), committed(0, 4, RESTARTED)],
         wrote(), committed(0, 0, RESTARTED), wrote(4, 4, FILE_SYNC, RESTARTED)),
    case('not-committed', [], committed(0, 4), wrote(), CUT),
    # Only this file need not be committed if it is removed.
    case('not-committed', removed(b'b'), REMOVED, NAMED, UNCOMMITTED),
    case('not-committed', renamed(b'b', FOLDER, b'c'), renamed(b'b', FOLDER, b'a'),
         NAMED, UNCOMMITTED),
    case('not-committed', [COMMITTED_ANEW, removed(b'b')], [COMMITTED, removed(b'b')],
         NAMED, UNCOMMITTED),
    # After an error the client knows, and without a reply it may go on.
    case('not-committed', [], WRITE_FAILED, wrote()),
    case('not-committed', [], committed()._replace(results=None), wrote()),
    # What is not committed, or was within the tick of a ctime, is lost by a new start.
    case('read-data', read(b'alphb'), [ANEW, read(b'alphb')], OLD_START, READ),
    case('same-ctime', asked(size=4), [ANEW, asked(size=4)], OLD_START, ASKED, ASKED),
    case('same-ctime', [asked(size=4), OLD_START], [asked(size=4), ANEW],
         OLD_START, ASKED, ASKED),
    # A call without a reply is beside changes of its own folder alone.
    case('listing', listed(entry(5, b'a', 1), mtime=LATER), listed(mtime=LATER), AT_REST, NAMED,
         AT_REST._replace(asked=fh(OTHER)), not_found(b'b', EARLY, OTHER),
         made_folder(above=OTHER)._replace(results=None), renamed(b'a', OTHER, b'b'),
         AT_REST_LATER),
    # Within the tick of a change nobody else may work at the server.
    case('name-there', [THERE, GONE], GONE, AT_REST, *BY_OTHERS, CREATED, AT_REST_LATER),
    case('made-attributes', [GONE, UNCHECKED_CREATED], UNCHECKED_CREATED,
         AT_REST, *BY_OTHERS, REMOVED, AT_REST_LATER),
    # A client may set any time, and a server keeps the verifier of an EXCLUSIVE CREATE.
    case('nsec', time_set(SECONDS), time_set(5)),
    case('nsec', asked(mtime=ODD), asked(mtime=nfstime(9, 5)), time_set(5)),
    case('nsec', asked(mtime=nfstime(9, 0xfffffffe)), asked(mtime=ODD),
         made_file(EXCLUSIVE, bytes(4) + b'\xff' * 4, shown()))]


# What servers and clients may do, and looks like a fault.
AT_WHOLE = {'mtime': nfstime(100, 0), 'ctime': nfstime(100, 0)}
GROWN = ok(folder()[:20] + hyper(8192) + folder()[28:])
UNSHOWN = WRITTEN._replace(
    results=ok(optional(None) + post_op_attr(), word(5), word(FILE_SYNC), VERIFIER))
EMPTY = Step('WRITE', fh(FILE) + hyper(0) + word(0) + word(FILE_SYNC) + opaque(b''),
             ok(changed(shown()), word(0), word(UNSTABLE), VERIFIER))
FOUND_ALONE = NAMED._replace(results=ok(fh(FILE) + post_op_attr(shown()) + post_op_attr()))
MAY_BE = {
    'another client writes in the same second': [
        asked(**AT_WHOLE), read(b'alpha', now=shown(**AT_WHOLE)),
        read(b'alphb', now=shown(**AT_WHOLE))],
    'another client writes after a WRITE without attributes': [UNSHOWN, ASKED, read(b'alphb')],
    'a file grows between the data of a READ and its attributes': [
        ASKED, read(b'alpha', now=shown(size=9, mtime=LATER, ctime=LATER))],
    'what is not committed is lost when a server starts anew': [
        UNCOMMITTED, read(b'alphb'), COMMITTED_ANEW, write(verifier=RESTARTED)],
    'an empty WRITE is not committed': [EMPTY],
    'a file that is removed is not committed': [UNCOMMITTED, REMOVED],
    'a hidden name': [AT_REST, looked_up(b'.snapshot'), listed(entry(6, b'b', 1))],
    'a name that is a path': [AT_REST, looked_up(b'a/b'), listed(entry(6, b'b', 1))],
    'a name is made, and the reply does not show the folder': [
        AT_REST, listed(entry(6, b'b', 1)), FOUND_ALONE],
    'a name is moved to one that may be removed meanwhile': [
        AT_REST, NAMED, removed(b'b', OTHER)._replace(results=None), renamed(b'a', OTHER, b'b'),
        AT_REST_LATER, listed(mtime=LATER)],
    'a directory on which something is mounted': [listed_plus(shown(DIR, 2))],
    'a directory has another size': [AT_REST, AT_REST, AT_REST._replace(results=GROWN), AT_REST],
    'an inherited ACL takes permissions': [made_folder(0o700, asked=0o777)],
    'an owner is not taken': [made_folder(uid=9)],
    'an UNCHECKED CREATE finds another type': [
        made_file(UNCHECKED, sattr(mode=0o644), shown(FIFO))],
    'the verifier of an EXCLUSIVE CREATE is in the times': [
        made_file(EXCLUSIVE, b'\xff' * 8, shown(mtime=nfstime(0xffffffff, 0xffffffff)))],
    'a READ moves atime, and a uid that is not set stays': [
        setting(sattr(uid=0xffffffff, atime=set_to_client_time(LATEST)), shown())],
    'a symbolic link has no mode': [setting(sattr(mode=0o600), shown(LNK, mode=0o777))],
    'a server takes no WRITE': [limits(4096, 0)],
    'a preferred size is no multiple': [limits(4000)]}


def bodies_of(steps: Iterable[Step]) -> list[list[bytes]]:
    return [[call(xid, NFS, 3, NFS_PROCEDURES.index(one.procedure), one.asked),
             *([] if one.results is None else [success(xid, one.results)])]
            for xid, one in enumerate(steps, 1)]


def in_order(talk: Talk, steps: Iterable[Step]) -> list[bytes]:
    """The frames of a connection, on which one exchange follows another."""
    return in_turn([talk], [(0, side, body) for both in bodies_of(steps)
                            for side, body in enumerate(both)])


def frames_of(number: int, steps: Iterable[Step]) -> list[bytes]:
    """The frames of a connection with a server of its own."""
    return in_order(Talk(hosts=('192.0.2.7', f'198.51.100.{number}')), steps)


def recording_of(*several: Iterable[Step]) -> bytes:
    """A recording of connections, each with a server of its own, a frame a second."""
    return timed(enumerate(frame for number, steps in enumerate(several, 1)
                           for frame in frames_of(number, steps)), 1_000)


def meaning(tools: Tools, recording: bytes, *words: str) -> tuple[int, Any]:
    """The status of a run on a recording, and its JSON without notes."""
    tools.write('a.pcap', recording)
    status, out, _ = tools.tool('meaning', '--json', *words, 'a.pcap')
    return status, json.loads(out)


def rules_of(tools: Tools, frames: Iterable[bytes], *words: str) -> list[str]:
    """The rules that are broken in frames, but for notes."""
    found = meaning(tools, timed(enumerate(frames), 1_000), *words)[1]['findings']
    return [one['rule'] for one in found if one['by'] != 'note']


def a_fault_of_each_rule(tools: Tools) -> None:
    """Each is found once, and nothing else; what servers and clients may do passes."""
    tools.want('rules', {rule for rule, _, _ in CASES}, RULES.keys())
    status, whole = meaning(tools, recording_of(
        *(steps for _, *both in CASES for steps in both), *MAY_BE.values()))
    tools.want('status', (status, whole['counts']['ok']), (1, 2 * len(CASES) + len(MAY_BE)))
    found = collections.defaultdict[int, list[str]](list)
    for one in whole['findings']:
        if one['by'] != 'note' or one['connection'] % 2 and one['connection'] < 2 * len(CASES) \
                and CASES[one['connection'] // 2][0] == 'verifier':
            found[one['connection']].append(one['rule'])
    for number, (rule, *_) in enumerate(CASES):
        tools.want(f'{number} {rule}', (found[2 * number + 1], found[2 * number + 2]), ([rule], []))
    for number, name in enumerate(MAY_BE, 2 * len(CASES) + 1):
        tools.want(name, found[number], [])
    by_two = {one['rule'] for one in whole['findings'] if one['against_frame']}
    tools.want('findings with two frames', by_two, {
        'read-data', 'verifier', 'listing', 'name-gone', 'name-there', 'name-object',
        'handle-object', 'same-ctime', 'returns', 'write-ctime', 'not-committed', 'wcc-before',
        'link-nlink', 'readlink-text', 'verifier-back', 'made-attributes'})


def exchanges_that_overlap(tools: Tools) -> None:
    """What returns was never away only if the three exchanges came one after the other, and a
    verifier as well. Of changes that overlap, the first has found what was there, or somebody else
    was between."""
    away, anew = [ASKED, ASKED, ASKED_LATER, ASKED], [wrote(0, 8, FILE_SYNC)] * 2 + [ANEW]
    early, late = ([made_folder(name=b'd', above=OTHER), AT_REST, listed(),
                    made_folder(name=b'b', was=was), made_folder(name=b'c', was=LATER),
                    removed(b'a', was=LATER)] for was in (EARLY, LATER))
    for steps, order, rules in ((away, '11223344', ['returns']), (away, '11223434', []),
                                (away, '11232344', []), (early, '112233454566', ['name-gone']),
                                (late, '112233454566', []), (anew, '112332', []),
                                (anew, '113322', ['verifier-back'])):
        bodies = bodies_of(steps)
        sides = [(order[:at].count(one), int(one) - 1) for at, one in enumerate(order)]
        frames = in_turn([Talk()], [(0, side, bodies[number][side]) for side, number in sides])
        tools.want(order, rules_of(tools, frames), rules)


def other_connections(tools: Tools) -> None:
    """Two servers may have one address, and a client goes on by another connection."""
    hosts = '192.0.2.7', '198.51.100.1'
    for first, second, service, end, rules in (
            (ASKED, asked(fileid=6), 2049, None, ['handle-object']),
            (ASKED, asked(fileid=6), 20049, None, []),
            (wrote(), asked(OTHER), 2049, None, ['not-committed']),
            (wrote(), asked(OTHER), 2049, -2, []), (wrote(), committed(), 2049, None, [])):
        frames = (in_order(Talk(hosts=hosts), [first])
                  + in_order(Talk(701, service, hosts), [second]))[:end]
        tools.want(f'{second.procedure} {service} {end}',
                   rules_of(tools, frames, '--port', '2049,20049'), rules)


def one_wrong_answer(tools: Tools) -> None:
    """It is one finding, of the answer that stands alone."""
    odd, other = asked(mode=0o7777), asked(fileid=6)
    for steps, *wanted in (
            ([ASKED, ASKED, odd, ASKED, ASKED], 'returns', 'server', 9,
             'mode is 07777, before (frame 7, GETATTR) and after (frame 11, GETATTR) it was 0644'),
            ([ASKED, ASKED, other, ASKED, ASKED], 'handle-object', 'server', 9,
             'handle 0x66696c65: fileid is 6, in frame 5 (GETATTR) it was 5'),
            ([other, ASKED, ASKED, ASKED], 'handle-object', 'server', 7,
             'handle 0x66696c65: fileid is 5, in frame 5 (GETATTR) it was 6'),
            ([time_set(SECONDS), ASKED], 'nsec', 'client', 4,
             'sets mtime 9 s and 1,000,000,000 ns')):
        found = meaning(tools, recording_of(steps))[1]['findings']
        tools.want(f'{wanted}', [[one[name] for name in ('rule', 'by', 'frame', 'text')]
                                 for one in found], [wanted])


# --- Forms of output ---

FAULTY = recording_of([READ, read(b'alphb'), ASKED])
FIRST_FOUND = ('frame 7: READ ? 0+100: byte 4 is 0x62, in frame 5 (READ) it was 0x61, with the '
               'same mtime and size')
GROUPS = {
    'calls': '3 calls with a reply', 'data': '1 READ (5 bytes)', 'attributes': '2 comparisons',
    'names': 'not asked, since no name is asked for again in a folder that is shown',
    'commits': 'not asked, since no WRITE is UNSTABLE'}
LAST = [*(f'  {group}: {words}' for group, words in GROUPS.items()), sums(1)]
SUMS = ['1 finding by 1 rule, 0 notes; looked at:', *LAST]


def words_of_a_finding(tools: Tools) -> None:
    """A row names both frames, and all forms of output have the same counts and status."""
    tools.write('a.pcap', FAULTY)
    row = ['read-data', '3.3.6', 'server', '198.51.100.1:2049', '1']
    for words, wanted, error in (([], [*row, FIRST_FOUND, *SUMS], []),
                                 (['--all'], ['5.000000', 'read-data', FIRST_FOUND, *SUMS], []),
                                 (['--csv'], None, SUMS)):
        status, out, told = tools.tool('meaning', *words, 'a.pcap')
        lines = out.splitlines()[words == []:]
        found = [*re.split('  +', lines[0]), *lines[1:]] if wanted else len(lines)
        tools.want(f'{words}', (status, found, told.splitlines()), (1, wanted or 2, error))
    status, out, _ = tools.tool('meaning', '--json', '--junit', 'a.xml', 'a.pcap')
    found = json.loads(out)
    tools.want('--json', (status, [one['client'] for one in found['findings']],
                          found['looked_at']['groups']), (1, ['192.0.2.7:700'], GROUPS))
    suite = tools.xml('a.xml')[0]
    properties = {one.attrib['name']: one.attrib['value'] for one in suite.iter('property')}
    tools.want('--junit', (suite.attrib['failures'], FIRST_FOUND.encode() in tools.read('a.xml'),
                           {name: properties.get(name) for name in GROUPS}), ('1', True, GROUPS))
    tools.want('--rule', tools.tool('meaning', '--rule', 'nsec', 'a.pcap')[0], 0)


def pages_of_findings(tools: Written) -> None:
    """The headline and the status are those of the command, and the findings come first. Nothing
    is called valid, or green if nothing was looked at."""
    lost = [frame for at, frame in enumerate(frames_of(1, [ASKED] * 3)) if at != 5]
    for recording, look, words in (
            (recording_of([ASKED]), 'same', 'No answer is known to be wrong'),
            (recording_of([Step('NULL', b'', b'')]), 'part', 'No call was looked at'),
            (timed(enumerate(lost), 1_000), 'part', 'Not all was judged'),
            (FAULTY, 'differ', '1 answer by 1 rule cannot be right')):
        tools.write('a.pcap', recording)
        status, out, page = tools.page('meaning', 'a.pcap')
        tools.want(words, [(one.classes, one.text()) for one in page.all('h1')], [([look], words)])
        tools.want(f'{words}: text', (f'The status is {status}' in page.text(),
                                      'valid' in page.text()), (True, False))
        tools.want(f'{words}: looked at', [line for line in out.splitlines() if line[:2] == '  '],
                   [f'  {text}' for text in page.texts('p') if text.split(':')[0] in GROUPS])
    cells = page.all('table')[0].all('td')
    tools.want('the finding first', [cell.attributes.get('data-head') for cell in cells],
               ['rule', 'section', 'by', 'server', 'found', 'first'])
    tools.want('its words', (cells[-1].text(), page.texts('code', 'filter')),
               (FIRST_FOUND, ['frame.number in {5, 7}']))
    (article,) = page.all('article')
    texts = article.texts('pre')
    tools.want('its messages', [re.findall(r'record (\d+): .* byte (\d+): data = (\w+)', text)
                                for text in texts], [
        [('2', '128', '616c706862')], [('2', '128', '616c706862')],
        [('1', '128', '616c706861')], [('1', '128', '616c706861')]])
    tools.want('what to type', article.texts('code', 'command'), [
        "tools/explain a.pcap '1 server 2 byte 128'",
        "tools/cut a.pcap '1 server 2 byte 128' bug.pcap"])
    _, _, page = tools.page('meaning', 'a.pcap', 'a.pcap')
    tools.want('two recordings', page.texts('h2')[:1] + page.texts('h3')[:2],
               ['a.pcap', '1 read-data a.pcap', '2 read-data a.pcap'])


def rules_in_words(tools: Tools) -> None:
    """A rule comes with what to do next, and another word with the rules near it. A finding has the
    section of its procedure, and a row all of them. The manual page has each rule."""
    for name, about in (('read-data', 'section 3.3.6'), ('same-ctime', 'fattr3'),
                        ('made-type', 'section 3.3.8, 3.3.9, 3.3.10, 3.3.11')):
        status, out, _ = tools.tool('meaning', '--explain', name)
        tools.want(name, (status, f'(RFC 1813, {about})' in out, out.count('RECORDING')),
                   (0, True, 3))
    status, _, error = tools.tool('meaning', '--explain', 'read-dta')
    tools.want('near', (status, error.splitlines()[-1].partition(': no rule: ')[2]),
               (2, 'read-dta; near it: read-data, read-count-data, read-eof'))
    _, whole = meaning(tools, recording_of([listed(count=16), listed_plus(None, 16)]))
    tools.want('sections', ([one['section'] for one in whole['findings']],
                            [(one['section'], one['found']) for one in whole['rules']]),
               (['3.3.16', '3.3.17'], [('3.3.16, 3.3.17', 2)]))
    page = (TOP / 'tools/man/meaning.1').read_text().partition('.SH RULES')[2].partition('.SH')[0]
    rows = [line for rule in RULES.values() for line in (
        '.TP', f'.BR {rule.name} " (" "{rule.sections}, {rule.by}" )'.replace('-', '\\-'),
        f'{rule.sentence[0].upper()}{rule.sentence[1:]}.')]
    tools.want('manual page', page.splitlines()[-len(rows):], rows)


def findings_that_are_known(tools: Tools) -> None:
    """They change no status; what is no longer found is listed; other files are refused."""
    tools.write('a.pcap', FAULTY)
    run = functools.partial(tools.tool, 'meaning', '--known', 'a.json')
    known = json.dumps({'version': 1, 'accepted': [
        {'rule': 'read-data', 'server': '198.51.100.1:2049'},
        {'rule': 'nsec', 'server': '*'}]}).encode()
    tools.write('a.json', known)
    status, out, _ = run('--junit', 'a.xml', 'a.pcap')
    tools.want('known', (status, out.splitlines()[1].split()[4:6], out.splitlines()[2:],
                            tools.xml('a.xml')[0].attrib['failures']), (0, ['1', 'known'], [
        'no longer found: nsec *', '0 findings by 0 rules, 0 notes, 1 known; looked at:',
        *LAST], '0'))
    tools.want('written', (tools.tool('meaning', '--known-new', 'b', 'a.pcap')[0], tools.read('b')),
               (1, b'read-data 198.51.100.1:2049: READ ? 0+100\n'))
    for line, wanted in (('', 0), ('read-data *', 0), ('read-data *: READ ? 1+100', 1)):
        tools.write('b', line.encode() or tools.read('b') or b'')
        tools.want(line, tools.tool('meaning', '--known', 'b', 'a.pcap')[0], wanted)
    os.link(tools.path('a.json'), tools.path('hard'))
    os.symlink('a.json', tools.path('soft'))
    for option, name in itertools.product(('--html', '--junit'),
                                          ('a.json', './a.json', 'hard', 'soft')):
        tools.want(f'{option} {name}', (run(option, name, 'a.pcap')[0], tools.read('a.json')),
                   (2, known))
    for wrong in (b'[]', b'{"version": 2, "accepted": []}', b'\xff',
                  b'{"version": 1, "accepted": [{"rule": "none", "server": "*"}]}', b'a\0b'):
        tools.write('a.json', wrong)
        tools.want(f'{wrong!r}', run('a.pcap')[0], 2)


def a_capture(tools: Tools) -> None:
    """It has no frames, so rules about several exchanges are not asked, which is said."""
    calls, replies = zip(*bodies_of([READ, read(b'alphb', 3)]))
    status, whole = meaning(tools, capture((calls, replies)))
    tools.want('rules', (status, [one['rule'] for one in whole['findings']]),
               (1, ['read-count-asked']))
    tools.want('is said', whole['looked_at']['groups'], {
        'calls': '2 calls with a reply', **dict.fromkeys(
            [*GROUPS][1:], 'not asked, since a capture has no frames')})


# --- One item changed, and exchanges hidden ---

class Changed(Recorded):
    """Recorded exchanges, one of which says something else."""

    def __init__(self, kept: Kept, number: int,
                 change: Callable[[RecordedExchange], Optional[RecordedExchange]]) -> None:
        self.number, self.change = number, change
        super().__init__(kept)

    def exchange(self, number: int) -> RecordedExchange:
        one = super().exchange(number)
        return self.change(one) or one if number == self.number else one


class Hiding(Recorded):
    """Recorded exchanges without some, as if a client were not recorded."""

    def __init__(self, kept: Kept, hidden: frozenset[int]) -> None:
        self.hidden = hidden
        super().__init__(kept)

    def note_change(self, one: RecordedExchange) -> None:
        if one.source.number not in self.hidden:
            super().note_change(one)

    def answered(self) -> Iterator[RecordedExchange]:
        return (one for one in super().answered() if one.source.number not in self.hidden)


@contextlib.contextmanager
def recorded_in(path: Path) -> Iterator[Recorded]:
    with take(str(path), Options(), shows_progress=False) as taken:
        verdicts = [of_covered(str(path), one) for one in taken.covered()]
        with contextlib.closing(kept_in(PROGRAM, taken, verdicts, has_values=True)) as kept:
            yield Recorded(kept)


def found_in(recorded: Recorded, is_whole: bool = True) -> set[tuple[str, int]]:
    """The rules that are broken, each with the number of the exchange."""
    return {(one.rule, one.number) for one in findings_in(recorded, Looked(), is_whole)}


class Plant(NamedTuple):
    """A change of one item: procedures, side, the last item of a name, its new value."""
    procedures: str
    is_call: bool
    item: str
    value: Callable[[Any, RecordedExchange], Any]
    is_fit: Callable[[RecordedExchange], Any] = lambda one: True

    def changed(self, one: RecordedExchange) -> Optional[RecordedExchange]:
        """Returns an exchange with the change, or None if it has no such item."""
        values = one.call if self.is_call else one.reply
        names = [name for name in values if name == self.item or name.endswith('.' + self.item)]
        if not one.is_ok or one.source.procedure not in self.procedures.split() or not names \
                or not self.is_fit(one):
            return None
        new = self.value(values[names[-1]], one)
        if new == values[names[-1]]:
            return None
        values[names[-1]] = new
        return one


def more(value: Any, one: RecordedExchange) -> int:
    return int(value) + 1


def bit(mask: int) -> Callable[[Any, RecordedExchange], int]:
    return lambda value, one: int(value) ^ mask


def other_byte(data: Any, one: RecordedExchange) -> bytes:
    whole: bytes = data if isinstance(data, bytes) else data.read(0, data.size)
    return whole[:-1] + bytes([whole[-1] ^ 1]) if whole else whole


def other_digit(value: Any, one: RecordedExchange) -> str:
    return f'{value[:-1]}{"1" if value[-1] == "0" else "0"}'


def other_name(items: Any, one: RecordedExchange) -> Any:
    """Changes the third entry of a directory."""
    return [{**item, 'name': item['name'] + 'x'} if at == 2 else item
            for at, item in enumerate(items)]


LOOKS, LISTINGS = 'GETATTR ACCESS LOOKUP', 'READDIR READDIRPLUS'
PLANTS = {
    'READ: a byte': Plant('READ', False, 'data', other_byte),
    'READ: eof': Plant('READ', False, 'eof', bit(1), lambda one: one.call['count']),
    'READ: size': Plant('READ', False, 'size', more),
    'WRITE: a byte': Plant('WRITE', True, 'data', other_byte),
    'WRITE: count': Plant('WRITE', False, 'count', more),
    'WRITE: committed': Plant('WRITE', False, 'committed', lambda value, one: 0),
    'WRITE: verifier': Plant('WRITE', False, 'verf', other_digit),
    'COMMIT: of another file': Plant('COMMIT', True, 'fh', other_digit),
    'fileid': Plant(LOOKS, False, 'fileid', more),
    'mode': Plant(LOOKS, False, 'mode', bit(0o100)),
    'ctime back': Plant(LOOKS, False, 'ctime', lambda value, one: (value[0] - 10, value[1])),
    'nanoseconds': Plant(LOOKS, False, 'mtime', lambda value, one: (value[0], SECONDS)),
    'SETATTR: mode': Plant('SETATTR', False, 'mode', bit(0o100),
                           lambda one: 'set.mode' in one.call),
    'made: mode': Plant('CREATE MKDIR MKNOD', False, 'obj.mode', bit(0o200)),
    'REMOVE: of another name': Plant('REMOVE', True, 'name', other_digit),
    'entry: name': Plant(LISTINGS, False, 'entries', other_name),
    'FSINFO: rtmax': Plant('FSINFO', False, 'rtmax', lambda value, one: 1)}
EACH = 1  # of each kind, in a recording
# What is found in recordings as they are, which were looked at by `show`. Nothing else is.
FOUND = {
    # The memory back end of nfs-ganesha moves mtime without ctime, and keeps no data beyond a size.
    'ganesha_a': {'write-ctime': 6, 'read-data': 1}, 'concurrent_a': {'write-ctime': 4},
    # Linux's server counts no attributes, and answers OK if no entry fits.
    'knfsd_readdir': {'entries-size': 1},
    'libnfs-knfsd': {'entries-size': 32, 'entries-none': 2},
    # nfs-ganesha has attributes of a cache, while files are changed beside it.
    OLD_CACHE: {'read-data': 14, 'name-gone': 13, 'listing': 9}}


def is_planted_found(recorded: Recorded, plant: Plant, known: set[tuple[str, int]],
                     number: int) -> Optional[bool]:
    """Whether a change of an exchange is found; None if it has no such item."""
    if plant.changed(recorded.exchange(number)) is None:
        return None
    return bool(found_in(Changed(recorded.kept, number, plant.changed)) - known)


def recordings_as_they_are(tools: Tools) -> None:
    """In each there is what is known of it, and nothing else."""
    for path in RECORDINGS:
        with recorded_in(path) as recorded:
            found = collections.Counter(one.rule for one in findings_in(recorded, Looked(), True))
        tools.want(path.name, found, FOUND.get(path.name.partition('.')[0], {}))


def planted_changes(tools: Tools) -> None:
    """Of the changes of one item, most are found."""
    told, number = collections.Counter[str](), collections.Counter[str]()
    for path in RECORDINGS:
        with recorded_in(path) as recorded:
            known = found_in(recorded)
            numbers = [one.source.number for one in recorded.answered()]
            for name, plant in PLANTS.items():
                random.Random(name).shuffle(numbers)
                tried = (is_planted_found(recorded, plant, known, number) for number in numbers)
                done = [is_found for is_found, _ in zip(
                    (one for one in tried if one is not None), range(EACH))]
                told[name] += sum(done)
                number[name] += len(done)
    tools.want('never planted', PLANTS.keys() - +number, set())
    tools.want(f'{told}', sum(told.values()) >= SHARE_FOUND * sum(number.values()), True)


def hidden_exchanges(tools: Tools) -> None:
    """Nothing more is found without some exchanges."""
    alarms = list[str]()
    for path in (path for path in RECORDINGS if path.name != f'{OLD_CACHE}.pcap'):
        with recorded_in(path) as recorded:
            known = found_in(recorded)
            for hidden in hidings(recorded.kept):
                found = found_in(Hiding(recorded.kept, hidden), False) - known
                alarms += [f'{path.name}: {one}' for one in found]
    tools.want(f'{alarms}', len(alarms) <= ALARMS_AT_MOST, True)


def hidings(kept: Kept) -> Iterator[frozenset[int]]:
    """A connection of several, and shares of all exchanges at random."""
    if len(kept.parts) <= 20:
        yield from (frozenset(kept.exchanges_of(at)) for at in range(len(kept.parts)))
    for share in HIDDEN:
        for seed in range(2):
            chosen = random.Random(f'{seed} {share}')
            yield frozenset(number for number in range(len(kept)) if chosen.random() < share)

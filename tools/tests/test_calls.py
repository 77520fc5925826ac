"""Tests of `tools/calls`, of calls without a reply or sent again, windows of time, and names.

Without tshark, what needs it is skipped, with a word.
"""
import csv
import io
import json
import re
import shutil
import tracemalloc
import unittest
from typing import Any, NamedTuple

from examples import messages
from examples.messages import (
    AUTH_NONE, MOUNT, NFS, NFSACL, NFS_PROCEDURES, SET_TO_SERVER_TIME, array, auth_sys, call, dirop,
    entries, entry, entryplus, failed, fattr, fh, fragment, guard, how, hyper, made, nfstime, ok,
    opaque, post_op_attr, sattr, set_to_client_time, success, wcc, word)
from examples.packets import ACK, FIN, RST, SERVER, SYN, Talk, datagram, ethernet, pcap, segment

from ..nfs3tools.commands.verdicts import Judge
from ..nfs3tools.recordings.selection import Options
from .recordings import interface, section, simple
from .scripts import (
    FIRST, TOP, Tools, in_fragments, of_tshark, sums as sum_line, taken_of, timed, whole)

HEADS = ['time', 'ms', 'frame', 'conn', 'call', 'answer']
ROOT, FOLDER, FILE = b'root', b'folder', b'file'
USER = auth_sys(1, b'client', 1000, 100, [4])
(NULL, GETATTR, SETATTR, LOOKUP, ACCESS, READLINK, READ, WRITE, CREATE, MKDIR, SYMLINK, MKNOD,
 REMOVE, RMDIR, RENAME, LINK, READDIR, READDIRPLUS, FSSTAT, FSINFO, PATHCONF, COMMIT) = range(22)
Answer = tuple[int, list[list[str]], str]


def calls(tools: Tools, *words: str, stdin: bytes | None = None) -> Answer:
    """The status of a run, the cells of its lines, and what is on standard error."""
    status, out, error = tools.tool('calls', *words, stdin=stdin)
    return status, [re.split('  +', line.strip()) for line in out.splitlines()], error


def objects(tools: Tools, *words: str) -> list[dict[str, Any]]:
    """The exchanges that a run prints as JSON."""
    out = tools.tool('calls', '--json', *words)[1]
    found: list[dict[str, Any]] = json.loads(out)['calls']
    return found


def asked(xid: int, procedure: int, arguments: bytes = b'', credential: bytes = USER) -> bytes:
    return call(xid, NFS, 3, procedure, arguments, credential=credential)


def mounted(talk: Talk) -> list[bytes]:
    """The frames of a connection on which /x was mounted."""
    return [*talk.opened(), talk.sent(0, fragment(call(1, MOUNT, 3, 1, opaque(b'/x')))),
            talk.sent(1, fragment(success(1, ok(fh(ROOT), array([word(1)]))))), *talk.closed()]


def talked(talk: Talk, order: list[tuple[int, bytes]]) -> list[bytes]:
    return [talk.sent(side, fragment(body)) for side, body in order]


class Told(NamedTuple):
    """A call and its reply, and what should be printed of them."""
    procedure: int
    arguments: bytes
    results: bytes
    words: str
    answer: str


ATTRIBUTES, NO_WCC = fattr(1, 5, size=12, mode=0o640), wcc()
DIRECTORY = fattr(2, 6, size=4096, mode=0o1777)
SETTING = sattr(size=3, atime=SET_TO_SERVER_TIME, mtime=set_to_client_time(nfstime(9, 500)))
EXCHANGES = [
    Told(NULL, b'', b'', '', 'OK'),
    Told(GETATTR, fh(ROOT), ok(DIRECTORY), '/x', 'OK DIR 1777 size 4096'),
    Told(MKDIR, dirop(ROOT, b'd') + sattr(mode=0o755), ok(made(FOLDER, None, NO_WCC)), '/x/d 0755',
         'OK'),
    Told(CREATE, dirop(FOLDER, b'f') + how(1, sattr(mode=0o644, uid=7, gid=8, size=0)),
         ok(made(FILE, None, NO_WCC)), '/x/d/f GUARDED 0644 uid 7 gid 8 size 0', 'OK'),
    Told(CREATE, dirop(FOLDER, b'f') + how(2, bytes(8)), failed(17, NO_WCC), '/x/d/f EXCLUSIVE',
         'NFS3ERR_EXIST'),
    Told(CREATE, dirop(FOLDER, b'f') + how(0, sattr()), failed(13, NO_WCC), '/x/d/f UNCHECKED',
         'NFS3ERR_ACCES'),
    Told(SETATTR, fh(FILE) + SETTING + guard(nfstime(1)), ok(NO_WCC),
         '/x/d/f size 3 atime of the server mtime 9.000000500 guarded', 'OK'),
    Told(SETATTR, fh(FILE) + sattr() + guard(), failed(10002, NO_WCC), '/x/d/f',
         'NFS3ERR_NOT_SYNC'),
    Told(LOOKUP, dirop(FOLDER, b'none'), failed(2, post_op_attr()), '/x/d/none', 'NFS3ERR_NOENT'),
    Told(ACCESS, fh(FILE) + word(0x15), ok(post_op_attr(ATTRIBUTES), word(5)),
         '/x/d/f READ|MODIFY|DELETE', 'OK READ|MODIFY'),
    Told(READLINK, fh(FILE), ok(post_op_attr(), opaque(b'to it')), '/x/d/f', 'OK to it'),
    Told(READ, fh(FILE) + hyper(8192) + word(4096),
         ok(post_op_attr(ATTRIBUTES), word(3), word(1), opaque(b'abc')), '/x/d/f 8192+4096',
         'OK 3 eof'),
    Told(READ, fh(FILE) + hyper(0) + word(3), ok(post_op_attr(), word(3), word(0), opaque(b'abc')),
         '/x/d/f 0+3', 'OK 3'),
    Told(WRITE, fh(FILE) + hyper(1 << 40) + word(4) + word(0) + opaque(b'abcd'),
         ok(NO_WCC, word(4), word(2), bytes(8)), '/x/d/f 1099511627776+4 UNSTABLE',
         'OK 4 FILE_SYNC'),
    Told(SYMLINK, dirop(ROOT, b'l') + sattr(mode=0o777) + opaque(b'../to'),
         ok(made(b'link', None, NO_WCC)), '/x/l -> ../to 0777', 'OK'),
    Told(MKNOD, dirop(ROOT, b'n') + word(4) + sattr(mode=0o600) + word(1) + word(3),
         failed(1, NO_WCC), '/x/n CHR 1:3 0600', 'NFS3ERR_PERM'),
    Told(MKNOD, dirop(ROOT, b'n') + word(7) + sattr(), failed(10004, NO_WCC), '/x/n FIFO',
         'NFS3ERR_NOTSUPP'),
    Told(REMOVE, dirop(FOLDER, b'f'), ok(NO_WCC), '/x/d/f', 'OK'),
    Told(RMDIR, dirop(ROOT, b'd'), failed(66, NO_WCC), '/x/d', 'NFS3ERR_NOTEMPTY'),
    Told(RENAME, dirop(FOLDER, b'f') + dirop(ROOT, b'g'), ok(NO_WCC, NO_WCC), '/x/d/f -> /x/g',
         'OK'),
    Told(LINK, fh(FILE) + dirop(ROOT, b'h'), ok(post_op_attr(), NO_WCC), '/x/g -> /x/h', 'OK'),
    Told(READDIR, fh(FOLDER) + hyper(7) + bytes(8) + word(512),
         ok(entries(None, bytes(8), [entry(1, b'.', 1), entry(2, b'..', 2)], True)),
         '/x/d cookie 7 count 512', 'OK 2 entries eof'),
    Told(READDIRPLUS, fh(FOLDER) + hyper(0) + bytes(8) + word(512) + word(4096),
         ok(entries(None, bytes(8), [entryplus(1, b'seen', 1, None, b'seen')], False)),
         '/x/d cookie 0 count 512/4096', 'OK 1 entry'),
    Told(GETATTR, fh(b'seen'), failed(70), '/x/d/seen', 'NFS3ERR_STALE'),
    Told(GETATTR, fh(b'other'), failed(10001), '?', 'NFS3ERR_BADHANDLE'),
    Told(LOOKUP, dirop(b'other', b'\xc3\xa4 "'), failed(2, post_op_attr()), '?/\\xc3\\xa4 \\x22',
         'NFS3ERR_NOENT'),
    Told(FSSTAT, fh(ROOT), failed(5, post_op_attr()), '/x', 'NFS3ERR_IO'),
    Told(FSINFO, fh(ROOT), failed(10006, post_op_attr()), '/x', 'NFS3ERR_SERVERFAULT'),
    Told(PATHCONF, fh(ROOT), failed(10008, post_op_attr()), '/x', 'NFS3ERR_JUKEBOX'),
    Told(COMMIT, fh(FILE) + hyper(0) + word(5), ok(NO_WCC, bytes(8)), '/x/g 0+5', 'OK')]


def every_procedure(tools: Tools) -> None:
    """Calls and answers in words, with paths by MNT, CREATE, MKDIR and READDIRPLUS."""
    talk = Talk(701)
    order = [(side, body) for xid, told in enumerate(EXCHANGES, 1) for side,
             body in ((0, asked(xid, told.procedure, told.arguments)),
                      (1, success(xid, told.results)))]
    tools.write('a.pcap', pcap([*mounted(Talk(service=20048)), *talk.opened(),
                                *talked(talk, order), *talk.closed()]))
    status, out, error = tools.tool('calls', 'a.pcap')
    lines = out.splitlines()
    tools.want('heads and sums', (status, lines[0].split(), lines[-2:], error),
               (0, HEADS, [f'{len(EXCHANGES) + 1} exchanges', sum_line(2)], ''))
    # MNT is in frame 4, its reply in frame 5, and the calls are in the frames 11, 13 ..
    tools.want('MNT', lines[1].split(), '0.000003 0.001 4 1:1 MOUNT MNT /x OK'.split())
    for number, (told, line) in enumerate(zip(EXCHANGES, lines[2:-2])):
        frame = 11 + 2 * number
        wanted = [f'{(frame - 1) / 1e6:.6f}', '0.001', str(frame), f'2:{number + 1}',
                  NFS_PROCEDURES[told.procedure], *told.words.split(), *told.answer.split()]
        tools.want(NFS_PROCEDURES[told.procedure], line.split(), wanted)
    columns = {line.rindex(told.answer) for told, line in zip(EXCHANGES, lines[2:-2])}
    tools.want('the column of the answers', columns, {lines[0].index('answer')})


def replies_of_each_kind(tools: Tools) -> None:
    """Errors of RPC, other programs, calls that were sent again, and replies that came twice."""
    talk = Talk()
    rejected = b''.join(map(word, (2, 1, 1, 1, 1)))
    unavailable = b''.join((word(1), word(1), word(0), AUTH_NONE, word(3)))
    order = [(0, call(1, 100000, 2, 3, bytes(16))), (1, unavailable),
             (0, asked(2, GETATTR, fh(b'a'))), (1, rejected),
             (0, call(3, NFSACL, 3, 1, fh(b'a') + word(1))), (1, success(3, word(70))),
             (0, asked(4, REMOVE, dirop(b'a', b'b'))), (0, asked(4, REMOVE, dirop(b'a', b'b'))),
             (1, success(4, ok(NO_WCC))), (1, success(4, failed(2, NO_WCC))),
             (0, asked(5, NULL)), (1, success(5)), (1, success(5)),
             # another call with the same xid is another exchange, and has the next reply
             (0, asked(6, GETATTR, fh(b'a'))), (0, asked(6, GETATTR, fh(b'b'))),
             (1, success(6, failed(70))), (1, success(6, failed(5)))]
    tools.write('a.pcap', pcap([*talk.opened(), *talked(talk, order)]))
    status, lines, error = calls(tools, 'a.pcap')
    # The first frame of a message is 4, a frame each microsecond.
    tools.want('lines', (status, lines[1:-2], error),
               (0, [['0.000003', '0.001', '4', '1:1', 'PORTMAP GETPORT', 'PROC_UNAVAIL'],
                    ['0.000005', '0.001', '6', '1:2', 'GETATTR ?', 'AUTH_BADCRED'],
                    ['0.000007', '0.001', '8', '1:3', 'NFSACL GETACL', 'accepted'],
                    ['0.000009', '0.002', '10', '1:4', 'REMOVE',
                     '?/b (sent 2 times)', 'OK, then NFS3ERR_NOENT'],
                    ['0.000013', '0.001', '14', '1:6', 'NULL', 'OK (2 replies)'],
                    ['0.000016', '0.002', '17', '1:7', 'GETATTR ?', 'NFS3ERR_STALE'],
                    ['0.000017', '0.002', '18', '1:8', 'GETATTR ?', 'NFS3ERR_IO']], ''))
    tools.want('sums', lines[-2:],
               [['7 exchanges'], [sum_line(1, raw='1 NFSACL GETACL, 1 PORTMAP GETPORT')]])
    tools.want('errors', [line[3] for line in calls(tools, '--errors', 'a.pcap')[1][1:-2]],
               ['1:1', '1:2', '1:4', '1:7', '1:8'])
    found = objects(tools, 'a.pcap')
    tools.want('JSON',
               [(one['record'], one['sent_again'],
                 [reply['record'] for reply in one['replies']]) for one in found],
               [(1, 0, [1]), (2, 0, [2]), (3, 0, [3]), (4, 1, [4, 5]), (6, 0, [6, 7]),
                (7, 0, [8]), (8, 0, [9])])


def ended_by(*last: str, skips: range = range(0), begins: int = 0) -> bytes:
    """Three calls, the second of which has no reply, without some frames."""
    talk = Talk()
    order = [(0, asked(1, NULL)), (1, success(1)), (0, asked(2, NULL)), (0, asked(3, NULL)),
             (1, success(3))]
    sent = [*talk.opened(), *talked(talk, order)]
    ending = {'fin': lambda: talk.closed(), 'rst': lambda: [talk.frame(1, RST | ACK)],
              'half': lambda: [talk.frame(1, FIN | ACK)]}
    sent += [frame for one in last for frame in ending[one]()]
    return pcap([frame for number, frame in enumerate(sent) if number not in skips
                 and number >= begins])


def without_a_reply(tools: Tools) -> None:
    """`no reply` is said only if the end of a whole connection is recorded."""
    for what, content, answers, status in (
            ('open', ended_by(), ['OK', 'no reply recorded', 'OK'], 0),
            ('closed', ended_by('fin'), ['OK', 'no reply', 'OK'], 0),
            ('reset', ended_by('rst'), ['OK', 'no reply', 'OK'], 0),
            ('closed by the server', ended_by('half'), ['OK', 'no reply', 'OK'], 0),
            ('begun before', ended_by('fin', begins=3), ['OK', 'no reply', 'OK'], 1),
            ('a reply is missing', ended_by('fin', skips=range(4, 5)),
             ['no reply recorded', 'no reply recorded', 'OK'], 1),
            # (a capture shows no end)
            ('a capture', messages.capture(([asked(1, NULL)], [])), ['no reply recorded'], 0)):
        tools.write('a', content)
        tools.want(what, [one['answer'] for one in objects(tools, 'a')], answers)
        found, lines, _ = calls(tools, '--errors', 'a')
        tools.want(f'--errors, {what}', (found, [line[-1] for line in lines[1:-2]]),
                   (status, ['no reply in 0.000 s'] if 'no reply' in answers else []))
    # A reply that is refused, and those after it, are not judged.
    talk = Talk()
    order = [(0, asked(1, NULL)), (1, success(1)), (0, asked(2, GETATTR, fh(b'a'))),
             (1, success(2, word(3))), (0, asked(3, NULL)), (1, success(3))]
    tools.write('a.pcap', pcap([*talk.opened(), *talked(talk, order), *talk.closed()]))
    status, lines, error = calls(tools, 'a.pcap')
    tools.want('refused', (status, [line[-1] for line in (*lines[1:-2], lines[-1])], error),
               (1, ['OK', 'not judged', 'not judged', sum_line(refused=1)],
                'a.pcap: connection 1: server record 2 byte 24: BadEnum, frame 7\n'))


# Options, and the calls that they choose. Latencies of the first connection of NFS: 5, 3 and 1
# microseconds; of all others 1. MNT is on connection 1.
CHOSEN = {
    '': '1:1 2:1 2:2 2:3 3:1 3:2 3:3', '--errors': '2:2 2:3', '--slow 3us': '2:1 2:2',
    '--slow 0.003ms': '2:1 2:2', '--slow 1s': '', '--slow 5us --errors': '',
    '--procedure GETATTR,mnt': '1:1 2:1 3:1', '--procedure NULL': '3:2 3:3',
    '--procedure NFSPROC3_RENAME': '2:3', '--procedure GETACL': '', '--path /x': '1:1 2:1',
    '--path /*': '1:1 2:1 2:2 2:3', '--path */bä': '2:3', '--path ?': '3:1', '--path [?]': '3:1',
    '--path /x/[ab]': '2:2 2:3', '--user 0': '2:2', '--user 1000': '2:1 2:3 3:1',
    '--client 192.0.2.7': '1:1 2:1 2:2 2:3', '--client 2001:DB8:0::7': '3:1 3:2 3:3',
    '--client [2001:db8::7] --procedure NULL': '3:2 3:3', '--client 192.0.2.1': '',
    '--sort latency': '2:1 2:2 1:1 2:3 3:1 3:2 3:3'}


def what_is_chosen(tools: Tools) -> None:
    """Options choose what is listed; the status and the counts are those of all."""
    root = auth_sys(1, b'client', 0, 0, [])
    first, second = Talk(), Talk(701, hosts=('2001:db8::7', '2001:db8::1'))
    tools.write('a.pcap', pcap([
        *mounted(Talk(702, service=20048)), *first.opened(), *second.opened(), *talked(first, [
            (0, asked(1, GETATTR, fh(ROOT))), (0, asked(2, LOOKUP, dirop(ROOT, b'a'), root)),
            (0, asked(3, RENAME, dirop(ROOT, b'a') + dirop(ROOT, b'b\xc3\xa4'))),
            (1, success(3, failed(18, NO_WCC, NO_WCC))), (1, success(2, failed(2, post_op_attr()))),
            (1, success(1, ok(DIRECTORY)))]), *talked(second, [
                (0, asked(1, GETATTR, fh(ROOT))), (1, success(1, ok(DIRECTORY))),
                (0, asked(2, NULL, b'', AUTH_NONE)), (1, success(2)), (0, call(3, NFSACL, 3, 0)),
                (1, success(3))])]))
    there = {'--procedure GETACL': 'procedures: GETATTR, LOOKUP, MOUNT MNT, NFSACL NULL, NULL, '
             'RENAME', '--client 192.0.2.1': 'clients: 192.0.2.7, [2001:db8::7]',
             '--user 4711': 'users: 0, 1000', '--path c': 'paths: /x, /x/a'}
    for words, chosen in CHOSEN.items():
        wanted = chosen.split()
        status, lines, error = calls(tools, *words.split(), 'a.pcap')
        number = '7 exchanges' if len(wanted) == 7 else f'{len(wanted)} of 7 exchanges'
        tools.want(words, (status, [line[3] for line in lines[1:-2]], lines[-2:], error),
                   (0, wanted, [[number], [sum_line(3, raw='1 NFSACL NULL')]],
                    f'a.pcap: {there[words]}\n' if words in there else ''))
        if words in ('', '--errors', '--sort latency'):
            tools.want('JSON of ' + words, [f'{one["connection"]}:{one["record"]}' for one in
                                            objects(tools, *words.split(), 'a.pcap')], wanted)
    lines = calls(tools, '--who', '--path', 'a', 'a.pcap')[1]
    tools.want('who', [line[4:6] for line in lines[:2]],
               [['who', 'call'], ['0@192.0.2.7', 'LOOKUP']])


def words_that_are_refused(tools: Tools) -> None:
    """A slip in a name, a time, an address or a number does not list nothing."""
    for words, told in ((['--procedure', 'WRIET'], 'no procedure: WRIET'),
                        (['--procedure', 'WRITE,'], 'no procedure: '),
                        (['--slow', '100'], 'no time: 100 (as in 100ms, 1.5s or 250us)'),
                        (['--slow', '-1s'], 'expected one argument'),
                        (['--slow', '1h'], 'no time: 1h'),
                        (['--client', 'host'], 'no address: host'),
                        (['--user', '-1'], 'no uid: -1'), (['--user', 'root'], 'no uid: root'),
                        (['--sort', 'frame'], 'invalid choice'),
                        (['--json', '--csv'], 'not allowed with')):
        status, out, error = tools.tool('calls', *words, 'a.pcap')
        tools.want(' '.join(words), (status, out, told in error or error), (2, '', True))
    tools.want('no recording', tools.tool('calls')[0], 2)
    tools.want('no program', tools.tool('calls', '--program', './absent', 'a.pcap'),
               (2, '', 'calls: ./absent is missing\n'))


def times_and_frames(tools: Tools) -> None:
    """A call is at the frame that completed it; time counts from the first frame."""
    talk, answer = Talk(), 'OK DIR 1777 size 4096'
    frames, sent = [bytes(12) + b'\x08\x06' + bytes(28), *talk.opened()], in_fragments(
        asked(1, GETATTR, fh(ROOT)), 30)
    frames += [talk.frame(0, ACK, sent[at:end], ahead=at)
               for at, end in ((0, 20), (60, 999), (20, 60))]
    frames.append(talk.frame(1, ACK, fragment(success(1, ok(DIRECTORY)))))
    recording = pcap(frames)
    at = len(recording) - len(frames[-1]) - 12  # where the microseconds of the last frame are
    for content, cells_before, told in (
            (recording, ['0.000006', '0.001', '7'], ''),
            (section() + interface() + b''.join(map(simple, frames)), ['-', '-', '7'], ''),
            (recording[:at] + bytes(4) + recording[at + 4:], ['0.000006', '-0.006', '7'],
             'a.pcap: the clock went back: 1 latency is negative\n')):
        tools.write('a.pcap', content)
        status, lines, error = calls(tools, 'a.pcap')
        tools.want(f'{cells_before}', (status, lines[1], error),
                   (0, [*cells_before, '1:1', 'GETATTR ?', answer], told))
    tools.write('a.pcap', recording)
    one = objects(tools, 'a.pcap')[0]
    tools.want('JSON', (one['time_ns'], one['latency_ns'], one['frame'], one['replies']),
               (1_000_006_000, 1_000, 7, [{'record': 1, 'frame': 8, 'answer': answer}]))


def captures_have_no_times(tools: Tools) -> None:
    """A capture has the lines of its recording without times and addresses."""
    for name in ('ganesha_a', 'concurrent_a'):
        recording = str(TOP / f'examples/{name}.pcap')
        tools.want('from_pcap', tools.tool('from_pcap', recording, 'a.nfs3cap')[0], 0)
        lines, found = (calls(tools, file)[1][1:-2] for file in (recording, 'a.nfs3cap'))
        tools.want(name, (sorted(line[3:] for line in found), {
            cell for line in found for cell in line[:3]}),
            (sorted(line[3:] for line in lines), {'-'}))
    for words, told in ((['--slow', '1s'], 'no latency is known, so --slow lists nothing'),
                        (['--client', '192.0.2.7'],
                         'a capture has no addresses, so --client lists nothing')):
        status, lines, error = calls(tools, *words, 'a.nfs3cap')
        tools.want(words[0], (status, len(lines), error), (0, 3, f'a.nfs3cap: {told}\n'))


def forms_for_programs(tools: Tools) -> None:
    """CSV has the values of JSON, in the same order, of several recordings."""
    tools.write('a,\n.pcap', pcap(mounted(Talk(service=20048))))
    for chosen, number in ((['--errors', 'a,\n.pcap', FIRST], 1), (['a,\n.pcap', FIRST], 104)):
        status, out, error = tools.tool('calls', '--csv', *chosen)
        rows = list(csv.DictReader(io.StringIO(out)))
        tools.want('CSV', (status, error, len(rows)), (0, sum_line(4) + '\n', number))
        tools.want('JSON', rows, [
            {key: '' if value is None else str(len(value)) if key == 'replies'
             else ' '.join(value) if key == 'other_names' else str(value)
             for key, value in one.items()} for one in objects(tools, *chosen)])
    tools.want('a row', [rows[0][key] for key in ('recording', 'connection', 'record', 'client',
                                                  'procedure', 'path', 'answer', 'is_error')],
               ['a,\\x0a.pcap', '1', '1', '192.0.2.7:700', 'MOUNTPROC3_MNT', '/x', 'OK', 'False'])
    status, lines, _ = calls(tools, 'a,\n.pcap', '-', stdin=pcap(whole()))
    tools.want('several', (status, lines[0], ['-:'] in lines, lines[-2]),
               (0, ['a,\\x0a.pcap:'], True, ['40 exchanges']))


def long_names(tools: Tools) -> None:
    """Of a long name the first 1,000 characters are printed, and no byte that is spelled is cut."""
    names = {b'a' + b'\xff' * 400: 'a' + '\\xff' * 249 + '..', b'b' * 1_000: 'b' * 1_000,
             b'c' * 1_001: 'c' * 1_000 + '..'}
    sent = [asked(xid, LOOKUP, dirop(b'other', name)) for xid, name in enumerate(names)]
    tools.write('a', messages.capture((sent, [])))
    tools.want('paths', [one['path'] for one in objects(tools, 'a')],
               [f'?/{name}' for name in names.values()])
    tools.want('--path', [one['path'][:3] for one in objects(tools, '--path', '?/[ac]*', 'a')],
               ['?/a', '?/c'])


def servers_with_equal_handles(tools: Tools) -> None:
    """A handle of one server says nothing of the same handle of another."""
    frames = mounted(Talk(702, service=20048))
    for talk in (Talk(), Talk(701, hosts=('192.0.2.7', '192.0.2.2'))):
        frames += [*talk.opened(), *talked(talk, [(0, asked(1, GETATTR, fh(ROOT))),
                                                  (1, success(1, ok(DIRECTORY)))])]
    tools.write('a.pcap', pcap(frames))
    tools.want('paths', [one['path'] for one in objects(tools, 'a.pcap')], ['/x', '/x', '?'])


@unittest.skipUnless(shutil.which('tshark'), 'tshark is not there')
def as_tshark_has_them(tools: Tools) -> None:
    """Frames, times since the first frame, latencies and statuses are those of tshark."""
    for name in ('ganesha_a', 'ganesha_changed', 'concurrent_a', 'concurrent_b'):
        recording = str(TOP / f'examples/{name}.pcap')
        # (of a reply, tshark has the frame of its call in one of the first two fields, by its
        # version)
        rows = of_tshark(tools, recording, 'rpc.msgtyp == 1', 'rpc.reqframe', 'rpc.repframe',
                         'frame.number', 'rpc.time', 'nfs.status3')
        replies = [[cell.split(',') for cell in row] for row in rows]
        found, relative = objects(tools, recording), dict(of_tshark(
            tools, recording, 'frame', 'frame.number', 'frame.time_relative'))
        tools.want(name, sorted((one['frame'], one['replies'][0]['frame'],
                                 round(one['latency_ns'] / 1_000)) for one in found),
                   sorted((int(frame), int(reply), round(float(time) * 1_000_000))
                          for first, second, [reply], times, _ in replies
                          for frame, time in zip(first if first != [''] else second, times)))
        lines = calls(tools, recording)[1][1:-2]
        tools.want('times', [line[0] for line in lines],
                   [f'{float(relative[line[2]]):.6f}' for line in lines])
        tools.want('errors', sum(one['is_error'] and one['procedure'][0] == 'N' for one in found),
                   sum(state not in ('', '0') for *_, states in replies for state in states))


# --- Calls without a reply or sent again, windows of time, and names ---

BEGUN = 1_600_000_000  # 12:26:40 UTC


def hung() -> bytes:
    """A server that stops: of three calls one is answered, and two are sent again later."""
    first, second = Talk(700), Talk(701)
    calls = [fragment(call(xid, NFS, 3, 1, fh(bytes([xid])))) for xid in (1, 2, 3)]
    frames = [(0.0, frame) for frame in first.opened()]
    frames += [(1.0 + at, first.sent(0, content)) for at, content in enumerate(calls)]
    frames += [(2.5, first.sent(1, fragment(success(1, word(70))))),
               (5.0, first.frame(0, RST | ACK))]
    frames += [(6.0, frame) for frame in second.opened()]
    frames += [(7.0, second.sent(0, calls[1] + calls[2])),
               (9.0, second.sent(1, fragment(success(2, word(70))))), (20.0, second.frame(0, ACK))]
    return timed(sorted(frames, key=lambda one: one[0]), BEGUN)


def cells(tools: Tools, *words: str) -> list[list[str]]:
    status, lines, error = calls(tools, *words)
    tools.want(f'calls {words}', (status, error), (0, ''))
    return lines[1:-2]


def calls_that_hang(tools: Tools) -> None:
    """--no-reply lists how long each waited, and --slow counts that. Their number is the same in
    each form of output, and changes no status. An equal call on a later connection is sent
    again."""
    tools.write('a.pcap', hung())
    tools.want('--no-reply', [row[:1] + row[3:] for row in cells(tools, '--no-reply', 'a.pcap')], [
        ['2.000000', '1:2', 'GETATTR ?', 'no reply in 7.000 s, answered as 2:1'],
        ['3.000000', '1:3', 'GETATTR ?', 'no reply in 17.000 s, sent again as 2:2']])
    for words, column, wanted in (
            (['--slow', '5s'], 3, ['1:2', '1:3', '2:2']), (['--slow', '15s'], 3, ['1:3']),
            ([], 4, [*['GETATTR ?'] * 3, 'GETATTR ? (again, as 1:2)', 'GETATTR ? (again, as 1:3)']),
            (['--from', '2', '--to', '3.5'], 3, ['1:2', '1:3']),
            (['--from', '12:26:42', '--to', '12:26:43.5'], 3, ['1:2', '1:3']),
            (['--from', '1.5', '--to', '12:26:43'], 3, ['1:2', '1:3'])):
        tools.want(f'{words}', [row[column] for row in cells(tools, *words, 'a.pcap')], wanted)
    tools.want('utc', [row[0] for row in cells(tools, '--utc', 'a.pcap')][:2],
               ['12:26:41.000000', '12:26:42.000000'])
    tools.want('no time', tools.tool('calls', '--from', '25:00', 'a.pcap')[0], 2)
    status, out, _ = tools.tool('verdicts', '--json', 'x.json', '--html', 'x.html', 'a.pcap')
    rows, line = tools.json('x.json')['rows'], sum_line(2, silent=2)
    tools.want('verdicts', (status, out.splitlines()[-1], [row['unanswered'] for row in rows]),
               (0, line, [2, 0]))
    tools.want('page', b'<b>2</b> calls without a reply' in tools.read('x.html'), True)
    tools.want('calls', line in tools.tool('calls', 'a.pcap')[1], True)
    for words, name, numbers in (([], 'again', [0, 2, 2]), ([], 'unanswered', [2, 0, 2]),
                                 (['--from', '12:26:42', '--to', '3.5'], 'calls', [2, 0, 2])):
        _, out, _ = tools.tool('procedures', '--json', 'x.json', *words, 'a.pcap')
        found = [table['procedures'][-1][name] for table in tools.json('x.json')['tables']]
        tools.want(name, (found, bool(words) or line in out), (numbers, True))


def sent_again_by_others(tools: Tools) -> None:
    """A call from elsewhere, to another server, or about another file is not sent again."""
    for other, handle in ((Talk(701, hosts=('192.0.2.9', SERVER)), b'a'),
                          (Talk(701, hosts=('192.0.2.7', '192.0.2.2')), b'a'), (Talk(701), b'b')):
        first = Talk(700)
        frames = [*first.opened(), first.sent(0, fragment(call(1, NFS, 3, 1, fh(b'a')))),
                  first.frame(0, RST | ACK), *other.opened(),
                  other.sent(0, fragment(call(1, NFS, 3, 1, fh(handle))))]
        tools.write('b.pcap', timed(enumerate(frames), BEGUN))
        tools.want('none', [row[3] for row in cells(tools, '--no-reply', 'b.pcap')], ['1:1', '2:1'])


def renamed() -> bytes:
    """A file that is made in a folder, and renamed twice; then the folder is."""
    talk, none = Talk(), wcc()
    got = GETATTR, fh(FILE), word(70)
    steps = [
        (LOOKUP, dirop(ROOT, b'd'), ok(fh(FOLDER), word(0), word(0))),
        (CREATE, dirop(FOLDER, b'tmp') + word(0) + bytes(24),
         ok(word(1), fh(FILE), word(0), none)), got,
        (RENAME, dirop(FOLDER, b'tmp') + dirop(FOLDER, b'final'), ok(none, none)), got,
        (RENAME, dirop(ROOT, b'd') + dirop(ROOT, b'e'), ok(none, none)), got]
    order = [(side, body) for xid, (procedure, arguments, results) in enumerate(steps)
             for side, body in enumerate((asked(xid, procedure, arguments), success(xid, results)))]
    return timed(enumerate([*mounted(Talk(702, service=20048)), *talk.opened(),
                            *talked(talk, order)]), BEGUN)


def names_at_the_time(tools: Tools) -> None:
    """A file has the name that it had when it was called; --path fits each."""
    tools.write('a.pcap', renamed())
    tools.want('from_pcap', tools.tool('from_pcap', 'a.pcap', 'a.nfs3cap')[0], 0)
    wanted = ['/x/d/tmp', '/x/d/final', '/x/e/final']
    for name in ('a.pcap', 'a.nfs3cap'):
        tools.want(name, [row[-2].split()[-1] for row in cells(tools, '--procedure', 'GETATTR',
                                                               name)], wanted)
    for pattern in ('tmp', 'final', '*/d/final', '/x/d/tmp'):
        found = cells(tools, '--path', pattern, 'a.pcap')
        tools.want(pattern, [row[4].split()[0] for row in found].count('GETATTR'), 3)
        tools.want('made', ' '.join(found[0][4:6]).split(), ['CREATE', '/x/d/tmp', 'UNCHECKED'])
    tools.want('JSON', [(one['path'], one['other_names']) for one in objects(
        tools, '--procedure', 'GETATTR', 'a.pcap')],
               [(path, [other for other in wanted if other != path]) for path in wanted])
    told = tools.tool('calls', '--user', 'root', 'a.pcap')[2]
    tools.want('--user', 'no uid: root (a number, as `id -u` prints it)' in told, True)


def memory_of_connections(tools: Tools) -> None:
    """A connection of a SYN alone takes a few hundred bytes, from its frame to its verdict."""
    number = 4_000
    frames = (ethernet(datagram(f'10.1.{at // 256}.{at % 256}', SERVER,
                                segment((700, 2049), 1 << 31, 0, SYN)))
              for at in range(number))
    recording = timed(((0.0, frame) for frame in frames), BEGUN)
    tracemalloc.start()
    try:
        with taken_of(recording) as taken:
            verdicts = Judge(tools.program, Options(), 1, False).of_taken('a', taken)
        most = tracemalloc.get_traced_memory()[1]
    finally:
        tracemalloc.stop()
    tools.want('verdicts', {verdict.state for verdict in verdicts[:number]}, {'left out'})
    tools.want('bytes of each', most / number < 1_200 or most / number, True)

"""Tests of `tools/where` and `tools/verdicts`. Without tshark, what needs it is skipped."""
import itertools
import json
import lzma
import os
import random
import re
import shutil
import signal
import time
import unittest

from examples.messages import NFS, call, success
from examples.packets import ACK, Talk, pcap
from tests.shared.running import begin, ended, pipe_of

from ..nfs3tools.shared.places import SIDES, Place
from .recordings import NANOSECONDS, interface, section, simple
from .scripts import (
    ALL, CALL, CALLS, FAULTS, FIRST, REPLIES, TOP, VERDICTS, Tools, connection_of, exchange,
    in_fragments, of_tshark, stream, sums, taken_of, whole)

HEAD = 'connection 1 %s: client 192.0.2.7:700, server 192.0.2.1:2049, tcp.stream == 0'


# --- where ---

def where(tools: Tools, place: str, *options: str) -> tuple[int, list[str], str]:
    """The status of `tools/where` on `a.pcap`, its lines, and standard error."""
    status, out, error = tools.tool('where', *options, 'a.pcap', place)
    return status, out.splitlines(), error


def places(tools: Tools) -> None:
    """A place in each form in which the program prints it."""
    talk = Talk()
    frames = talk.opened()
    content = stream(CALLS[:2]) + in_fragments(CALLS[2], 10) + stream(CALLS[3:])
    again = talk.frame(0, ACK, content[:50])
    frames += [again, talk.sent(0, content[:70]), again, talk.sent(0, content[70:]),
               talk.sent(1, ALL[1]), *talk.closed()]
    tools.write('a.pcap', pcap(frames, magic=NANOSECONDS))
    head = HEAD.replace('connection 1 %s', '%s')
    for place, numbers, named in (
            ('connection 1 client record 1 byte 0', [4], ''),
            ('connection 1 client record 2 byte 1: BadEnum', [4], ''),
            ('connection 1 client record 2 byte 2', [5], ''),
            ('first: connection 1 client record 2 byte 24: Short', [7], ''),
            ('second: connection 1 client record 3 byte 39: Short', [7], ''),
            ('connection 1 client record 3 byte 40: Short', [7], ''),
            ('connection 1 server record 39 byte 23', [8], ''),
            ('differ at connection 1 client record 1', [4], ''),
            ('differ at connection 1 client record 2', [4, 5, 7], ''),
            ('1 server 7 xid=7 NFSPROC3_NULL mtype=1 reply_stat=0', [8],
             'connection 1 server record 7'),
            *((f'file {byte}: TooManyBytes', [frame], f'file {byte}')
              for byte, frame in ((16, 4), (19, 4), (65, 4), (66, 5)))):
        named = named or re.sub('^(?:first|second): |^differ at |: \\w+$', '', place)
        told = head % named if named[:4] != 'file' else named
        tools.want(place, where(tools, place), (0, [
            told, *(f'frame {one}, 1970-01-01 00:00:01.{one - 1:09} UTC' for one in numbers),
            f'frame.number == {numbers[0]}' if len(numbers) == 1
            else 'frame.number in {4..5, 7}'], ''))
    places_by_standard_input(tools, frames)


def places_by_standard_input(tools: Tools, frames: list[bytes]) -> None:
    """The place, or the recording; and files that have no frames, or are not there."""
    answer = tools.tool('where', 'a.pcap',
                        stdin=b'connection 1 client record 1 byte 0: RpcVersion\n')
    other = tools.tool('where', '-', 'connection 1 client record 1 byte 0', stdin=pcap(frames))
    tools.want('standard input', [one[1].splitlines()[-1:] for one in (answer, other)],
               [['frame.number == 4']] * 2)
    shutil.copy(TOP / 'examples/null.nfs3cap', tools.path('b.nfs3cap'))
    for words, message in (
            (['-'], 'POSITION has to be an argument if the recording is standard input'),
            (['b.nfs3cap', 'file 8'], 'b.nfs3cap is a capture, which has no frames'),
            (['absent', 'file 8'], 'absent: No such file or directory')):
        tools.want(message, tools.tool('where', *words), (2, '', f'where: {message}\n'))


def places_of_other_recordings(tools: Tools) -> None:
    """Frames without times, cuts and gaps."""
    frames, talk = whole(), Talk()
    single = pcap(talk.opened() + [talk.sent(0, ALL[0][at:at + 1]) for at in range(2 * CALL)])
    again = pcap(Talk(699).opened() + whole() + whole(first=(9_000, 9_000)))
    no_times = section() + interface() + b''.join(map(simple, frames))
    # (the first record that is whole behind the gap has another number)
    behind = 2 * 344 // CALL + 1 - 7
    for recording, place, last in (
            *((single, f'client record 1 byte {byte}', f'number == {frame}')
              for byte, frame in ((0, 8), (39, 47), (40, 47))),
            (single, 'client record 2', 'number in {48..91}'),
            (pcap(frames[:4] + frames[5:]), f'client record {behind} byte 39', 'number == 5'),
            (pcap(frames[4:]), 'client record 1 byte 0', 'number == 1'),
            (pcap(frames[4:]), 'client record 8', 'number in {1..2}'),
            (again, 'server record 39 byte 23', 'number == 31'),
            (no_times, 'client record 1 byte 0', 'number == 4')):
        tools.write('a.pcap', recording)
        lines = where(tools, f'connection {1 + (recording == again)} {place}')[1]
        tools.want(place, lines[-1], f'frame.{last}')
        if recording in (again, no_times):
            tools.want('what is said', ('tcp.stream == 2' in lines[0], lines[1]), (
                recording == again, lines[1] if recording == again
                else 'frame 4, without a time'))


@unittest.skipUnless(shutil.which('tshark'), 'tshark is not there')
def places_at_the_frames_of_tshark(tools: Tools) -> None:
    """Random places are at the frame that tshark says is first."""
    chance, talk = random.Random(4), Talk(first=((1 << 32) - 900, 77))
    opened, frames = talk.opened(), exchange(talk, 30)
    frames += chance.choices(frames, k=20)
    chance.shuffle(frames)
    recordings = [(TOP / 'examples/ganesha_a.pcap').read_bytes(), pcap(opened + frames),
                  pcap(whole() + whole(first=(9_000, 9_000)))]
    for recording in recordings:
        tools.write('a.pcap', recording)
        segments = [tuple(map(int, row)) for row in of_tshark(
            tools, 'a.pcap', 'tcp.len > 0', 'frame.number', 'tcp.stream', 'tcp.srcport', 'tcp.seq',
            'tcp.len')]
        taken = taken_of(recording)
        for _ in range(40):
            connection, side = chance.choice(taken.connections), chance.choice(SIDES)
            number = chance.randrange(connection.stream(side).count_records()) + 1
            extent = connection.stream(side).extent(number)
            assert extent
            byte = chance.randrange(extent.end - extent.begin - 4)
            at, end = (extent.begin + 4 + byte, connection.client_end if side == 'client'
                       else connection.server_end)
            wanted = next(frame for frame, *whose, sequence, size in segments
                          if whose == [connection.stream_number, int(end.rpartition(':')[2])]
                          and sequence - 1 <= at < sequence - 1 + size)
            found = [frame.number
                     for frame in taken.frames(Place(connection.number, side, number, byte))]
            tools.want(f'connection {connection.number} {side} record {number} byte {byte}', found,
                       [wanted])


def write_parts(tools: Tools, frames: list[bytes]) -> None:
    """Writes a recording, and its parts as `tcpdump -W 3` names them after it began anew."""
    records = pcap(frames)[24:]
    ends = list(itertools.accumulate((16 + len(frame) for frame in frames), initial=0))
    for name, low, high in (('run.pcap1', 0, 6), ('run.pcap2', 6, 20), ('run.pcap10', 20, 21),
                            ('run.pcap0', 21, 30)):
        tools.write(name, pcap([]) + records[ends[low]:ends[high]])
    tools.write('whole.pcap', pcap(frames))


def parts_of_a_recording(tools: Tools) -> None:
    """A pattern means the parts of one recording, by their times."""
    write_parts(tools, whole() + whole(port=701))
    status, rows, last, error = verdicts(tools, 'run.pcap*')
    tools.want('verdicts', (status, [row[-3:] for row in rows], last, error),
               (0, [['39', '39', 'ok']] * 2, sums(2), ''))
    for name, recording in (('of_parts', 'run.pcap*'), ('of_whole', 'whole.pcap')):
        tools.want('from_pcap', tools.tool('from_pcap', recording, name)[:2], (0, ''))
    tools.want('one capture', tools.read('of_parts'), tools.read('of_whole'))
    answer = tools.tool('compare', 'run.pcap*', 'whole.pcap')
    tools.want('compare', (answer[0], answer[1].splitlines()[1], answer[2]),
               (0, 'same: 78 calls in 2 connections', ''))
    place, time = 'connection 1 client record 8', '1970-01-01 00:00:01.0000%02d000 UTC'
    tools.want('where', tools.tool('where', 'run.pcap*', place)[1].splitlines()[1:], [
        'frame 4, ' + time % 3, 'frame 5, ' + time % 4, 'run.pcap1: frame.number in {4..5}'])
    tools.want('where, in two parts',
               tools.tool('where', 'run.pcap*',
                          'connection 2 client record 16')[1].splitlines()[1:], [
                              'frame 20, ' + time % 19, 'frame 21, ' + time % 20,
                              'run.pcap2: frame.number == 14', 'run.pcap10: frame.number == 1'])
    tools.want('OUT is a part', tools.tool('from_pcap', 'run.pcap*', 'run.pcap10'),
               (2, '', 'from_pcap: run.pcap10 is an input, and is not replaced\n'))
    tools.write('run.pcap*', pcap(whole()))
    tools.want('the name of a file', len(verdicts(tools, 'run.pcap*')[1]), 1)


def parts_that_are_none(tools: Tools) -> None:
    """A part alone, times that are equal, and files that are no parts."""
    write_parts(tools, whole() + whole(port=701))
    tools.write('half.pcap1', pcap(whole()[:8]))
    tools.write('half.pcap2', pcap(whole()[8:]))  # replies alone
    status, _, _, error = verdicts(tools, 'half.pcap2')
    tools.want('a part alone', (status, error.splitlines()[0]), (1, (
        'half.pcap2: it begins in the middle of 1 connection: if it is a part of a recording, as '
        "of `tcpdump -C`, name all parts in its place, as 'half.pcap*'")))
    for number, frame in enumerate(whole()):  # all at one time
        tools.write(f'equal{number or ""}', pcap([frame]))
    tools.want('equal times', [row[-1] for row in verdicts(tools, 'equal*')[1]], ['ok'])
    tools.write('run.pcap3', pcap(whole(port=702))[:-3])
    tools.want('a part that is cut', verdicts(tools, 'run.pcap[013]')[1][-1][-1],
               'in part: run.pcap3: the recording ends inside a frame (frame 15)')
    tools.write('run.pcap3', pcap([]))
    tools.write('run.pcap.html', b'<!doctype html>')
    tools.write('run.pcap.txt', b'')
    found = verdicts(tools, '--html', 'run.pcap.html', 'run.pcap*')
    tools.want('a page beside them', ([row[-1] for row in found[1]], found[3].splitlines()),
               (['ok'] * 2, [f'run.pcap*: run.pcap.{name} is no recording, and is skipped'
                             for name in ('html', 'txt')]))
    answer = tools.tool('where', 'run.pcap*', 'connection 1 client record 8')
    tools.want('where', (answer[0], answer[1].splitlines()[-1]),
               (0, 'run.pcap1: frame.number in {4..5}'))
    tools.want('no recording', verdicts(tools, 'run.pcap.[ht]*')[:2],
               (1,
                [['run.pcap.[ht]*', *['-'] * 5, 'run.pcap.html: it is neither pcap nor pcapng']]))
    tools.want('no file', tools.tool('verdicts', 'run.pcap*', 'absent*'),
               (2, '', 'verdicts: absent*: No such file or directory\n'))


def recordings_that_are_compressed(tools: Tools) -> None:
    """What to type names the tool that was called."""
    tools.write('a.lz4', b'\x04\x22\x4d\x18')
    os.symlink(TOP / 'tools/where', tools.path('nfs3-where'))
    told = 'it is compressed by lz4: decompress it first, as in `%s`'
    # (of two recordings the name says which it is)
    for words, error in ((['from_pcap', 'a.lz4', 'out'], 'lz4 -dc FILE | tools/from_pcap - OUT'),
                         (['where', 'a.lz4', 'file 20'], 'lz4 -dc FILE | tools/where - POSITION'),
                         (['compare', 'a.lz4', 'a.lz4'],
                          'tools/compare <(lz4 -dc A) <(lz4 -dc B)')):
        named = f'{words[0]}: {"a.lz4: " if words[0] == "compare" else ""}'
        tools.want(words[0], tools.tool(*words), (2, '', f'{named}{told % error}\n'))
    tools.want('verdicts', verdicts(tools, 'a.lz4')[1][0][-1],
               told % 'lz4 -dc FILE | tools/verdicts -')
    done = ended([tools.path('nfs3-where'), 'a.lz4', 'file 20'], tools.folder)
    tools.want('installed', '`lz4 -dc FILE | nfs3-where - POSITION`' in done.error.decode(), True)


# --- verdicts ---

def rows_of(tools: Tools, name: str) -> list[dict[str, object]]:
    rows: list[dict[str, object]] = json.loads(tools.read(name) or b'{"rows": []}')['rows']
    return rows


def verdicts(tools: Tools, *words: str,
             stdin: bytes | None = None) -> tuple[int, list[list[str]], str, str]:
    """The status, the cells of the rows, the last line, and what is on standard error."""
    status, out, error = tools.tool('verdicts', *words, stdin=stdin)
    lines = out.splitlines() or ['', '']
    return status, [re.split('  +', line) for line in lines[1:-1]], lines[-1], error


def faults_with_their_frames(tools: Tools) -> None:
    """Wrong recordings are named with their frame, captures without one."""
    for name, (place, frame) in FAULTS.items():
        fault = place.partition(' ')[2].partition(' ')[2]
        recording, capture = (str(TOP / f'examples/{name}.{kind}') for kind in ('pcap', 'nfs3cap'))
        for file, last in ((recording, f'{fault}, frame {frame}'), (capture, fault)):
            status, rows, _, error = verdicts(tools, file)
            tools.want(file, (status, rows[-1][-1], error, {row[-1] for row in rows[:-1]} - {'ok'}),
                       (1, last, '', set()))
        found = tools.tool('where', recording, stdin=tools.run('check', capture)[2].encode())
        tools.want(name + ' by where', found[1].splitlines()[-1], f'frame.number == {frame}')


def rows_of_all_kinds(tools: Tools) -> None:
    """Each connection has its row, and each fault its frame."""
    wrong = ([call(1, NFS, 3, 0), call(2, NFS, 3, 0)], [success(1), success(9), success(2)])
    frames = whole()
    for number, (calls, replies) in enumerate((wrong, (CALLS[:1], REPLIES[:1]), wrong), 701):
        frames += connection_of(calls, replies, port=number)
    tools.write('a.pcap', pcap(frames))
    fault = 'server record 2 byte 0: NoCall, frame %d'
    wanted = [[str(number), f'192.0.2.7:{699 + number}', '192.0.2.1:2049', *more]
              for number, more in enumerate((['39', '39', 'ok'], ['2', '3', fault % 20],
                                             ['1', '1', 'ok'], ['2', '3', fault % 34]), 1)]
    for words, stdin in ((['a.pcap'], None), (['-j', '1', 'a.pcap'], None), (['-'], pcap(frames))):
        tools.want(f'{words}', verdicts(tools, *words, stdin=stdin), (
            1, [[words[-1], *row] for row in wanted], sums(2, 0, 2), ''))
    tools.write('b.pcap', pcap(whole()))
    for name, example in (('c', 'two_connections'), ('d', 'interleaved')):
        shutil.copy(TOP / f'examples/{example}.nfs3cap', tools.path(name))
    status, rows, last, error = verdicts(tools, 'b.pcap', 'c', 'd')
    tools.want('all ok', (status, [' '.join([row[0], *row[-3:]]) for row in rows], last, error),
               (0, ['b.pcap 39 39 ok', 'c 1 1 ok', 'c 1 1 ok', 'd 7 7 ok', 'd 51 51 ok',
                    'd 2 2 ok'], sums(6, raw='1 NFSACL GETACL'), ''))
    tools.want('no program', tools.tool('verdicts', '--program', './absent', 'b.pcap'),
               (2, '', 'verdicts: ./absent is missing\n'))
    tools.want('no processes', tools.tool('verdicts', '-j', '0', 'b.pcap')[0], 2)


def rows_of_faults_alone(tools: Tools) -> None:
    """With -q rows of ok are left out."""
    for content, faults in ((pcap(whole()), 0),
                            ((TOP / 'examples/bad_server_record.pcap').read_bytes(), 1)):
        status, rows, last, error = verdicts(tools, '-', stdin=content)
        quiet = tools.tool('verdicts', '-q', '-', stdin=content)
        *lines, counts = [re.split('  +', line) for line in quiet[1].splitlines()]
        tools.want(f'faults: {faults}', (quiet[0], lines, counts, quiet[2], len(lines)), (
            status, [row for row in rows if row[-1] != 'ok'], re.split('  +', last), error, faults))


def rows_of_files_that_are_not_whole(tools: Tools) -> None:
    """Each beside a good one."""
    tools.write('b.pcap', pcap(whole()))
    two = (TOP / 'examples/two_connections.nfs3cap').read_bytes()
    bad = (TOP / 'examples/bad_server_record.nfs3cap').read_bytes()
    first, second = ([number, '-', '-', '1', '1', 'ok'] for number in '12')
    good = ['1', '192.0.2.7:700', '192.0.2.1:2049', '39', '39', 'ok']
    # (a text is said of the file as a whole)
    cases: dict[str, tuple[bytes, list[list[str] | str]]] = {
        'cut': (two[:-1], [first, second, f'file {len(two) - 1}: CaptureCut']),
        'more': (two + b'x', [first, second, f'file {len(two)}: AfterEnd']),
        'mark': (two[:100] + b'\0\0\0\7' + two[104:], [first, 'file 100: BadMark']),
        'both': (bad[:-1], [first, ['2', '-', '-', '1', '2', 'server record 2 byte 0: NoCall']]),
        'text': (b'no recording', ['it is neither pcap nor pcapng']),
        'lz4': (b'\x04\x22\x4d\x18', ['it is compressed by lz4: decompress it first, as in '
                                      '`lz4 -dc FILE | tools/verdicts -`']),
        'xz': (lzma.compress(pcap(whole()))[:-1], [
            good, 'in part: the recording ends inside a frame (frame 16): the compressed file is '
            'cut short']),
        'damaged': (pcap(whole()) + b'\xff' * 16, [
            good, 'the recording is damaged after frame 15: a frame is too long']),
        'empty': (pcap([]), ['no connection to judge'])}
    for name, (content, rows) in cases.items():
        tools.write(name, content)
        status, found, _, _ = verdicts(tools, name, 'b.pcap')
        wanted = [['-'] * 5 + [row] if isinstance(row, str) else row for row in rows]
        tools.want(name, (status, found[:-1], found[-1][-1]),
                   (1, [[name, *row] for row in wanted], 'ok'))


def notes_on_a_recording(tools: Tools) -> None:
    """A note on a whole recording is none of its first connection."""
    frames, other = whole(port=701) + whole(), whole(service=900)[0]
    lying = other[:16] + b'\xff\xff' + other[18:]
    tools.write('a.pcap', pcap(frames + [lying]))
    tools.write('b.pcap', pcap(whole(port=702) + [lying]))
    told = '1 frame has headers that do not fit its length, and is passed over'
    status, rows, _, error = verdicts(tools, '--json', 'x.json', '--junit', 'x.xml', 'a.pcap')
    tools.want('a note', (status, [row[-1] for row in rows], error),
               (0, ['ok', 'ok'], f'a.pcap: {told}\n'))
    tools.want('JSON', [[row[key] for key in ('connection', 'state', 'message', 'notes')]
                        for row in rows_of(tools, 'x.json')],
               [[None, 'note', told, []], [1, 'ok', 'ok', []], [2, 'ok', 'ok', []]])
    suite = tools.xml('x.xml')[0]
    tools.want('JUnit', (suite.get('tests'), suite.findtext('system-out'),
                         [len(case) for case in suite.iter('testcase')]),
               ('2', f'a.pcap: {told}', [0, 0]))
    error = verdicts(tools, 'a.pcap', 'b.pcap')[3]
    tools.want('two recordings',
               [line for line in error.splitlines() if ' connection ' not in line],
               [f'a.pcap: {told}', f'b.pcap: {told}'])


def files_for_others(tools: Tools) -> None:
    """JUnit XML holds whatever the name of a file has; JSON has states, positions, frames and what
    is missing. Both of a fault, a loss, what is left out, and a file that is none."""
    name = 'a\1\n<&"]]>\udcff.pcap'
    tools.write(name, (TOP / 'examples/bad_server_record.pcap').read_bytes())
    tools.write('b.pcap', pcap(whole()[:4] + whole()[5:] + Talk(800).opened()))
    tools.write('c', b'text')
    words = ['--junit', 'x.xml', '--json', 'x.json', '--program', tools.program, name]
    done = ended([VERDICTS, *words, 'b.pcap', 'c'], tools.folder)
    suite, in_part = tools.xml('x.xml')[0], 'ok in part: 30 calls, 344 bytes missing'
    tools.want('the suite', (done.status, b'Traceback' in done.error, [
        suite.get(key) for key in ('name', 'tests', 'failures', 'errors', 'skipped')]),
        (1, False, ['nfs3canon', '5', '2', '1', '1']))
    escaped, ends = 'a\\x01\\x0a<&"]]>\\xff.pcap', '192.0.2.7 to 192.0.2.1:2049'
    left_out = 'left out: 192.0.2.7:800 and 192.0.2.1:2049: no payload'
    cases = [(case.get('classname'), case.get('name'),
              [(item.tag, item.get('message')) for item in case if item.tag != 'system-out'])
             for case in suite.iter('testcase')]
    # (the client's port is another in each run)
    tools.want('the cases', cases, [
        (escaped, 'connection 1 ' + ends, []),
        (escaped, 'connection 2 ' + ends,
         [('failure', 'server record 2 byte 0: NoCall, frame 13')]),
        ('b.pcap', 'connection 1 ' + ends, [('failure', in_part)]),
        ('b.pcap', left_out, [('skipped', left_out)]),
        ('c', 'as a whole', [('error', 'it is neither pcap nor pcapng')])])
    told = [(case.findtext('system-out') or '').splitlines()[:2] for case in suite.iter('testcase')]
    tools.want('what is told', [text for text in told if text], [
        [in_part, 'client: 344 bytes are missing from the recording after the first 344, before '
         f'frame 5; {9 * CALL - 344} bytes of torn records are left out']])
    tools.want('JSON', [[row[key] for key in ('state', 'connection', 'tcp_stream', 'position',
                                              'reason', 'frames', 'missing')]
                        for row in rows_of(tools, 'x.json')], [
        ['ok', 1, 0, None, None, [], 0],
        ['refused', 2, 1, 'server record 2 byte 0', 'NoCall',
         [{'number': 13, 'time': 1_000_012_000}], 0],
        ['in part', 1, 0, None, None, [], 344], ['left out', None, None, None, None, [], 0],
        ['error', None, None, None, None, [], 0]])
    tools.want('a file that cannot be written',
               tools.tool('verdicts', '--junit', 'absent/x', 'b.pcap')[0], 3)


def interrupted(tools: Tools) -> None:
    """An interrupt ends it without a traceback, and nothing is left behind."""
    os.mkfifo(tools.path('fifo'))
    process = begin([VERDICTS, '--program', tools.program, 'fifo'], tools.folder,
                    prepare=take_interrupts)
    with open(tools.path('fifo'), 'wb') as fifo:
        fifo.write(pcap(whole()))
        fifo.flush()
        time.sleep(0.3)
        process.send_signal(signal.SIGINT)
        out, error = process.communicate(timeout=20)
    tools.want('interrupted', (process.returncode, out, error), (130, b'', b''))
    listed = begin([VERDICTS, '--program', tools.program, FIRST], tools.folder)
    pipe_of(listed.stdout).close()
    tools.want('a reader that is gone', (pipe_of(listed.stderr).read(), listed.wait()), (b'', 3))


def take_interrupts() -> None:
    """What runs behind a shell may have them ignored."""
    signal.signal(signal.SIGINT, signal.SIG_DFL)


def parts_without_quotes(tools: Tools) -> None:
    """Parts that are named one by one are reported as parts."""
    frames = talk_in_turns(Talk())
    tools.write('run1.pcap', pcap(frames[:13]))
    tools.write('run2.pcap', pcap(frames[13:]))
    tools.write('other.pcap', pcap(talk_in_turns(Talk(701))[13:]))
    line = ('run1.pcap and run2.pcap: these look like parts of one recording; put the pattern in '
            'quotes')
    for tool in ('verdicts', 'procedures', 'calls'):
        for names, is_told in (('run1.pcap run2.pcap', True), ('run2.pcap run1.pcap', True),
                               ('run?.pcap', False), ('run1.pcap other.pcap', False),
                               ('run1.pcap run1.pcap', False), ('run2.pcap', False)):
            _, _, error = tools.tool(tool, *names.split())
            tools.want(f'{tool} {names}', [one for one in error.splitlines() if 'look like' in one],
                       [line] * is_told)


def talk_in_turns(talk: Talk) -> list[bytes]:
    """The frames of a connection, three calls and then their replies."""
    frames = talk.opened()
    for at in range(0, len(CALLS), 3):
        frames += [talk.sent(0, stream(CALLS[at:at + 3])), talk.sent(1, stream(REPLIES[at:at + 3]))]
    return [*frames, *talk.closed()]


# --- Known findings ---

def findings_that_are_known(tools: Tools) -> None:
    """They change no status, and each form counts them. What is no longer found is printed."""
    bad, good = str(TOP / 'examples/bad_bool.pcap'), str(TOP / 'examples/ganesha_a.pcap')
    line = '192.0.2.7 to 192.0.2.1:2049: server record 1 byte 28: BadBool'
    tools.want('written', (tools.tool('verdicts', '--known-new', 'new', bad, good)[0],
                           tools.read('new')), (1, f'{line}\n'.encode()))
    for text, status, known, gone in (
            (line, 0, 1, []), ('* server record * byte 28: BadBool', 0, 1, []),
            (line.replace('28', '24'), 1, 0, [line.replace('28', '24')])):
        tools.write('known', text.encode())
        found, out, _ = tools.tool('verdicts', '--known', 'known', '--json', 'x.json', '--junit',
                                   'x.xml', '--html', 'x.html', bad, good)
        properties = {one.get('name'): one.get('value') for one in tools.xml('x.xml')[0].iter(
            'property')}
        tools.want(text, (found, [row for row in out.splitlines() if 'no longer' in row], out[-8:],
                          tools.json('x.json')['counts']['known'], properties['known'],
                          tools.xml('x.xml')[0].get('failures')),
                   (status, [f'no longer found: {row}' for row in gone], f'{known} known\n',
                    known, str(known), str(status)))
        page = (tools.read('x.html') or b'').decode()
        tools.want(f'page of {text}', (f'The status is <b>{status}</b>' in page,
                                       '<h1 class=same>' in page,
                                       f'<b>{known}</b> known' in page), (True, False, True))

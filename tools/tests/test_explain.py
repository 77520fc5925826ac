"""Tests of `tools/explain`: fields, recordings, bytes of a file, reasons, and what it costs."""
import gzip
import itertools
import random
import re
import struct
import sys
from collections.abc import Iterator

from examples import messages
from examples.messages import (
    NFS, call, chunk, entries, entry, fattr, fh, fragment, hyper, ok, opaque, post_op_attr, success,
    word)
from examples.packets import ACK, Talk, ethernet, pcap
from tests.shared.rows import SMALL, capture_in, rows_of
from tests.shared.running import ended

from .recordings import NANOSECONDS, pcapng
from .scripts import (
    ALL, CALLS, FAULTS, REPLIES, TOP, WITH_TOOLS, Tools, measured, packed, stream, whole)

AID = 'A reader\'s aid, and no part of what is proved.'
# The name of an item comes after whose it is.
ITEM = re.compile(r'byte (\d+): (?:[\w -]+\.)?(\w+)( \((?:its length|residual bytes)\))? = '
                  r'(\'.*\'|b[\'"].*[\'"](?:\.\.)?|\S+)(?: \((.*)\))?')
MOST_MEMORY = 56 << 20  # bytes
MOST_OF_A_RECORDING = 60 << 20  # bytes, of one with many frames
STRINGS = ('name', 'path', 'machinename', 'dirpath', 'hostname', 'directory')


def explained(tools: Tools, name: str, place: str, *options: str) -> list[str]:
    """The lines of a run that succeeds, but for the last one."""
    status, out, error = tools.tool('explain', *options, name, place)
    lines = out.splitlines()
    tools.want(place, (status, lines[-1:], error), (0, [AID], ''))
    return lines[:-1]


def fields_of_a_reply(tools: Tools) -> None:
    """The places of RFC 5531, section 9, and of RFC 1813, section 3.3.1 (fattr3). Bits of the type
    in a mode, and a second in nanoseconds, are said to be odd."""
    plain = fattr(2, 12, size=34, mode=0o1755, nlink=3, uid=7, gid=8)
    attributes = plain[:60] + word(9) + word(10**9) + plain[68:]
    tools.write('a', messages.capture((
        [call(5, NFS, 3, 1, fh(b'abc')), call(6, NFS, 3, 1, fh(b'abc'))],
        [success(5, ok(attributes)), success(6, ok(fattr(1, 12, mode=0o100644)))])))
    values = [int.from_bytes(attributes[at:at + 4], 'big') for at in range(0, 84, 4)]
    tools.want('lines', explained(tools, 'a', 'connection 1 server record 1'), [
        'connection 1 server record 1: reply NFSPROC3_GETATTR of program 100003, version 3, '
        'procedure 1', 'xid 5, a body of 112 bytes, to call record 1', 'byte 0: xid = 5',
        'byte 4: mtype = 1 (REPLY)', 'byte 8: reply_stat = 0 (MSG_ACCEPTED)',
        'byte 12: verf_flavor = 0 (AUTH_NONE)', 'byte 16: verf_body (its length) = 0',
        'byte 20: accept_stat = 0 (SUCCESS)', 'byte 24: status = 0 (NFS3_OK)',
        'byte 28: obj.type = 2 (NF3DIR)', 'byte 32: obj.mode = 1005 (1755)',
        'byte 36: obj.nlink = 3', 'byte 40: obj.uid = 7', 'byte 44: obj.gid = 8',
        'byte 48: obj.size = 34', f'byte 56: obj.used = {values[7] << 32 | values[8]}',
        f'byte 64: obj.rdev1 = {values[9]}', f'byte 68: obj.rdev2 = {values[10]}',
        f'byte 72: obj.fsid = {values[11] << 32 | values[12]}', 'byte 80: obj.fileid = 12',
        'byte 88: obj.atime_sec = 9', 'byte 92: obj.atime_nsec = 1000000000 (a second or more)',
        *(f'byte {at}: obj.{name} = {values[(at - 28) // 4]}' for at, name in (
            (96, 'mtime_sec'), (100, 'mtime_nsec'), (104, 'ctime_sec'), (108, 'ctime_nsec')))])
    tools.want('bits of the type', 'byte 32: obj.mode = 33188 (100644: has bits of the type)'
               in explained(tools, 'a', 'connection 1 server record 2'), True)


def fields_of_each_message(tools: Tools) -> None:
    """Those that `show` lists, one after the other up to the end of the body."""
    example = str(TOP / 'examples/every_procedure.nfs3cap')
    listing = tools.run('show', example)[1].splitlines()
    tools.want('messages', len(listing), 120)
    for line in listing:
        lines = explained(tools, example, line)
        items = [ITEM.fullmatch(text) for text in lines[2:]]
        tools.want('items of ' + line[:60], None in items, False)
        found = [(item[2], shown(item[4])) for item in items if item and not item[3]]
        wanted = [(name, value) for name, value in re.findall(r' (\w+)=("[^"]*"|\w*)', line)
                  if value not in ('', '""')]
        tools.want(line[:60], found,
                   [(name, value.strip('"') if len(value) <= 200 else value[:200] + '..')
                    for name, value in wanted])
        tools.want('places of ' + line[:60],
                   are_in_a_row([item for item in items if item], lines[1]), True)


def shown(value: str) -> str:
    return re.sub(r'^b(["\'])(.*)\1$', r'\2', value)


def are_in_a_row(items: list[re.Match[str]], second: str) -> bool:
    """Whether items follow one another up to the end of the body."""
    size = int(re.findall(r'a body of (\d+) bytes', second)[0])
    begins = [int(item[1]) for item in items] + [size]
    for item, begin, end in zip(items, begins, begins[1:]):
        digits = shown(item[4]).removesuffix('..')
        if item[2] in STRINGS or len(digits) >= 200:
            continue
        if end - begin not in (4, 8, len(digits) // 2):
            return False
    return begins == sorted(set(begins))


def messages_at_fault(tools: Tools) -> None:
    """The fields up to the first that is at fault, and how many bytes are left."""
    calls = [call(1, NFS, 3, 0, bytes(12)), call(2, NFS, 3, 1, word(65) + bytes(68)),
             call(3, NFS, 3, 1, word(8) + bytes(3))]
    tools.write('a', messages.capture((calls, [success(1), success(9, b'tail')])))
    for place, wanted in (('client record 1',
                           ['byte 40: 12 bytes more, which are not taken apart']),
                          ('client record 2',
                           ['byte 40: fh (its length) = 65', 'allowed: at most 64',
                            'byte 44: 68 bytes more, which are not taken apart']),
                          ('client record 3', ['byte 44: fh = 000000', 'allowed: any bytes']),
                          ('server record 2',
                           ['byte 4: mtype = 1 (REPLY)',
                            'byte 8: 20 bytes more, which are not taken apart'])):
        tools.want(place, explained(tools, 'a', 'connection 1 ' + place)[-len(wanted):], wanted)
    tools.want('no call', explained(tools, 'a', 'connection 1 server record 2')[0],
               'connection 1 server record 2: reply of a procedure that is not known')


def long_values(tools: Tools) -> None:
    """A long value is cut, and the bytes around a place are those of the byte."""
    data = bytes(range(256)) * 40
    tools.write('a', messages.capture(([call(1, NFS, 3, 6, fh(b'a') + hyper(0) + word(10_240))],
                                       [success(1, ok(post_op_attr(), word(10_240), word(1),
                                                      opaque(data)))])))
    lines = explained(tools, 'a', 'connection 1 server record 1')
    tools.want('data', lines[-1], f'byte 44: data = {data[:100].hex()}..')
    lines = explained(tools, 'a', 'connection 1 server record 1 byte 5000')
    tools.want('item', lines[2][:24], 'byte 5000: data = 000102')
    dumped = {int(line.split()[0]): bytes.fromhex(line[9:73].replace('[', ' ').replace(']', ' '))
              for line in lines[4:]}
    body = success(1, ok(post_op_attr(), word(10_240), word(1), opaque(data)))
    tools.want('bytes', all(body[at:at + 16] == piece for at, piece in dumped.items()), True)
    tools.want('around', min(dumped) < 4_992 - 64 and max(dumped) > 4_992 + 64 and 4_992 in dumped,
               True)


# What is said of the items at fault in the examples.
ITEMS = {'bad_client_record': 'mtype = 2', 'bad_status': 'status = 3', 'bad_bool': 'dir.attr = 2',
         'bad_length': 'fh (its length) = 65'}


def faults_of_recordings(tools: Tools) -> None:
    """The frame, and what is wrong in it, of the recordings in examples/."""
    for name, item in ITEMS.items():
        place, frame = FAULTS[name]
        lines = explained(tools, str(TOP / f'examples/{name}.pcap'), place)
        tools.want(name + ', its frame', lines[2], f'frame.number == {frame}')
        tools.want(name + ', its item', lines[5], f'byte {place.split()[6].rstrip(":")}: {item}')
        capture = explained(tools, str(TOP / f'examples/{name}.nfs3cap'), place)
        tools.want(name + ', as of its capture', lines[3:], capture)


def recordings_of_all_kinds(tools: Tools) -> None:
    """Each kind of input has the frames of `where` and the words of a capture."""
    frames, place = [*whole(), *whole(port=701)], 'connection 2 server record 39 byte 8'
    tools.write('capture', packed(ALL, ALL))
    tools.write('a.pcap', pcap(frames, magic=NANOSECONDS))
    tools.write('b.pcapng', pcapng(frames))
    tools.write('c.gz', gzip.compress(pcap(frames)))
    tools.write('part0', pcap(frames[:9]))
    tools.write('part1', pcap(frames[9:]))
    wanted = explained(tools, 'capture', place)
    for name in ('a.pcap', 'b.pcapng', 'c.gz', 'part?'):
        lines = explained(tools, name, place)
        told = [line.split(',')[0] for line in lines if line.startswith('frame ')]
        tools.want(name, (told, lines[-len(wanted):]), (['frame 28'], wanted))
    for name in ('a.pcap', 'c.gz', 'capture'):
        plain = tools.tool('explain', name, place)
        tools.want('standard input',
                   tools.tool('explain', '-', place, stdin=tools.read(name)), plain)
        piped = ended(['bash', '-c', f'exec "$@" <(cat {name}) "{place}"', 'bash',
                       str(TOP / 'tools/explain')], tools.folder).text()
        tools.want('a pipe', piped, plain)
    tools.want('no place', tools.tool('explain', '-', stdin=pcap(frames)),
               (2, '', 'explain: POSITION has to be an argument if FILE is standard input\n'))


def records_of_recordings(tools: Tools) -> None:
    """Records have the numbers that `tools/from_pcap` gives them."""
    frames, size, piece, talk = whole(), len(stream(CALLS[:1])), -(-len(ALL[0]) // 5), Talk()
    cut = [*talk.opened(), talk.sent(0, ALL[0][:piece]), *talk.closed()]
    first = 2 * piece // size + 1  # the first whole call behind the second piece, which is missing
    tools.write('a.pcap', pcap(frames[:4]))
    tools.want('a record that the recorder cut',
               tools.tool('explain', 'a.pcap', 'connection 1 client record 8')[0], 1)
    for recording, line in ((frames[:4] + frames[5:], f'byte 0: xid = {first + 1}'),
                            (cut, 'byte 0: xid = 8')):  # (its sender cut it)
        tools.write('a.pcap', pcap(recording))
        lines = explained(tools, 'a.pcap', 'connection 1 client record 8')
        tools.want(line, line in lines, True)


def what_is_in_no_record(tools: Tools) -> None:
    """A byte of the container, and a file that is neither, get a line."""
    tools.write('none', b'no recording')
    tools.want('neither', tools.tool('explain', 'none', 'connection 1 client record 1'),
               (2, '', 'explain: it is neither pcap nor pcapng\n'))
    tools.write('cut', packed(ALL)[:40])
    tools.want('connections that are not whole',
               explained(tools, 'cut', 'connection 1 client record 1')[2], 'byte 0: xid = 1')
    tools.want('a byte of the container', tools.tool('explain', 'cut', 'file 40: CaptureCut'), (
        2, '', 'explain: file 40 is no byte of a record: CaptureCut: the file ends before it is '
        'complete; docs/FORMATS.md has the layout of captures\n'))


# Explains a place for each line of standard input, and prints the status, and whether the place's
# reason is told.
EACH = """import contextlib, io, sys
from nfs3tools.commands.explain import main
for line in sys.stdin:
    name, _, place = line.strip().partition(' ')
    with contextlib.redirect_stdout(io.StringIO()) as printed:
        status = main([name, place])
    print(status, '\\n' + place.split()[-1] + ': ' in printed.getvalue())
"""


def faults_of_damaged_captures(tools: Tools) -> None:
    """Each place at which `check` refuses a damaged capture is explained."""
    chance, lines = random.Random(11), list[str]()
    bases = [(TOP / f'examples/{name}.nfs3cap').read_bytes()
             for name in ('every_procedure', 'interleaved', 'auth_sys', 'two_connections')]
    for number in range(150):
        content = bytearray(chance.choice(bases))
        for _ in range(chance.randrange(1, 4)):
            content[chance.randrange(len(content))] = chance.choice(
                (0, 1, 2, 255, chance.randrange(256)))
        tools.write(str(number), content[:chance.randrange(len(content))] if chance.random() < 0.3
                    else content)
        status, _, line = tools.run('check', str(number))
        lines += [f'{number} {line}'] if status == 2 and not line.startswith('file ') else []
    command = [sys.executable, '-c', EACH]
    status, out, error = ended(command, tools.folder, stdin=''.join(lines).encode(),
                               env=WITH_TOOLS).text()
    tools.want('all', (status, len(out.splitlines()), error), (0, len(lines), ''))
    for line, answer in zip(lines, out.splitlines()):
        tools.want(line, answer, '0 True')


def in_memory(tools: Tools, name: str, place: str, *told: str, most: int = MOST_MEMORY) -> None:
    """A run prints these lines, and takes at most this many bytes of memory."""
    status, lines, _, memory = measured(tools, 'explain', name, place)
    tools.want(f'{name} {place}', (status, [line for line in told if line not in lines]), (0, []))
    tools.want(f'memory of {name} {place}', memory <= most or memory, True)


def written(tools: Tools, name: str, pieces: Iterator[bytes]) -> None:
    with open(tools.path(name), 'wb') as file:
        file.writelines(pieces)


def memory_of_large_captures(tools: Tools) -> None:
    """12 replies of 16 MB each, in one connection of either version."""
    read = fh(b'a') + hyper(0) + word(1 << 24)
    data = ok(post_op_attr(), word(1), word(1), opaque(bytes((1 << 24) - 100)))
    calls = chunk(stream(call(number, NFS, 3, 6, read) for number in range(1, 13)))
    for name, head, side in (('one', messages.MAGIC + word(1) + calls + word(0), b''),
                             ('two', messages.MAGIC_2 + word(1) + word(1) + calls, word(2))):
        replies = (side + chunk(fragment(success(number, data))) for number in range(1, 13))
        written(tools, name, itertools.chain([head], replies, [word(0), word(0)]))
        heading = ('connection 1 server record 12: reply NFSPROC3_READ of program 100003, version '
                   '3, procedure 6')
        for place, at in (('', 44), (' byte 16000000', 16_000_000)):
            in_memory(tools, name, 'connection 1 server record 12' + place, heading,
                      f'byte {at}: data = {"00" * 100}..')


def memory_of_many_parts(tools: Tools) -> None:
    """Connections, calls, fields and fragments by the thousand."""
    one = word(1) + chunk(stream(CALLS[:1])) + word(0) + chunk(stream(REPLIES[:1])) + word(0)
    written(tools, 'connections', iter([messages.MAGIC, one * 65_535, word(0)]))
    in_memory(tools, 'connections', 'connection 65535 server record 1',
              'xid 1, a body of 24 bytes, to call record 1')
    calls, replies = ([make(number) for number in range(200_000)]
                      for make in (lambda number: call(number, NFS, 3, 0), success))
    tools.write('calls', packed((stream(calls), stream(replies))))
    in_memory(tools, 'calls', 'connection 1 server record 60000',
              'xid 59999, a body of 24 bytes, to call record 60000')
    names = entries(None, bytes(8), (entry(number, b'name', number) for number in range(30_000)),
                    True)
    listed = [call(7, NFS, 3, 16, fh(b'a') + bytes(16) + word(1 << 22))], [success(7, ok(names))]
    tools.write('fields', messages.capture(listed))
    size = len(listed[1][0])
    for place in ('', f' byte {size - 4}'):
        in_memory(tools, 'fields', 'connection 1 server record 1' + place,
                  f'byte {size - 4}: eof = 1 (TRUE)')
    body = call(7, NFS, 3, 7, fh(b'a') + hyper(0) + word(60_000) + word(0) + opaque(bytes(60_000)))
    pieces = b''.join(fragment(body[at:at + 1], is_last=at == len(body) - 1)
                      for at in range(len(body)))
    tools.write('fragments', packed((pieces, b'')))
    in_memory(tools, 'fragments', f'connection 1 client record 1 byte {len(body) - 1}',
              f'byte {len(body) - 1}: data = {"00" * 100}..')


def memory_of_large_recordings(tools: Tools) -> None:
    """Memory follows the frames of a recording by its index alone, with 56 bytes each."""
    talk, size, count = Talk(), 16, 300_000
    frame = ethernet(talk.datagram(0, ACK, bytes(size)))
    opened = pcap(talk.opened())
    head, rest = frame[:38], frame[42:-size]
    content = stream([call(number, NFS, 3, 0) for number in range(count * size // 44 + 1)])
    record = struct.pack('<4I', 1, 0, len(frame), len(frame)) + head
    sequences = range(talk.next[0], talk.next[0] + count * size, size)
    frames = (record + sequence.to_bytes(4, 'big') + rest + content[at:at + size]
              for at, sequence in zip(range(0, count * size, size), sequences))
    written(tools, 'frames', itertools.chain([opened], frames))
    last = count * size // 44
    in_memory(tools, 'frames', f'connection 1 client record {last} byte 0',
              f'byte 0: xid = {last - 1}',
              f'frame.number == {4 + ((last - 1) * 44 + 4) // size}', most=MOST_OF_A_RECORDING)


# Words that tell what is said of each reason from what is said of any other.
WORDS_OF_REASONS = {
    'BadMagic': 'begins with NFS3CAP1', 'CaptureCut': 'the file ends before',
    'BadMark': 'a connection word is 0 or 1', 'AfterEnd': 'nothing follows',
    'TooManyConnections': '65,535', 'TooManyBytes': '1,073,741,824',
    'RecordCut': 'stream ends in this', 'RecordTooLong': '16,777,216', 'Short': 'body ends before',
    'Trailing': 'message ends before', 'BadBool': 'a bool is', 'BadEnum': 'is not listed',
    'TooLong': 'over its maximum', 'RpcVersion': 'RPC version is 2', 'Flavor': 'RPCSEC_GSS',
    'AuthLength': 'of the parameters', 'WrongSide': 'replies the server',
    'NoCall': 'no call of the connection has', 'XidConflict': 'another procedure'}


def each_reason(tools: Tools) -> None:
    """For each reason the first row of captures.rows in each version, by the line of `check`."""
    lines = dict[str, tuple[str, str]]()
    for _, row in rows_of('captures.rows'):
        reason, capture = row['line'].rpartition(' ')[2], capture_in(row)
        name = reason + capture[7:8].decode()
        if not row['line'].startswith('ok ') and len(capture) < SMALL and name not in lines:
            lines[name] = reason, row['line']
            tools.write(name, capture)
    tools.want('reasons', len(lines), 32)
    for name, (reason, line) in lines.items():
        status, out, error = tools.tool('explain', name, stdin=('first: %s\n' % line).encode())
        said = re.search('(?:^|: )%s: (.*)$' % reason, out or error, re.M)
        told = [name for name, words in WORDS_OF_REASONS.items() if said and words in said[1]]
        wanted = 2 if line.startswith('file ') else 0
        tools.want('explain ' + line, (status, told), (wanted, [reason]))
        if ' byte ' in line and reason not in ('Trailing', 'AuthLength', 'RecordCut',
                                               'RecordTooLong'):
            tools.want('the item of ' + line,
                       'after the last item' in out or 'allowed: ' not in out, False)

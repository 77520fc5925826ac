"""Tests of frames as positions, and of the recordings and captures that `tools/cut` writes."""
import itertools
import json
import os
import re
import shutil
import struct
import unittest
from collections.abc import Sequence
from typing import Any

from examples.messages import (
    MOUNT, NFS, array, call, capture, dirop, fattr, fh, fragment, in_turn, interleaved, ok, opaque,
    post_op_attr, success, word)
from examples.packets import ACK, Talk, ethernet, pcap, recording
from tests.shared.running import ended

from .comparisons import conversation_of
from .recordings import cooked, enhanced, fragments, interface, part_of, section
from .scripts import (
    ALL, CALLS, FAULTS, FIRST, REPLIES, TOP, Tools, in_fragments, packed, stream, sums, whole)

EXAMPLE = "(as in '7:3182', 'frame 12' or '7 server 19 byte 24')"
# In `whole` the calls are in the frames 4 to 8, each with a fifth of the bytes: 344 of records of
# 44. The replies are in the frames 9 to 13: 219 bytes of records of 28. So frame 5 has the end of
# record 8, the records 9 to 15, and the beginning of record 16.
OF_FRAME_5 = range(8, 17)


def tool(tools: Tools, name: str, *words: str) -> tuple[int, list[str], str]:
    """The status of a run, its lines, and what is on standard error."""
    program = ['--program', tools.program] if name == 'cut' else []
    status, out, error = tools.tool(name, *program, *words)
    return status, out.splitlines(), error


def cut_out(tools: Tools, *words: str) -> tuple[int, list[str], str]:
    return tool(tools, 'cut', *words)


def extract(frames: Sequence[bytes], numbers: Sequence[int], link: int = 1,
            unit: int = 1_000) -> bytes:
    """A recording of some frames of those that `pcap` writes, numbered from 1."""
    header = struct.pack('<IHHiIII', 0xa1b2c3d4 if unit == 1_000 else 0xa1b23c4d, 2, 4, 0, 0,
                         1 << 18, link)
    return header + b''.join(struct.pack('<IIII', 1, number - 1, len(frames[number - 1]),
                                         len(frames[number - 1])) + frames[number - 1]
                             for number in numbers)


# --- As positions ---

def records_of_a_frame(tools: Tools) -> None:
    """All records of which a frame brought bytes, in order, each with all its frames."""
    tools.write('a.pcap', pcap([*whole(port=699), *whole()]))
    places = [f'connection 1 client record {record}' for record in OF_FRAME_5]
    status, lines, error = tool(tools, 'where', 'a.pcap', 'frame 5')
    tools.want('where', (status, [line.partition(': ')[0] for line in lines
                                  if not line.startswith('frame ')], error), (0, [
        one for both in zip(places, ['frame.number in {4..5}', *['frame.number == 5'] * 7,
                                     'frame.number in {5..6}']) for one in both], ''))
    status, lines, error = tool(tools, 'explain', 'a.pcap', 'frame 5')
    tools.want('explain',
               (status, [line.partition(': call')[0] for line in lines if ': call' in line],
                error), (0, places, ''))
    # The last fifth of the replies begins at byte 876, in record 32.
    lines = tool(tools, 'where', 'a.pcap', 'frame 28')[1]
    tools.want('of the second',
               [line.partition(': ')[0] for line in lines if line.startswith('connection')],
               [f'connection 2 server record {record}' for record in range(32, 40)])
    status, lines, error = cut_out(tools, 'a.pcap', 'frame 5', 'out')
    tools.want('cut', (status, lines[-1], error, tools.read('out')),
               (0, 'ok connections=1 calls=9 replies=9 handles=0', '',
                packed((stream(CALLS[7:16]), stream(REPLIES[7:16])))))
    tools.want('standard input', tools.tool('where', 'a.pcap', stdin=b'frame 5\n')[0], 0)


def frames_without_a_record(tools: Tools) -> None:
    """A frame of the handshake, a retransmission, one that is not there, and those of a capture."""
    talk = Talk()
    frames = [*talk.opened(), talk.sent(0, ALL[0]),
              talk.frame(0, ACK, ALL[0], ahead=-len(ALL[0])), talk.sent(1, ALL[1])]
    tools.write('a.pcap', pcap(frames))
    shutil.copy(TOP / 'examples/null.nfs3cap', tools.path('b'))
    none = 'carries no bytes of a record, or only bytes that another frame had brought before'
    after = 'is after all frames with bytes of a record; the last of them is frame 6'
    for name, *out in (('where',), ('explain',), ('cut', 'out'), ('cut', 'out.pcap')):
        for number in (0, 1, 5, 7, 10 ** 17):
            tools.want(f'{name} frame {number}',
                       tool(tools, name, 'a.pcap', f'frame {number}', *out),
                       (1, [], f'{name}: frame {number} {none if number < 7 else after}\n'))
        if out != ['out.pcap']:
            tools.want(name + ' of a capture', tool(tools, name, 'b', 'frame 1', *out),
                       (2, [], f'{name}: b is a capture, which has no frames\n'))
    tools.want('OUT', (tools.exists('out'), tools.exists('out.pcap')), (False, False))


def words_of_a_position(tools: Tools) -> None:
    """An unfinished or a superfluous word is refused, and an example is given."""
    tools.write('a.pcap', pcap(whole()))
    for text in ('connection 1 client record 2', ' 1 client 2 ', '1:2', '1:2 frame 4',
                 '1:2 byte 3', '1 client 2 byte 3',
                 '1 client 2 xid=2 NFSPROC3_NULL mtype=0',
                 'connection 1 client record 2 byte 3: BadEnum',
                 'first: connection 1 client record 2', 'frame 5',
                 'second: connection 1 client record 2: Short',
                 'differ at connection 1 client record 2',
                 'nfs3canon: a word before\nconnection 1 client record 2: Short\n'):
        for name, *out in (('where',), ('explain',), ('cut', f'out{len(tools.names())}')):
            tools.want(f'{name} {text!r}', tool(tools, name, 'a.pcap', text, *out)[0], 0)
    for text in ('1 client 2 byte', '1 client', '1:', '1:2 byte',
                 'connection 1 client record 2 byte', 'connection 1 client record',
                 '1 client 2: x y', 'connection 1 client record 2 byte 3 4',
                 'x connection 1 client record 2', 'third: connection 1 client record 2',
                 'frame', 'frame 5 6', 'frame five', 'file', 'file 12 13',
                 'connection 1 client record 2 BadEnum',
                 'connection 1 client record 2: BadEnum, frame 5', '', '5'):
        told = {'': f'give a position {EXAMPLE}', '5': "no position: 5 (is 'frame 5' meant?)"}
        for name, *out in (('where',), ('explain',), ('cut', 'out')):
            tools.want(repr(text), tool(tools, name, 'a.pcap', text, *out), (
                2, [], f'{name}: {told.get(text, f"no position: {text} {EXAMPLE}")}\n'))


def places_that_are_not_there(tools: Tools) -> None:
    """Each tool says which place is not there, of a recording and of a capture."""
    tools.write('a.pcap', pcap(whole()))
    tools.write('a', packed(ALL))
    for place, told in (('connection 1 client record 40', ''), ('connection 1 client record 0', ''),
                        ('connection 2 client record 1 byte 0', 'connection 2'),
                        ('connection 0 client record 1', 'connection 0')):
        for name, *words in (('where', 'a.pcap', place), ('explain', 'a.pcap', place),
                             ('explain', 'a', place), ('cut', 'a.pcap', place, 'out')):
            tools.want(f'{name} {words}', tool(tools, name, *words),
                       (1, [], f'{name}: there is no {told or place}\n'))
    place = 'connection 1 client record 1 byte 41'
    none = 'of the capture is not of a stream, so no frame carries it'
    for name, place, told in (
            *((name, place, f'there is no {place}: the body is shorter')
              for name in ('where', 'explain')),
            *(('where', f'file {byte}', f'byte {byte} {none}') for byte in (8, 15, 999_999))):
        tools.want(f'{name} {place}', tool(tools, name, 'a.pcap', place),
                   (1, [], f'{name}: {told}\n'))


# --- As a recording ---

def parts_of(frames: Sequence[bytes], parts: dict[int, tuple[int, ...]]) -> list[bytes]:
    """The frames of a recording, of which some have a part of their payload alone, and those of SYN
    are as many bytes further."""
    return [part_of(frame, *parts[number]) if number in parts else frame
            for number, frame in enumerate(frames, 1)]


def frames_of_the_records(tools: Tools) -> None:
    """The frames of SYN, and those of the exchange without other records."""
    frames = [*whole(port=699), *whole()]
    # The second connection begins in frame 16. Record 9 of its calls is in frame 20, and record 9
    # of its replies in frame 25. They begin 8 and 5 bytes after their frames. The replies
    # acknowledge all 1,716 bytes of the calls, of which 1,320 come later. SYN is right before.
    parts = parts_of(frames, {20: (8, 52), 25: (5, 33), 16: (352, 352), 17: (224, 224, 352)})
    for unit, order in itertools.product((1_000, 1), '<>'):
        tools.write('a.pcap', pcap(frames, magic=0xa1b2c3d4 if unit == 1_000 else 0xa1b23c4d,
                                   order=order))
        name = f'{unit}{order}.pcap'
        tools.want('lines', cut_out(tools, 'a.pcap', 'connection 2 client record 9', name), (0, [
            '1:1 was 2:9 (frame 20)', '1 server 1 was 2 server 9 (frame 25)',
            'connection 1: ok in part: 1 call, 1,320 bytes missing', sums(in_part=1)], ''))
        tools.want('OUT', tools.read(name) == extract(parts, [16, 17, 20, 25], unit=unit), True)
    # (the records 8 to 16, from byte 308 to 704 of the calls, and from 196 to 448 of the replies)
    parts = parts_of(frames, {19: (308, 344), 21: (0, 16), 24: (196, 219), 26: (0, 10),
                              16: (308, 308), 17: (196, 196, 308)})
    tools.want('standard input', (
        tools.tool('cut', '-', 'frame 20', 'out.pcap', stdin=pcap(frames))[0],
        tools.read('out.pcap') == extract(parts, [16, 17, 19, 20, 21, 24, 25, 26])), (0, True))
    one = Talk()
    short = [*one.opened(), one.sent(0, fragment(CALLS[0])), one.sent(1, fragment(REPLIES[0]))]
    tools.write('b.pcap', pcap(short))
    tools.want('all that is there', cut_out(tools, 'b.pcap', 'frame 5', 'b2.pcap'),
               (0, ['1:1 was 1:1 (frame 4)', '1 server 1 was 1 server 1 (frame 5)',
                    'connection 1: ok', sums(1)], ''))


def parts_and_pcapng(tools: Tools) -> None:
    """Frames are numbered through all parts; pcapng has units of its own."""
    frames, place = whole(), 'connection 1 client record 20'
    tools.write('run.pcap0', pcap(frames[:6]))
    tools.write('run.pcap1', pcap(frames)[:24] + pcap(frames)[len(pcap(frames[:6])):])
    tools.write('a.pcapng', section() + interface(unit=9) + b''.join(
        enhanced(frame, 10 ** 9 + number) for number, frame in enumerate(frames)))
    # Record 20 begins at byte 836 of the calls and 532 of the replies: the third frame of each
    # side, 6 and 11.
    parts = parts_of(frames, {6: (148, 192), 11: (94, 122), 1: (836, 836), 2: (532, 532, 836)})
    for name, unit in (('run.pcap*', 1_000), ('a.pcapng', 1)):
        tools.want(name, (cut_out(tools, name, place, f'out{unit}.pcap')[0], tools.read(
            f'out{unit}.pcap')), (0, extract(parts, [1, 2, 6, 11], unit=unit)))
    second = Talk(701)
    others = [frame[14:] for frame in (*second.opened(), second.sent(0, fragment(CALLS[0])),
                                       second.sent(1, fragment(REPLIES[0])))]
    blocks = [*map(enhanced, frames), *(enhanced(cooked(frame), index=1) for frame in others[::2]),
              *(enhanced(ethernet(frame)) for frame in others[1::2])]
    tools.write('b.pcapng', section() + interface() + interface(113) + b''.join(blocks))
    tools.want('two link types', (
        cut_out(tools, 'b.pcapng', 'connection 2 client record 1', 'b.pcap'),
        tools.exists('b.pcap')), ((
            2, [], 'cut: the frames have the link types 1, 113, and a pcap has one\n'), False))
    tools.want('one of them',
               cut_out(tools, 'b.pcapng', 'connection 1 client record 1', 'b.pcap')[0], 0)


def exchanges_in_the_extract(tools: Tools) -> None:
    """`calls` says the same of OUT as of the recording, and it is judged."""
    for name in ('ganesha_a', 'concurrent_a'):
        recording = str(TOP / f'examples/{name}.pcap')
        known = listed(tools, recording)
        for one in known[::len(known) // 8]:
            place = f'{one["connection"]}:{one["record"]}'
            status, lines, error = cut_out(tools, recording, place, 'out.pcap')
            tools.want(place, (status, lines[0].endswith(f' was {place} (frame {one["frame"]})'),
                               error), (0, True, ''))
            found = [other for other in listed(tools, 'out.pcap')
                     if comparable(other) == comparable(one)]
            tools.want('calls of ' + place, len(found), 1)
            judged = tools.tool('verdicts', 'out.pcap')[1].splitlines()[-1]
            tools.want('verdicts of ' + place, (judged, judged.endswith(', 0 errors')),
                       (lines[-1], True))
            os.remove(tools.path('out.pcap'))


def listed(tools: Tools, name: str) -> list[dict[str, Any]]:
    out = tools.tool('calls', '--json', name)[1]
    found: list[dict[str, Any]] = json.loads(out)['calls']
    return found


def comparable(one: dict[str, Any]) -> list[object]:
    return [one[key] for key in ('client', 'server', 'procedure', 'time_ns', 'latency_ns',
                                 'user', 'arguments', 'answer')]


@unittest.skipUnless(shutil.which('tshark'), 'tshark is not there')
def cuts_as_tshark_reads_them(tools: Tools) -> None:
    """tshark finds the exchange alone in OUT, with right checksums, in order or not."""
    v6 = '2001:db8::7', '2001:db8::1'
    several = {
        'Ethernet': pcap(whole()), 'IPv6': pcap(whole(hosts=v6)),
        'a VLAN': pcap(whole(vlan=7)),
        'cooked': pcap([cooked(frame[14:]) for frame in whole()], link=113),
        'a large message': pcap(large_messages()), 'IPv6, large': pcap(large_messages(hosts=v6))}
    fields = [word for field in ('rpc.msgtyp', 'rpc.xid', 'tcp.checksum.status',
                                 'ip.checksum.status')
              for word in ('-e', field)]
    checked = ['-o', 'tcp.check_checksum:TRUE', '-o', 'ip.check_checksum:TRUE']
    for name, content in several.items():
        tools.write('a.pcap', content)
        # Record 9 is inside a segment, and record 16 has bytes of two.
        for record in (9, 16) if 'large' not in name else (2, 3):
            status, _, error = cut_out(tools, 'a.pcap', f'connection 1 client record {record}',
                                    'out.pcap')
            sums_of_ip = '' if 'IPv6' in name else '1'
            wanted = [f'{kind}\t0x{record:08x}\t1\t{sums_of_ip}'.rstrip('\t') for kind in (0, 1)]
            for when in ('TRUE', 'FALSE'):
                out = ended(['tshark', '-n', '-r', 'out.pcap', '-Y', 'rpc', *checked, '-T',
                             'fields', '-o', f'tcp.reassemble_out_of_order:{when}', *fields],
                            tools.folder).out.decode()
                tools.want(f'{name}, record {record}, {when}',
                           (status, error, [line.rstrip('\t') for line in out.splitlines()]),
                           (0, '', wanted))
            os.remove(tools.path('out.pcap'))


def large_messages(**options: Any) -> list[bytes]:
    """Three WRITEs of 20,000 bytes and their replies, in segments."""
    calls = [call(xid, NFS, 3, 7, fh(b'h') + struct.pack('>QII', 0, 20_000, 2)
                  + opaque(bytes(20_000))) for xid in (1, 2, 3)]
    replies = [success(xid, struct.pack('>IIIII8x', 0, 0, 0, 20_000, 2)) for xid in (1, 2, 3)]
    talk = Talk(**options)
    frames = talk.opened()
    for side, bodies, size in ((0, calls, 1_448), (1, replies, 50)):
        content = stream(bodies)
        frames += [talk.sent(side, content[at:at + size]) for at in range(0, len(content), size)]
    # (tshark joins no segments with wrong checksums)
    return [part_of(frame, 0, len(frame)) for frame in (*frames, *talk.closed())]


ONE = 'ok connections=1 calls=1 replies=1 handles=0'


# --- As a capture ---

def exchanges(tools: Tools) -> None:
    """A call with its reply, by each kind of place, of a recording and of captures."""
    tools.write('a.pcap', pcap([*Talk(699).opened(), *whole(), *whole(port=701)]))
    one, two = (CALLS, REPLIES), (CALLS[:3], REPLIES[:3])
    tools.write('1', capture(one, two))
    tools.write('2', interleaved(in_turn(*one), in_turn(*two)))
    # The calls are in the frames 7 to 11, and the replies in 12 to 16, each with a fifth of the
    # bytes. The 9th record is in the second.
    for name, place, connection, record, frames in (
            ('a.pcap', 'connection 1 client record 9', 1, 9, (8, 13)),
            ('a.pcap', 'connection 1 server record 9 byte 7: BadEnum', 1, 9, (8, 13)),
            ('a.pcap', '2 client 9 xid=9 NFSPROC3_NULL', 2, 9, (23, 28)),
            ('a.pcap', 'first: connection 2 server record 9', 2, 9, (23, 28)),
            ('a.pcap', 'differ at connection 2 client record 9', 2, 9, (23, 28)),
            ('1', 'connection 2 server record 3', 2, 3, ()),
            ('2', 'connection 2 server record 3', 2, 3, ())):
        lines = [f'{there} was {here}' + (f' (frame {frames[at]})' if frames else '')
                 for at, (there, here) in enumerate((
                     ('1:1', f'{connection}:{record}'),
                     ('1 server 1', f'{connection} server {record}')))]
        tools.want(f'{name} {place}', (cut_out(tools, name, place, 'out'), tools.read('out')), (
            (0, [*lines, ONE], ''),
            packed((stream(CALLS[record - 1:record]), stream(REPLIES[record - 1:record])))))


def on_standard_output(tools: Tools) -> None:
    """`-` has the capture alone; a folder that is not there is reported first."""
    tools.write('1', capture((CALLS, REPLIES)))
    place = 'connection 1 client record 3'
    done = ended([str(TOP / 'tools/cut'), '--program', tools.program, '1', place, '-'],
                 tools.folder)
    tools.want('capture', (done.status, done.out),
               (0, packed((stream(CALLS[2:3]), stream(REPLIES[2:3])))))
    tools.want('lines', done.error.decode().splitlines()[-1], ONE)
    tools.want('no file', tools.names(), ['1'])
    status, out, error = cut_out(tools, '1', place, 'folder/out')
    tools.want('no folder', (status, out, error.startswith('cut: folder/out: ')), (3, [], True))


def all_with_the_xid(tools: Tools) -> None:
    """What was sent again, messages of many fragments, and a call without a reply."""
    calls = stream(CALLS[:2]) + in_fragments(CALLS[1], 9) + stream(CALLS[2:5])
    replies = stream(REPLIES[:1]) + in_fragments(REPLIES[1],
                                                 5) + stream(REPLIES[2:4]) + stream(REPLIES[1:2])
    talk = Talk()
    tools.write('a.pcap', pcap([*talk.opened(), talk.sent(0, calls), talk.sent(1, replies),
                                *talk.closed()]))
    both = (stream(CALLS[1:2]) + in_fragments(CALLS[1], 9),
            in_fragments(REPLIES[1], 5) + stream(REPLIES[1:2]))
    for place, number, wanted in (
            *((place, (2, 2), both) for place in ('client record 2', 'client record 3',
                                                  'server record 2', 'server record 5')),
            ('client record 6', (1, 0), (stream(CALLS[4:5]), b''))):
        status, lines, _ = cut_out(tools, 'a.pcap', 'connection 1 ' + place, 'out')
        tools.want(place, (status, lines[-1], tools.read('out')), (
            0, 'ok connections=1 calls=%d replies=%d handles=0' % number, packed(wanted)))


def faults(tools: Tools) -> None:
    """A message that is refused is so in OUT, for the same reason."""
    for name, (fault, _) in FAULTS.items():
        for kind in ('pcap', 'nfs3cap'):
            status, lines, error = cut_out(tools, str(TOP / f'examples/{name}.{kind}'), fault,
                                           'out')
            place, reason = fault.split(': ')
            moved = re.sub(r'connection \d+ (\w+) record \d+', r'connection 1 \1 record 1', place)
            tools.want(f'{name}.{kind}', (status, lines[-1], error), (0, f'{moved}: {reason}', ''))
            tools.want(f'check of {name}.{kind}', tools.run('check', 'out'),
                       (2, '', f'{moved}: {reason}\n'))
    for tail, reason in ((fragment(b'abc'), 'byte 0: Short'),
                         (stream(CALLS[1:2])[:-5], 'byte 35: RecordCut')):
        tools.write('a.pcap', recording(([stream(CALLS[:1]), tail], [stream(REPLIES[:1])])))
        status, lines, _ = cut_out(tools, 'a.pcap', 'connection 1 client record 2', 'out')
        tools.want(reason, (status, lines[-1], tools.read('out')),
                   (0, f'connection 1 client record 1 {reason}', packed((tail, b''))))


def handles_and_where_they_are_from(tools: Tools) -> None:
    """The exchanges that gave the handles, and theirs, over connections."""
    root, folder, file, other = (name * 8 for name in (b'r', b'd', b'f', b'o'))
    mount = [call(1, MOUNT, 3, 0), call(2, MOUNT, 3, 1, opaque(b'/x'))], [
        success(1), success(2, ok(fh(root), array([word(1)])))]
    attributes, none = fattr(2, 5), post_op_attr()
    steps = [(1, fh(root), ok(attributes)),
             *((3, dirop(above, name), ok(fh(handle), none, none)) for above, name, handle in (
                 (root, b'd', folder), (folder, b'.', folder), (folder, b'o', other),
                 (folder, b'f', file))),
             (1, fh(file), ok(attributes)),
             (15, fh(file) + dirop(root, b'link'), ok(none, word(0), none))]
    calls, replies = conversation_of(steps, 10)
    tools.write('a', capture(mount, (CALLS[:2], REPLIES[:2]), (calls, replies)))
    for place, kept in (('client record 6', [1, 4, 5]), ('server record 7', [1, 4, 6]),
                        ('client record 1', [0])):
        status, lines, error = cut_out(tools, '--origins', 'a', 'connection 3 ' + place, 'out')
        tools.want(place, (status, error, tools.read('out'), lines[-1].split()[:2]), (
            0, '', packed((stream(mount[0][1:]), stream(mount[1][1:])),
                          (stream(calls[at] for at in kept), stream(replies[at] for at in kept))),
            ['ok', 'connections=2']))
    for words, last in ((['a', 'connection 3 client record 6'],
                         'ok connections=1 calls=1 replies=1 handles=1'),
                        (['--origins', 'a', 'connection 2 client record 1'], ONE)):
        tools.want(f'{words}', cut_out(tools, *words, 'out')[1][-1], last)


def origins_after_a_call_that_was_sent_again(tools: Tools) -> None:
    """Retransmissions before it move no exchange."""
    root, folder, file = (name * 8 for name in (b'r', b'd', b'f'))
    calls, replies = conversation_of([
        (1, fh(root), ok(fattr(2, 5))),
        *((3, dirop(above, name), ok(fh(found), post_op_attr(), post_op_attr()))
          for above, name, found in ((root, b'd', folder), (folder, b'f', file))),
        (1, fh(file), ok(fattr(2, 5)))], 10)
    tools.write('a', capture((calls[:1] + calls, replies)))
    status, _, error = cut_out(tools, '--origins', 'a', 'connection 1 client record 5', 'out')
    tools.want('OUT', (status, error, tools.read('out')),
               (0, '', packed((stream(calls[1:]), stream(replies[1:])))))


def accepted_and_the_same(tools: Tools) -> None:
    """Exchanges of a real recording are accepted, and are listed as they were."""
    name = FIRST
    tools.want('from_pcap', tools.tool('from_pcap', name, 'a')[0], 0)
    listing = [line.split(' ', 3) for line in tools.run('show', 'a')[1].splitlines()]
    for number, (connection, side, record, rest) in enumerate(listing[::17]):
        position, options = f'connection {connection} {side} record {record}', ['--origins'][
            number % 2:]
        status, lines, error = cut_out(tools, *options, name, position, 'out')
        tools.want(rest[:60], (status, lines[-1].split()[0], error), (0, 'ok', ''))
        shown = [line.split(' ', 3)[3] for line in tools.run('show', 'out')[1].splitlines()]
        tools.want('listed ' + rest[:60], rest in shown, True)
        tools.want('all of it', {*shown} - {one[3] for one in listing}, set())


def what_is_refused(tools: Tools) -> None:
    """Places that are not there, inputs and recordings as OUT, and handles in what is refused."""
    tools.write('a.pcap', pcap(whole()))
    for name in ('old', 'old.pcap'):
        shutil.copy(TOP / 'examples/null.nfs3cap', tools.path(name))
    before, record = tools.read('old'), 'connection 1 client record 1'
    bad = str(TOP / 'examples/bad_bool.nfs3cap')
    for words, message in (
            (['a.pcap', 'file 12: BadMark', 'new'], 'no record: file 12'),
            (['a.pcap', record, 'a.pcap'], 'a.pcap is an input, and is not replaced'),
            (['old', record, 'a.pcap'], 'a.pcap is a recording, and is not replaced'),
            (['old', record, './old'], './old is an input, and is not replaced'),
            (['absent', record, 'new'], 'absent: No such file or directory'),
            (['a.pcap', record, 'old.pcap'], 'old.pcap is a capture, and is not replaced'),
            (['old', record, 'new.pcap'], 'old is a capture, which has no frames'),
            (['a.pcap', record, 'new.pcapng'], 'new.pcapng: OUT may be a .pcap, and no .pcapng'),
            (['--program', './absent', 'a.pcap', record, 'new'], './absent is missing'),
            (['--origins', bad, record, 'old'], f'{bad} is refused, so the origins of its handles '
             f'are not known: {FAULTS["bad_bool"][0]}')):
        tools.want(message, tools.tool('cut', *words), (2, '', f'cut: {message}\n'))
    tools.want('what is there', (tools.names(), tools.read('old'), tools.read('a.pcap')),
               (['a.pcap', 'old', 'old.pcap'], before, pcap(whole())))
    tools.want('an older capture', (cut_out(tools, 'a.pcap', record, 'old')[0],
                                    tools.read('old') != before), (0, True))

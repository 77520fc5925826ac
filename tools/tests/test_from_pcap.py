"""Tests of how the streams of recordings are put together, alike for all tools."""
import os
import random
import struct
import subprocess
import sys

from examples import messages
from examples.messages import NFS, call, success
from examples.packets import ACK, CLIENT, FIN, RST, SERVER, SYN, Talk, ethernet, pcap
from tests.shared.running import begin, pipe_of

from ..nfs3tools.recordings import container as captures
from ..nfs3tools.recordings.container import capture_of
from ..nfs3tools.recordings.taken import NotTaken, TakenStream
from .recordings import fragments, fragments_6
from .scripts import (
    ALL, CALL, CALLS, FIFTH, FIFTH_OF_REPLIES, MEASURED, REPLIES, REPLY, TOP, WITH_TOOLS, Tools,
    exchange, packed, stream, taken_of, whole)

SIZES = ', %d and %d bytes' % (len(ALL[0]), len(ALL[1]))
# Without the second of five segments of calls: the calls before it and behind it, and their
# replies.
BEFORE_A_GAP, BEHIND_A_GAP = FIFTH // CALL, -(-2 * FIFTH // CALL)
AROUND_A_GAP = (ALL[0][:BEFORE_A_GAP * CALL] + ALL[0][BEHIND_A_GAP * CALL:],
                ALL[1][:BEFORE_A_GAP * REPLY] + ALL[1][BEHIND_A_GAP * REPLY:])


def datagrams_in_fragments(tools: Tools) -> None:
    """They are not put together, and counted."""
    for cut, frames in ((fragments, whole()),
                        (fragments_6, whole(hosts=('2001:db8::7', '2001:db8::1')))):
        pieces = [ethernet(piece) for piece in cut(frames[4][14:], 64)]
        lines = tools.taken('fragments', pcap(frames[:4] + pieces + frames[5:]), [AROUND_A_GAP])
        told = (f'in part: {len(pieces)} frames with fragments of IP that are part of a segment '
                'of TCP are not taken')
        tools.want('fragments', (told in lines, '%d bytes are missing' % FIFTH in lines[1]),
                   (True, True))


# --- Segments ---

def segments_in_any_order(tools: Tools) -> None:
    """Overlapping segments, a keep-alive, and positions after 12 GB."""
    talk, content = Talk(), stream(CALLS)
    frames = talk.opened() + [talk.frame(0, ACK, content[at:at + 100], at)
                              for at in (0, 150, 60, 240, 200, 30)]
    talk.next[0] += 340
    frames += [talk.frame(0, ACK, b'\0', -1), talk.sent(0, content[340:]), *talk.closed()]
    tools.told('overlapping, and a keep-alive', pcap(frames), [(content, b'')], [])


def bytes_that_came_first(tools: Tools) -> None:
    """Of bytes that came twice the first are taken, and a difference is reported."""
    content, other = ALL[0], bytes(255 - byte for byte in ALL[0])
    told = ('connection 1 1 frame repeats bytes with other content, first frame %d; the bytes that '
            'came first are taken')
    cases: list[tuple[str, list[tuple[int, int, bytes]], int | None]] = [
        ('again with other bytes at its end alone',
         [(0, 400, content), (300, 400, content[:399] + b'\xee'), (400, len(content), content)], 5),
        ('early, then all around it',
         [(200, 300, content), (100, 400, content[:200] + other[200:300] + content[300:]),
          (0, 100, content), (400, len(content), content)], 5),
        ('again with the same bytes', [(0, 400, content), (100, 200, content), (50, 450, content),
                                       (450, len(content), content)], None)]
    for what, pieces, frame in cases:
        talk = Talk()
        frames = talk.opened() + [talk.frame(0, ACK, source[begin:end], begin)
                                  for begin, end, source in pieces]
        tools.told(what, pcap(frames), [(content, b'')], [] if frame is None else [told % frame])
    talk = Talk()
    frames = [*talk.opened(), talk.sent(0, content), talk.frame(0, ACK, b'\xee', -1),
              *talk.closed()]
    tools.told('a keep-alive with another byte', pcap(frames), [(content, b'')], [])


def beginnings_and_ends(tools: Tools) -> None:
    """SYN and FIN with payload, what is after FIN, RST, and ends of older connections."""
    talk = Talk()
    early = talk.frame(0, SYN, ALL[0][:99])
    talk.next[0] += 1
    frames = [early, talk.frame(1, SYN | ACK)]
    talk.next = [talk.next[0] + 99, talk.next[1] + 1]
    tools.taken('payload with SYN', pcap([*frames, talk.sent(0, ALL[0][99:])]), [(ALL[0], b'')])
    talk = Talk()
    frames = [*talk.opened(), talk.sent(0, ALL[0]), talk.frame(1, FIN | ACK, ALL[1])]
    tools.told('payload with FIN',
               pcap([*frames, talk.frame(1, ACK, b'after the end', len(ALL[1]))]), [ALL],
               ['connection 1 server: 13 bytes fit nowhere in the stream, and are left out, first '
                'frame 6'])
    talk = Talk()
    frames = [*talk.opened(), *exchange(talk)]
    tools.told('RST', pcap([*frames, talk.frame(0, RST, b'a reason in words'),
                            talk.frame(1, RST | ACK)]), [ALL], [])
    talk.next[0] += (1 << 30) + 1
    for last in (talk.frame(1, ACK), talk.frame(0, FIN | ACK)):
        tools.told('an end of an older connection', pcap([*frames, last]), [ALL], [
            'connection 1 client: 1 frame has a sequence number far from all others, first frame '
            '6'])
    talk = Talk()
    frames = [*talk.opened(), talk.sent(0, ALL[0]), talk.frame(0, RST), talk.sent(1, ALL[1])]
    tools.told('what is on its way as RST comes', pcap(frames), [ALL], [])


def who_is_the_client(tools: Tools) -> None:
    client, server = CLIENT + ':700 by ', SERVER + ':2049 by '
    swapped = whole(port=2049, service=700, hosts=(SERVER, CLIENT))
    for frames, told in (
            (whole(), client + 'the SYN'), (whole()[1:], client + 'the SYN'),
            ([whole()[0], *whole()[2:]], client + 'the SYN'), (swapped, server + 'the SYN'),
            *((whole(service=service)[8:] + whole(service=service)[3:8], client + 'its calls')
              for service in (2049, 900)), (swapped[3:], server + 'its calls')):
        lines = tools.taken(told, pcap(frames), [ALL])
        tools.want('client', lines[0].partition(': client ')[2], told + SIZES)
    for talk, ends in ((Talk(), '192.0.2.1:2049 and 192.0.2.7:700'),
                       (Talk(port=111, service=900), '192.0.2.1:900 and 192.0.2.7:111')):
        lines = tools.taken('no calls', pcap(exchange(talk, calls=[])), [])
        tools.want('no calls', lines, [f'left out: {ends}: no position was found from which its '
                                       'records follow one another'])
    tools.taken('replies alone', pcap([Talk(service=900).frame(0, ACK, stream(REPLIES))]), [])


# --- Missing bytes ---

def told_of_gap(side: str, size: int, after: int, frame: int, number: int = 1) -> str:
    are = 'byte is' if size == 1 else 'bytes are'
    return (f'connection {number} {side}: {size:,} {are} missing from the recording after the '
            f'first {after:,}, before frame {frame}')


def dropped(side: str, size: int) -> str:
    return f'connection 1 {side}: the last {size:,} bytes are no whole record, and are dropped'


def torn_records(size: int) -> str:
    return (f'; {size} byte{"s" * (size != 1)} of torn records {"is" if size == 1 else "are"} left '
            'out')


def replies_left_out(number: int) -> str:
    told = ('reply to a call that is not in the recording is' if number == 1
            else 'replies to calls that are not in the recording are')
    return f'connection 1 server: {number:,} {told} left out'


def what_is_left_out(tools: Tools) -> None:
    """Connections without payload."""
    ends = 'left out: 192.0.2.7:700 and 192.0.2.1:2049: '
    tools.told('no payload', pcap(Talk().opened()), [], [ends + 'no payload'])
    tools.told('half a closing',
               pcap([*whole()[:3], Talk(first=(1_001, 5_001)).frame(0, FIN | ACK)]), [],
               [ends + 'no payload'])


def bytes_are_missing(tools: Tools) -> None:
    """A stream goes on at the next record, without replies to calls that are missing."""
    frames, calls, replies = whole(), *ALL
    torn, most, first = (BEHIND_A_GAP - BEFORE_A_GAP) * CALL - FIFTH, 4 * FIFTH // CALL, -(
        -FIFTH // CALL)
    before, behind = FIFTH_OF_REPLIES // REPLY, -(-2 * FIFTH_OF_REPLIES // REPLY)
    last = 4 * FIFTH_OF_REPLIES
    for what, some, streams_there, *told in (
            ('a gap in the calls', frames[:4] + frames[5:], AROUND_A_GAP,
             told_of_gap('client', FIFTH, FIFTH, 5) + torn_records(torn),
             replies_left_out(BEHIND_A_GAP - BEFORE_A_GAP)),
            ('the last call is lost', frames[:7] + frames[8:],
             (calls[:most * CALL], replies[:most * REPLY]),
             told_of_gap('client', len(calls) - 4 * FIFTH, 4 * FIFTH, 13)
             + torn_records(4 * FIFTH - most * CALL), replies_left_out(len(REPLIES) - most)),
            ('the first call is lost', frames[:3] + frames[4:],
             (calls[first * CALL:], replies[first * REPLY:]),
             told_of_gap('client', FIFTH, 0, 4) + torn_records(first * CALL - FIFTH),
             replies_left_out(first)),
            ('a gap in the replies', frames[:9] + frames[10:],
             (calls, replies[:before * REPLY] + replies[behind * REPLY:]),
             told_of_gap('server', FIFTH_OF_REPLIES, FIFTH_OF_REPLIES, 10)
             + torn_records((behind - before) * REPLY - FIFTH_OF_REPLIES)),
            ('the last reply is lost, as FIN shows', frames[:12] + frames[-2:],
             (calls, replies[:last // REPLY * REPLY]),
             told_of_gap('server', len(replies) - last, last, 14) + torn_records(last % REPLY))):
        tools.told(what, pcap(some), [streams_there], told)


def several_gaps(tools: Tools) -> None:
    """Two gaps are reported together; a wrong mark beside one stays, and a closing is none."""
    frames, calls, replies = whole(), *ALL
    present = [at for at in range(39) if at < BEFORE_A_GAP or 2 * FIFTH <= at * CALL and at * CALL
               + CALL <= 3 * FIFTH or at * CALL >= 4 * FIFTH]
    left = [b''.join(content[size * at:size * at + size] for at in present)
            for content, size in ((calls, CALL), (replies, REPLY))]
    lines = tools.taken('two gaps', pcap(frames[:4] + frames[5:6] + frames[7:]),
                        [(left[0], left[1])])
    tools.want('two gaps', f'before frame 5, and {FIFTH} more in 1 place; ' in lines[1] or lines,
               True)
    tools.told('replies alone', pcap(frames[:3] + frames[8:]), [], [
        'left out: 192.0.2.7:700 and 192.0.2.1:2049: no position was found from which its records '
        'follow one another'])
    talk = Talk()
    wrong = replies[:10 * REPLY] + struct.pack('>I', 0x81000001) + replies[10 * REPLY + 4:]
    lost = [*talk.opened(), talk.sent(0, calls[:7 * CALL]), talk.sent(0, calls[7 * CALL:12 * CALL]),
            talk.sent(0, calls[12 * CALL:]), talk.sent(1, wrong)]
    tools.taken('a wrong mark among replies that are left out', pcap(lost[:4] + lost[5:]),
                [(calls[:7 * CALL] + calls[12 * CALL:], replies[:7 * REPLY] + wrong[10 * REPLY:])])
    talk = Talk()
    closing = [*talk.opened(), *exchange(talk), talk.frame(0, FIN | ACK)]
    talk.next[0] += 1
    tools.told('a closing that is acknowledged',
               pcap([*closing, talk.frame(1, ACK), talk.frame(1, FIN | ACK)]), [ALL], [])


def whole_in_parts(size: int, between: int, part: int) -> list[int]:
    """The records of one size that lie whole in the first bytes of a part."""
    return [at for at in range(len(CALLS)) if at * size % between + size <= part]


def frames_that_are_cut(tools: Tools) -> None:
    """Frames of which the snap length kept a part."""
    calls, replies = ALL
    told = ('10 frames were recorded in part only (the snap length, as of `tcpdump -s`); what they '
            'lack is missing')
    asked, answered = whole_in_parts(CALL, FIFTH, 104), whole_in_parts(REPLY, FIFTH_OF_REPLIES, 104)
    kept = (b''.join(calls[at * CALL:(at + 1) * CALL] for at in asked),
            b''.join(replies[at * REPLY:(at + 1) * REPLY] for at in answered if at in asked))
    lines = tools.taken('frames cut to 158 bytes', pcap(whole(), 158), [kept])
    tools.want('frames cut to 158 bytes', lines[0], told)
    tools.want('the gaps', lines[2], told_of_gap('client', FIFTH - 104, 104, 5)
               + f', and {len(calls) - FIFTH - 4 * 104} more in 4 places'
               + torn_records(5 * 104 - len(kept[0])))
    talk = Talk()
    last = [*talk.opened(), talk.sent(0, calls)]
    tools.told('the last frame is cut', pcap(last, 154), [(calls[:2 * CALL], b'')],
               [told.replace('10 frames were', '1 frame was'),
                told_of_gap('client', len(calls) - 100, 100, 4) + torn_records(100 - 2 * CALL)])
    headers = tools.taken('headers that are cut', pcap(whole(), 50), [])
    tools.want('headers that are cut',
               headers[0].startswith('15 frames were recorded in part only'), True)


# --- From the middle of a connection on ---

def left_out_before(side: str, size: int) -> str:
    are = 'byte is' if size == 1 else 'bytes are'
    return (f'connection 1 {side}: the first {size:,} {are} left out, since no record of a whole '
            'run begins there')


def beginnings_that_are_missing(tools: Tools) -> None:
    """Each stream begins at the first record from which records follow one another."""
    calls, replies = ALL
    for cut in (0, 1, 3, 4, 8, 43, 44, 45, 430):
        talk, skipped, rest = Talk(), -cut % CALL, (cut + CALL - 1) // CALL
        told = [left_out_before('client', skipped)] * (skipped > 0)
        tools.told(f'cut after {cut}', pcap([talk.sent(0, calls[cut:]), talk.sent(1, replies)]),
                   [(calls[rest * CALL:], replies[rest * REPLY:])],
                   told + [replies_left_out(rest)] * (rest > 0))
    for cut in (0, 1, 5, 27, 28):
        talk, skipped = Talk(), -cut % REPLY
        tools.told(f'replies cut after {cut}',
                   pcap([talk.sent(0, calls), talk.sent(1, replies[cut:])]),
                   [(calls, replies[cut + skipped:])],
                   [left_out_before('server', skipped)] * (skipped > 0))
    talk = Talk()
    frames = [talk.sent(0, b'\0'), talk.sent(0, calls), talk.sent(1, replies)]
    tools.told('a keep-alive first', pcap(frames), [ALL], [left_out_before('client', 1)])
    talk = Talk()
    frames = [talk.sent(0, calls[:-3]), talk.sent(1, replies[:-5])]
    tools.told('cut at its end', pcap(frames), [(calls[:-CALL], replies[:-REPLY])],
               [dropped('client', CALL - 3), dropped('server', REPLY - 5)])
    talk = Talk()
    frames = [*talk.opened(), talk.sent(0, calls[:-3]), talk.sent(1, replies[:-REPLY]),
              *talk.closed()]
    tools.told('a record that FIN cuts', pcap(frames), [(calls[:-3], replies[:-REPLY])], [])
    tools.told('a whole recording', pcap(whole()), [ALL], [])
    writing = stream([call(77, NFS, 3, 7, messages.fh(b'abcde') + messages.hyper(0)
                           + messages.word(99) + messages.opaque(bytes(99)))])
    two = stream(CALLS[:2])
    for content in (writing[:90], two + b'\x80\0\0\x99' + b'x' * 28, two + b'x' * 99,
                    two + bytes(3) + two + b'x' * 99):
        ends = Talk(first=(1_000 + len(content), 5_000)).closed()
        tools.taken('no run of records', pcap([Talk().sent(0, content), *ends]), [])


def faults_stay(tools: Tools) -> None:
    """No fault in contiguous bytes is passed over, from the SYN on and without it."""
    replies, at = ALL[1], 10 * REPLY
    for offset, size, other, line in (
            (0, 0, struct.pack('>I', 0x81000001), 'byte 0: RecordTooLong'),
            (0, 4, struct.pack('>I', 0x80000014), 'byte 20: Short'),
            (27, 1, b'\7', 'byte 20: BadEnum'), (11, 1, b'\7', 'byte 4: BadEnum'),
            (0, 0, stream([success(99)]), 'byte 0: NoCall')):
        wrong, talk = replies[:at + offset] + other + replies[at + offset + size:], Talk()
        begun, frames = talk.opened(), [talk.sent(0, ALL[0]), talk.sent(1, wrong), *talk.closed()]
        judged = [taken_of(pcap(begun + frames))]
        # what is before a wrong mark cannot be told from a wrong beginning
        if line.endswith('BadEnum'):
            judged.append(taken_of(pcap(frames)))
        for taken in judged:
            tools.write('a', b''.join(capture_of(taken.pairs())))
            tools.want(line, tools.run('check', 'a'),
                       (2, '', f'connection 1 server record 11 {line}\n'))


def embedded(tools: Tools) -> None:
    """Records in the data of a record, as of a capture on NFS, are no beginning."""
    bodies = [call(number, NFS, 3, 0) for number in range(3_000)]
    for inner, cuts in ((messages.capture((CALLS[:20], REPLIES[:20]))[8:], (1, 50, 90, 200)),
                        (messages.capture((bodies, [])), (99,)),
                        (stream(bodies) + b'x' * 99, (99,))):
        writing = stream([call(77, NFS, 3, 7, messages.fh(b'abcde') + messages.hyper(0)
                               + messages.word(len(inner)) + messages.word(0)
                               + messages.opaque(inner))])
        for cut in cuts:
            content, talk = writing[cut:] + ALL[0], Talk()
            frames = [talk.sent(0, content[at:at + 60_000])
                      for at in range(0, len(content), 60_000)]
            tools.told('a capture written over NFS', pcap([*frames, talk.sent(1, ALL[1])]), [ALL],
                       [left_out_before('client', len(writing) - cut)])
    inner = messages.capture(([], REPLIES))
    answer = stream([success(3, messages.ok(messages.post_op_attr(None), messages.word(len(inner)),
                                            messages.word(1), messages.opaque(inner)))])
    reading = stream([call(3, NFS, 3, 6, messages.fh(b'a') + messages.hyper(0)
                           + messages.word(9_999)), *bodies[40:50]])
    rest = stream(success(number) for number in range(40, 50))
    for cut in (1, 30, 60, 300):
        talk = Talk()
        frames = [talk.sent(0, reading), talk.sent(1, answer[cut:] + rest)]
        tools.told('a capture read over NFS', pcap(frames), [(reading, rest)],
                   [left_out_before('server', len(answer) - cut)])
    for content in (os.urandom(5_000), bytes(5_000), b'GET / HTTP/1.1\r\n' * 300,
                    b'\x80\0\0\x28' * 999):
        talk = Talk()
        tools.taken('no RPC', pcap([talk.sent(0, content), talk.sent(1, content)]), [])


def search_is_linear(tools: Tools) -> None:
    """Input made to cost: many places from which records nearly reach the end."""
    head = call(1, NFS, 3, 0)
    chain = stream([head] * 15_000) + struct.pack('>I', 0x81000001) + bytes(400)
    talk = Talk()
    pieces = [talk.sent(0, chain[at:at + 60_000]) for at in range(0, len(chain), 60_000)]
    begin = os.times()
    taken = taken_of(pcap(pieces)).connections[0]
    tools.want('what is taken', (taken.client.read(0, len(chain) + 1), taken.notes), (chain, []))
    tools.want('seconds', os.times().user - begin.user < 5, True)


# --- Files and memory ---

def files(tools: Tools) -> None:
    """What is printed and with which status; OUT is whole, or as it was."""
    tools.write('a.pcap', pcap(whole()))
    tools.write('none.pcap', pcap([]))
    tools.write('old', b'old')
    os.chmod(tools.path('old'), 0o640)
    os.symlink('old', tools.path('link'))
    told = ('connection 1: 192.0.2.7:700 and 192.0.2.1:2049: client 192.0.2.7:700 by the SYN'
            + SIZES + '\n')
    for words, stdin in ((('a.pcap', 'out'), None), (('a.pcap', 'old'), None),
                         (('-', 'out2'), pcap(whole())), (('a.pcap', 'link'), None)):
        tools.want(f'{words}', (tools.tool('from_pcap', *words, stdin=stdin),
                                tools.read(words[1])), ((0, '', told), packed(ALL)))
    tools.want('what it was', (os.stat(tools.path('old')).st_mode & 0o777,
                               os.path.islink(tools.path('link'))), (0o640, True))
    tools.want('standard output', tools.tool('from_pcap', 'a.pcap', '/dev/stdout'),
               (0, packed(ALL).decode(errors='replace'), told))
    for words, status, error in (
            ('a.pcap /dev/full', 3, told + 'from_pcap: /dev/full: No space left on device'),
            ('absent x', 2, 'from_pcap: absent: No such file or directory'),
            ('. x', 3, 'from_pcap: .: Is a directory'),
            ('a.pcap absent/x', 3, 'from_pcap: absent/x: No such file or directory'),
            ('a.pcap a.pcap', 2, 'from_pcap: a.pcap is an input, and is not replaced'),
            ('a.pcap ./a.pcap', 2, 'from_pcap: ./a.pcap is an input, and is not replaced'),
            ('out x', 2, 'from_pcap: out is a capture already'),
            ('none.pcap x', 1, 'from_pcap: no connection to pack')):
        tools.want(words, tools.tool('from_pcap', *words.split()), (status, '', error + '\n'))
    tools.want('no OUT is made', tools.exists('x'), False)


def full_disks(tools: Tools) -> None:
    """OUT stays as it was if it does not fit on the disk."""
    tools.write('out', b'old')
    limited = ['sh', '-c', 'ulimit -f 8; exec "$@"', 'sh']
    for name, size, number in (('long.pcap', 50_000, 2), ('wide.pcap', 9_000, 5)):
        talk = Talk()
        tools.write(name, pcap([*talk.opened(), *(talk.sent(0, bytes(size)) for _ in range(number)),
                                *talk.closed()]))
        status, _, error = tools.tool('from_pcap', name, 'out', before=limited)
        tools.want('a full disk', (status, error.splitlines()[-1], tools.read('out')),
                   (3, 'from_pcap: out: File too large', b'old'))
    tools.want('what is left', [name for name in tools.names() if name[0] == '.'], [])


def long_streams(tools: Tools) -> None:
    """Streams of more than a chunk, and of more than stays in memory, are as `pack` writes them."""
    for size in (65_535, 65_536, 65_537, 131_072, 700_001):
        sides = [random.Random(size + side).randbytes(size - side * 7) for side in range(2)]
        talk, frames = Talk(), list[bytes]()
        for at in range(0, size, 1_448):
            frames += [talk.sent(side, content[at:at + 1_448])
                       for side, content in enumerate(sides)]
        tools.write('a.pcap', pcap([*Talk().opened(), *(moved(frame) for frame in frames)]))
        for name, content in zip('cs', sides):
            tools.write(name, content)
        tools.run('pack', 'wanted', 'c', 's')
        status, wanted = tools.tool('from_pcap', 'a.pcap', 'out')[0], tools.read('wanted') or b''
        tools.want(f'{size} bytes', (status, tools.read('out') == wanted), (0, True))
        with taken_of(tools.read('a.pcap') or b'') as taken:
            for byte in range(0, len(wanted), 997):
                place = captures.place_in(taken.pairs(), byte)
                found = place and taken.pairs()[0][place[1]].read(place[2], 1)
                tools.want(f'byte {byte}', found in (None, wanted[byte:byte + 1]), True)


def moved(frame: bytes) -> bytes:
    """A segment of a talk that was not opened, after the SYN of one that was."""
    sequence, acknowledged = struct.unpack_from('>2I', frame, 38)
    return frame[:38] + struct.pack('>2I', sequence + 1, acknowledged + 1) + frame[46:]


def limits(tools: Tools) -> None:
    """More than a capture may have is refused before anything is written."""
    taken = taken_of(pcap(whole()))
    connection = taken.connections[0]
    for what, connections, number in (('connections', [connection] * 65_536, '65536 connections'),
                                      ('bytes', [connection._replace(client=Endless())],
                                       'bytes of streams')):
        taken.connections = connections
        try:
            taken.write_capture(os.path.join(tools.folder, 'out'))
            tools.want(what, 'written', 'refused')
        except NotTaken as refused:
            tools.want(what, number in str(refused), True)
        tools.want(what, tools.exists('out'), False)


class Endless(TakenStream):
    """A stream that is longer than a capture may be."""

    def __init__(self) -> None:
        self.size = captures.MOST_BYTES + 1


def memory(tools: Tools) -> None:
    """Memory follows what is held back, not the recording, plain and behind a gap."""
    for what, lost in (('plain', -1), ('behind a gap', 3)):
        kilobytes, told = streamed(tools, 1_200, lost)
        tools.want(what + ': taken', told[:2], ['connection', '1:'])
        tools.want(what + ': memory below 60 MB', kilobytes < 60_000 or kilobytes, True)


def streamed(tools: Tools, count: int, lost: int) -> tuple[int, list[str]]:
    """Feeds frames of 64 KB of records, and gives the memory and what is reported."""
    body = call(1, NFS, 3, 7, messages.fh(b'a') + messages.hyper(0) + messages.word(65_336)
                + messages.word(0) + messages.opaque(bytes(65_336)))
    record, talk = stream([body]), Talk()
    with open(tools.path('told'), 'w+b') as error:
        process = begin([sys.executable, '-c', MEASURED, str(TOP / 'tools/from_pcap'), '-', 'out'],
                        tools.folder,
                        stdin=subprocess.PIPE, stdout=subprocess.DEVNULL, stderr=error,
                        env=WITH_TOOLS)
        given = pipe_of(process.stdin)
        given.write(pcap(talk.opened()))
        for number in range(count):
            frame = talk.sent(0, record)
            frame = frame[:16] + b'\0\0' + frame[18:] if len(frame) > 65_535 else frame
            if number != lost:
                given.write(pcap([frame], 1 << 20)[24:])
        given.close()
        process.wait()
        error.seek(0)
        *told, _, taken = error.read().decode().split()
        return int(taken) // 1024, told

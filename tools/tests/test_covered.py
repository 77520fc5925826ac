"""Tests of the words for recorded connections: judged, in part, left out, not checked; and of how
much of two runs tools/compare says that it compared, in each form."""
import argparse
import itertools
import json
import lzma
import re
import shutil
import struct
import subprocess
import typing
import xml.etree.ElementTree
from collections import Counter
from collections.abc import Callable, Sequence
from typing import NamedTuple
from xml.etree import ElementTree

from examples.messages import (
    MOUNT, NFS, NFSACL, call, dirop, fattr, fh, ok, post_op_attr, success, word)
from examples.packets import ACK, CLIENT, FIN, RST, SERVER, Talk, datagram, ethernet, pcap, segment

from ..nfs3tools.commands.verdicts import json_of_verdicts, junit_of_verdicts
from ..nfs3tools.judgement.verdict import Verdict, counts_after, is_row, status_of
from ..nfs3tools.recordings.coverage import Allowed
from ..nfs3tools.reporting.messages import port_numbers
from .comparisons import Conversation, conversation_of
from .pages import Node, table_of, tree_of
from .recordings import (
    fragments, fragments_6, in_geneve, in_gre, in_labels, in_session, in_snap, in_vxlan, pcapng,
    udp)
from .scripts import (
    ALL, CALLS, REPLIES, REPLY, TOP, Tools, connection_of, stream, sums, taken_of, verdicts_on,
    whole)

PORTMAP = 100_000
CLIENT_6, SERVER_6 = '2001:db8::7', '2001:db8::1'
ENDS = '192.0.2.7:%d and 192.0.2.1:%d: '


class Case(typing.NamedTuple):
    """A recording beside a good one: its rows, the counts that these do not show, the options of a
    run, what is raw, and the statuses (plain, of losses, of what is not checked) if not theirs."""
    what: str
    frames: list[bytes]
    messages: list[str]
    more: dict[str, int] = {}
    words: list[str] = []
    raw: str = ''
    statuses: tuple[int, int, int] | None = None

    @property
    def states(self) -> list[str]:
        """The states of the rows: what is none of these is refused."""
        return [next((state for begin, state in STATES.items() if message.startswith(begin)),
                     'ok' if message == 'ok' else 'refused') for message in self.messages]

    @property
    def counts(self) -> dict[str, int]:
        counted = Counter(state.replace(' ', '_') for state in self.states)
        return {**counted, **self.more}

    @property
    def wanted_statuses(self) -> tuple[int, int, int]:
        of_states = [STATUSES[state] for state in self.states]
        return self.statuses or max(of_states, default=GOOD)


def talked(calls: list[bytes], replies: list[bytes], service: int = 2049) -> list[bytes]:
    return connection_of(calls, replies, port=701, service=service)


def cut_at_its_end(flags: int | None, side: int = 1) -> list[bytes]:
    """A connection whose last reply is cut, and which one side closes or resets."""
    talk = Talk(701)
    frames = [*talk.opened(), talk.sent(0, ALL[0]), talk.sent(1, ALL[1][:-9])]
    return frames if flags is None else [*frames, talk.frame(side, flags)]


# The counts of a case, and their words in files.
NAMES = {'ok': 'ok', 'refused': 'refused', 'in_part': 'in part', 'left_out': 'left out',
         'bare': 'without calls', 'not_checked': 'not checked', 'errors': 'errors',
         'silent': 'without reply'}
NEITHER, GOOD = (1, 1, 1), (0, 0, 0)
STATES = {'ok in part': 'in part', 'in part': 'in part', 'left out': 'left out',
          'not checked': 'not checked'}
STATUSES = {'ok': GOOD, 'in part': (1, 0, 1), 'left out': (1, 0, 1), 'not checked': (1, 1, 0),
            'refused': NEITHER}
LOST = whole(port=701)[:4] + whole(port=701)[5:]
COMPOUNDS = [call(number, NFS, 4, 1, bytes(40)) for number in range(20)]
ANSWERS = [success(number, bytes(8)) for number in range(20)]
HTTP = [b'GET / HTTP/1.1\r\nHost: example.org\r\n\r\n' * 30,
        b'HTTP/1.1 200 OK\r\nContent-Length: 4000\r\n\r\n' + b'abcd' * 1_000]


def http(service: int, is_begun: bool = True) -> list[bytes]:
    talk = Talk(701, service)
    frames = [*talk.opened(), talk.sent(0, HTTP[0]), talk.sent(1, HTTP[1]), *talk.closed()]
    return frames if is_begun else frames[3:]


def datagrams(number: int, port: int = 2049) -> list[bytes]:
    asked = [ethernet(datagram(CLIENT, SERVER, udp(800, port, CALLS[at % 39]), 17))
             for at in range(number // 2)]
    answered = [ethernet(datagram(SERVER, CLIENT, udp(port, 800, REPLIES[at % 39]), 17))
                for at in range(number // 2)]
    return [frame for pair in zip(asked, answered) for frame in pair]


UNREAD = 'in part: %s not taken, since %s headers are not whole or do not fit %s length'


def acknowledging(times: int = 4, step: tuple[int, int] = (100_000, 1_000_000),
                  payload: bytes = b'', service: int = 2049) -> list[bytes]:
    """Ends that acknowledge more each time; a payload is cut, with its lengths."""
    ports, frames = ((701, service), (service, 701)), list[bytes]()
    for number in range(times):
        at = 5_000 + number * step[0], 9_000 + number * step[1]
        for side, hosts in enumerate(((CLIENT, SERVER), (SERVER, CLIENT))):
            one = datagram(*hosts, segment(ports[side], at[side], at[1 - side], ACK))
            frames.append(ethernet(one))
            if payload:
                one = datagram(*hosts, segment(ports[side], at[side], at[1 - side], ACK, payload))
                frames.append(ethernet(one)[:60])
    return frames


PART = 'ok in part: 39 calls, '
INSIDE = 'the recording ends inside a record'
ACKNOWLEDGED = ('left out: ' + ENDS % (701, 2049)
                + '3,300,000 bytes acknowledged and not recorded')
# (without SYN and payload the first end is that of the first acknowledgment that says something)
ONE_BYTE = 'left out: 192.0.2.1:2049 and 192.0.2.7:701: 1 byte acknowledged and not recorded'
NO_CALLS = {'left_out': 1, 'bare': 1}
IN_TUNNELS = (('GTP-U', 2152, 2152), ('L2TP', 1701, 1701), ('L2TP', 1701, 50_000),
              ('ESP in UDP', 4500, 4500), ('Teredo', 50_000, 3544))
CASES = [
    Case('a good one', whole(port=701), ['ok']),
    Case('begun before the recording', whole(port=701)[3:],
         [PART + 'its beginning is not in the recording']),
    Case('a lost frame', LOST, ['ok in part: 30 calls, 344 bytes missing']),
    Case('it ends inside a record', cut_at_its_end(None), [PART + INSIDE], {'silent': 1}),
    Case('the other end closes', cut_at_its_end(FIN | ACK, 0), [PART + INSIDE], {'silent': 1}),
    Case('the other end resets', cut_at_its_end(RST, 0),
         [PART + 'the other end reset it inside a record'], {'silent': 1}),
    *[Case(f'its sender ends it by {flags}', cut_at_its_end(flags),
           [f'server record 39 byte {REPLY - 9 - 4}: RecordCut, frame 20'])
      for flags in (FIN | ACK, RST)],
    Case('NFS version 4', talked(COMPOUNDS, ANSWERS),
         ['not checked: 20 of 20 calls (NFS version 4)']),
    Case('version 4 beside 3', talked([*COMPOUNDS, *CALLS[20:]], [*ANSWERS, *REPLIES[20:]]),
         ['not checked: 20 of 39 calls (NFS version 4)']),
    Case('other versions', talked([call(1, MOUNT, 1, 1, bytes(8)), call(2, NFS, 2, 4, bytes(36)),
                                   call(3, NFS, 2, 4, bytes(36)), call(4, NFS, 3, 22)], []),
         ['not checked: 4 of 4 calls (2 NFS version 2, 1 MOUNT version 1, 1 NFS version 3 '
          'procedure 22)'], {'silent': 4}),
    Case('version 4, and bytes are missing',
         talked(COMPOUNDS, ANSWERS)[:4] + talked(COMPOUNDS, ANSWERS)[5:],
         ['not checked: 20 of 20 calls (NFS version 4)'], {'silent': 20}, statuses=NEITHER),
    Case('no typed call', talked([call(1, NFSACL, 3, 1, fh(b'a'))], []),
         ['not checked: no call of NFS or MOUNT version 3 (1 NFSACL GETACL)'], {'silent': 1},
         raw='1 NFSACL GETACL'),
    Case('calls of others beside typed ones',
         talked([*CALLS, *(call(50 + at, NFSACL, 3, 1, fh(b'a')) for at in range(7))], REPLIES),
         ['ok'], {'silent': 7}, raw='7 NFSACL GETACL'),
    Case('the port mapper', talked([call(1, PORTMAP, 2, 3, bytes(16)), call(2, PORTMAP, 4, 3),
                                    call(3, PORTMAP, 2, 99)], [], service=111), ['ok'],
         {'silent': 3},
         raw='1 PORTMAP GETADDR, 1 PORTMAP GETPORT, 1 PORTMAP version 2 procedure 99'),
    Case('datagrams of UDP', datagrams(102),
         ['left out: 102 UDP datagrams to or from port 2049 are not taken']),
    *[Case('datagrams of UDP in fragments',
           [ethernet(piece) for number in range(2) for piece in cut_up(
               datagram(*hosts, udp(800, port, bytes(99)), 17), 32, number)],
           [f'left out: 2 UDP datagrams to or from port {port} are not taken'])
      for cut_up, hosts, port in ((fragments, (CLIENT, SERVER), 20_048),
                                  (fragments_6, (CLIENT_6, SERVER_6), 2049))],
    Case('datagrams of others', datagrams(4, 53) + datagrams(4, 111), []),
    Case('no payload', Talk(701).opened(), [], NO_CALLS),
    Case('no RPC', http(80), [], NO_CALLS),
    Case('no RPC, begun before', http(80, False), [], NO_CALLS),
    Case('no RPC at a port of NFS', http(2049),
         ['client record 1 byte 0: RecordTooLong, frame 19']),
    Case('no RPC at a port that was chosen', http(80),
         ['client record 1 byte 0: RecordTooLong, frame 19'], words=['--port', '80,2049']),
    Case('acknowledgements alone', acknowledging(), [ACKNOWLEDGED]),
    Case('the same at another port', acknowledging(service=80), [], NO_CALLS),
    Case('one acknowledgement beyond', acknowledging(2, (0, 1)), [ONE_BYTE]),
    Case('frames that lack their payload, with their lengths', acknowledging(payload=bytes(99)),
         [ACKNOWLEDGED, UNREAD % ('8 frames to or from port 2049 are', 'their', 'their')]),
    Case('a last frame that is shortened',
         [*talked(CALLS, REPLIES)[:4], talked(CALLS, REPLIES)[4][:60]],
         ['ok', UNREAD % ('1 frame to or from port 2049 is', 'its', 'its')], {'silent': 39}),
    *[Case(f'a frame of {size} bytes', [whole(port=701)[3][:size]],
           [UNREAD % ('1 frame is', 'its', 'its')])
      for size in (37, 30)],  # (without its ports, and without its header of IP)
    Case('the kind of another version of IP',
         [frame[:14] + b'\x55' + frame[15:] for frame in whole(port=701)[3:5]],
         ['not checked: 2 frames of an unknown version of IP are not read; what is in them is not '
          'known']),
    Case('LLC and SNAP', [in_snap(frame[14:]) for frame in whole(port=701)],
         ['not checked: 15 frames of LLC/SNAP are not read; what is in them is not known']),
    Case('a spanning tree', [bytes(12) + b'\0\x26\x42\x42\3' + bytes(35)], []),
    Case('PPP of itself',
         [bytes(12) + struct.pack('>HBBHHH', 0x8864, 0x11, 0, 1, 10, 0xc021) + bytes(8)], []),
    *[Case(f'{name} in UDP', [ethernet(datagram(CLIENT, SERVER, udp(*ports, bytes(60)), 17))],
           [f'not checked: 1 frame of {name} is not read; what is in it is not known'])
      for name, *ports in IN_TUNNELS],
    Case('a fault at another port', talked(CALLS, [*REPLIES[:-1], success(99)], service=900),
         ['server record 39 byte 0: NoCall, frame 20'])]


def run_of(tools: Tools, *words: str,
           stdin: bytes | None = None) -> tuple[int, list[str], str, str]:
    """The status of tools/verdicts, the verdicts of the rows, the sum and standard error."""
    status, out, error = tools.tool('verdicts', *words, stdin=stdin)
    _, *rows, total = out.splitlines() or ['', '']
    return status, [re.split('  +', row)[-1] for row in rows], total, error


def line_of(case: Case) -> str:
    """The sum of a case beside a good connection."""
    return sums(**{**case.counts, 'ok': 1 + case.counts.get('ok', 0)}, raw=case.raw)


def words_of_all_kinds(tools: Tools) -> None:
    """Rows, sums and statuses of each kind, also in files."""
    for case in CASES:
        verdicts = verdicts_on(tools.program, pcap(whole() + case.frames), case.words)
        words_in_files(tools, case, verdicts)
        rows = sorted((verdict.state, verdict.message) for verdict in verdicts if is_row(verdict))
        tools.want(case.what, (rows, counts_after(verdicts).words()),
                   (sorted([('ok', 'ok'), *zip(case.states, case.messages)]), line_of(case)))
        statuses = tuple(status_of(verdicts, allowed)
                         for allowed in (Allowed(), Allowed(losses=True),
                                         Allowed(not_checked=True)))
        tools.want(f'{case.what}, the status', statuses, case.wanted_statuses)
        tools.want(f'{case.what}, all allowed', status_of(verdicts, Allowed(True, True)),
                   int('refused' in case.states))


def words_in_files(tools: Tools, case: Case, verdicts: list[Verdict]) -> None:
    """The same in JSON and JUnit."""
    written = json.loads(json_of_verdicts(verdicts))
    rows = [row for row in written['rows'] if row['shows_calls']][1:]
    tools.want(case.what + ', rows', [(row['state'], row['message']) for row in rows],
               [*zip(case.states, case.messages)])
    named = {'judged': 0, **{word: case.counts.get(name, 0) for name, word in NAMES.items()}}
    named['ok'] += 1
    named['judged'] = named['ok'] + named['refused']
    raw = {name: int(number)
           for number, name in (word.split(' ', 1) for word in case.raw.split(', ') if word)}
    tools.want(case.what + ', counts', (written['version'], written['counts']),
               (2, {**named, 'raw': raw}))
    suite = xml.etree.ElementTree.fromstring(junit_of_verdicts(verdicts, Allowed()).decode())[0]
    properties = {item.get('name'): item.get('value') for item in suite.iter('property')}
    tools.want(case.what + ', properties', properties,
               {**{name: str(number) for name, number in named.items()}, 'raw': case.raw})
    failures = [(item.get('type'), item.get('message')) for item in suite.iter('failure')]
    wanted = [(None if state == 'refused' else state, message)
              for state, message in zip(case.states, case.messages) if state != 'ok']
    tools.want(case.what + ', failures', failures, wanted)
    skipped = suite.get('skipped'), len(list(suite.iter('skipped')))
    tools.want(case.what + ', skipped', skipped,
               (str(named['without calls']), named['without calls']))


def recordings_that_end_inside_a_frame(tools: Tools) -> None:
    """A recording that is cut is in part, and never refused."""
    content, ends = pcap(whole()), list(itertools.accumulate(
        (16 + len(frame) for frame in whole()), initial=24))
    cut = [(content[:size], f'(frame {number + 1})') for number in range(3, 15)
           for size in {ends[number] + 1, ends[number] + 17, ends[number + 1] - 1}]
    long = pcap(whole() + [frame for port in range(701, 760) for frame in whole(port=port)])
    cut += [(lzma.compress(long)[:-20], ''), (pcapng(whole())[:-1], '(frame 15)')]
    if shutil.which('zstd'):
        cut.append((subprocess.run(['zstd', '-cq'], input=long, stdout=subprocess.PIPE,
                                   check=True).stdout[:-20], ''))
    for recording, frame in cut:
        verdicts = verdicts_on(tools.program, recording)
        counts, told = counts_after(verdicts), f'in part: the recording ends inside a frame {frame}'
        tools.want(f'{len(recording)} bytes {frame}', (
            any(verdict.message.startswith(told) for verdict in verdicts), counts.refused,
            counts.errors * (not frame), status_of(verdicts, Allowed())), (True, 0, 0, 1))
    found = run_of(tools, '--allow-losses', '-', stdin=content[:-1])
    tools.want('allowed', found[0], 0)


def recordings_that_grow(tools: Tools) -> None:
    """With --growing the end of a frame or record may come yet; what is missing before may not."""
    content, frames = pcap(whole()), whole()
    lost = pcap(frames[:4] + frames[5:])[:-1]
    for what, recording, statuses in (('a frame', content[:-1], (1, 0)),
                                      ('a record', pcap(frames[:4]), (1, 0)),
                                      ('lost', lost, (1, 1)), ('whole', content, (0, 0))):
        tools.write('a.pcap', recording)
        found = [tools.tool('verdicts', *words, 'a.pcap') for words in ([], ['--growing'])]
        tools.want(what, tuple(answer[0] for answer in found), statuses)
        tools.want(f'{what}, said', found[1][2] != '', what != 'whole')


def ports_that_are_chosen(tools: Tools) -> None:
    """--port takes the connections that have one of the ports, and no datagrams of others."""
    frames = whole() + whole(port=701, service=900) + whole(port=702, service=20_048) + datagrams(4)
    for ports, found, left in (('900', 1, 0), ('2049,20048', 2, 1), ('2049', 1, 1),
                               ('701,702', 2, 0), ('5', 0, 0)):
        verdicts = verdicts_on(tools.program, pcap(frames), ['--port', ports])
        tools.want(ports, (status_of(verdicts, Allowed()), counts_after(verdicts).words()),
                   (int(left > 0 or not found), sums(found, left_out=left, errors=int(not found))))
    for ports in ('', '2049,', 'nfs', '0', '65536', '-1', '2049,2049'):
        try:
            tools.want(f'no ports: {ports}', port_numbers(ports), 'refused')
        except argparse.ArgumentTypeError as refused:
            tools.want(f'no ports: {ports}', str(refused),
                       f'no ports: {ports} (as in 2049,20048)')
    tools.write('a.pcap', pcap(frames))
    lines = tools.tool('verdicts', '-q', '--port', '5,6', 'a.pcap')[1].splitlines()
    tools.want('none', lines[0].rpartition('  ')[2],
               'none of 3 connections has port 5, 6; servers have 900, 2049, 20048')


def outer(content: bytes, protocol: int = 17) -> bytes:
    """What is carried between the ends of a tunnel."""
    return datagram('198.51.100.1', '198.51.100.2', content, protocol)


def in_tunnels(hosts: tuple[str, str]) -> dict[str, list[bytes]]:
    """The frames of a connection in each kind of tunnel."""
    frames, kind, number = whole(hosts=hosts), *((0x86dd, 41) if ':' in hosts[0] else (0x0800, 4))
    inner = [frame[14:] for frame in frames]
    carried = {'IP in IP': [outer(one, number) for one in inner],
               'GRE': [outer(in_gre(kind, one), 47) for one in inner],
               'GRE with a key': [outer(in_gre(kind, one, b'abcd', b'efgh'), 47) for one in inner],
               'GRE of Ethernet': [outer(in_gre(0x6558, frame), 47) for frame in frames],
               'VXLAN': [outer(in_vxlan(frame)) for frame in frames],
               'VXLAN at the port of Linux': [outer(in_vxlan(frame, 8472)) for frame in frames],
               'Geneve': [outer(in_geneve(0x6558, frame, bytes(8))) for frame in frames],
               'Geneve of IP': [outer(in_geneve(kind, one)) for one in inner], 'VXLAN in IPv6': [
                   datagram('2001:db8::1', '2001:db8::2', in_vxlan(frame), 17) for frame in frames],
               'VXLAN in GRE': [outer(in_gre(0x0800, outer(in_vxlan(frame))), 47)
                                for frame in frames]}
    return {'MPLS': [*map(in_labels, inner)], 'PPPoE': [*map(in_session, inner)],
            **{name: [*map(ethernet, some)] for name, some in carried.items()}}


def tunnels(tools: Tools) -> None:
    """Connections in tunnels are taken like others."""
    for hosts in ((CLIENT, SERVER), (CLIENT_6, SERVER_6)):
        for what, recorded in in_tunnels(hosts).items():
            tools.told(what, pcap(recorded), [ALL], [])


def what_hides_in_others(tools: Tools) -> None:
    """What is not read is named: ESP, and many tunnels one in another."""
    secret = [ethernet(outer(bytes(99), 50)) for _ in range(112)]
    tools.told('ESP', pcap(whole() + secret), [ALL],
               ['not checked: 112 frames of ESP are not read; what is in them is not known'])
    tools.write('a.pcap', pcap(secret + [bytes(12) + b'\x08\x06' + bytes(28)]))
    tools.want('ESP alone', run_of(tools, 'a.pcap')[1],
               ['not checked: 112 frames of ESP are not read; what is in them is not known',
                'no connection to judge: 113 frames without TCP: 112 of ESP, 1 of ARP'])
    deep = whole()[4][14:]
    for _ in range(9):
        deep = outer(deep, 4)
    tools.told('many tunnels', pcap([*whole(), ethernet(deep)]), [ALL],
               ['not checked: 1 frame of many tunnels is not read; what is in it is not known'])
    tools.want('the kind 0',
               taken_of(pcap([bytes(14) + frame[14:] for frame in whole()])).connections, [])


# --- How much of two runs is compared ---

GETATTR, LOOKUP, RAW = 1, 3, 'NFSACL GETACL'


def calls(number: int = 3, name: bytes = b'x') -> Conversation:
    """LOOKUP of a file, which is there, and then GETATTR of it."""
    return conversation_of([
        (LOOKUP, dirop(b'top', name), ok(fh(name), post_op_attr(), post_op_attr())),
        *[(GETATTR, fh(name), ok(fattr(1, 5)))] * (number - 1)])


def lossy(port: int) -> list[bytes]:
    """A segment is missing, of a call and a half."""
    frames = connection_of(*calls(16), 8, port=port)
    return frames[:5] + frames[6:]


def refused(port: int) -> list[bytes]:
    asked, replies = calls()
    return connection_of(asked, [replies[0], success(2, word(77)), replies[2]], port=port)


def of_http(port: int) -> list[bytes]:
    talk = Talk(port, 80)
    return [*talk.opened(), talk.sent(0, b'GET / HTTP/1.1\r\n\r\n'),
            talk.sent(1, b'HTTP/1.1 200 OK\r\n\r\n'), *talk.closed()]


def with_acls(port: int) -> list[bytes]:
    """Calls of another program are beside those that are judged."""
    asked, replies = calls()
    more = call(8, NFSACL, 3, 1, fh(b'x') + word(0)), success(8, word(5))
    return connection_of([*asked, more[0]], [*replies, more[1]], port=port)


class Kind(NamedTuple):
    """A kind of connections: its frames from a port, its counts, and the option that allows it."""
    frames: Callable[[int], list[bytes]]
    counts: dict[str, int]
    allowed_by: str | None = ''


VERSION_4 = [call(1, NFS, 3, 0), call(2, NFS, 4, 1, b'compound')], [success(1), success(2)]
KINDS = {
    'whole': Kind(lambda port: connection_of(*calls(), port=port), {'ok': 1}),
    'lossy': Kind(lossy, {'in part': 1}, '--allow-losses'),
    # (one without a SYN)
    'without its calls': Kind(lambda port: [Talk(port).sent(1, stream(calls()[1]))],
                              {'left out': 1}, '--allow-losses'),
    'version 4': Kind(lambda port: connection_of(*VERSION_4, port=port), {'not checked': 1},
                      '--allow-not-checked'),
    'refused': Kind(refused, {'refused': 1}, None),
    'HTTP': Kind(of_http, {'left out': 1, 'without calls': 1}),
    'ACLs': Kind(with_acls, {'ok': 1, RAW: 1})}
OPTIONS = ('--allow-losses', '--allow-not-checked')


class Covers(Tools):
    """Runs of tools/compare on recordings of some connections."""

    def put(self, name: str, kinds: Sequence[str]) -> Counter[str]:
        """Writes a recording, and returns the counts that it has to have."""
        self.write(name, pcap(frame for port, kind in enumerate(kinds, 700)
                              for frame in KINDS[kind].frames(port)))
        counts = sum((Counter(KINDS[kind].counts) for kind in kinds), Counter[str]())
        return counts + Counter(judged=counts['ok'] + counts['refused'])

    def compare(self, *words: str) -> tuple[int, list[str], str]:
        status, out, error = self.tool('compare', *words)
        return status, out.splitlines(), error

    def compared(self, *words: str) -> tuple[int, list[str], ElementTree.Element, Node]:
        """The status, the lines, JUnit and the page of two runs. JSON is in `out.json`."""
        status, out, error = self.compare(*words, '--html', 'page.html', '--json', 'out.json',
                                          '--junit', 'out.xml', 'a', 'b')
        self.want(f'{words}: error', 'Traceback' in error, False)
        return status, out, self.xml('out.xml'), tree_of((self.read('page.html') or b'').decode())


def sums_in(counts: Counter[str]) -> str:
    return sums(counts['ok'], counts['in part'], counts['refused'], 0, counts['left out'],
                counts['not checked'], counts['without calls'], f'1 {RAW}' if counts[RAW] else '')


RUNS: list[tuple[Sequence[str], Sequence[str]]] = [
    (['whole'], ['whole']), (['whole', 'lossy', 'without its calls'], ['whole']),
    (['refused', 'whole', 'version 4'],) * 2, (['whole', 'HTTP'], ['whole', 'ACLs']),
    ([*KINDS],) * 2]


def the_counts_in_each_form(place: Covers) -> None:
    """The counts stand in text, JSON, JUnit and on the page."""
    for runs in RUNS:
        wanted = [place.put(name, kinds) for name, kinds in zip('ab', runs)]
        lines = [sums_in(counts) for counts in wanted]
        for words in ([], ['--mask', 'none', '--order', 'any']):
            _, out, suites, page = place.compared(*words)
            place.want(f'{runs} {words}: text',
                       [line for line in out if ' judged (' in line],
                       [f'both runs: {lines[0]}'] if lines[0] == lines[1] else [
                           f'{name} run: {line}' for name, line in zip(('first', 'second'), lines)])
            table = page.all('table', 'runs')[0]
            rows = {row[0]: row[1:] for row in table_of(table)}
            for at, (name, counts) in enumerate(zip(('first', 'second'), wanted)):
                found = place.json('out.json')['runs'][at]['counts']
                properties = Counter({
                    one.attrib['name'].removeprefix(f'{name} run: ').removeprefix('raw: '):
                    int(one.attrib['value']) for one in suites.iter('property')
                    if one.attrib['name'].startswith(name)})
                raw = rows.get('raw', ['nothing'] * 2)[at].replace(f'1 {RAW}', '1')
                cells = Counter({word: int(cell[at]) for word, cell in rows.items() if word in (
                    'judged', *(one for kind in KINDS.values() for one in kind.counts))})
                for form, said in (('JSON', Counter({**found, **found['raw'], 'raw': 0})),
                                   ('JUnit', properties),
                                   ('page', cells + Counter({RAW: int(raw == '1')}))):
                    place.want(f'{runs} {words}: {form}', +said, counts)


def words_and_statuses(place: Covers) -> None:
    """Each count decides verdict and status by its own option, in each form."""
    for name, kind in KINDS.items():
        place.put('a', ['whole', name])
        place.put('b', ['whole', name])
        is_whole = name == 'whole' or kind.allowed_by == ''
        word, look = ('same', 'same') if is_whole else ('same in part', 'part')
        others = [one for one in OPTIONS if one != kind.allowed_by]
        for allowed in ([[]] if is_whole else [[], others, [*OPTIONS]]):
            is_allowed = is_whole or kind.allowed_by in allowed
            wanted = 2 if name == 'refused' else 0 if is_allowed else 1
            status, out, suites, page = place.compared(*allowed)
            tags = {case.attrib['name']: [one.tag for one in case if one.tag != 'system-out']
                    for case in suites.iter('testcase')}
            place.want(f'{name} {allowed}', (
                status, out[1].partition(':')[0], place.json('out.json')['verdict'],
                [(one.classes, one.text()) for one in page.all('h1')],
                tags['the runs are the same'], [*tags.values()].count(['error'])),
                (wanted, word, word, [([look], f'The runs are the {word}')],
                 ['failure'] if wanted else [], 2 * (name == 'refused')))


def what_is_not_compared(place: Covers) -> None:
    """The verdict names how much of which run is not compared, and standard error says why."""
    for name in 'ab':
        place.put(name, ['refused', 'whole', 'version 4', 'without its calls', 'HTTP'])
    status, out, error = place.compare('--json', 'out.json', 'a', 'b')
    some = ('1 connection left out of the {0} run, 1 connection of the {0} run not checked, 1 '
            'connection of the {0} run refused')
    place.want('line', (status, out[1]), (2, 'same in part: 5 calls in 2 connections, '
                                          + ', '.join(map(some.format, ('first', 'second')))))
    for line in ('a: connection 1 server record 2 byte 24: BadEnum (frame 5)',
                 'a: connection 3 not checked: 1 of 2 calls (NFS version 4)'):
        place.want(line, line in error.splitlines(), True)
    rows = place.json('out.json')['runs'][0]['not_judged']
    place.want('rows', [(row['word'], row['connection']) for row in rows],
               [('refused', 1), ('not checked', 3), ('left out', None), ('left out', None)])


def reasons_with_a_semicolon(place: Covers) -> None:
    """A page says once, and whole, what is not compared."""
    place.write('a', pcap([*whole(), ethernet(outer(bytes(99), 50))]))
    place.write('b', pcap(whole()))
    _, out, _, page = place.compared()
    place.want('words', (page.texts('p')[0], page.texts('p', 'part')), (out[1], []))


def positions_beside_refused_connections(place: Covers) -> None:
    """What differs beside a refused connection has its position."""
    for name, mode in (('a', 0o644), ('b', 0o600)):
        asked, replies = calls()
        bodies = [(asked, [replies[0], success(2, word(77))]), (asked[:1], replies[:1]),
                  (asked, [*replies[:2], success(3, ok(fattr(1, 5, mode=mode)))])]
        place.write(name, pcap(frame for port, both in enumerate(bodies, 700)
                               for frame in connection_of(*both, port=port)))
    for words in ([], ['--order', 'strict'], ['--order', 'any']):
        status, out, _ = place.compare(*words, 'a', 'b')
        found = [line for line in out if line.startswith('GETATTR reply')]
        where = 'connection 3 server record 3 (frame 19)'
        place.want(f'{words}', (status, found),
                   (2, [f'GETATTR reply ?/x: {where} | {where}']))
    place.want('where they differ', place.compare('--order', 'strict', 'a', 'b')[1][1],
               'differ at connection 3 server record 3')


def nothing_to_compare(place: Covers) -> None:
    """A recording of which no call is taken is an error."""
    place.put('none', ['without its calls', 'HTTP'])
    place.put('whole', ['whole'])
    for first, second in (('none', 'none'), ('none', 'whole'), ('whole', 'none')):
        status, out, error = place.compare('--junit', 'out.xml', first, second)
        place.want(f'{first} {second}', (status, out, error.splitlines()[-1]),
                   (2, [], 'compare: nothing to compare: no call of none is taken'))
        place.want('junit', (place.read('out.xml') or b'').count(b'<error '), 1)
    place.write('cut', (TOP / 'examples/every_procedure.nfs3cap').read_bytes()[:300])
    place.want('a capture that is cut', place.compare('cut', 'cut')[:2], (2, []))


def recordings_that_end_early(place: Covers) -> None:
    """One that is cut is compared in part, and a damaged one has status 2."""
    content = pcap(KINDS['whole'].frames(700) + KINDS['whole'].frames(701))
    place.write('a', content[:-5])
    status, out, _ = place.compare('a', 'a')
    place.want('cut', (status, out[1].partition(':')[0]), (1, 'same in part'))
    place.want('allowed', place.compare('--allow-losses', 'a', 'a')[0], 0)
    place.write('a', content + b'\xff' * 16 + bytes(100))
    status, out, _ = place.compare('--allow-losses', 'a', 'a')
    place.want('damaged', (status, out[1].partition(':')[0]), (2, 'same in part'))

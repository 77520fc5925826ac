"""Tests of `tools/procedures`."""
import csv
import io
import itertools
import json
import re
from typing import Any, NamedTuple

from examples.messages import (
    AUTH_NONE, MOUNT, NFS, call, dirop, failed, fattr, fh, fragment, ok, opaque, post_op_attr,
    success, word)
from examples.packets import Talk, pcap

from .scripts import (
    Tools, connection_of, measured, stream, sums as sum_line, whole, write_faulty)

GETATTR, LOOKUP, MNT = 1, 3, 1  # by their numbers
HEADS = ['procedure', 'calls', 'again', 'replies', 'no reply', 'call bytes',
         'reply bytes', 'median ms', '99 % ms', 'most ms', 'mean ms', 'sum ms', 'longest', 'errors']
LONGEST = HEADS.index('longest')
ENDS = 'client 192.0.2.7:700, server 192.0.2.1:2049'
ATTRIBUTES = ok(fattr(1, 5))
MANY = 15_000


class Row(NamedTuple):
    """What a procedure should have, latencies in microseconds: ranks, mean and sum."""
    procedure: str
    counts: tuple[int, int, int, int]
    bytes: tuple[int, int]
    latencies: tuple[int, int, int, int, int] | None = None
    longest: str = '-'
    errors: dict[str, int] = {}

    def cells(self) -> list[str]:
        latencies = ['%d.%03d' % divmod(latency, 1_000)
                     for latency in self.latencies] if self.latencies else ['-'] * 5
        errors = ', '.join(f'{name} {number}' for name, number in self.errors.items()) or '-'
        return [self.procedure, *map(str, self.counts + self.bytes), *latencies,
                self.longest, errors]

    def cells_beside(self) -> list[str]:
        """The cells of a row about two recordings that have the same."""
        cells = self.cells()
        return [*cells[:LONGEST], *cells[LONGEST + 1:]]


def procedures(tools: Tools, *words: str,
               stdin: bytes | None = None) -> tuple[int, dict[str, list[list[str]]], str]:
    """The status, the rows of each table by its title, and standard error."""
    status, out, error = tools.tool('procedures', *words, stdin=stdin)
    blocks = [block.splitlines() for block in out.strip('\n').split('\n\n') if block]
    return status, {block[0]: [re.split('  +', line.strip()) for line in block[1:]]
                    for block in blocks}, error


def tables_of(tools: Tools, *words: str) -> list[dict[str, Any]]:
    tools.tool('procedures', '--json', 'x.json', *words)
    found: list[dict[str, Any]] = tools.json('x.json')['tables']
    return found


def rejected(xid: int, *words: int) -> bytes:
    """A reply that denies a call, for a reason."""
    return b''.join(map(word, (xid, 1, 1, *words)))


def size(*bodies: bytes) -> int:
    """The bytes of these records with their marks."""
    return len(stream(bodies))


def one_of_each(talk: Talk) -> tuple[list[bytes], list[Row]]:
    """A connection with a frame each microsecond, and what its procedures have."""
    calls = {1: call(1, NFS, 3, GETATTR, fh(b'a')),
             2: call(2, NFS, 3, LOOKUP, dirop(b'd', b'name')),
             3: call(3, NFS, 3, GETATTR, fh(b'b')),
             4: call(4, NFS, 3, 0), 5: call(5, 100000, 2, 3, bytes(16)),
             6: call(6, MOUNT, 3, MNT, opaque(b'/x')),
             7: call(7, NFS, 3, GETATTR, fh(b'c')), 8: call(8, 100000, 2, 4, b'')}
    replies = {1: success(1, ATTRIBUTES), 2: success(2, failed(2, post_op_attr())),
               3: success(3, failed(70)),
               5: b''.join((word(5), word(1), word(0), AUTH_NONE, word(3))),
               6: success(6, word(13)), 7: rejected(7, 1, 1),
               8: rejected(8, 0, 2, 2)}
    # Both sides in the order of the frames: 3 is sent again, and answered twice; 4 is not answered.
    order = [(0, 1), (0, 2), (1, 1), (1, 2), (0, 3), (0, 3), (1, 3), (1, 3), (0, 4), (0, 5), (1, 5),
             (0, 6), (1, 6), (0, 7), (1, 7), (0, 8), (1, 8)]
    frames = talk.opened() + [talk.sent(side, fragment((calls, replies)[side][number]))
                              for side, number in order]
    # GETATTR took 2 (frames 4 to 6), 2 (frames 8 to 10) and 1 (frames 17 to 18): 5, and 1.67 on the
    # average.
    rows = [Row('NULL', (1, 0, 0, 1), (size(calls[4]), 0)),
            Row('GETATTR', (4, 1, 4, 0),
                (size(calls[1], calls[3], calls[3], calls[7]),
                 size(replies[1], replies[3], replies[3], replies[7])),
                (2, 2, 2, 2, 5), '1:1 frame 4', {'NFS3ERR_STALE': 2, 'AUTH_BADCRED': 1}),
            Row('LOOKUP', (1, 0, 1, 0), (size(calls[2]), size(replies[2])),
                (2, 2, 2, 2, 2), '1:2 frame 5', {'NFS3ERR_NOENT': 1}),
            Row('MOUNT MNT', (1, 0, 1, 0), (size(calls[6]), size(replies[6])),
                (1, 1, 1, 1, 1), '1:7 frame 15', {'MNT3ERR_ACCES': 1}),
            Row('PORTMAP DUMP', (1, 0, 1, 0), (size(calls[8]), size(replies[8])),
                (1, 1, 1, 1, 1), '1:9 frame 19', {'RPC_MISMATCH': 1}),
            Row('PORTMAP GETPORT', (1, 0, 1, 0), (size(calls[5]), size(replies[5])),
                (1, 1, 1, 1, 1), '1:6 frame 13', {'PROC_UNAVAIL': 1})]
    return frames, rows


def counts_by_hand(tools: Tools) -> None:
    """Each column, each kind of error, and sums, of one connection and of two."""
    frames, rows = one_of_each(Talk())
    tools.write('a.pcap', pcap(frames + whole(port=701)))
    status, tables, error = procedures(tools, 'a.pcap')
    raw = '1 PORTMAP DUMP, 1 PORTMAP GETPORT'
    titles = [f'a.pcap: connection 1: {ENDS}: ok',
              f'a.pcap: connection 2: {ENDS.replace("700", "701")}: ok',
              'a.pcap in all: ' + sum_line(2, raw=raw, silent=1)]
    tools.want('titles', (status, list(tables), error, [table[0] for table in tables.values()]),
               (0, titles, '', [HEADS] * 3))
    calls, replies = (sum(row.bytes[side] for row in rows) for side in range(2))
    errors = {'NFS3ERR_STALE': 2, 'AUTH_BADCRED': 1, 'MNT3ERR_ACCES': 1, 'NFS3ERR_NOENT': 1,
              'PROC_UNAVAIL': 1, 'RPC_MISMATCH': 1}
    # The latencies of all are 2, 2, 1, 2, 1, 1 and 1: their sum is 10, and 1.43 is the average.
    every = Row('in all', (9, 1, 8, 1), (calls, replies), (1, 2, 2, 1, 10), '1:1 frame 4', errors)
    tools.want('the first', tables[titles[0]][1:], [row.cells() for row in (*rows, every)])
    # The 39 NULL calls are in the frames 24 to 28, and their replies in the frames 29 to 33.
    # (the first has the xid and the bytes of a call of the first connection)
    second, both = ([cells[:5] for cells in tables[title][1:]] for title in titles[1:])
    numbers = ['39', '1', '39', '0']
    tools.want('the second', second, [['NULL', *numbers], ['in all', *numbers]])
    tools.want('in all', both, [['NULL', '40', '1', '39', '1'],
                                *(row.cells()[:5] for row in rows[1:]),
                                ['in all', '48', '2', '47', '1']])
    status, tables, _ = procedures(tools, '--total', 'a.pcap')
    tools.want('--total', (status, list(tables)), (0, titles[2:]))
    status, tables, _ = procedures(tools, '--total', 'a.pcap', '-', stdin=pcap(whole()))
    last = tables[list(tables)[-1]]
    tools.want('two recordings', (list(tables)[-1], last[-1][1],
                                  [cells[LONGEST] for cells in last[1:3]]),
               ('all recordings: ' + sum_line(3, raw=raw, silent=1), '87',
                ['a.pcap 2:1 frame 24', 'a.pcap 1:1 frame 4']))


def ranks_of_latencies(tools: Tools) -> None:
    """The median is the lower of two; of 100 latencies the 99th is the last but one."""
    for number, median, p99 in ((1, 1, 1), (2, 1, 2), (3, 2, 3), (99, 50, 99), (100, 50, 99),
                                (101, 51, 100)):
        # All calls in one frame, and then each reply in a frame of its own, a microsecond after
        # another.
        talk = Talk()
        frames = [*talk.opened(),
                  talk.sent(0, stream(call(xid, NFS, 3, 0) for xid in range(number)))]
        frames += [talk.sent(1, fragment(success(xid))) for xid in reversed(range(number))]
        tools.write('a.pcap', pcap(frames))
        row = tables_of(tools, 'a.pcap')[0]['procedures'][0]
        tools.want(f'{number} latencies',
                   [row[name] for name in ('latencies', 'median_ns', 'p99_ns', 'most_ns')],
                   [number, 1_000 * median, 1_000 * p99, 1_000 * number])


def xids_that_come_again(tools: Tools) -> None:
    """A call with another handle is no retransmission, and has its reply."""
    names = 'calls', 'again', 'replies', 'unanswered', 'most_ns'
    bodies = {'a': (0, call(9, NFS, 3, GETATTR, fh(b'a'))),
              'b': (0, call(9, NFS, 3, GETATTR, fh(b'b'))), '<': (1, success(9, ATTRIBUTES))}
    for order, *wanted in (('a<b<', 2, 0, 2, 0, 1_000), ('abab<', 4, 2, 1, 1, 4_000),
                           ('aab<<<', 3, 1, 3, 0, 3_000), ('aaa', 3, 2, 0, 1, None)):
        talk = Talk()
        tools.write('a.pcap', pcap(talk.opened() + [
            talk.sent(side, fragment(body)) for side, body in map(bodies.__getitem__, order)]))
        row = tables_of(tools, 'a.pcap')[0]['procedures'][0]
        tools.want(order, [row[name] for name in names], wanted)


def judged_in_part(tools: Tools) -> None:
    """Titles, words and status are those of verdicts, and so are those of calls, in each form."""
    faulty, allowed = write_faulty(tools), ['--allow-losses', '--allow-not-checked']
    tools.write('first.pcap', pcap(whole()[:3] + whole()[4:]))
    tools.write('four.pcap', pcap(connection_of([call(1, NFS, 4, 1, bytes(8))],
                                                [success(1, bytes(8))])))
    for name, options in itertools.product((*faulty, 'first.pcap', 'four.pcap'), ([], allowed)):
        status, tables, error = procedures(tools, *options, name)
        judged, out, told = tools.tool('verdicts', *options, '--json', 'x.json', name)
        *verdicts, last = [line.split('  ')[-1].strip() for line in out.splitlines()[1:]]
        tools.want(f'{name}: what is told', (status, error), (judged, told))
        tools.want(f'{name}: verdicts', [verdict in title for verdict, title in zip(
            verdicts, tables)], [True] * len(verdicts))
        tools.want(f'{name}: sums', list(tables)[-1], f'{name} in all: {last}')
        listed, as_json, as_csv = (tools.tool('calls', *options, *form, name)
                                   for form in ([], ['--json'], ['--csv']))
        tools.want(f'calls of {name}', (
            listed[0], as_json[0], as_csv[0], listed[1].splitlines()[-1],
            as_csv[2].splitlines()[-1], json.loads(as_json[1])['counts']),
            (*[judged] * 3, last, last, tools.json('x.json')['counts']))
        tools.want(f'reasons of {name}', (
            listed[2].startswith(told),
            [row for row in verdicts if row != 'ok' and row not in listed[2]]), (True, []))
    _, tables, _ = procedures(tools, 'bad.pcap')
    title = next(title for title in tables if 'connection 2' in title)
    numbers = ['1', '0', '1', '0']
    tools.want('up to the fault',
               (title.rpartition('2049: ')[2], [cells[:5] for cells in tables[title][1:]]),
               ('server record 2 byte 0: NoCall, frame 13; counted up to there',
                [['NULL', *numbers], ['in all', *numbers]]))
    _, tables, _ = procedures(tools, 'worse.pcap')
    tools.want('no call before the fault',
               [table for title, table in tables.items() if 'counted up to there' in title], [[]])


def sorted_rows(tools: Tools) -> None:
    """The largest number is first, and the sum last, also in JSON and CSV."""
    tools.write('a.pcap', pcap(one_of_each(Talk())[0]))
    for column, order in (('procedure', 'NULL GETATTR LOOKUP MNT DUMP GETPORT'),
                          ('calls', 'GETATTR NULL LOOKUP MNT DUMP GETPORT'),
                          ('no-reply', 'NULL GETATTR LOOKUP MNT DUMP GETPORT'),
                          ('most', 'GETATTR LOOKUP MNT DUMP GETPORT NULL'),
                          ('sum', 'GETATTR LOOKUP MNT DUMP GETPORT NULL'),
                          ('errors', 'GETATTR LOOKUP MNT DUMP GETPORT NULL')):
        status, tables, _ = procedures(tools, '--total', '--sort', column, '--csv', 'x.csv',
                                       '--json', 'x.json', 'a.pcap')
        rows = csv.DictReader(io.StringIO((tools.read('x.csv') or b'').decode()))
        listed = tools.json('x.json')['tables'][0]['procedures']
        for form, names in (('text', [cells[0] for cells in [*tables.values()][0][1:-1]]),
                            ('CSV', [row['procedure'] for row in rows][:6]),
                            ('JSON', [row['procedure'] for row in listed[:-1]])):
            tools.want(f'{form} by {column}', (status, [re.split('[_ ]', name)[-1]
                                                        for name in names]), (0, order.split()))
    for group, rows_of_it in (('client', [('192.0.2.7', 9)]), ('path', [('?', 4), ('-', 3)])):
        _, tables, _ = procedures(tools, '--total', '--by', group, '--json', 'x.json', 'a.pcap')
        cells, *_ = tables.values()
        tools.want(group, (cells[0][0], [(one[0], int(one[1])) for one in cells[1:-1]][:2], [
            one[group] for one in tools.json('x.json')['tables'][0]['procedures']]), (
                group, rows_of_it, [one[0] for one in cells[1:]]))
    tools.want('another column', tools.tool('procedures', '--sort', 'colour', 'a.pcap')[0], 2)
    # Beside a recording with 39 calls of NULL these are first, and without them those of GETATTR.
    tools.write('b.pcap', pcap(whole()))
    _, out, _ = tools.tool('procedures', '--beside', '--sort', 'calls', 'a.pcap', 'b.pcap')
    tools.want('beside', [line.split()[0] for line in out.splitlines()[3:5]],
               ['NULL', 'GETATTR'])


def clock_that_goes_back(tools: Tools) -> None:
    """A reply with an earlier time has a negative latency, which is reported."""
    talk = Talk()
    messages = [(0, call(1, NFS, 3, 0)), (1, success(1)), (0, call(2, NFS, 3, 0)), (1, success(2))]
    frames = talk.opened() + [talk.sent(side, fragment(body)) for side, body in messages]
    # The frame of the first reply gets the time of the first frame, 4 microseconds before its own.
    recording = pcap(frames)
    at = 24 + sum(16 + len(frame) for frame in frames[:4])
    tools.write('a.pcap', recording[:at + 4] + bytes(4) + recording[at + 8:])
    status, tables, _ = procedures(tools, 'a.pcap')
    title = f'a.pcap: connection 1: {ENDS}: ok; the clock went back: 1 latency is negative'
    tools.want('title', (status, list(tables)[0]), (0, title))
    tools.want('cells', tables[title][1][7:LONGEST + 1],
               ['-0.003', '0.001', '0.001', '-0.001', '-0.002', '1:2 frame 6'])
    tools.want('JSON', [row['negative'] for row in tables_of(tools, 'a.pcap')[0]['procedures']],
               [1, 1])


def side_by_side(tools: Tools) -> None:
    """A number that differs has both values; so has what one recording has alone."""
    frames, rows = one_of_each(Talk())
    tools.write('a.pcap', pcap(frames))
    # without the last raw call, and with 39 NULL calls
    tools.write('b.pcap', pcap([*frames[:-2], *whole(port=701)]))
    status, out, error = tools.tool('procedures', '--beside', 'a.pcap', 'b.pcap')
    tools.want('heads', (status, out.splitlines()[:2], error), (0, [
        'A: a.pcap: ' + sum_line(1, raw='1 PORTMAP DUMP, 1 PORTMAP GETPORT', silent=1),
        'B: b.pcap: ' + sum_line(2, raw='1 PORTMAP GETPORT', silent=1)], ''))
    cells = [re.split('  +', line.strip()) for line in out.splitlines()[2:]]
    tools.want('rows', [row[0] for row in cells], ['procedure', *(row.procedure for row in rows),
                                                   'in all'])
    null, *others, last, same, _ = cells[1:]
    own, nulls, gone = rows[0].bytes[0], 39 * size(call(1, NFS, 3, 0)), rows[-2]
    tools.want('what grew', (null[:7], null[7].startswith('- -> 0.00')), (
        ['NULL', '1 -> 40', '0 -> 1', '0 -> 39', '1', f'{own} -> {own + nulls} (+3900 %)',
         f'0 -> {39 * size(success(1))}'], True))
    tools.want('what is the same', [*others, same],
               [row.cells_beside() for row in [*rows[1:-2], rows[-1]]])
    tools.want('what is gone', last, [
        gone.procedure, '1 -> 0', '0', '1 -> 0', '0',
        *(f'{number} -> 0 (-100 %)' for number in gone.bytes), *['0.001 -> -'] * 5,
        'RPC_MISMATCH 1 -> 0'])
    tools.write('c.pcap', pcap(whole()[:4] + whole()[5:]))
    status, out, _ = tools.tool('procedures', '--beside', 'a.pcap', 'c.pcap')
    tools.want('in part', (status, out.splitlines()[1]),
               (1, 'c.pcap: connection 1: ok in part: 30 calls, 344 bytes missing'))
    for words in (('a.pcap',), ('a.pcap', 'b.pcap', 'c.pcap')):
        tools.want('not two', tools.tool('procedures', '--beside', *words)[0], 2)


def full_name(name: str) -> str:
    return name if 'PORTMAP' in name else {'MOUNT MNT': 'MOUNTPROC3_MNT'}.get(
        name, f'NFSPROC3_{name}')


def files_for_others(tools: Tools) -> None:
    """CSV has the rows of the tables, JSON the verdicts, too."""
    frames, rows = one_of_each(Talk())
    tools.write('a,"b"\n.pcap', pcap(frames))
    status, _, error = tools.tool('procedures', '--csv', 'x.csv', '--json', 'x.json',
                                  'a,"b"\n.pcap')
    found = list(csv.DictReader(io.StringIO((tools.read('x.csv') or b'').decode())))
    whose = 'recording', 'connection', 'client', 'procedure'
    tools.want('whose', (status, error, [tuple(row[name] for name in whose) for row in found]),
               (0, '', [('a,"b"\\x0a.pcap', connection, client, full_name(row.procedure))
                        for connection, client in (('1', '192.0.2.7:700'), ('', ''))
                        for row in rows]))
    calls, replies = rows[1].bytes
    tools.want('a row', ' '.join(f'{key}={value}' for key, value in found[1].items()
                                 if key not in whose),
               f'server=192.0.2.1:2049 calls=4 again=1 replies=4 unanswered=0 call_bytes={calls} '
               f'reply_bytes={replies} errors=NFS3ERR_STALE=2 AUTH_BADCRED=1 latencies=3 '
               'median_ns=2000 p99_ns=2000 most_ns=2000 mean_ns=1667 sum_ns=5000 '
               'most_position=connection 1 client record 1 most_frame=4 negative=0')
    written = tools.json('x.json')
    tools.want('JSON', ([verdict['state'] for verdict in written['verdicts']],
                        [table['connection'] for table in written['tables']],
                        written['tables'][0]['procedures'][1]['errors']),
               (['ok'], [1, None], {'NFS3ERR_STALE': 2, 'AUTH_BADCRED': 1}))


def many_calls(tools: Tools) -> None:
    """Memory of tools/procedures and tools/calls, and processor time beside tools/verdicts."""
    talk, spent = Talk(), list[float]()
    frames = talk.opened()
    for xid in range(MANY):
        asked = call(xid, NFS, 3, GETATTR, fh(b'%032d' % (xid % 5_000)))
        frames += [talk.sent(0, fragment(asked)), talk.sent(1, fragment(success(xid, ATTRIBUTES)))]
    tools.write('a.pcap', pcap(frames))
    for name, most, *words in (('verdicts', 48), ('procedures', 48), ('calls', 40),
                               ('calls', 40, '--sort', 'latency')):
        status, lines, seconds, memory = measured(tools, name, '--program', tools.program, *words,
                                                  'a.pcap')
        spent.append(seconds)
        tools.want(name, (status, memory <= most << 20 or memory), (0, True))
        if name == 'procedures':
            tools.want('what it printed', lines[-1].split()[2:6], [f'{MANY}', '0', f'{MANY}', '0'])
    tools.want('what is listed', (lines[-2], len(lines)), (f'{MANY:,} exchanges', MANY + 3))
    tools.want('processor time', (spent[1] <= 4 * spent[0], max(spent) <= 8 * spent[0]) == (
        True, True) or spent, True)

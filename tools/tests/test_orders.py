"""Tests of tools/compare on runs whose calls come in another order, and of what writes them so."""
import pathlib
import random
from collections import Counter
from collections.abc import Sequence

from examples import messages
from examples.messages import (
    NFS, call, dirop, fattr, fh, hyper, ok, opaque, post_op_attr, sattr, success, wcc, word)
from examples.packets import Talk, pcap
from tests.shared.traffic import Names, Traffic

from ..nfs3tools.comparison.exchanges.reordered import Numbered, Rewriting, write_in_order
from ..nfs3tools.comparison.values.classes import (
    Way, default_mask, following, in_any_order, mask_of)
from ..nfs3tools.recordings.taken import take
from ..nfs3tools.shared.programs import Died
from .comparisons import Comparisons, Conversation, conversation_of
from .scripts import connection_of, measured

GETATTR, LOOKUP, WRITE, CREATE, REMOVE = 1, 3, 7, 8, 12


def asked_again(number: int) -> Conversation:
    return conversation_of([
        (LOOKUP, dirop(b'top', b'f'), ok(fh(b'f'), post_op_attr(), post_op_attr())),
        *[(GETATTR, fh(b'f'), ok(fattr(1, 5)))] * number])


def calls_that_only_ask(place: Comparisons) -> None:
    """GETATTR of one run alone is left out in any order, and listed, but not with --extra none."""
    place.put_both(asked_again(4), asked_again(1))
    asked, where = '3 GETATTR ?/f', ', first: connection 1 client record '
    out = place.says('left out', 0, 'same but for calls left out', '--order', 'any')
    every = [line for line in place.compare('--order', 'any', '--all', 'a', 'b')[1]
             if line.startswith('left out of the first run: 1 ')]
    place.want('listed', ('; left out: 3 GETATTR of the first run' in out[1],
                          out[2].startswith(f'left out of the first run: {asked}{where}'),
                          out[3].endswith('; left out: 3 GETATTR only in the first run'),
                          len(every), len({*every})), (True, True, True, 3, 3))
    status, out, _ = place.compare('b', 'a')
    place.want('of the second', (status, '; left out: 3 GETATTR of the second run' in out[1]),
               (1, True))
    out = place.says('none', 1, 'differ in any order', '--order', 'any', '--extra', 'none')
    found = f'only in the first run: 3 calls of GETATTR ?/f{where}'
    place.want('none, listed', ([line.startswith(found) for line in out].count(True),
                                out[-1].endswith('; 3 only in the first run')), (1, True))


def seen_in_the_middle(place: Comparisons) -> None:
    """Sizes in replies to WRITE are compared in captures, unless masked."""
    def run(*sizes: int) -> Conversation:
        data = [opaque(b'%d' % number) for number in range(4)]
        order = sorted(range(4), key=lambda number: sizes[number])
        return conversation_of((WRITE, fh(b'a') + hyper(8 * at) + word(1) + word(0) + data[at],
                         ok(wcc(sizes[at] - 8, fattr(1, 5, sizes[at])), word(1), word(2),
                            b'verifier')) for at in order)
    place.put_both(run(8, 16, 24, 32), run(16, 8, 24, 32))
    place.want('masked', place.compare('--mask=+wcc', 'a', 'b')[1][1],
               'same in another order: 4 calls; 1 reordered; 1 reply reordered')
    for words in ([], ['--mask=-wcc']):
        out = place.says(f'compared {words}', 1, 'differ in any order', *words, '--order', 'any')
        place.want(f'found {words}', '  - obj after.size=8' in out, True)


def masks_of_any_order(place: Comparisons) -> None:
    """Classes that are named stay as they are, and so does a whole mask."""
    relaxed = dict.fromkeys(('ids', 'createverfs', 'cookies', 'wcc'), Way.ZERO)
    masks = in_any_order(None)
    place.want('default', masks, [default_mask(), {**default_mask(), **relaxed}])
    place.want('with raw bodies', in_any_order(None, True),
               [masks[0], {**masks[1], 'raw': Way.ZERO}])
    place.want('following', [following(None), following('-ids'), following('none')], [
        {'ids', 'fsids', 'cookies', 'createverfs'}, {'fsids', 'cookies', 'createverfs'}, set()])
    place.want('raw bodies that are named', in_any_order('-raw', True)[-1].get('raw'), None)
    for words in ('times', 'none', 'ids=number,times'):
        place.want(words, in_any_order(words), [mask_of(words)])
    place.want('named', [mask['ids'] for mask in in_any_order('+ids=number')], [Way.NUMBER] * 2)
    place.want('without', ['ids' in mask for mask in in_any_order('-ids')], [False] * 2)


def verifiers_that_repeat(place: Comparisons) -> None:
    """Only the class whose values repeat follows its objects."""
    def run(order: Sequence[int], verifiers: Sequence[bytes],
            cookies: Sequence[int]) -> Conversation:
        made = [(CREATE, dirop(b'top', b'f%d' % at) + messages.how(2, verifiers[at]),
                 ok(messages.made(None, None, wcc()))) for at in order]
        return conversation_of(made + [
            (17, fh(b'folder %d' % at) + bytes(16) + word(512) + word(4096), ok(messages.entries(
                fattr(2, 1), bytes(8), [messages.entryplus(1, b'x', cookies[at])], is_end=True)))
            for at in order])
    one, other = (b'verify%02d', b'other-%02d')
    plain = [one % number for number in range(3)], [other % number for number in range(3)]
    for name, second, cookies, more in (
            ('createverfs', [other % 0, other % 1, other % 0], [7, 8, 9], 'createverfs'),
            ('cookies', plain[1], [7, 8, 7], 'cookies'),
            ('both', [other % 0] * 3, [7, 7, 7], 'cookies and createverfs')):
        place.put_both(run((0, 1, 2), plain[0], [4, 5, 6]), run((1, 0, 2), second, cookies))
        status, out, error = place.compare('--order', 'any', 'a', 'b')
        place.want(name, (status, out[1].rpartition('; ')[2], error),
                   (0, f'{more} follow their objects', ''))
        place.says(f'{name}: compared if they are named', 1, 'differ in any order',
                   '--mask=+createverfs=number,+cookies=number', '--order', 'any')


def raw_bodies_in_any_order(place: Comparisons) -> None:
    """Raw bodies are compared in any order, or their lengths if masked."""
    def run(order: Sequence[int], body: bytes) -> Conversation:
        return ([call(xid, messages.NFSACL, 3, 1, b'acl %d' % xid + body) if xid
                 else call(xid, NFS, 3, 0) for xid in order],
                [success(xid, b'answer %d' % xid + body if xid else b'') for xid in order])
    place.put_both(run((0, 1, 2), b'1234'), run((0, 2, 1), b'5678'))
    place.says('compared', 1, 'differ in any order', '--order', 'any')
    place.want('asked for', place.compare('--mask', '+raw', '--order', 'any', 'a', 'b')[0], 0)
    place.want('kept', place.compare('--mask=-raw', '--order', 'any', 'a', 'b')[0], 1)
    place.put('b', run((0, 2, 1), b'12345678'))
    out = place.says('lengths', 1, 'differ in any order', '--mask', '+raw', '--order', 'any')
    place.want('said', any('only the lengths count' in line for line in out), True)


def answers_of_mount(place: Comparisons) -> None:
    """No order explains flavors of MNT, or what EXPORT lists, that differ."""
    asked = [call(1, messages.MOUNT, 3, 1, opaque(b'/x')), call(2, messages.MOUNT, 3, 5),
             call(3, NFS, 3, REMOVE, dirop(b'top', b'f'))]
    for name, flavor, group in (('a', 1, b'one'), ('b', 6, b'one'), ('c', 1, b'two')):
        exported = messages.exports([(b'/x', [group])])
        mounted = ok(fh(b'top'), messages.array([word(flavor)]))
        place.write(name, pcap(connection_of(
            asked, [success(1, mounted), success(2, exported), success(3, ok(wcc()))], 3)))
    for name in 'bc':
        status, out, error = place.compare('--order', 'any', 'a', name)
        place.want(name, (status, out[1][:19], error), (1, 'differ in any order', ''))


def values_that_stand_for_others(place: Comparisons) -> None:
    """Equal values that correspond to others elsewhere are marked so."""
    def run(*verifiers: bytes) -> Conversation:
        return conversation_of((CREATE, dirop(b'top', b'f%d' % at) + messages.how(2, verifier),
                                ok(messages.made(None, None, wcc())))
                               for at, verifier in enumerate(verifiers))
    a, b, c = (letter * 8 for letter in (b'a', b'b', b'c'))
    where = 'connection 1 client record 3 | connection 1 client record 3'
    for first, second, lines in (
            (run(a, b, b), run(a, c, b), [
                f'CREATE ?/f2: {where}',
                f'  = createverf={b.hex()}    # elsewhere {b.hex()} of the first run is {c.hex()} '
                'of the second']),
            (run(a, b, b, b), run(a, c, b, b), [
                '2 messages have values that are equal in both runs, and that correspond to others '
                f'elsewhere, first: {where}: createverf of CREATE 2'])):
        place.put_both(first, second)
        status, out, _ = place.compare('a', 'b')
        place.want(f'{len(lines)}', (status, out[2:2 + len(lines)]), (1, lines))
    place.want('several', len(out), 5)
    for words, number in ((['a', 'b'], 0), (['--all', 'a', 'b'], 2), (['--brief', 'a', 'b'], 0)):
        out = place.compare(*words)[1]
        values = [line.partition('=')[2] for line in out if line.startswith(('  - ', '  + '))]
        place.want(f'{words}', (sum(line.startswith('  = ') for line in out),
                                len(values) == len({*values})), (number, True))


def orders_of_replies(place: Comparisons) -> None:
    """Two captures that differ in the order of replies alone."""
    calls = [call(xid, NFS, 3, GETATTR, fh(b'file %d' % xid)) for xid in range(1, 8)]
    replies = [success(xid, ok(fattr(1, xid))) for xid in range(1, 8)]
    place.put_both((calls, replies), (calls, [replies[1], replies[0], *replies[2:]]))
    line = '7 of 7 calls matched; 1 reply reordered'
    place.wants('by default', 1, [line])
    place.wants('any', 0, [line], '--order', 'any')
    place.want('told', place.compare('a', 'b')[1][1],
               'same in another order: 7 calls; 1 reply reordered')
    place.wants('strictly', 1,
                ['connection 1', '  1 of 7 replies of the connection come in another order',
                 line], '--order', 'strict')


def one_name_for_many_files(place: Comparisons) -> None:
    """Frames say which file of a name came first, also over connections."""
    def run(seed: int) -> bytes:
        chance = random.Random(seed)
        handles, talks, xids = [chance.randbytes(28) for _ in range(40)], [
            Talk(700 + number) for number in range(3)], iter(range(1, 999))
        frames = [frame for talk in talks for frame in talk.opened()]
        def said(procedure: int, arguments: bytes, results: bytes) -> None:
            talk, xid = chance.choice(talks), next(xids)
            frames.append(talk.sent(0, messages.fragment(call(xid, NFS, 3, procedure, arguments))))
            frames.append(talk.sent(1, messages.fragment(success(xid, ok(results)))))
        for number, handle in enumerate(handles):
            data = b'journal %d' % number
            said(CREATE, dirop(b'top', b'journal') + word(0) + sattr(),
                 messages.made(handle, None, wcc()))
            said(WRITE, fh(handle) + hyper(0) + word(len(data)) + word(2) + opaque(data),
                 wcc() + word(len(data)) + word(2) + b'verifier')
            if number % 3 == 0:
                said(14, dirop(b'top', b'journal') + dirop(b'top', b'kept %d' % number),
                     wcc() + wcc())
                said(LOOKUP, dirop(b'top', b'kept %d' % number),
                     fh(handle) + post_op_attr(fattr(1, number)) + post_op_attr())
            else:
                said(REMOVE, dirop(b'top', b'journal'), wcc())
        return pcap([*frames, *(frame for talk in talks for frame in talk.closed())])
    for seed in range(3):
        place.write('a', run(seed))
        place.write('b', run(seed + 100))
        place.says(f'seed {seed}', 0, 'same in another order:', '--order', 'any')


def many_in_another_order(place: Comparisons) -> None:
    """What many calls in another order cost: three times what was measured."""
    def run(order: Sequence[int]) -> Conversation:
        return conversation_of((LOOKUP, dirop(b'top', b'file %d' % at), ok(
            fh(b'handle %d' % at), post_op_attr(fattr(1, at)), post_op_attr())) for at in order)
    place.put_both(run(range(8_000)), run(sorted(range(8_000), key=lambda number: number ^ 5)))
    status, lines, seconds, memory = measured(place, 'compare', '--program', place.program,
                                              '--order', 'any', 'a', 'b')
    place.want('same', (status, lines[1][:36]), (0, 'same in another order: 8,000 calls; '))
    place.want(f'{seconds} seconds', seconds < 8, True)
    place.want(f'{memory} bytes', memory < 80e6, True)


Said = tuple[bytes, tuple[bytes, ...]]  # a call and its replies, without their xids


def one_of(connection: int, record: int, replies: Sequence[int]) -> Numbered:
    return Numbered(connection, [record], replies)


def exchanges_of(connections: Sequence[Conversation]) -> list[tuple[Numbered, Said]]:
    """The exchanges of a capture: replies belong to the call with their xid, by turns."""
    out = []
    for number, (calls, replies) in enumerate(connections, 1):
        answers: dict[bytes, list[tuple[int, bytes]]] = {}
        for record, reply in enumerate(replies, 1):
            answers.setdefault(reply[:4], []).append((record, reply[4:]))
        left = Counter(body[:4] for body in calls)
        for record, body in enumerate(calls, 1):
            left[body[:4]] -= 1
            waiting = answers.get(body[:4], [])
            own = waiting if not left[body[:4]] else waiting[:1]
            answers[body[:4]] = waiting[len(own):]
            out.append((one_of(number, record, [at for at, _ in own]),
                        (body[4:], tuple(said for _, said in own))))
    return out


def written(place: Comparisons, chosen: Sequence[Numbered],
            left_out: Sequence[Numbered]) -> list[Said]:
    """Writes the capture `a` in an order, and returns what was written. Its xids are the turns."""
    path = pathlib.Path(place.folder)
    with take(str(path / 'a')) as taken:
        write_in_order(taken, chosen, left_out, str(path / 'ordered'), Rewriting)
    with take(str(path / 'ordered')) as taken:
        (connection,) = taken.connections
        calls, replies = ([record.body for record in stream.records()]
                          for stream in (connection.client, connection.server))
    place.want('xids', [int.from_bytes(body[:4], 'big') for body in calls],
               list(range(1, len(chosen) + 1)))
    return [said for _, said in exchanges_of([(calls, replies)])]


def shuffled(chance: random.Random, seed: int) -> tuple[list[Conversation],
                                                        list[tuple[Numbered, Said]]]:
    connections = Traffic(seed, Names.drawn(chance)).connections
    known = exchanges_of(connections)
    chance.shuffle(known)
    return connections, known


def runs_are_written_anew(place: Comparisons) -> None:
    """What is written are the chosen exchanges in their order."""
    for seed in range(60):
        chance = random.Random(seed)
        connections, known = shuffled(chance, seed)
        place.put('a', *connections)
        number = chance.randrange(len(known) + 1)
        chosen, left_out = known[:number], known[number:]
        place.want(f'seed {seed}', written(place, [one for one, _ in chosen],
                                           [one for one, _ in left_out]),
                   [said for _, said in chosen])
        if chosen:
            place.want(f'seed {seed} is a capture', place.run('check', 'ordered')[0], 0)


def records_of_several_fragments(place: Comparisons) -> None:
    """A record is written as one fragment."""
    bodies = [call(xid, NFS, 3, 0) for xid in (7, 8)]
    stream = b''.join(messages.fragment(body[:4], is_last=False)
                      + messages.fragment(b'', is_last=False) + messages.fragment(body[4:])
                      for body in bodies)
    place.write('a', b''.join(messages.version_1([([messages.chunk(stream)], [])])))
    found = written(place, [one_of(1, 2, []), one_of(1, 1, [])], [])
    place.want('written', found, [(body[4:], ()) for body in reversed(bodies)])
    both = messages.fragment(word(1) + bodies[1][4:]) + messages.fragment(word(2) + bodies[0][4:])
    place.want('fragments', place.read('ordered'),
               b''.join(messages.version_1([([messages.chunk(both)], [])])))


def orders_that_are_none(place: Comparisons) -> None:
    """Exchanges twice, missing or not there, and replies of others."""
    place.put('a', ([call(xid, NFS, 3, 0) for xid in (7, 8)], [success(7), success(8)]))
    first, second = one_of(1, 1, [1]), one_of(1, 2, [2])
    orders = {'twice': [first, second, first], 'missing': [first],
              'not there': [first, second, one_of(1, 3, [])],
              'a reply is missing': [first, one_of(1, 2, [])],
              'a reply twice': [first, one_of(1, 2, [2, 2])],
              'replies of others': [one_of(1, 1, [2]), one_of(1, 2, [1])],
              'record 0': [first, second, one_of(1, 0, [])]}
    for name, order in orders.items():
        try:
            written(place, order, [])
            place.want(name, 'written', 'refused')
        except Died as died:
            place.want(name, type(died).__name__, 'WrongOrder')
    place.want('left out', written(place, [second], [first]),
               [(call(8, NFS, 3, 0)[4:], (success(8)[4:],))])

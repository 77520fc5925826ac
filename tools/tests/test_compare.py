"""Tests of tools/compare on made runs that differ in a known way, and of what is accepted."""
import hashlib
import json
import random
import re
import time
from array import array
from typing import Any

from examples import messages
from examples.messages import (
    NFS, REG, auth_sys, call, dirop, fattr, fh, guard, hyper, made, ok, opaque, post_op_attr, sattr,
    success, wcc, word)
from examples.packets import Talk, pcap

from ..nfs3tools.comparison.exchanges.matching import aligned, blocks_of, increasing
from ..nfs3tools.comparison.values.classes import CLASSES, default_mask, mask_text
from .comparisons import Comparisons, Conversation, Exchange, conversation_of
from .scripts import connection_of, measured

# What finds the names of items in the lines that tell of differences, without whose they are.
NAMES = r'^  [-+] (?:[^=]*\.)?(\w+)='


def sequences_brought_together(place: Comparisons) -> None:
    """Pairs and blocks are equal, increase on both sides, and are as few as can be."""
    chance = random.Random(5)
    for _ in range(300):
        first, second = (array('q', [chance.randrange(6) for _ in range(chance.randrange(90))])
                         for _ in range(2))
        pairs, blocks = aligned([*first], [*second]), blocks_of(first, second)
        place.want('equal', ([first[at] == second[to] for at, to in pairs],
                             [first[at:at + size] == second[to:to + size] and size > 0
                              for at, to, size in blocks]),
                   ([True] * len(pairs), [True] * len(blocks)))
        place.want('each once, in order', all(
            at < later and to < other for (at, to), (later, other) in zip(pairs, pairs[1:])), True)
        place.want('blocks in order', all(
            one.at + one.size <= after.at and one.to + one.size <= after.to
            for one, after in zip(blocks, blocks[1:])), True)
    some = list(range(40))
    chance.shuffle(some)
    place.want('all of equal ones', aligned(some, some), [(at, at) for at in range(40)])
    place.want('one more', aligned(some, some[:20] + [99] + some[20:]),
               [(at, at + (at >= 20)) for at in range(40)])
    place.want('increasing', increasing(list(enumerate([3, 1, 2, 5, 4]))), [(1, 1), (2, 2), (4, 4)])


def sequences_in_blocks(place: Comparisons) -> None:
    """Blocks are as large as can be."""
    many = array('q', range(10_000))
    other = many[:2_000] + array('q', [-1, -2]) + many[2_000:5_000] + many[5_001:9_000] + array(
        'q', [-3]) + many[9_001:]
    place.want('blocks', blocks_of(many, other),
               [(0, 0, 2_000), (2_000, 2_002, 3_000), (5_001, 5_002, 3_999), (9_001, 9_002, 999)])
    place.want('nothing in common', blocks_of(many[:100], many[5_000:]), [])
    far = array('q', range(-900, 0))
    place.want('far on',
               [(block.at, block.to) for block in blocks_of(many, many[:10] + far + many[10:])],
               [(0, 0), (10, 910)])


def retransmissions_are_linear(place: Comparisons) -> None:
    """A call that was sent and answered 10,000 times is one exchange."""
    def run(statuses: list[int], more: int) -> Conversation:
        calls = [call(7, NFS, 3, 1, fh(b'a'))] * len(statuses) + [
            call(8 + at, NFS, 3, 4, fh(b'b') + word(1)) for at in range(more)]
        return calls, [success(7, messages.failed(status)) for status in statuses]
    statuses = [5] * 10_000
    place.put_both(run(statuses, 0), run([*statuses[:-1], 13], 2_000))
    begin = time.monotonic()
    status, out, error = place.compare('--order', 'strict', 'a', 'b')
    place.want('seconds', time.monotonic() - begin < 20, True)
    place.want('verdict', (status, out[-1], error),
               (1, '1 of 2,001 calls matched; 2,000 only in the second run', ''))
    place.want('found', '  1 reply in the first run, 2 in the second' in out, True)


def words_of_masks(place: Comparisons) -> None:
    """The first line says what is masked; words that are none are refused."""
    def masked(*words: str) -> set[str]:
        return {*place.compare(*words, 'a', 'b')[1][0].removeprefix('masked: ').split(',')}
    place.put_both(*[([call(1, NFS, 3, 0)], [success(1)])] * 2)
    usual = masked()
    for words, wanted in (('none', {'none'}), ('times,ids', {'times=zero', 'ids=number'}),
                        ('ids=zero', {'ids=zero'}), ('+times', usual),
                        ('-times', usual - {'times=zero'}), ('+owners', usual | {'owners=number'}),
                        ('+raw', usual | {'raw=zero'})):
        place.want(words, masked(f'--mask={words}'), wanted)
    place.want('by default', {'times=zero', 'raw=zero'} & usual, {'times=zero'})
    for bad in ('nothing', 'times=half', '+raw=number'):
        status, out, error = place.compare('--mask', bad, 'a', 'b')
        place.want(bad, (status, out, 'error' in error), (2, [], True))


# --- Made runs ---

FILES = (b'/', b'x', b'y')


class Made:
    """One run of a fixed script. What is its own comes out of a seed."""

    def __init__(self, seed: int) -> None:
        chance = random.Random(seed)
        self.handles = [chance.randbytes(chance.choice((16, 28, 32))) for _ in FILES]
        self.ids = chance.sample(range(2, 1 << 40), len(FILES))
        self.fsid, self.time, self.space = chance.randrange(1 << 60), chance.randrange(
            1 << 31), chance.randrange(1 << 40)
        self.stamp, self.verifier, self.cookies = chance.randrange(1 << 32), chance.randbytes(
            8), chance.sample(range(1, 1 << 50), 3)
        self.cookieverf, self.createverf = chance.randbytes(8), chance.randbytes(8)
        self.machine = b'host%d' % chance.randrange(10 ** chance.randrange(1, 9))
        self.xids = chance.sample(range(1 << 32), 20)
        self.sizes = {0: 4096, 1: 10, 2: 20}
        # as Linux calls a removed file that is open
        self.silly = b'.nfs%016x%08x' % (self.ids[2], chance.randrange(1 << 32))

    def attributes(self, file: int) -> bytes:
        plain = fattr(2 if file == 0 else 1, self.ids[file], self.sizes[file], fsid=self.fsid)
        times = b''.join(word((self.time + number) % (1 << 32)) for number in range(6))
        used = hyper(self.space % 4096)
        return plain[:28] + used + plain[36:60] + times

    def script(self) -> list[tuple[int, bytes, bytes]]:
        """Procedures, arguments and results."""
        root, x, y = map(fh, self.handles)
        space = b''.join(hyper(self.space + number) for number in range(6)) + word(self.time & 0xff)
        entries = messages.entries(self.attributes(0), self.cookieverf, [
            messages.entryplus(self.ids[file], FILES[file], self.cookies[file],
                               self.attributes(file), self.handles[file])
            for file in (1, 2)], is_end=True)
        return [
            (1, root, ok(self.attributes(0))),
            (3, root + messages.opaque(b'x'),
             ok(x, post_op_attr(self.attributes(1)), post_op_attr())),
            (4, x + word(31), ok(post_op_attr(self.attributes(1)), word(31))),
            (17, root + hyper(0) + bytes(8) + word(512) + word(4096), ok(entries)),
            (17, root + hyper(self.cookies[1]) + self.cookieverf + word(512) + word(4096),
             ok(entries)),
            (8, dirop(self.handles[0], b'new') + messages.how(2, self.createverf),
             ok(messages.made(None, None, wcc()))),
            (7, y + hyper(0) + word(2) + word(0) + messages.opaque(b'hi'),
             ok(wcc(20, self.attributes(2)), word(2), word(0), self.verifier)),
            (21, y + hyper(0) + word(0), ok(wcc(None, self.attributes(2)), self.verifier)),
            (12, dirop(self.handles[0], self.silly), ok(wcc())),
            (18, root, ok(post_op_attr(self.attributes(0)), space))]

    def conversation(self, script: list[tuple[int, bytes, bytes]] | None = None) -> Conversation:
        steps = script or self.script()
        user = auth_sys(self.stamp, self.machine, 0, 0, [0, 5])
        calls = [call(xid, NFS, 3, procedure, arguments, credential=user)
                 for xid, (procedure, arguments, _) in zip(self.xids, steps)]
        return calls, [success(self.xids[number], results)
                       for number, (_, _, results) in enumerate(steps)]


def ordinary_runs(place: Comparisons) -> None:
    """Runs that only do the same are the same, by each class of values."""
    for seed in range(5):
        place.put_both(Made(seed).conversation(), Made(seed + 100).conversation())
        status, out, error = place.compare('a', 'b')
        place.want('seed %d' % seed, (status, out[0], out[2:], error),
                   (0, 'masked: ' + mask_text(default_mask()), [], ''))
    status, out, _ = place.compare('--mask', 'none', 'a', 'b')
    place.want('without a mask', (status, out[0], out[1].startswith('differ at ')),
               (1, 'masked: none', True))
    for one in CLASSES:
        if one.is_default:
            status, out, _ = place.compare('--mask=-' + one.name, 'a', 'b')
            names = set(re.findall(NAMES, '\n'.join(out), re.M))
            place.want('without ' + one.name, (status, bool(names & one.items), names <= one.items
                                               | {'cred_length'}), (1, True, True))


def zero_cookies(place: Comparisons) -> None:
    """The cookie 0 is the beginning of a directory, and no other cookie is."""
    first, second = Made(11), Made(12)
    script = second.script()
    script[3] = (17, script[3][1].replace(hyper(0) + bytes(8), hyper(5) + bytes(8)), script[3][2])
    place.put_both(first.conversation(), second.conversation(script))
    status, lines, _ = place.compare('a', 'b')
    place.want('cookie', (status, '  - cookie=0' in lines, '  + cookie=5' in lines),
               (1, True, True))


def users_and_groups(place: Comparisons) -> None:
    """Owners, if asked for, rename lists of groups as well, or make them zero."""
    def run(*owners: tuple[int, int, list[int]]) -> Conversation:
        return [call(xid, NFS, 3, 0, b'', credential=auth_sys(1, b'box', *each))
                for xid, each in enumerate(owners)], []
    place.put_both(run((1000, 100, [100, 27]), (27, 100, [1000])), run((1, 2, [2, 3]), (3, 2, [1])))
    place.wants('renamed', 0, [], '--mask', '+owners')
    place.wants('zero', 0, [], '--mask', '+owners=zero')
    place.want('compared', place.compare('a', 'b')[0], 1)
    place.put('b', run((1, 2, [2, 2]), (2, 2, [1])))
    status, out, _ = place.compare('--mask', '+owners', 'a', 'b')
    place.want('two become one', (status, set(re.findall(NAMES, '\n'.join(out), re.M))),
               (1, {'group', 'uid'}))


def entries_of_one_name(place: Comparisons) -> None:
    """Each entry of a name that a directory has twice counts."""
    def run(*entries: tuple[int, bytes]) -> Conversation:
        listed = [messages.entry(fileid, name, 0) for fileid, name in entries]
        return ([call(1, NFS, 3, 16, fh(b'folder') + hyper(0) + bytes(8) + word(512))],
                [success(1, ok(messages.entries(None, bytes(8), listed, is_end=True)))])
    heading = 'READDIR reply: connection 1 server record 1 | connection 1 server record 1'
    def wants(what: str, name: str, *lines: str) -> None:
        place.wants(what, 1, [heading, *lines,
                              f'fields that differ, and how often: {name} of READDIR 1',
                              f'1 of 1 call matched; {name} in 1 reply'], '--mask', 'none')
    place.put_both(run((1, b'a'), (2, b'b')), run((1, b'a'), (2, b'b'), (2, b'b')))
    wants('once more', 'entry.name', '  + entry.name="b"')
    place.put('a', run((1, b'a'), (2, b'b'), (2, b'b'), (2, b'b')))
    wants('once less', 'entry.name', '  - entry.name="b"')
    place.put('a', run((1, b'a'), (3, b'b'), (2, b'b')))
    wants('the first of two', 'entry.fileid', '  - entry "b".fileid=3', '  + entry "b".fileid=2')
    place.put('a', run((2, b'b'), (1, b'a'), (2, b'b')))
    wants('order', 'entry', '  - entry="b"', '  + entry="a"    # the entries come in another order')


# --- Cost, and recordings that lack bytes ---

MANY, FILES_OF_MANY = 30_000, 5_000


def many_calls(first_handle: int, *changed: int) -> Conversation:
    """LOOKUP of each file, GETATTR and WRITE by turns; some replies have another mode."""
    steps = list[Exchange]()
    for number in range(MANY):
        file = number % FILES_OF_MANY
        handle = b'%08d' % (first_handle + file)
        attributes = fattr(1, file + 2, size=number, mode=0o645 if number in changed else 0o644)
        if number < FILES_OF_MANY:
            steps.append((3, dirop(b'folder', b'name%d' % file),
                          ok(fh(handle), post_op_attr(attributes), post_op_attr())))
        elif number % 2:
            steps.append((1, fh(handle), ok(attributes)))
        else:
            data = word(200) + word(0) + messages.opaque(bytes(200))
            steps.append((7, fh(handle) + hyper(number) + data,
                          ok(wcc(20, attributes), word(200), word(0), b'verifier')))
    return conversation_of(steps)


def one_bit_of_many_calls(place: Comparisons) -> None:
    """A changed bit costs little time and memory, and is printed with its path."""
    place.put_both(many_calls(1), many_calls(7_000, 20_001))
    status, lines, seconds, memory = measured(place, 'compare', '--program', place.program, 'a',
                                              'b')
    where = 'connection 1 server record 20002'
    place.want('finding', (status, lines[3:]), (1, [
        f'GETATTR reply ?/name1: {where} | {where}', '  - obj.mode=0644 (420)',
        '  + obj.mode=0645 (421)',
        'fields that differ, and how often: obj.mode of GETATTR 1',
        '30,000 of 30,000 calls matched; obj.mode in 1 reply']))
    place.want(f'{seconds} seconds', seconds < 8, True)
    place.want(f'{memory} bytes', memory < 250e6, True)


MIB = 1 << 20


def writes_of_other_data(seed: int, number: int) -> Conversation:
    chance = random.Random(seed)
    return conversation_of((
        7, fh(b'a') + hyper(at * MIB) + word(MIB) + word(2)
        + messages.opaque(chance.randbytes(MIB)),
        ok(wcc(), word(MIB), word(2), b'verifier')) for at in range(number))


def data_that_differ(place: Comparisons) -> None:
    """Memory does not grow with the data that differ; JSON has their digests."""
    place.put_both(writes_of_other_data(1, 40), writes_of_other_data(2, 40))
    status, out, _, memory = measured(place, 'compare', '--program', place.program, '--json',
                                      'out.json', '--html', 'out.html', 'a', 'b')
    place.want('verdict', (status, out[-1]), (1, '40 of 40 calls matched; data in 40 calls'))
    place.want(f'{memory} bytes', memory < 80e6, True)
    first, second = (random.Random(seed).randbytes(MIB) for seed in (1, 2))
    differing = sum(one != other for one, other in zip(first, second))
    place.want('the first', out[4:6], [
        f'  - data={first[:16].hex()}..',
        f'  + data={second[:16].hex()}..    # {differing:,} of {MIB:,} bytes differ, the first at '
        'offset 0 of the file (byte 0 of the data)'])
    found = place.json('out.json')['findings'][0]['differences'][0]
    place.want('digests', found['apart']['sha256'],
               [hashlib.sha256(one).hexdigest() for one in (first, second)])
    place.want('sizes', (len(found['first']) < 200, len(place.read('out.html') or b'') < 1e6),
               (True, True))


def folders_far_down(place: Comparisons) -> None:
    """Folders each in the one before: memory is linear, and long paths are cut."""
    def chain(mode: int) -> Conversation:
        return conversation_of((3, dirop(b'%08d' % at, b'%04d' % at + b'd' * 240), ok(
            fh(b'%08d' % (at + 1)), post_op_attr(fattr(2, at, mode=mode)), post_op_attr()))
                               for at in range(2_000))
    place.put_both(chain(0o755), chain(0o700))
    status, out, _, memory = measured(place, 'compare', '--program', place.program, '--all', 'a',
                                      'b')
    headings = [line for line in out if line.startswith('LOOKUP')]
    place.want('findings', (status, len(headings)), (1, 2_000))
    place.want(f'{memory} bytes', memory < 120e6, True)
    name, last = '0000' + 'd' * 240, '1999' + 'd' * 240
    place.want('the first', headings[0], f'LOOKUP reply ?/{name}: connection 1 server '
               'record 1 | connection 1 server record 1')
    path = headings[-1].removeprefix('LOOKUP reply ').partition(':')[0]
    place.want('the last', (path.startswith(f'?/{name}/ .. /'), path.endswith(f'/{last}'),
                            len(path) <= 1_024), (True, True, True))


def in_calls(number: int, *, lost: int = -1, last: bool = True) -> bytes:
    """Calls of 40 bytes and replies of 24, each a segment with its mark, perhaps without one."""
    talk = Talk()
    opened, frames = talk.opened(), list[bytes]()
    for at in range(number):
        frames += [talk.sent(0, messages.fragment(call(at, NFS, 3, 0))),
                   talk.sent(1, messages.fragment(success(at)))]
    kept = [frame for at, frame in enumerate(frames)
            if at != 2 * lost and (last or at != 2 * number - 1)]
    return pcap([*opened, *kept, *talk.closed()])


def same_in_part(place: Comparisons) -> None:
    """Recordings that lack bytes are the same in part, and 0 with --allow-losses."""
    whole, lossy, fewer = in_calls(1_034), in_calls(1_034, lost=1_033), in_calls(1_033)
    without_last, missing = in_calls(1_034, last=False), '%d bytes missing from the %s run'
    of_calls, less = 'calls in 1 connection', (missing % (44, 'first'), missing % (44, 'second'))
    cases: list[tuple[bytes, bytes, list[str], int, str]] = [
        (whole, whole, [], 0, f'same: 1,034 {of_calls}'),
        (whole, whole, ['--allow-losses'], 0, f'same: 1,034 {of_calls}'),
        (lossy, lossy, [], 1, f'same in part: 1,033 {of_calls}, {less[0]}, {less[1]}'),
        (lossy, lossy, ['--allow-losses'], 0,
         f'same in part: 1,033 {of_calls}, {less[0]}, {less[1]}'),
        (lossy, fewer, [], 1, f'same in part: 1,033 {of_calls}, {less[0]}'),
        (fewer, lossy, ['--allow-losses'], 0, f'same in part: 1,033 {of_calls}, {less[1]}'),
        (without_last, without_last, [], 1, f'same in part: 1,034 {of_calls}, '
         f'{missing % (28, "first")}, {missing % (28, "second")}')]
    for first, second, words, status, line in cases:
        place.write('a', first)
        place.write('b', second)
        found, out, _ = place.compare(*words, 'a', 'b')
        place.want(line, (found, out[1:]), (status, [line]))
    place.write('a', whole)
    place.write('b', lossy)
    for options in ('--mask=none', '--allow-losses'):
        status, out, _ = place.compare(options, '--order', 'strict', '--junit', 'x', 'a', 'b')
        wanted = ['differ at connection 1 client record 1034', f'compared in part: {less[1]}']
        place.want('they differ', (status, out[1:3]), (1, wanted))
        place.want('JUnit', [one.get('message') for one in place.xml('x').iter('failure')][:1],
                   ['; '.join(wanted)])


# --- --known and --known-new ---

FOLDER, SETATTR, WRITE, CREATE = b'folder', 2, 7, 8
NLINK = {'procedure': 'NFSPROC3_GETATTR', 'path': '?/f1', 'field': 'obj.nlink', 'first': '1',
         'second': '2'}
ONLY = {'procedure': 'NFSPROC3_SETATTR', 'path': '?/f0', 'only': 'second', 'asks': ['set.mode=416'],
        'status': '0', 'says': []}
ATTRIBUTES = ['obj.type=1', 'obj.mode=420', 'obj.nlink=1', 'obj.uid=1000', 'obj.gid=1000',
              'obj.size=0', 'obj.rdev1=0', 'obj.rdev2=0']


def run(*nlinks: int, more: int = 0, names: tuple[int, ...] = ()) -> Conversation:
    """LOOKUP of each file, GETATTR of each with its link count, and SETATTRs of the first."""
    files = [b'f%d' % number for number in range(len(nlinks))]
    return conversation_of([
        *((3, dirop(FOLDER, name), ok(fh(name), post_op_attr(), post_op_attr())) for name in files),
        *((1, fh(files[at]), ok(fattr(REG, at + 1, nlink=nlinks[at])))
          for at in names or range(len(files))),
        *[(SETATTR, fh(files[0]) + sattr(mode=0o640) + guard(), ok(wcc()))] * more])


def accepts(place: Comparisons, *entries: dict[str, Any]) -> None:
    place.write('known', json.dumps({'version': 2, 'accepted': entries}).encode())


def compared(place: Comparisons, *words: str) -> tuple[int, str, list[str]]:
    """The status, the verdict, and the lines about what was accepted."""
    status, out, error = place.compare(*words, 'a', 'b')
    place.want('standard error', error, '')
    return status, out[1].partition(' at ')[0], [line for line in out if line.endswith(' known')
                                                 or line.startswith('no longer found')]


def a_field_is_accepted_by_procedure_path_and_values(place: Comparisons) -> None:
    """An entry accepts a finding that fits each of its words."""
    place.put_both(run(1, 1, 1), run(1, 2, 1))
    place.want('without', compared(place), (1, 'differ', []))
    fitting: list[dict[str, Any]] = [
        {}, {'path': '?/f*'}, {'path': '?/f[01]'}, {'path': '*'},
        {'field': 'obj.nlink', 'is_call': False}, {'procedure': '*'}]
    without = [{key: value for key, value in NLINK.items() if key != name}
               for name in ('first', 'second', 'path')]
    for entry in (*({**NLINK, **changes} for changes in fitting), *without):
        accepts(place, entry)
        place.want(f'fits {entry}', compared(place, '--known', 'known'), (
            0, 'same but for 1 known: 6 calls in 1 connection', ['1 known']))
    others: list[dict[str, Any]] = [
        {'path': '?/f0'}, {'path': None}, {'path': '?/F1'}, {'first': '2'}, {'second': '3'},
        {'second': None}, {'field': 'obj.mode'}, {'is_call': True},
        {'procedure': 'NFSPROC3_LOOKUP'}]
    for changes in others:
        accepts(place, {**NLINK, **changes})
        status, verdict, lines = compared(place, '--known', 'known')
        place.want(f'fits not {changes}', (status, verdict, lines[0], len(lines)),
                   (1, 'differ', '0 known', 2))


def entries_that_fit_nothing_are_named(place: Comparisons) -> None:
    """What was accepted and does not differ any more is printed, and changes no status."""
    place.put_both(run(1, 1), run(1, 1))
    accepts(place, NLINK, ONLY)
    gone = ['0 known', *(f'no longer found: {json.dumps(one)}' for one in (NLINK, ONLY))]
    place.want('same', compared(place, '--known', 'known'),
               (0, 'same: 4 calls in 1 connection', gone))
    place.write('known', '# by hand\nGETATTR * reply: obj.nlink=* ×*\n\n'.encode())
    place.want('by hand', compared(place, '--known', 'known')[2], [
        '0 known', 'no longer found: GETATTR * reply: obj.nlink=* ×*'])
    place.put('b', run(2, 3))
    place.want('any', compared(place, '--known', 'known')[::2], (0, ['2 known']))
    place.write('known', b'GETATTR * reply: obj.nlink=*')
    place.want('once', compared(place, '--known', 'known')[::2], (1, ['1 known']))


def a_call_of_one_run_alone_is_accepted_by_its_side(place: Comparisons) -> None:
    """What it asks, its status and how often it comes count, too."""
    place.put_both(run(1, 1), run(1, 1, more=2))
    accepts(place, {**ONLY, 'times': 2})
    place.want('second', compared(place, '--known', 'known'),
               (0, 'same but for 2 known: 4 calls in 1 connection', ['2 known']))
    for entry in (ONLY, {**ONLY, 'asks': ['set.mode=511'], 'times': 2},
                  {**ONLY, 'status': '5', 'times': 2}, {**ONLY, 'only': 'first'},
                  {'procedure': '*', 'field': 'set.mode'}):
        accepts(place, entry)
        place.want(f'{entry}', compared(place, '--known', 'known')[:2], (1, 'differ'))


def a_call_of_one_run_alone_is_accepted_with_its_answer(place: Comparisons) -> None:
    """Another count, another mode, or the handle of another file is another finding."""
    def answered(count: int, handle: bytes, mode: int = 0o600) -> Conversation:
        attributes = fattr(REG, 9, size=4, mode=mode)
        return conversation_of([
            *((3, dirop(FOLDER, name), ok(fh(name), post_op_attr(), post_op_attr()))
              for name in (b'f0', b'f1')),
            (WRITE, fh(b'f0') + hyper(0) + word(4) + word(2) + opaque(b'data'),
             ok(wcc(None, fattr(REG, 1, size=4)), word(count), word(2), bytes(8))),
            (CREATE, dirop(FOLDER, b'new') + word(0) + sattr(mode=0o600),
             ok(made(handle, attributes, wcc())))])
    first = answered(4, b'handle')
    place.put('a', tuple(some[:2] for some in first))
    place.put('b', first)
    place.want('written', compared(place, '--known-new', 'new')[0], 1)
    place.want('the same', compared(place, '--known', 'new')[0], 0)
    for what, other in (('count', answered(1, b'handle')), ('handle', answered(4, b'f1')),
                        ('mode', answered(4, b'handle', 0o777))):
        place.put('b', other)
        place.want(what, compared(place, '--known', 'new')[:2], (1, 'differ'))


def other_orders_stay_what_they_are(place: Comparisons) -> None:
    """An accepted field changes nothing of what an order means."""
    place.put_both(run(1, 1, 1), run(1, 2, 1, names=(2, 1, 0)))
    turned = 'same in another order but for 1 known: 6 calls; 2 reordered; 2 replies reordered'
    accepts(place, NLINK)
    for words, status, verdict in (([], 1, turned), (['--order', 'any'], 0, turned),
                                   (['--order', 'strict'], 1, 'differ')):
        place.want(f'{words}', compared(place, *words, '--known', 'known')[:2], (status, verdict))
    accepts(place, NLINK, {'procedure': '*', 'kind': 'moved'})
    place.want('late replies', compared(place, '--order', 'strict', '--known', 'known')[:2],
               (1, 'differ'))


def nothing_else_becomes_green(place: Comparisons) -> None:
    """Whole connections and what is no field are never accepted."""
    accepts(place, {'procedure': '*', 'field': 'obj.nlink', 'times': 9},
            {**ONLY, 'only': 'first', 'times': 9}, {**ONLY, 'times': 9},
            {'procedure': '*', 'kind': 'moved', 'times': 9},
            {'procedure': '*', 'kind': 'replies', 'first': '0', 'second': '0, 0',
             'says': ATTRIBUTES, 'times': 9})
    place.put('a', run(1, 1))
    for what, second, words in (
            ('a connection more', [run(1, 2), run(1, 1, more=1)], []),
            ('an empty one, strict', [run(1, 2), ([], [])], ['--order', 'strict']),
            ('no replies', [(run(1, 2)[0], [])], [])):
        place.put('b', *second)
        place.want(what, compared(place, *words, '--known', 'known')[0], 1)


def lost_and_refused_connections_stay(place: Comparisons) -> None:
    """Missing bytes and refused connections keep their status."""
    def recorded(nlink: int, lost: int | None, status: int) -> bytes:
        frames = connection_of(*run(1, nlink), 4)
        bad = [call(1, NFS, 3, 0)], [success(1) if not status else word(1) * 6]
        return pcap([frame for at, frame in enumerate(frames) if at != lost]
                    + connection_of(*bad, port=701))
    accepts(place, {'procedure': '*', 'field': 'obj.nlink'})
    for what, lost, fault, wanted in (('whole', None, 0, 0), ('lost', 10, 0, 1),
                                      ('refused', None, 1, 2)):
        place.write('a', recorded(1, None, 0))
        place.write('b', recorded(2, lost, fault))
        place.want(what, place.compare('--known', 'known', '--order', 'any', 'a', 'b')[0], wanted)


def a_new_file_accepts_what_was_found(place: Comparisons) -> None:
    """--known-new has an entry for each finding, and no wildcard of a name."""
    place.put_both(run(1, 1, 1), run(1, 2, 1, more=1))
    place.want('status', compared(place, '--known-new', 'new')[0], 1)
    found = place.read('new')
    place.want('lines', found.decode().splitlines(), [
        'GETATTR ?/f1 reply: obj.nlink=1 -> 2',
        'SETATTR ?/f0: only in the second run; set.mode=416; status 0'])
    place.want('green', compared(place, '--known', 'new')[0::2], (0, ['2 known']))
    place.want('replaced', (compared(place, '--known', 'new', '--known-new', 'new')[0],
                            place.read('new')), (0, found))


def what_counts_in_no_order_is_not_written(place: Comparisons) -> None:
    """Ids that differ in another order are no entry."""
    place.put_both(run(1, 1, 1), run(1, 1, 1, names=(2, 1, 0)))
    place.want('turned', (compared(place, '--known-new', 'new')[0],
                          place.read('new')), (1, b''))
    place.put('b', run(1, 2, 1, names=(2, 1, 0)))
    accepts(place, NLINK)
    place.want('with a field', compared(place, '--order', 'any', '--known', 'known',
                                        '--known-new', 'new')[0], 0)
    place.want('lines', place.read('new'), b'GETATTR ?/f1 reply: obj.nlink=1 -> 2\n')


def files_are_written_and_read_with_care(place: Comparisons) -> None:
    """No input is replaced, and a wrong file is refused by name."""
    place.put_both(run(1), run(2))
    place.write('c', pcap([]))
    accepts(place, NLINK)
    for words in (('--known-new', 'a'), ('--known-new', 'c'),
                  ('--known', 'known', '--json', 'known'),
                  ('--known-new', 'x', '--html', 'x')):
        before = {name: place.read(name) for name in ('a', 'b', 'c', 'known')}
        place.want(' '.join(words), place.compare(*words, 'a', 'b')[0], 2)
        place.want('kept', {name: place.read(name) for name in before}, before)
    wrong: dict[str, Any] = {
        'no JSON': b'{', 'a list': b'[]', 'a version': {'version': 3, 'accepted': []},
        'the old version': {'version': 1, 'accepted': []}, 'no entry': [3],
        'a member': [{**NLINK, 'fild': 'x'}],
        'no procedure': [{**NLINK, 'procedure': 'GETATR'}],
        'two kinds': [{**NLINK, 'only': 'first'}], 'no kind': [{'procedure': '*'}],
        'a number': [{**NLINK, 'first': 1}], 'a side': [{**ONLY, 'only': 'third'}],
        'order': [{'procedure': '*', 'kind': 'order'}],
        'no asks': [{'procedure': '*', 'only': 'first'}],
        'no statuses': [{'procedure': '*', 'kind': 'replies'}],
        'no times': [{**NLINK, 'times': 0}], 'half a character': [{**NLINK, 'path': '\ud800'}]}
    for what, entries in wrong.items():
        content = entries if isinstance(entries, bytes) else json.dumps(
            entries if isinstance(entries, dict) else {'version': 2, 'accepted': entries}).encode()
        place.write('bad', content)
        status, out, error = place.compare('--known', 'bad', 'a', 'b')
        place.want(what, (status, out, 'no known findings in bad: ' in error), (2, [], True))
    place.want('missing', place.compare('--known', 'missing', 'a', 'b')[::2],
               (3, 'compare: missing: No such file or directory\n'))


def all_forms_say_the_same(place: Comparisons) -> None:
    """All forms of output have the same counts and the same status."""
    place.put('a', run(1, 1, 1))
    for nlinks, known, accepted, gone, verdict in (
            ((1, 2, 1), [NLINK], 1, 0, 'same but for 1 known: 6 calls in 1 connection'),
            ((1, 2, 3), [NLINK, ONLY], 1, 1, 'differ at connection 1 server record 6'),
            ((1, 1, 1), [NLINK], 0, 1, 'same: 6 calls in 1 connection')):
        place.put('b', run(*nlinks))
        accepts(place, *known)
        status, out, _ = place.compare('--known', 'known', '--brief', '--json', 'x.json',
                                       '--junit', 'x.xml', '--html', 'x.html', 'a', 'b')
        place.want('text', (out[1], f'{accepted} known' in out,
                            sum(line.startswith('no longer found: ') for line in out)),
                   (verdict, True, gone))
        found = place.json('x.json')
        place.want('JSON', (found['accepted']['count'], len(found['accepted']['findings']),
                            len(found['accepted']['no_longer_found'])),
                   (accepted, accepted, gone))
        place.want('verdict', found['verdict'] == 'same', status == 0)
        suite = place.xml('x.xml')[0]
        counts = {one.get('name'): one.get('value') for one in suite.iter('property')}
        place.want('JUnit', (counts['known'], counts['no longer found'],
                             suite.get('failures') == '0'), (str(accepted), str(gone), status == 0))
        page = place.read('x.html').decode()
        place.want('page', (f'<p class=accepted>{accepted} known</p>' in page,
                            page.count('<p class=accepted>no longer found: ')), (True, gone))
        place.want('folded', page.count('known: GETATTR reply ?/f1'), accepted)
    place.compare('--json', 'x.json', 'a', 'b')
    place.want('without a file', place.json('x.json')['accepted'], None)


def many_entries_cost_little(place: Comparisons) -> None:
    """3,000 entries without wildcards, for 3,000 findings: each is found."""
    place.put_both(run(*[1] * 3_000), run(*[2] * 3_000))
    accepts(place, *({**NLINK, 'path': f'*/f{number}'} for number in range(0, 3_000, 1_000)))
    place.want('three', compared(place, '--known', 'known', '--known-new', 'new')[2],
               ['3 known'])
    place.want('all', compared(place, '--known', 'new')[2], ['3,000 known'])


def replies_are_accepted_by_their_statuses(place: Comparisons) -> None:
    """A second reply is accepted with its status and its values, and no other one."""
    def answered(*statuses: int, mode: int = 0o644) -> Conversation:
        calls, replies = run(1, 1)
        last = len(calls)
        modes = [0o644] + [mode] * len(statuses)
        return calls, [*replies[:-1], *(
            success(last, ok(fattr(REG, 2, mode=own)) if not status else word(status))
            for own, status in zip(modes, statuses))]
    place.put_both(answered(0), answered(0, 0))
    place.want('written', compared(place, '--known-new', 'new')[0], 1)
    place.want('line', place.read('new').decode(),
               f'GETATTR ?/f1: replies 0 -> 0, 0; {" ".join(ATTRIBUTES)}\n')
    place.want('accepted', compared(place, '--known', 'new')[0], 0)
    place.put('b', answered(0, 0, mode=0o777))
    place.want('another mode', compared(place, '--known', 'new')[:2], (1, 'differ'))
    place.put('b', answered(0, 5))
    place.want('another', compared(place, '--known', 'new')[:2], (1, 'differ'))

"""Tests of what `tools/compare` calls the same: any order, sent again, the headline; and of what
an order explains."""
import json
import random
from collections.abc import Iterable, Sequence
from typing import Any, NamedTuple

from examples import messages
from examples.messages import (
    NFS, auth_sys, call, dirop, failed, fattr, fh, fragment, guard, hyper, made, ok, opaque,
    post_op_attr, sattr, success, wcc, word)
from examples.packets import Talk, pcap

from ..nfs3tools.exchanges.timelines import Highest, Sighting, Spans
from .comparisons import Comparisons
from .pages import table_of, tree_of
from .scripts import in_turn

(GETATTR, SETATTR, LOOKUP, ACCESS, READLINK, WRITE, CREATE, REMOVE, RENAME, READDIR, READDIRPLUS,
 FSSTAT, FSINFO, PATHCONF) = 1, 2, 3, 4, 5, 7, 8, 12, 14, 16, 17, 18, 19, 20
NOENT, IO, ACCES, EXIST, STALE, SERVERFAULT, BADHANDLE = 2, 5, 13, 17, 70, 10006, 10001
TOP = b'top'


class Step(NamedTuple):
    """A call and its results; how often both were sent, by which user and which client, and whether
    its replies come after the next call was answered."""
    procedure: int
    arguments: bytes
    results: bytes
    sent: int = 1
    answered: int = 1
    user: int = 1000
    client: int = 0
    is_slow: bool = False


def recorded(steps: Iterable[Step]) -> bytes:
    """A recording of clients each with a connection, one call after the other."""
    steps, said, late = list(steps), list[tuple[int, int, bytes]](), list[tuple[int, int, bytes]]()
    for xid, step in enumerate(steps, 1):
        user = auth_sys(1, b'box', step.user, 100, [])
        body = call(xid, NFS, 3, step.procedure, step.arguments, credential=user)
        said += [(step.client, 0, body)] * step.sent
        late = [(step.client, 1, success(xid, step.results))] * step.answered + late
        if not step.is_slow:
            said, late = said + late, []
    talks = [Talk(700 + number) for number in range(1 + max(step.client for step in steps))]
    return pcap(in_turn(talks, said))


def looked(name: bytes, handle: bytes, fileid: int, folder: bytes = TOP) -> Step:
    attributes = post_op_attr(fattr(1, fileid))
    return Step(LOOKUP, dirop(folder, name), ok(fh(handle), attributes, post_op_attr()))


def not_found(name: bytes, status: int = NOENT) -> Step:
    return Step(LOOKUP, dirop(TOP, name), failed(status, post_op_attr()))


def got(handle: bytes, fileid: int, **more: Any) -> Step:
    return Step(GETATTR, fh(handle), ok(fattr(more.pop('kind', 1), fileid, **more)))


def created(name: bytes, handle: bytes, fileid: int, client: int = 0) -> Step:
    arguments = dirop(TOP, name) + word(0) + sattr()
    return Step(CREATE, arguments, ok(made(handle, fattr(1, fileid), wcc())), client=client)


def removed(name: bytes, client: int = 0) -> Step:
    return Step(REMOVE, dirop(TOP, name), ok(wcc()), client=client)


F, G = looked(b'f', b'handle f', 7), looked(b'g', b'handle g', 8)
ROOT = Step(GETATTR, fh(TOP), ok(fattr(2, 3)))
BOTH = [ROOT, F, G, got(b'handle f', 7), got(b'handle g', 8)]


class Answer(NamedTuple):
    """What is said of two runs."""
    status: int
    lines: list[str]
    json: Any

    @property
    def found(self) -> list[str]:
        return [f'{one["kind"]} {one["procedure"].removeprefix("NFSPROC3_")}'
                for one in self.json['findings']]


def compared(place: Comparisons, first: Sequence[Step], second: Sequence[Step],
             *words: str) -> Answer:
    place.write('a', recorded(first))
    place.write('b', recorded(second))
    status, lines, error = place.compare('--json', 'out.json', *words, 'a', 'b')
    place.want('no error', error, '')
    return Answer(status, lines, json.loads(place.read('out.json') or b'{"findings": []}'))


def any_order(place: Comparisons, first: Sequence[Step], second: Sequence[Step]) -> Answer:
    return compared(place, first, second, '--order', 'any')


def differs(place: Comparisons, what: str, first: Sequence[Step], second: Sequence[Step],
            *found: str) -> Answer:
    """Two runs differ in any order, by these findings."""
    said = any_order(place, first, second)
    place.want(what, (said.status, said.found), (1, [*found]))
    return said


def explained(place: Comparisons, what: str, first: Sequence[Step], second: Sequence[Step],
              kind: str = 'explained') -> Answer:
    """Two runs are the same in any order, which explains one answer."""
    said = any_order(place, first, second)
    place.want(what, (said.status, [one['kind'] for one in said.json['left_out']]), (0, [kind]))
    return said


# --- Answers ---

def a_lookup_that_fails(place: Comparisons) -> None:
    """One client, all calls in the same order: no order explains a LOOKUP that fails in one run."""
    for status in (NOENT, IO, ACCES, STALE, SERVERFAULT):
        differs(place, f'{status}', [*BOTH, F], [*BOTH, not_found(b'f', status)], 'changed LOOKUP')


def a_lookup_of_something_else(place: Comparisons) -> None:
    """The handle of another file, another name, another user, a name that was removed."""
    made_both = [ROOT, created(b'f', b'handle f', 7), created(b'g', b'handle g', 8)]
    gone = [*made_both, removed(b'f')]
    for what, times, first, second in (
            ('handle', 1, [*made_both, F, G], [*made_both, looked(b'f', b'handle g', 8), G]),
            ('name', 2, [*made_both, F], [*made_both, G]),
            ('name, before a change', 2, [*BOTH, F, removed(b'h')], [*BOTH, G, removed(b'h')]),
            ('user', 1, [*BOTH, F], [*BOTH, F._replace(user=1)]),
            ('gone', 1, [*gone, not_found(b'f')], [*gone, F])):
        differs(place, what, first, second, *['changed LOOKUP'] * times)


def what_an_order_explains(place: Comparisons) -> None:
    """A name that another client makes before or after it is looked up. The change is named."""
    new = created(b'new', b'handle new', 9, client=1)
    found, first = looked(b'new', b'handle new', 9), [*BOTH, not_found(b'new'), new, ROOT]
    said = explained(place, 'same', first, [*BOTH, new, found, ROOT])
    place.want('in words', (said.lines[1].partition(':')[0], said.json['verdict'],
                            said.json['left_out'][0]['why']),
               ('same in another order, 1 answer explained by order', 'same in another order',
                'CREATE ?/new at connection 2 client record 1 of the second run'))
    for what, answer in (('another file', looked(b'new', b'handle f', 7)),
                         ('an error', not_found(b'new', IO))):
        place.want(what, any_order(place, first, [*BOTH, new, answer, ROOT]).status, 1)


def listed_entries(names: Sequence[bytes], fileid: int = 50) -> Step:
    some = [messages.entry(fileid + number, name, 1 + number) for number, name in enumerate(names)]
    results = ok(messages.entries(fattr(2, 3), bytes(8), some, is_end=True))
    return Step(READDIR, fh(b'folder') + bytes(16) + word(512), results)


FOLDER = looked(b'w', b'folder', 3)
NEW = Step(CREATE, dirop(b'folder', b'z') + word(0) + sattr(),
           ok(made(b'handle z', fattr(1, 52), wcc())), client=1)
BEFORE, AFTER = listed_entries([b'x', b'y']), listed_entries([b'x', b'y', b'z'])


def a_handle_of_no_call(place: Comparisons) -> None:
    """The folder above is known by its entry in a listing alone."""
    def listed(*names: bytes) -> Step:
        entries = [*(messages.entryplus(52, name, 2, fattr(1, 52), b'handle ' + name)
                     for name in names),
                   messages.entryplus(2, b'..', 1, fattr(2, 2), b'handle above')]
        results = ok(messages.entries(fattr(2, 3), bytes(8), entries, is_end=True))
        return Step(READDIRPLUS, fh(b'folder') + bytes(16) + word(512) + word(4096), results)
    explained(place, 'listed', [ROOT, FOLDER, F, listed(), NEW],
              [ROOT, FOLDER, F, NEW, listed(b'z')])


def entries_that_an_order_explains(place: Comparisons) -> None:
    """A listing may lack a name that is made meanwhile, and no other."""
    first, later = [ROOT, FOLDER, BEFORE, NEW, F], [ROOT, FOLDER, NEW, AFTER, F]
    for what, one, other in (('made', first, later), ('during', later, [
            ROOT, FOLDER, NEW._replace(is_slow=True), BEFORE, F])):
        explained(place, what, one, other)
        for words, status in (('any b a', 0), ('strict a b', 1), ('any --extra none a b', 1)):
            place.want(f'{what} {words}', place.compare('--order', *words.split())[0], status)
    for names in ([b'x', b'z'], [b'y', b'x', b'z'], [b'x', b'y', b'z', b'q']):
        differs(place, f'{names}', first, [ROOT, FOLDER, NEW, listed_entries(names), F],
                'changed READDIR')
    for what, change in (('a change that fails', NEW._replace(results=failed(EXIST, wcc()))),
                         ('another folder', NEW._replace(
                             arguments=dirop(b'other', b'z') + word(0) + sattr()))):
        place.want(what, any_order(place, [ROOT, FOLDER, BEFORE, change, F],
                                   [ROOT, FOLDER, change, AFTER, F]).status, 1)


def what_is_left_out_is_listed(place: Comparisons) -> None:
    """What others overtook is in the verdict and listed, in each form."""
    said = compared(place, [FOLDER, BEFORE, NEW, ROOT], [FOLDER, NEW, AFTER, ROOT],
                    '--order', 'any', '--html', 'out.html', '--junit', 'out.xml')
    why = 'CREATE ?/w/z at connection 2 client record 1 of the second run'
    line = ('left out: 1 READDIR ?/w, explained by order: connection 1 client record 2 '
            f'(frame 9) | connection 1 client record 2 (frame 11), by {why}')
    place.want('printed', said.lines[1:3], [
        'same in another order, 1 answer explained by order: 3 calls; left out: 1 READDIR '
        'of ?/w, explained by order', line])
    first, second = ({'position': 'connection 1 client record 2', 'frames': [frame]}
                     for frame in (9, 11))
    place.want('JSON', said.json['left_out'], [
        {'procedure': 'NFSPROC3_READDIR', 'path': '?/w', 'first': first, 'second': second,
         'kind': 'explained', 'why': why}])
    place.want('JUnit', line.encode() in (place.read('out.xml') or b''), True)
    cells = table_of(tree_of((place.read('out.html') or b'').decode()).all('table')[-1])[1]
    place.want('page', cells, ['explained by order', 'READDIR', '?/w', '1', line.split(': ', 2)[2]])
    for name in 'ab':
        place.want('captured', place.tool('from_pcap', name, f'{name}.nfs3cap')[0], 0)
    place.want('captures', place.compare('--order', 'any', 'a.nfs3cap', 'b.nfs3cap')[0], 1)


# --- Calls of one run alone ---

def calls_that_fail_alone(place: Comparisons) -> None:
    """Calls that only ask count if they fail, or ask about what is unknown."""
    for status in (SERVERFAULT, IO, STALE):
        more = [Step(GETATTR, fh(b'handle f'), failed(status))] * 3
        differs(place, f'{status}', BOTH, [*BOTH, *more], *['only GETATTR'] * 3)
    bad = Step(GETATTR, fh(b'nobody'), failed(BADHANDLE))
    place.want('handle', any_order(place, BOTH, [*BOTH[:3], bad, BOTH[4]]).status, 1)
    differs(place, 'name', BOTH, [*BOTH, not_found(b'never')], 'only LOOKUP')


def calls_that_are_many(place: Comparisons) -> None:
    """Ten calls more are a matter of caches; eleven are more than that, and so it is said."""
    more = got(b'handle f', 7)
    said = any_order(place, BOTH, [*BOTH, *[more] * 10])
    place.want('ten', (said.status, said.lines[1].partition(':')[0]),
               (0, 'same but for calls left out'))
    said = differs(place, 'eleven', BOTH, [*BOTH, *[more] * 11], *['only GETATTR'] * 11)
    place.want('told', any('GETATTR: 11 more than 10' in line for line in said.lines), True)


def access(bits: int, user: int = 1000) -> Step:
    return Step(ACCESS, fh(b'handle f') + word(63), ok(post_op_attr(), word(bits)), user=user)


def changed_users(place: Comparisons) -> None:
    """Another user of one call, in its place or in another one."""
    differs(place, 'elsewhere', [*BOTH, access(1), F, G], [*BOTH, F, G, access(1, user=0)],
            *['only ACCESS'] * 2)
    differs(place, 'there', [*BOTH, access(1), access(1)], [*BOTH, access(1), access(1, user=0)],
            'changed ACCESS')


def ids_that_follow_their_objects(place: Comparisons) -> None:
    """File ids that a server gives out again are no difference, and it is said that they follow."""
    def run(ids: Sequence[int], last: int | None = None) -> list[Step]:
        some = [(b'f%d' % number, b'hf%d' % number, one) for number, one in enumerate(ids)]
        *known, (_, handle, own) = some
        return [ROOT, *(looked(*one) for one in some), *(got(*one[1:]) for one in known),
                got(handle, own if last is None else last)]
    said = any_order(place, run([7, 8, 9]), run([7, 8, 7]))
    place.want('ids', (said.status, said.lines[1].partition(':')[0], said.json['verdict']),
               (0, 'same but for ids', 'same but for ids'))
    differs(place, 'a wrong one', run([7, 8, 9]), run([7, 8, 7], 8), 'changed GETATTR')


def calls_that_were_sent_again(place: Comparisons) -> None:
    """One that was sent again is one exchange, left out in any order."""
    again = [*BOTH, removed(b'f')._replace(sent=2, answered=2), F]
    once, why = [*BOTH, removed(b'f'), F], 'sent once in the first run, 2 times in the second'
    said = compared(place, once, again, '--order', 'strict')
    place.want('strict', (said.status, said.found, any(why in line for line in said.lines)),
               (1, ['sent again REMOVE'], True))
    said = explained(place, 'any', once, again, 'sent again')
    place.want('why', said.json['left_out'][0]['why'], why)
    lost = [*BOTH, removed(b'f')._replace(sent=2), F]
    for first, second in ((again, again), (once, lost)):
        place.want('as often, or answered once', any_order(place, first, second).status, 0)


def other_replies_to_a_call_sent_again(place: Comparisons) -> None:
    """The second reply fails: that is a difference in any order."""
    def run(is_again: bool) -> bytes:
        talk = Talk(700)
        frames, body = talk.opened(), call(9, NFS, 3, REMOVE, dirop(TOP, b'f'))
        for results in [ok(wcc())] + [failed(NOENT, wcc())] * is_again:
            frames += [talk.sent(0, fragment(body)), talk.sent(1, fragment(success(9, results)))]
        return pcap([*frames, *talk.closed()])
    place.write('a', run(False))
    place.write('b', run(True))
    status, lines, _ = place.compare('--order', 'any', 'a', 'b')
    place.want('replies', (status, '  1 reply in the first run, 2 in the second' in lines),
               (1, True))


# --- Fields and words ---

def fsinfo(attributes: bytes, largest: int) -> Step:
    numbers = [largest, 4096, 512, largest, 4096, 512, 4096]
    results = ok(attributes, *map(word, numbers), hyper(1 << 40), word(0), word(1), word(27))
    return Step(FSINFO, fh(TOP), results)


def fields_behind_an_optional_part(place: Comparisons) -> None:
    """Attributes that one run alone has are one difference, and what follows is compared."""
    for order in ('strict', 'any'):
        said = compared(place, [*BOTH, fsinfo(post_op_attr(fattr(2, 3)), 1 << 20)],
                        [*BOTH, fsinfo(post_op_attr(), 1 << 26)], '--order', order)
        fields = [one['field'] for found in said.json['findings'] for one in found['differences']]
        place.want(order, (said.status, fields), (1, ['obj.attr', 'rtmax', 'wtmax']))


def where_the_headline_is(place: Comparisons) -> None:
    """The headline has the position of the first finding, also if the order differs before it."""
    first = [ROOT, F, G, *BOTH, removed(b'x'), F]
    second = [ROOT, G, F, *BOTH, F]
    for words, begin in ((['--order', 'any'], 'differ in any order at '), ([], 'differ at ')):
        said = compared(place, first, second, *words)
        where = said.json['findings'][0]['first']['position']
        place.want(f'{words}', (said.status, said.lines[1], said.json['position']),
                   (1, begin + where, where))


def silly_names(place: Comparisons) -> None:
    """Names of removed files are one if their objects are, wherever they stand."""
    def run(names: Sequence[bytes]) -> list[Step]:
        handles = {name: b'handle %d' % number for number, name in enumerate(sorted(names))}
        some = [messages.entryplus(9 + int(handle[-1:]), name, 1 + at, fattr(
            1, 9 + int(handle[-1:])), handle) for at, name in enumerate(names)
            for handle in [handles[name]]]
        listing = ok(messages.entries(fattr(2, 3), bytes(8), some, is_end=True))
        arguments = fh(b'folder') + bytes(16) + word(512) + word(4096)
        looks = [looked(b'n%d' % number, b'handle %d' % number, 9 + number)
                 for number in range(len(names))]
        return [ROOT, looked(b'w', b'folder', 3), *looks, Step(READDIRPLUS, arguments, listing), F]
    hidden = [b'.nfs%024x' % number for number in (5, 6)]
    said = any_order(place, run([*hidden, b'x']), run([hidden[1], b'x', hidden[0]]))
    place.want('same', said.status, 0)


# --- A wrong answer, and beside it a sound one ---

W, NAME = b'folder', b'handle f'
FILE = looked(b'f', NAME, 7, folder=W)
START = [ROOT, FOLDER, FILE, got(W, 3, kind=2), got(NAME, 7)]
END = [got(NAME, 7)]


def wants(place: Comparisons, what: str, first: Iterable[Step], second: Iterable[Step],
          wanted: int) -> None:
    """Two runs that begin alike are the same in any order, or differ."""
    place.want(what, any_order(place, [*START, *first], [*START, *second]).status, wanted)


def make(name: bytes = b'z', **options: Any) -> Step:
    results = ok(made(b'handle ' + name, fattr(1, 50), wcc()))
    return Step(CREATE, dirop(W, name) + word(0) + sattr(), results, client=1, **options)


def set_to(mode: int | None = None, uid: int | None = None, shown: int | None = None,
           **options: Any) -> Step:
    """A SETATTR of another client, whose reply shows a mode."""
    after = None if shown is None else fattr(1, 7, mode=shown)
    return Step(SETATTR, fh(NAME) + sattr(mode=mode, uid=uid) + guard(), ok(wcc(None, after)),
                client=1, **options)


def listed(*names: bytes, is_end: bool = True, **attributes: int) -> Step:
    """READDIRPLUS of the folder; the attributes are those of `f`."""
    def entry(name: bytes, cookie: int) -> bytes:
        fileid, more = (7, attributes) if name == b'f' else (50, {})
        return messages.entryplus(fileid, name, cookie, fattr(1, fileid, **more), b'handle ' + name)
    return entries_of(*(entry(name, at) for at, name in enumerate(names, 1)), is_end=is_end)


def entries_of(*entries: bytes, is_end: bool = True) -> Step:
    results = ok(messages.entries(fattr(2, 3), bytes(8), entries, is_end=is_end))
    return Step(READDIRPLUS, fh(W) + bytes(16) + word(512) + word(4096), results)


def wrote(end: int, size: int, client: int = 0, mode: int = 0o644, **options: Any) -> Step:
    arguments = fh(NAME) + hyper(end - 4) + word(4) + word(0) + opaque(b'data')
    results = ok(wcc(None, fattr(1, 7, size, mode=mode)), word(4), word(0), b'verifier')
    return Step(WRITE, arguments, results, client=client, **options)


def what_is_found_by_frames(place: Comparisons) -> None:
    """Changes and answers are those that a look at all of them finds."""
    chance = random.Random(5)
    for _ in range(200):
        some = [Sighting(begin, begin + chance.randrange(9), source, None)
                for source in range(chance.randrange(12)) for begin in [chance.randrange(40)]]
        spans, begin = Spans(some), chance.randrange(40)
        end = begin + chance.randrange(9)
        before = [one for one in some if one.end < begin]
        last = max((one.begin for one in before), default=0)
        place.want('between', sorted(spans.between(begin, end)),
                   sorted(one for one in some if one.begin <= end and one.end >= begin))
        place.want('latest', sorted(spans.latest(begin)),
                   sorted(one for one in before if one.end >= last))
        ends = [one.end for one in some]
        first = len(ends) // 3
        place.want('highest', Highest(ends).of(first, len(ends)), max(ends[first:], default=0))


# --- Attributes and names ---

def attributes_of_a_folder_in_which_something_is_made(place: Comparisons) -> None:
    """A CREATE in a folder sets the mode and the owners of the new file, not of the folder."""
    for attributes, wanted in (({'size': 64}, 0), ({'mode': 0o7777}, 1), ({'uid': 4242}, 1),
                               ({'gid': 4242}, 1), ({'nlink': 9}, 1)):
        now = post_op_attr(fattr(2, 3, **attributes))
        asked = {'GETATTR': (GETATTR, fh(W), ok(fattr(2, 3)), ok(fattr(2, 3, **attributes))),
                 'ACCESS': (ACCESS, fh(W) + word(1), ok(post_op_attr(fattr(2, 3)), word(1)),
                            ok(now, word(1))),
                 'LOOKUP': (LOOKUP, dirop(W, b'f'),
                            ok(fh(NAME), post_op_attr(fattr(1, 7)), post_op_attr(fattr(2, 3))),
                            ok(fh(NAME), post_op_attr(fattr(1, 7)), now))}
        for name, (procedure, arguments, before, after) in asked.items():
            one, other = Step(procedure, arguments, before), Step(procedure, arguments, after)
            last = got(W, 3, kind=2, size=attributes.get('size', 0))
            wants(place, f'{name} {attributes}', [one, make(), last], [make(), other, last],
                  wanted)


def a_value_that_nothing_set(place: Comparisons) -> None:
    """After a SETATTR an answer has what it set, or what its own reply shows."""
    old = got(NAME, 7)
    for mode, wanted in ((0o600, 0), (0o6777, 1), (0o640, 1)):
        new = got(NAME, 7, mode=mode)
        wants(place, f'{mode:o}', [old, set_to(0o600)], [set_to(0o600), new], wanted)
    for mode, wanted in ((0o600, 0), (0o644, 0), (0o777, 1)):
        new = got(NAME, 7, mode=mode)
        wants(place, f'{mode:o} meanwhile', [old, set_to(0o600)],
              [set_to(0o600, is_slow=True), new], wanted)
    for uid, wanted in ((1001, 0), (4242, 1)):
        new = got(NAME, 7, uid=uid)
        wants(place, f'uid {uid}', [old, set_to(uid=1001)], [set_to(uid=1001), new], wanted)
    for mode, wanted in ((0o600, 0), (0o7777, 1)):
        wants(place, f'{mode:o} of an entry', [listed(b'f'), set_to(0o600)],
              [set_to(0o600), listed(b'f', mode=mode)], wanted)
        wants(place, f'{mode:o} in a WRITE', [wrote(4, 4), set_to(0o600)],
              [set_to(0o600), wrote(4, 4, mode=mode)], wanted)


def a_change_that_was_sent_again(place: Comparisons) -> None:
    """It may be carried out until its last reply, or later if it was sent more often."""
    old, new = got(NAME, 7), got(NAME, 7, mode=0o600)
    for answered, wanted in ((1, 0), (2, 1)):
        change = set_to(0o600, sent=2, answered=answered)
        wants(place, f'{answered}', [old, change, new], [old, change, old], wanted)


def bits_that_a_write_clears(place: Comparisons) -> None:
    """A WRITE may clear the bits of set-user-id and set-group-id, and no other ones."""
    first = set_to(0o6755, shown=0o6755)._replace(client=0)
    before = got(NAME, 7, mode=0o6755)
    for mode, wanted in ((0o755, 0), (0o4755, 0), (0o6755, 0), (0o655, 1), (0o7755, 1)):
        after, write = got(NAME, 7, size=4, mode=mode), wrote(4, 4, 1, mode)
        wants(place, f'{mode:o}', [first, before, write], [first, write, after], wanted)


def a_size_that_no_write_left(place: Comparisons) -> None:
    """Without a WRITE that overlaps, a size is what the last one left."""
    writes = [wrote(end, end, client=1) for end in (4, 8, 12)]
    for size, wanted in ((12, 0), (4, 1), (7, 1), (1, 1), (13, 1)):
        wants(place, f'{size}', [got(NAME, 7), *writes], [*writes, got(NAME, 7, size=size)],
              wanted)
    for size, wanted in ((8, 0), (12, 0), (10, 0), (4, 1), (13, 1)):
        slow = [*writes[:2], writes[2]._replace(is_slow=True), got(NAME, 7, size=size)]
        wants(place, f'{size} meanwhile', [got(NAME, 7), *writes], slow, wanted)


def a_listing_that_lacks_a_name(place: Comparisons) -> None:
    """A name that was made before is listed, also if the other run lists it too early. Of a LOOKUP
    the same holds: NOENT before a name is made, or meanwhile, and OK after that."""
    nothing = Step(LOOKUP, dirop(W, b'z'), failed(NOENT, post_op_attr()))
    found, slow = looked(b'z', b'handle z', 50, folder=W), make(is_slow=True)
    for late, early in ((listed(b'f'), listed(b'f', b'z')), (nothing, found)):
        for what, first, second, wanted in (
                ('made', [late, make()], [make(), early], 0),
                ('meanwhile', [slow, late], [make(), early], 0),
                ('lacks it', [slow, early], [make(), late], 1),
                ('both are wrong', [early, make()], [make(), late], 1),
                ('too early', [slow, late], [early, make()], 1)):
            wants(place, f'{late.procedure} {what}', [*first, ROOT], [*second, ROOT], wanted)


def ids_are_replaced_by_items(place: Comparisons) -> None:
    """The entry with a wrong id is the one that is named."""
    def run(first: int, second: int, wrong: int) -> list[Step]:
        names = (b'f', first), (b'g', second)
        entries = [messages.entryplus(fileid, name, at, fattr(1, fileid), b'handle ' + name)
                   for at, (name, fileid) in enumerate(((b'f', first), (b'g', wrong)), 1)]
        return [ROOT, FOLDER,
                *(looked(name, b'handle ' + name, fileid, folder=W) for name, fileid in names),
                *(got(b'handle ' + name, fileid) for name, fileid in names), entries_of(*entries)]
    said = any_order(place, run(10, 11, 11), run(20, 21, 20))
    labels = {one['label'] for found in said.json['findings'] for one in found['differences']}
    place.want('labels', (said.status, {label.split('.')[0] for label in labels}),
               (1, {'entry "g"', 'entry "g" listed'}))


# --- Calls of one run alone ---

def no_entry_is_an_answer_of_lookup_alone(place: Comparisons) -> None:
    """NOENT of any other question of one run alone is a difference."""
    asked = {GETATTR: b'', ACCESS: word(1), READLINK: b'', READDIR: bytes(16) + word(512),
             FSSTAT: b'', FSINFO: b'', PATHCONF: b''}
    for procedure, more in asked.items():
        results = failed(NOENT, *[post_op_attr()] * (procedure != GETATTR))
        wants(place, f'{procedure}', END, [*END, Step(procedure, fh(NAME) + more, results)], 1)
    gone = Step(LOOKUP, dirop(W, b'z'), failed(NOENT, post_op_attr()))
    found = looked(b'z', b'handle z', 50, folder=W)
    wants(place, 'LOOKUP', [make(), found], [gone, make(), found], 0)
    wants(place, 'LOOKUP after it', [make(), found], [make(), found, gone], 1)


def results_of(procedure: int, handle: bytes, changed: int) -> Step:
    """A question whose results are the same each time, or with another first value."""
    attributes = post_op_attr(fattr(1, 7))
    numbers = {FSINFO: [*map(word, (4096 - changed, 1, 1, 4096, 1, 1, 4096)), hyper(1 << 40),
                        word(0), word(1), word(27)],
               PATHCONF: map(word, (32 - changed, 255, 1, 1, 0, 1)),
               FSSTAT: [hyper(1000 - changed), *[hyper(9)] * 5, word(0)],
               READLINK: [opaque(b'target'[changed:])]}[procedure]
    return Step(procedure, fh(handle), ok(attributes, *numbers))


def results_that_no_other_answer_has(place: Comparisons) -> None:
    """Limits, links, rights and times are those of the same question, and each name comes once."""
    for procedure in (FSINFO, PATHCONF, FSSTAT, READLINK):
        for changed, wanted in ((0, 0), (1, 1)):
            some = [results_of(procedure, NAME, 0), *END]
            wants(place, f'{procedure} {changed}', some,
                  [*some, results_of(procedure, NAME, changed)], wanted)
    rights = [Step(ACCESS, fh(NAME) + word(asked), ok(post_op_attr(), word(granted)))
              for asked, granted in ((7, 5), (3, 1), (3, 3), (15, 5))]
    for right, wanted in zip(rights, (0, 0, 1, 1)):
        wants(place, f'{right}', [rights[0], *END], [rights[0], *END, right], wanted)
    for attributes in ({'nlink': 9}, {'mode': 0o7777}, {'size': 1}, {'uid': 1}, {'fsid': 9}):
        wants(place, f'{attributes}', END, [*END, got(NAME, 7, **attributes)], 1)
    both = [make(), listed(b'f', b'z'), *END]
    for what, extra, wanted in (
            ('whole', listed(b'f', b'z'), 0), ('twice', listed(b'f', b'z', b'f'), 1),
            ('lacks', listed(b'z'), 1), ('gone', listed(b'f', b'z', b'y'), 1),
            ('part', listed(b'f', is_end=False), 0),
            ('part that lacks', listed(b'z', is_end=False), 1)):
        wants(place, what, both, [*both, extra], wanted)


def equal_answers_that_a_run_does_not_allow(place: Comparisons) -> None:
    """They are noted in each form, and change no status."""
    old, new = got(NAME, 7), got(NAME, 7, mode=0o600)
    for last, wanted in ((old, 1), (new, 0)):
        said = any_order(place, [*START, listed(b'f'), old, set_to(0o600), ROOT, new],
                         [*START, set_to(0o600), listed(b'f', mode=0o600), last, ROOT, new])
        notes = [line for line in said.lines if line.startswith('note: ')]
        place.want(f'{wanted}', (said.status, len(notes), len(said.json.get('noted', []))),
                   (0, wanted, wanted))
        place.want('why', ['mode: the recorded changes and the other answers of the second run '
                           'do not allow it' in line for line in notes], [True] * wanted)
        place.compare('--order', 'any', '--html', 'out.html', '--junit', 'out.xml', 'a', 'b')
        place.want('pages', [b'note: ' in (place.read(name) or b'')
                             for name in ('out.html', 'out.xml')], [bool(wanted)] * 2)


def why_an_answer_is_not_explained(place: Comparisons) -> None:
    """A finding says whether its run does not allow a value, or does not know it."""
    for mode, shown, words in (
            (0o777, None, 'obj.mode: the recorded changes and the other answers of the second run '
             'do not allow it'),
            (0o600, 0o600, '')):
        said = any_order(place, [*START, got(NAME, 7), set_to(0o600)],
                         [*START, set_to(0o600, shown=shown), got(NAME, 7, mode=mode)])
        remarks = [one['remark'] for one in said.json['findings'] if 'GETATTR' in one['procedure']]
        place.want(f'{mode:o}', remarks, [words] if words else [])

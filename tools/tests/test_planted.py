"""Tests of `tools/compare --order any` with changes of one field in real recordings, and with runs
of a model server.

The model has 2 to 5 clients in one folder. Each has a script, and sends a call once the last one is
answered. Between call and reply a call is carried out, at once. What clients do to a shared object
gives the same end in any order: each changes names and modes of its own, and WRITEs, LINKs and new
names add up. Two sound runs in two random orders are the same, and one wrong value is a difference.
"""
import functools
import random
import struct
from collections import defaultdict
from collections.abc import Callable, Iterable, Iterator
from dataclasses import dataclass, field, replace
from itertools import chain, islice
from typing import NamedTuple, Optional

from examples import messages
from examples.messages import (
    NFS, auth_sys, call, dirop, failed, fattr, fh, fragment, guard, hyper, made, ok, opaque,
    post_op_attr, sattr, success, wcc, word)
from examples.packets import Talk, pcap
from tests.shared.running import tried

from ..nfs3tools.recordings.selection import Options
from ..nfs3tools.recordings.taken import take
from ..nfs3tools.shared.layouts import BY_NAME, BodyReader as Body, PlacedItem, procedures
from .cases import try_seeds
from .comparisons import Comparisons
from .scripts import TOP, in_turn

RECORDED = TOP / 'tools/tests/recorded'
NUMBERS = {key: one.name for key, one in procedures()}
DATA = 8  # bytes of files that are kept of a message
PLANTED = 16  # changes of a recording, each in a run of its own
# Values that are masked by name, that say which layout follows, or that name an object of which
# other messages depend.
LEFT = frozenset(
    'xid mtype rpcvers prog vers proc cred_flavor cred_length cred_body verf_flavor verf_body '
    'reply_stat accept_stat status stamp machinename gids tbytes fbytes abytes tfiles ffiles '
    'afiles invarsec used cookie cookieverf createverf atime_sec atime_nsec mtime_sec mtime_nsec '
    'ctime_sec ctime_nsec obj_attributes attr before after handle entry check set_mode set_uid '
    'set_gid set_size set_atime set_mtime fh name dirpath flavors spec1 spec2'.split())
BOOLEANS = frozenset(
    'eof no_trunc chown_restricted case_insensitive case_preserving'.split())
# Words of which few values are valid.
WORDS = BOOLEANS | {'type', 'how', 'stable', 'committed'}
# How many optional parts a failed reply has (RFC 1813, section 3.3): none of them is there.
FAILING = {'GETATTR': 0, 'SETATTR': 2, 'ACCESS': 1, 'READ': 1, 'COMMIT': 2, 'FSINFO': 1,
           'PATHCONF': 1}
STATUSES = (1, 2, 5, 13, 70, 10_006, 10_008)
OK_REPLY = bytes.fromhex('00000001000000000000000000000000 00000000'.replace(' ', ''))


@dataclass(frozen=True)
class Said:
    """A message of a run: its connection, and its side, 0 for a call."""
    connection: int
    side: int
    service: int
    body: bytes
    procedure: str

    @property
    def xid(self) -> tuple[int, bytes]:
        return self.connection, self.body[:4]

    def items(self) -> list[PlacedItem]:
        body = Body(self.body)
        body.read(self.side == 0, BY_NAME[self.procedure])
        return body.items


Run = list[Said]


def run_of(name: str) -> Run:
    """The messages of a recording in the order of the frames that completed them."""
    out = list[tuple[int, Said]]()
    with take(str(RECORDED / f'{name}.pcap.xz'), Options()) as taken:
        for number, one in enumerate(taken.connections):
            called, service = dict[bytes, str](), one.server_port or 2049
            for side, stream in enumerate((one.client, one.server)):
                for record, done in zip(stream.records(), stream.completions()):
                    body = record.body
                    if side == 0:
                        program, _, procedure = struct.unpack('>3I', body[12:24])
                        called[body[:4]] = NUMBERS.get((program, procedure), '')
                    name = called[body[:4]]
                    if name:
                        out.append((done.frame, shortened(
                            Said(number, side, service, body, name))))
    return [said for _, said in sorted(out, key=lambda one: one[0])]


def shortened(said: Said) -> Said:
    """A message with the first bytes of a file's data alone. The counts stay."""
    item = next((one for one in said.items() if one.name == 'data'), None)
    if item is None or item.end - item.begin <= DATA:
        return said
    body = said.body[:item.begin - 4] + struct.pack('>I', DATA)
    return replace(said, body=body + said.body[item.begin:item.begin + DATA])


def recorded(run: Iterable[Said]) -> bytes:
    """A recording with each message in a frame of its own."""
    run = list(run)
    talks = {said.connection: Talk(700 + said.connection, said.service) for said in run}
    frames = [frame for talk in talks.values() for frame in talk.opened()]
    for said in run:
        record = fragment(said.body)
        frames += [talks[said.connection].sent(said.side, record[at:at + 60_000])
                   for at in range(0, len(record), 60_000)]
    return pcap([*frames, *(frame for talk in talks.values() for frame in talk.closed())])


# --- Changes ---

class Plant(NamedTuple):
    """A change of one message: which it is, and its new body."""
    what: str
    at: int
    body: bytes


def other_value(said: Said, item: PlacedItem, chance: random.Random) -> bytes:
    """Another value of a field: one more, another of few, or another byte of data."""
    value = said.body[item.begin:item.end]
    if item.name in WORDS:
        few = {'type': (1, 2, 5), 'how': (0, 1)}.get(item.name, (0, 1, 2))
        few = (0, 1) if item.name in BOOLEANS else few
        now = int.from_bytes(value, 'big')
        return chance.choice([one for one in few if one != now]).to_bytes(4, 'big')
    if len(value) in (4, 8) and item.name not in ('data', 'verf'):
        return ((int.from_bytes(value, 'big') + 1) % (1 << 31)).to_bytes(len(value), 'big')
    at = chance.randrange(len(value))
    return value[:at] + bytes([value[at] ^ 1]) + value[at + 1:]


def fields_of(run: Run) -> dict[tuple[str, ...], list[tuple[int, PlacedItem]]]:
    """All fields that may be changed, by procedures, sides and names."""
    out = defaultdict[tuple[str, ...], list[tuple[int, PlacedItem]]](list)
    for at, said in enumerate(run):
        for item in said.items():
            plain = '(' not in item.name and item.name not in LEFT
            if plain and item.end > item.begin and (item.name != 'how' or item.value in '01'):
                out[said.procedure, 'call reply'.split()[said.side], item.name].append((at, item))
    return out


def planted_fields(run: Run, chance: random.Random) -> Iterator[Plant]:
    """A change of each kind of field, and then of each again."""
    fields = sorted(fields_of(run).items())
    chance.shuffle(fields)
    while True:
        for key, some in fields:
            at, item = chance.choice(some)
            yield Plant(' '.join(key), at,
                        run[at].body[:item.begin] + other_value(run[at], item, chance)
                        + run[at].body[item.end:])


def planted_statuses(run: Run, chance: random.Random) -> Iterator[Plant]:
    known = {f'NFSPROC3_{name}': number for name, number in FAILING.items()}
    some = [at for at, said in enumerate(run) if said.side and said.procedure in known
            and said.body[4:28] == OK_REPLY + bytes(4)]
    for status in STATUSES:
        at = chance.choice(some)
        body = run[at].body[:24] + struct.pack('>I', status) + bytes(4 * known[run[at].procedure])
        yield Plant(f'{run[at].procedure} status {status}', at, body)


def plants(run: Run, chance: random.Random) -> Iterator[Plant]:
    """Changes, each of another exchange: first of statuses, then of fields."""
    taken = set[tuple[int, bytes]]()
    for one in chain(planted_statuses(run, chance), planted_fields(run, chance)):
        if run[one.at].xid not in taken:
            taken.add(run[one.at].xid)
            yield one


# --- What is found ---

def positions(run: Run) -> dict[str, tuple[int, bytes]]:
    """The exchange of each message, by what the tool calls its place."""
    counts, out = defaultdict[tuple[int, int], int](int), dict[str, tuple[int, bytes]]()
    numbers = {one: at for at, one in enumerate(dict.fromkeys(said.connection for said in run), 1)}
    for said in run:
        counts[said.connection, said.side] += 1
        place = f'{"server" if said.side else "client"} record {counts[said.connection, said.side]}'
        out[f'connection {numbers[said.connection]} {place}'] = said.xid
    return out


class Found(NamedTuple):
    """The exchanges of all findings, and the procedures of what the first run has alone."""
    status: int
    exchanges: list[tuple[int, bytes]]
    alone: list[str]


def found_in(place: Comparisons, second: Run) -> Found:
    place.write('b.pcap', recorded(second))
    status, _, error = place.compare('--order', 'any', '--json', 'out.json', 'a.pcap', 'b.pcap')
    where, findings = positions(second), place.json('out.json')['findings']
    place.want('error', error, '')
    return Found(status, [where[one['second']['position']] for one in findings if one['second']],
                 [one['procedure'] for one in findings if not one['second']])


def plants_are_found(place: Comparisons, name: str) -> None:
    """Each change is one finding, of its exchange; a call may explain its reply."""
    first, second = run_of(f'{name}-a'), run_of(f'{name}-b')
    place.write('a.pcap', recorded(first))
    place.want(f'{name}: nothing', found_in(place, second), (0, [], []))
    for number, plant in enumerate(islice(plants(second, random.Random(name)), PLANTED)):
        said = second[plant.at]
        changed = [*second[:plant.at], replace(said, body=plant.body), *second[plant.at + 1:]]
        found, what = found_in(place, changed), f'{name} {number}: {plant.what}'
        most = 1 if said.side else 2
        place.want(what, (found.status, found.exchanges[:1], len(found.exchanges) <= most,
                          set(found.exchanges)), (1, [said.xid], True, {said.xid}))
        place.want(f'{what} alone', found.alone in ([], [said.procedure] * (not said.side)), True)


def calls_are_found(place: Comparisons, name: str) -> None:
    """Calls that are dropped or come twice, and replies that change places."""
    first, second = run_of(f'{name}-a'), run_of(f'{name}-b')
    place.write('a.pcap', recorded(first))
    chance = random.Random(name)
    calls = [at for at, said in enumerate(second) if not said.side
             and said.procedure in ('NFSPROC3_WRITE', 'NFSPROC3_SETATTR', 'NFSPROC3_COMMIT')]
    at = chance.choice(calls)
    one = second[at]
    found = found_in(place, [said for said in second if said.xid != one.xid])
    place.want('dropped', found, (1, [], [one.procedure]))
    found = found_in(place, twice(second, at, b'twin'))
    place.want('twice', (found.status, len(found.exchanges),
                         {(one.connection, b'twin'), one.xid}.issuperset(found.exchanges)),
               (1, 1, True))
    found = found_in(place, [*second[:at + 1], one, *second[at + 1:]])
    place.want('sent again', found[:2], (0, []))
    left_out = place.json('out.json')['left_out']
    place.want('listed', [other['kind'] for other in left_out].count('sent again'), 1)
    replies = by_answers(second)
    if len(replies) > 1:
        one_at, other_at = (some[0] for some in list(replies.values())[:2])
        turned = list(second)
        for to, of in ((one_at, other_at), (other_at, one_at)):
            body = second[to].body[:4] + second[of].body[4:]
            turned[to] = replace(second[to], body=body)
        found = found_in(place, turned)
        place.want('moved', (found.status, sorted(found.exchanges)),
                   (1, sorted((second[one_at].xid, second[other_at].xid))))


def twice(run: Run, at: int, xid: bytes) -> Run:
    """A run with an exchange a second time, right after it."""
    answer = next(number for number, said in enumerate(run) if said.side and said.xid
                  == run[at].xid)
    more = [replace(run[number], body=xid + run[number].body[4:]) for number in (at, answer)]
    return [*run[:answer + 1], *more, *run[answer + 1:]]


def by_answers(run: Run) -> dict[bytes, list[int]]:
    """Replies to GETATTR of files, by the object that they tell."""
    out = defaultdict[bytes, list[int]](list)
    for at, said in enumerate(run):
        if said.side and said.procedure == 'NFSPROC3_GETATTR':
            ids = [item.value for item in said.items() if item.name in ('fileid', 'type', 'mode')]
            if len(ids) == 3 and ids[0] == '1':
                out[ids[2].encode()].append(at)
    return out


def on(name: str, test: Callable[[Comparisons, str], None]) -> Callable[[Comparisons], None]:
    def tested(place: Comparisons) -> None:
        test(place, name)
    tested.__name__ = f'{name.replace("-", "_")}_{test.__name__}'
    tested.__doc__ = test.__doc__
    return tested


NAMES = ('knfsd-plain', 'knfsd-writes', 'natural-folder', 'natural-parallel')
TESTS = [on(name, test) for name in NAMES for test in (plants_are_found, calls_are_found)]


# --- A model server and its clients ---

(GETATTR, SETATTR, LOOKUP, ACCESS, WRITE, CREATE, MKDIR, REMOVE, RMDIR, RENAME, LINK, READDIR,
 READDIRPLUS) = 1, 2, 3, 4, 7, 8, 9, 12, 13, 14, 15, 16, 17
NOENT, FILE, FOLDER, SET_ID = 2, 1, 2, 0o6000
TOP, SHARED = b'top', [b'shared 0', b'shared 1']


@dataclass
class Node:
    number: int
    kind: int
    mode: int
    size: int = 0
    nlink: int = 1
    uid: int = 1000
    gid: int = 100


class Step(NamedTuple):
    """A call of a script: of a name in the folder, or of the folder itself if there is none. What
    it sets is a value, of RENAME and LINK another name."""
    procedure: int
    name: bytes = b''
    value: int = 0
    item: str = ''
    other: bytes = b''


class Wrong(NamedTuple):
    """What a server gets wrong once: in which turn, and which item of the first attributes, or
    'NOENT', or 'name' for one that a listing lacks."""
    turn: int
    item: str
    value: int = 0
    name: bytes = b''


@dataclass
class Done:
    """A call that was carried out, and its events: when it was sent and answered."""
    turn: int
    step: Step
    sent: int
    node: Optional[Node]  # as it was then, of what the first attributes are
    names: list[bytes]
    answered: int = 0


@dataclass
class Server:
    """The folder, and what was done.

    is_sorted: whether entries are listed by their names, or as they were made
    """
    is_sorted: bool
    first: int
    wrong: Optional[Wrong] = None
    entries: dict[bytes, Node] = field(default_factory=dict)
    done: list[Done] = field(default_factory=list)
    number: int = 0

    def __post_init__(self) -> None:
        self.folder = self.new(FOLDER, 0o755)
        self.folder.nlink = 2

    def new(self, kind: int, mode: int) -> Node:
        self.number += 1
        return Node(self.first + self.number, kind, mode, nlink=kind)

    def attributes(self, node: Node) -> bytes:
        now, wrong = self.done[-1], self.wrong
        node = replace(node, size=4096 + 64 * len(self.entries)) if node is self.folder else node
        if now.node is None:
            now.node = replace(node)
            if wrong and wrong.turn == now.turn and wrong.item not in ('NOENT', 'name'):
                node = replace(node, **{wrong.item: wrong.value})
        return fattr(node.kind, node.number, node.size, node.mode, node.nlink, node.uid, node.gid)

    def handle(self, node: Node) -> bytes:
        return b'handle %d' % node.number

    def call(self, step: Step, xid: int) -> bytes:
        """A call about the folder, or about a file in it."""
        node = self.entries.get(step.name, self.folder)
        asked = dirop(TOP, b'w') if step.name == b'w' else arguments(
            step, self.handle(self.folder), self.handle(node))
        return call(xid, NFS, 3, step.procedure, asked,
                    credential=auth_sys(1, b'box', 1000, 100, []))

    def carry_out(self, step: Step, sent: int) -> bytes:
        """Carries out a call, and returns the results."""
        self.done.append(Done(len(self.done), step, sent, None, list(self.entries)))
        if step.name == b'w':
            return ok(fh(self.handle(self.folder)),
                      post_op_attr(self.attributes(self.folder)), post_op_attr())
        return METHODS[step.procedure](self, step, self.entries.get(step.name, self.folder))

    def changed(self) -> bytes:
        return wcc(None, self.attributes(self.folder))

    def get(self, step: Step, node: Node) -> bytes:
        return ok(self.attributes(node))

    def access(self, step: Step, node: Node) -> bytes:
        return ok(post_op_attr(self.attributes(node)), word(0x1f))

    def set(self, step: Step, node: Node) -> bytes:
        setattr(node, step.item, step.value)
        if step.item != 'mode':
            node.mode &= ~SET_ID
        return ok(wcc(None, self.attributes(node)))

    def write(self, step: Step, node: Node) -> bytes:
        node.size, node.mode = max(node.size, step.value + 100), node.mode & ~SET_ID
        return ok(wcc(None, self.attributes(node)), word(100), word(2), bytes(8))

    def look_up(self, step: Step, node: Node) -> bytes:
        is_wrong = self.wrong and (self.wrong.turn, self.wrong.item) == (len(self.done) - 1,
                                                                         'NOENT')
        found = self.entries.get(step.name)
        if found is None or is_wrong:
            return failed(NOENT, post_op_attr(self.attributes(self.folder)))
        return ok(fh(self.handle(found)), post_op_attr(self.attributes(found)),
                  post_op_attr(self.attributes(self.folder)))

    def create(self, step: Step, node: Node) -> bytes:
        kind = FILE if step.procedure == CREATE else FOLDER
        self.entries[step.name] = one = self.new(kind, step.value)
        self.folder.nlink += kind == FOLDER
        return ok(made(self.handle(one), self.attributes(one), self.changed()))

    def remove(self, step: Step, node: Node) -> bytes:
        gone = self.entries.pop(step.name)
        gone.nlink -= 1
        self.folder.nlink -= gone.kind == FOLDER
        return ok(self.changed())

    def rename(self, step: Step, node: Node) -> bytes:
        self.entries[step.other] = self.entries.pop(step.name)
        return ok(self.changed(), self.changed())

    def link(self, step: Step, node: Node) -> bytes:
        self.entries[step.other] = node
        node.nlink += 1
        return ok(post_op_attr(self.attributes(node)), self.changed())

    def list(self, step: Step, node: Node) -> bytes:
        lacks = self.wrong.name if self.wrong and self.wrong.turn == len(self.done) - 1 else b''
        names = [name for name in self.entries if name != lacks]
        some = list(self.entries_of(sorted(names) if self.is_sorted else names,
                                    step.procedure == READDIRPLUS))
        return ok(messages.entries(self.attributes(self.folder), bytes(8), some, is_end=True))

    def entries_of(self, names: Iterable[bytes], has_attributes: bool) -> Iterator[bytes]:
        for name in names:
            node = self.entries[name]
            shown = (self.attributes(node), self.handle(node)) if has_attributes else ()
            make = messages.entryplus if has_attributes else messages.entry
            yield make(node.number, name, node.number * 8, *shown)


METHODS: dict[int, Callable[[Server, Step, Node], bytes]] = {
    GETATTR: Server.get, ACCESS: Server.access, SETATTR: Server.set, WRITE: Server.write,
    LOOKUP: Server.look_up, CREATE: Server.create, MKDIR: Server.create, REMOVE: Server.remove,
    RMDIR: Server.remove, RENAME: Server.rename, LINK: Server.link, READDIR: Server.list,
    READDIRPLUS: Server.list}


def arguments(step: Step, folder: bytes, handle: bytes) -> bytes:
    """The arguments of a call about a file of this handle."""
    return {
        GETATTR: lambda: fh(handle), ACCESS: lambda: fh(handle) + word(0x1f),
        SETATTR: lambda: fh(handle) + sattr(**{step.item: step.value}) + guard(),
        WRITE: lambda: fh(handle) + hyper(step.value) + word(100) + word(2) + opaque(bytes(100)),
        LOOKUP: lambda: dirop(folder, step.name), REMOVE: lambda: dirop(folder, step.name),
        CREATE: lambda: dirop(folder, step.name) + word(0) + sattr(mode=step.value),
        MKDIR: lambda: dirop(folder, step.name) + sattr(mode=step.value),
        RMDIR: lambda: dirop(folder, step.name),
        RENAME: lambda: dirop(folder, step.name) + dirop(folder, step.other),
        LINK: lambda: fh(handle) + dirop(folder, step.other),
        READDIR: lambda: fh(folder) + bytes(16) + word(4096),
        READDIRPLUS: lambda: fh(folder) + bytes(16) + word(4096) + word(8192)}[step.procedure]()


@dataclass
class Client:
    """A client: the rest of its script, its call that waits, and the results of that."""
    number: int
    script: list[Step]
    waiting: Optional[Step] = None
    sent: int = 0
    results: bytes = b''


def recorded_turns(chance: random.Random, server: Server, scripts: list[list[Step]]) -> bytes:
    """A recording of calls in a random order, after the first client made what is shared."""
    asked = [*(Step(ACCESS, name) for name in SHARED), Step(READDIRPLUS)]
    clients = [Client(number, [Step(LOOKUP, b'w'), *(
        Step(LOOKUP if number else CREATE, name, 0o644) for name in SHARED), *asked, *script])
        for number, script in enumerate(scripts)]
    said, alone = list[tuple[int, int, bytes]](), len(scripts[0])
    while ready := [one for one in clients if one.script or one.waiting]:
        first = clients[0]
        is_made = len(first.script) < alone or len(first.script) == alone and not first.waiting
        turn(chance.choice(ready) if is_made else first, server, said)
    return pcap(in_turn([Talk(700 + one.number) for one in clients], said))


def turn(client: Client, server: Server, said: list[tuple[int, int, bytes]]) -> None:
    """A client sends its next call, or its call is carried out, or answered."""
    if client.waiting is None:
        client.waiting, client.sent, client.results = client.script.pop(0), len(said), b''
        said.append((client.number, 0, server.call(client.waiting, len(said))))
    elif not client.results:
        client.results = server.carry_out(client.waiting, client.sent)
    else:
        own = next(one for one in reversed(server.done) if one.sent == client.sent)
        own.answered, client.waiting = len(said), None
        said.append((client.number, 1, success(client.sent, client.results)))


# --- Runs ---

FIRST_IDS = 100, 5_000  # of the objects of both runs


def script_of(chance: random.Random, number: int, clients: int) -> list[Step]:
    """The calls of a client. Names begin with its number, and client 0 sets what is shared."""
    own, out = dict[bytes, int](), list[Step]()
    for turn in range(chance.randrange(6, 16)):
        name, mode = b'%d-%d' % (number, turn), chance.choice((0o600, 0o644, 0o4755, 0o755))
        shared = chance.choice(SHARED)
        others = b'%d-%d' % (chance.randrange(clients), chance.randrange(8))
        choices = [question(chance, others), question(chance, others), Step(READDIR),
                   Step(WRITE, SHARED[0], 100 * chance.randrange(20)), Step(CREATE, name, mode),
                   Step(MKDIR, name, 0o755), Step(LINK, shared, other=name)]
        if number == 0:
            # (a WRITE clears bits of a mode, so these come in one order)
            choices += [Step(SETATTR, SHARED[1], mode, 'mode'), Step(WRITE, SHARED[1], 700),
                        Step(SETATTR, SHARED[0], mode & ~SET_ID, 'mode'),
                        Step(SETATTR, SHARED[0], chance.randrange(1000, 1004), 'uid')]
        for old, procedure in own.items():
            removing = RMDIR if procedure == MKDIR else REMOVE
            choices += [Step(RENAME, old, other=name), Step(removing, old)]
        step = chance.choice(choices)
        if step.procedure in (CREATE, MKDIR, LINK):
            own[name] = step.procedure
        elif step.name in own:
            procedure = own.pop(step.name)
            own.update({name: procedure} if step.procedure == RENAME else {})
        out.append(step)
    return out


def question(chance: random.Random, name: bytes) -> Step:
    """A call that asks for a name, for a shared file, or for the folder."""
    shared = chance.choice(SHARED)
    return chance.choice([Step(GETATTR), Step(GETATTR, shared), Step(ACCESS, shared),
                          Step(LOOKUP, name), Step(LOOKUP, shared), Step(READDIRPLUS)])


def scripts_of(seed: int) -> tuple[list[list[Step]], list[list[Step]]]:
    """The scripts of both runs: each may have a question that the other does not have."""
    chance = random.Random(seed)
    clients = chance.randrange(2, 6)
    scripts = [script_of(chance, number, clients) for number in range(clients)]
    first, second = [*map(list, scripts)], [*map(list, scripts)]
    names = [*SHARED, *(step.name for script in scripts for step in script if step.name)]
    for both in zip(first, second):
        script, asked = chance.choice(both), question(chance, chance.choice(names))
        if chance.random() < 0.6:
            script.insert(chance.randrange(len(script) + 1), asked)
    return first, second


def run(seed: int, number: int, wrong: Wrong | None = None) -> tuple[bytes, Server]:
    """A run of the scripts of a seed, 0 or 1, and what its server did."""
    server = Server(seed % 2 == 0, FIRST_IDS[number], wrong)
    return recorded_turns(random.Random(f'{seed} {number}'), server,
                          scripts_of(seed)[number]), server


def wrongs(done: list[Done], absent: set[bytes], chance: random.Random) -> Iterator[Wrong]:
    """Values that no server could say, but NOENT of a name that the other run does not find."""
    modes = {one.node.mode & ~bits for one in done if one.node
             for bits in (0, 0o2000, 0o4000, SET_ID)}
    for one in done[4:]:
        if one.node:
            mode = one.node.mode ^ 1 << chance.randrange(12)
            yield from (Wrong(one.turn, item, value) for item, value in (
                ('mode', mode), ('uid', 4242), ('gid', 4242), ('size', 1_000_000),
                ('nlink', one.node.nlink + 7)) if item != 'mode' or mode not in modes)
        for name in one.names:
            if not any(name in (other.step.name, other.step.other)
                       and other.step.procedure not in (LOOKUP, READDIR, READDIRPLUS)
                       and other.sent < one.answered and other.answered > one.sent
                       for other in done if name not in SHARED):
                if one.step.procedure == LOOKUP and one.step.name == name not in absent:
                    yield Wrong(one.turn, 'NOENT')
                elif one.step.procedure in (READDIR, READDIRPLUS):
                    yield Wrong(one.turn, 'name', name=name)


def both_pairs(seed: int, place: Comparisons) -> None:
    """A sound pair of a seed is the same, and one with a wrong value differs."""
    first, other_server = run(seed, 0)
    place.write('a', first)
    second, server = run(seed, 1)
    absent = {one.step.name for one in other_server.done
              if one.step.procedure == LOOKUP and one.step.name not in one.names}
    chance = random.Random(seed)
    some = [*wrongs(server.done, absent, chance)]
    kind = chance.choice(sorted({one.item for one in some}))
    wrong = chance.choice([one for one in some if one.item == kind])
    for what, other, wanted in (('sound', second, 0), (str(wrong), run(seed, 1, wrong)[0], 1)):
        place.write('b', other)
        status, _, error = place.compare('--order', 'any', 'a', 'b')
        place.want(f'{seed} {what}', (status, error), (wanted, ''))


def wrong_with(program: str, seed: int) -> list[str]:
    return tried(program, Comparisons, functools.partial(both_pairs, seed))


def runs_of_a_model(place: Comparisons) -> None:
    """Sound runs in two orders are the same; one wrong value in one of them is named."""
    try_seeds(place, 40, wrong_with)

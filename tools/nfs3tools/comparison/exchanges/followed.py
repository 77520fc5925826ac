"""The second run with values of the first one: ids that follow their objects, cookies that follow
entries, and verifiers of exclusive creates that follow files.

Which object of one run is which of the other is known by the exchanges that belong together. Of an
object the id counts that most of its run's answers say. Any other id stays, and differs.
"""
from __future__ import annotations

from collections import Counter, defaultdict
from collections.abc import Iterable, Iterator

from ...exchanges.listing import Line, LinePlace, line_of
from ...exchanges.procedures import CREATE, LISTINGS, is_of_files
from ...exchanges.values import Values, read_call, read_reply
from ...recordings.records import LAST_FRAGMENT
from ...recordings.spool import Stored
from ...recordings.taken import Taken, TakenConnection, TakenStream, whole
from ...shared.layouts import BY_NAME, BodyReader
from ...shared.places import SIDES, Side
from .facts import IdsOfRun, id_in, known_object
from .outlines import Outlines
from .pairing import Listing, Pairing

# The values that items of a message get, by their names and by how many of a name are before.
Replacements = dict[tuple[str, int], str]
# Messages that get some, each with its procedure.
ReplacedValues = dict[LinePlace, tuple[str, Replacements]]


def partners_of(pairing: Pairing) -> dict[int, int]:
    """Returns the first run's handle for each of the second: by most of the pairs with both."""
    votes = defaultdict[int, Counter[int]](Counter)
    here, there = pairing.here, pairing.there
    for at, to in pairing.pairs():
        both = zip([*here.objects_of(at), here.found[at]], [*there.objects_of(to), there.found[to]])
        for one, other in both:
            if one and other:
                votes[other][one] += 1
    return {other: some.most_common(1)[0][0] for other, some in votes.items()}


class SaidValuesOfRun:
    """What a run says: the ids of its objects, the cookies of entries by folders and names, and the
    verifiers of exclusive creates by exchanges."""

    def __init__(self, outlines: Outlines, lines: Iterable[str]) -> None:
        self.ids, self.cookies = IdsOfRun(outlines), dict[tuple[int, str], int]()
        self.verifiers = dict[int, str]()
        for at, line in outlines.located(lines):
            if line.is_call and line.procedure == CREATE:
                verifier = read_call(CREATE, line.text).get('createverf')
                self.verifiers.update({at: verifier} if verifier is not None else {})
            elif not line.is_call and is_of_files(line.procedure):
                self.ids.take(at, self.ids.statements(at, line))
                self.cookies.update(((outlines.folders[at], entry['name']), entry['cookie'])
                                    for entry in entries_listed(line))


def entries_listed(line: Line) -> list[Values]:
    if line.procedure not in LISTINGS:
        return []
    return list(read_reply(line.procedure, line.text)[1].get('entries', ()))


class Followed:
    """Which values of the second run become which of the first."""

    def __init__(self, pairing: Pairing, listings: tuple[Listing, Listing],
                 classes: frozenset[str]) -> None:
        """The listings are those of the canonical forms without a mask."""
        self.there, self.partners = pairing.there, partners_of(pairing)
        first, second = self.said = [SaidValuesOfRun(own, listing())
                                     for own, listing in zip(pairing.runs, listings)]
        self.has_ids = not classes.isdisjoint(('ids', 'fsids'))
        # The verifiers of the first run, by what is created and the second run's
        self.verifiers = dict[tuple[int, str], str]()
        for at, to in pairing.pairs() if 'createverfs' in classes else ():
            if at in first.verifiers and to in second.verifiers:
                self.verifiers.setdefault((self.there.asked[to], second.verifiers[to]),
                                          first.verifiers[at])
        # The cookies of the first run, by the second run's folders and cookies
        self.cookies = {(folder, cookie): first.cookies[self.partners.get(folder, 0), name]
                        for (folder, name), cookie in second.cookies.items()
                        if 'cookies' in classes
                        and (self.partners.get(folder, 0), name) in first.cookies}
        self.values: ReplacedValues = {}
        for line in map(line_of, listings[1]()):
            changed = dict(self.of_message(self.there.exchange_of(*line[:3]), line))
            if changed:
                self.values[line[:3]] = line.procedure, changed

    def of_message(self, at: int, line: Line) -> Iterator[tuple[tuple[str, int], str]]:
        """Iterates over the items of a message that get other values."""
        if line.procedure in LISTINGS and self.cookies:
            yield from self.of_cookies(at, [read_call(line.procedure, line.text)] if line.is_call
                                       else entries_listed(line))
        if line.is_call and line.procedure == CREATE and self.verifiers:
            own = read_call(CREATE, line.text).get('createverf', '')
            new = self.verifiers.get((self.there.asked[at], own), own)
            yield from [(('createverf', 0), new)] if new != own else ()
        elif not line.is_call and self.has_ids and is_of_files(line.procedure):
            yield from self.of_ids(at, line)

    def of_cookies(self, at: int, some: Iterable[Values]) -> Iterator[tuple[tuple[str, int], str]]:
        folder = self.there.folders[at]
        for turn, values in enumerate(some):
            new = self.cookies.get((folder, values['cookie']), values['cookie'])
            if new != values['cookie']:
                yield ('cookie', turn), str(new)

    def of_ids(self, at: int, line: Line) -> Iterator[tuple[tuple[str, int], str]]:
        first, second = self.said
        ids, own_ids, turns = first.ids.of_objects, second.ids.of_objects, Counter[str]()
        for statement in second.ids.statements(at, line):
            if not statement.has('fileid'):
                continue
            handle, name = own = known_object(statement)
            # (that of the first run)
            other = ids.get((self.partners.get(handle, 0), name))
            for number, item in enumerate(('fsid', 'fileid')):
                said = id_in(statement)[number]
                if said and other and other[number] and own in own_ids:
                    new = swapped(said, own_ids[own][number], other[number])
                    if new != said:
                        yield (item, turns[item]), new
                turns[item] += bool(said)


def swapped(said: str, own: str, other: str) -> str:
    """Returns what becomes of an id that an answer has of an object: its own becomes that of the
    first run. Another id stays. If that is the first run's, it becomes the object's own, so that it
    differs."""
    return {own: other, other: own}.get(said, said)


def with_values(taken: Taken, values: ReplacedValues) -> Taken:
    """Returns a run with other values in some messages, each record as one fragment."""
    out = Taken(taken.spool, None, taken.ports)

    def written(connection: TakenConnection, side: Side) -> TakenStream:
        stored = Stored(taken.spool)
        for number, body in connection.stream(side).records():
            place = connection.number, side == 'client', number
            if place in values:
                body = with_some(body, place[1], *values[place])
            stored.append((LAST_FRAGMENT | len(body)).to_bytes(4, 'big') + body)
        return TakenStream(stored, None, whole(stored))
    for one in taken.connections:
        client, server = (written(one, side) for side in SIDES)
        out.connections.append(one._replace(client=client, server=server))
    return out


def with_some(body: bytes, is_call: bool, procedure: str, values: Replacements) -> bytes:
    """Returns a message with other values. All of them have eight bytes."""
    message, out, turns = BodyReader(body), bytearray(body), Counter[str]()
    message.read(is_call, BY_NAME[procedure])
    for item in message.items:
        new = values.get((item.name, turns[item.name]))
        turns[item.name] += 1
        if new is not None:
            out[item.begin:item.end] = (bytes.fromhex(new) if item.name == 'createverf'
                                        else int(new).to_bytes(item.end - item.begin, 'big'))
    return bytes(out)

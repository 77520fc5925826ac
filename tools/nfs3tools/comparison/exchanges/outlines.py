"""What is kept of a run in place of its texts: a few numbers for each call.

They come from the listing of the masked capture in canonical form. Exchanges of two runs are equal
if their texts are, without the values that each run has its own of, and if their handles lead to
the same objects. It is all one how often a call was sent, and the same reply to it.
"""
from __future__ import annotations

import re
from array import array
from bisect import bisect_left, bisect_right
from collections import defaultdict
from collections.abc import Callable, Container, Iterable, Iterator
from functools import cached_property
from itertools import groupby
from operator import attrgetter

from ...exchanges.answering import Answering, error_in
from ...exchanges.listing import CALLED_NUMBERS, Line, line_of, place_of
from ...exchanges.objects import NAMING, handles_given
from ...exchanges.procedures import CHANGING, LOOKUP, handle_items
from ...exchanges.values import read_call
from ..values.classes import CLASSES, RENAMED, Mask, Way

SILLY = next(one for one in CLASSES if one.name == 'sillynames')
# Of alike calls the same, if they have them
ALIKE_ITEMS = ('name', 'from.name', 'to.name', 'link.name', 'dirpath', 'offset')
DOT_HASHES = hash('.'), hash('..')  # the folder itself, and the one above it
UNSEEN, SEEN, MADE = range(3)  # how well it is known where an object is


def classes_of_items(mask: Mask) -> dict[str, str]:
    """Returns the class in which an item's values are renamed, for each item that is."""
    return RENAMED | {item: one.name for one in CLASSES if mask.get(one.name) is Way.NUMBER
                      for item in one.items}


def renamed_values(mask: Mask) -> re.Pattern[str]:
    """Returns what finds the names and values of renamed items in a line."""
    return re.compile(f' ({"|".join(sorted(classes_of_items(mask)))})=([^ \\n"]+)')


def alike_in(line: Line) -> tuple[object, ...]:
    """Returns what alike calls have in common: the procedure's numbers, names and an offset."""
    numbers, call = CALLED_NUMBERS.match(line.text), read_call(line.procedure, line.text)
    return numbers and numbers.groups(), *(call.get(item) for item in ALIKE_ITEMS)


def is_silly(name: str) -> bool:
    """Whether a name is one that a client gave to a removed file."""
    return SILLY.has_value(f'"{name}"')


# When a call was sent, by its connection and record: a number that grows
When = Callable[[int, int], int]


class HandleOrigins:
    """What file handles mean: folder and name by which each was made, or else reached first."""

    def __init__(self) -> None:
        self.folders, self.names, self.known, self.origins = (
            array('I'), array('q'), bytearray(), array('I'))
        # Other folders and names, with their exchanges
        self.rivals: dict[int, list[tuple[int, int, int]]] = {}

    def learn(self, handle: int, folder: int, name: int, known: int, exchange: int) -> None:
        """Learns where an object is from an exchange, unless it is known better."""
        if name in DOT_HASHES:
            return
        if handle >= len(self.folders):
            more = handle + 1 - len(self.folders)
            for values in (self.folders, self.names, self.origins):
                values.extend([0] * more)
            self.known.extend([UNSEEN] * more)
        if known > self.known[handle]:
            self.rivals.pop(handle, None)
            self.place(handle, exchange, folder, name)
            self.known[handle] = known
        elif known == self.known[handle] and (
                (folder, name) != (self.folders[handle], self.names[handle])):
            self.rivals.setdefault(handle, []).append((exchange, folder, name))

    def place(self, handle: int, exchange: int, folder: int, name: int) -> None:
        self.origins[handle], self.folders[handle], self.names[handle] = exchange, folder, name

    def identities(self, when: Callable[[int], int]) -> 'array[int]':
        """Returns a number for each object that is the same in all runs: of its path, and of how
        many were made there before. It is 0 if the path is not known. Of several places of an
        object the one counts that was said first."""
        for handle, rivals in self.rivals.items():
            own = self.origins[handle], self.folders[handle], self.names[handle]
            self.place(handle, *min((own, *rivals), key=lambda rival: when(rival[0])))
        self.rivals = {}
        below = defaultdict[int, dict[int, list[int]]](dict)
        for handle, known in enumerate(self.known):
            if known:
                below[self.folders[handle]].setdefault(self.names[handle], []).append(handle)
        out = array('q', bytes(8 * max([len(self.known), *(folder + 1 for folder in below)])))
        tops = [folder for folder in below if folder >= len(self.known) or not self.known[folder]]
        # (what is below itself, as no file system has it, has no top)
        for top in (*tops, *below.copy()):
            waiting = [top]
            while waiting:
                folder = waiting.pop()
                for name, handles in below.pop(folder, {}).items():
                    if len(handles) > 1:
                        handles.sort(key=lambda handle: when(self.origins[handle]))
                    for before, handle in enumerate(handles):
                        out[handle] = hash((out[folder], name, before))
                    waiting += handles
        return out


class Outlines:
    """The exchanges of a run, numbered through all its connections, each in the order of its calls.
    When calls were sent need not be known; then each connection comes after the one before."""

    def __init__(self, lines: Iterable[str], mask: Mask, when: When | None = None) -> None:
        # Their numbers, and the first exchange of each
        self.connections, self.starts = list[int](), list[int]()
        # By their numbers, the exchange of each reply, and of each call, in the order of records
        self.owners = dict[int, tuple['array[int]', 'array[int]']]()
        # What a call asks, and what it and its replies say
        self.asked, self.said = array('q'), array('q')
        # The first handle of a call and of its reply, or 0
        self.folders, self.found = array('I'), array('I')
        self.seconds: dict[int, int] = {}  # the second handle of a call
        # The procedure of a call, by its number among those that there are
        self.kinds, self.procedures = array('B'), dict[str, int]()
        self.records = array('I')  # that of each call
        self.replies = array('I')  # the record of the first reply, or 0
        self.further: dict[int, list[int]] = {}  # the records of further replies
        # The records of retransmissions, and of replies to these that say the same again
        self.again, self.repeated = dict[int, list[int]](), dict[int, set[int]]()
        self.removed = dict[int, list[int]]()  # handles of removed files in listings
        self.unmade = set[int]()  # calls that would have changed something, and failed
        self.objects = HandleOrigins()
        pattern = renamed_values(mask)
        for connection, some in groupby(map(line_of, lines), attrgetter('connection')):
            self.connections.append(connection)
            self.starts.append(len(self))
            self.take_connection(some, pattern)
        self.names = list(self.procedures)
        self.turn_of: Callable[[int], int] = lambda at: when(*self.record_of(at)) if when else at
        self.ask_of_objects(self.turn_of)

    def __len__(self) -> int:
        return len(self.asked)

    def take_connection(self, lines: Iterable[Line], pattern: re.Pattern[str]) -> None:
        rule, named = Answering(len(self)), dict[int, int]()
        answered, _ = self.owners[self.connections[-1]] = array('I'), rule.owners
        said_before = dict[int, set[int]]()  # hashes of replies to calls that were sent again
        for line in lines:
            said = hash(pattern.sub('', line.text))
            if line.is_call:
                at, is_first = rule.call(line.xid, line.text)
                if not is_first:
                    self.again.setdefault(at, []).append(line.record)
                    continue
                call = read_call(line.procedure, line.text)
                if line.procedure in NAMING:
                    named[at] = hash(call.get('name', call.get('dirpath')))
                self.add_call(line, [int(call[item], 16) for item in handle_items(line.procedure)
                                     if call.get(item)], said)
                continue
            at = rule.reply(line.xid)
            answered.append(at)
            if at in self.again:
                own = hash(line.text)
                if own in said_before.setdefault(at, set()):
                    self.repeated.setdefault(at, set()).add(line.record)
                    continue
                said_before[at].add(own)
            self.add_reply(at, line.record, said)
            if line.procedure in CHANGING:
                # (one of its replies says whether it has changed something)
                if not error_in(line.procedure, line.text):
                    self.unmade.discard(at)
                elif line.record == self.replies[at]:
                    self.unmade.add(at)
            self.learn(at, line.procedure, line.text, named.get(at, 0))

    def add_call(self, line: Line, handles: list[int], said: int) -> None:
        if len(handles) > 1:
            self.seconds[len(self)] = handles[1]
        self.kinds.append(self.procedures.setdefault(line.procedure, len(self.procedures)))
        self.folders.append(handles[0] if handles else 0)
        self.records.append(line.record)
        self.found.append(0)
        self.replies.append(0)
        self.said.append(said)
        self.asked.append(said)

    def add_reply(self, at: int, record: int, said: int) -> None:
        self.said[at] = hash((self.said[at], said))
        if self.replies[at]:
            self.further.setdefault(at, []).append(record)
        else:
            self.replies[at] = record

    def learn(self, at: int, procedure: str, rest: str, name: int) -> None:
        """Learns from a reply which objects its call has reached."""
        folder = self.folders[at]
        for entry, digits in handles_given(procedure, rest):
            handle = int(digits, 16)
            if entry is None:
                self.found[at] = handle
                known = SEEN if procedure == LOOKUP else MADE
                self.objects.learn(handle, folder, name, known, at)
                continue
            self.objects.learn(handle, folder, hash(entry), SEEN, at)
            if is_silly(entry):
                self.removed.setdefault(at, []).append(handle)

    def ask_of_objects(self, when: Callable[[int], int]) -> None:
        """In what a call asks, objects take the place of handles, which each run numbers anew."""
        identities = self.objects.identities(when)
        identities.extend([0] * (1 + max(
            max(self.folders, default=0), max(self.seconds.values(), default=0),
            max(self.found, default=0)) - len(identities)))
        for at, (asked, said, folder, found) in enumerate(
                zip(self.asked, self.said, self.folders, self.found)):
            second = identities[self.seconds[at]] if at in self.seconds else 0
            self.asked[at] = asked = hash((asked, identities[folder], second))
            self.said[at] = hash((said, asked, identities[found]))
        for at, handles in self.removed.items():
            self.said[at] = hash((self.said[at], *(
                identities[handle] for handle in handles if handle < len(identities))))
        self.identities = identities

    def procedure_of(self, at: int) -> str:
        return self.names[self.kinds[at]]

    def object_of(self, at: int) -> int:
        """Returns the object that a call is about: the folder of a name."""
        return self.identities[self.folders[at]]

    def connection_of(self, at: int) -> int:
        """Returns the place of an exchange's connection among all."""
        return bisect_right(self.starts, at) - 1

    def place_of(self, connection: int) -> int:
        return bisect_left(self.connections, connection)

    def exchanges_of(self, place: int) -> range:
        """Returns the exchanges of a connection, by its place among all."""
        return range(self.starts[place],
                     self.starts[place + 1] if place + 1 < len(self.starts) else len(self))

    def record_of(self, at: int) -> tuple[int, int]:
        """Returns the number of a call's connection, and the call's record."""
        return self.connections[self.connection_of(at)], self.records[at]

    def sent_again(self, at: int) -> tuple[list[int], list[int]]:
        """Returns the records of retransmissions, and of replies that say the same again."""
        return self.again.get(at, []), sorted(self.repeated.get(at, ()))

    def replies_of(self, at: int) -> list[int]:
        return [self.replies[at], *self.further.get(at, ())] if self.replies[at] else []

    def exchange_of(self, connection: int, is_call: bool, record: int) -> int:
        return self.owners[connection][is_call][record - 1]

    def located(self, lines: Iterable[str],
                some: Container[int] | None = None) -> Iterator[tuple[int, Line]]:
        """Iterates over the lines of a listing of the run, of all exchanges or of some, each with
        its exchange, but for retransmissions, and for replies that say the same again."""
        for text in lines:
            connection, is_call, record = place_of(text)
            at = self.owners[connection][is_call][record - 1]
            if (some is None or at in some) and (
                    record == self.records[at] if is_call
                    else record not in self.repeated.get(at, ())):
                yield at, line_of(text)

    def objects_of(self, at: int) -> list[int]:
        return [handle for handle in (self.folders[at], self.seconds.get(at, 0)) if handle]

    @cached_property
    def users(self) -> dict[int, list[int]]:
        """The exchanges that ask for an object, or find it, by handles."""
        out = defaultdict[int, list[int]](list)
        for at in range(len(self)):
            for handle in (*self.objects_of(at), self.found[at]):
                out[handle].append(at)
        return out

    def is_new(self, at: int) -> bool:
        """Whether no call before an exchange knows the object that it finds."""
        turn, users = self.turn_of(at), self.users[self.found[at]]
        return all(self.turn_of(other) >= turn for other in users)

    def calls_alike(self, lines: Iterable[str], wanted: set[int]) -> dict[int, tuple[object, ...]]:
        """Returns of some exchanges what alike calls have in common: procedure, objects, names and
        offset. The lines are those of the listing."""
        return {at: (self.procedure_of(at), *alike_in(line),
                     *map(self.identities.__getitem__, self.objects_of(at)))
                for at, line in self.located(lines, wanted) if line.is_call}

    def said_again(self, lines: Iterable[str], wanted: set[int],
                   mask: Mask) -> dict[int, tuple[int, ...]]:
        """Returns what is said in some exchanges, by the listing under another mask."""
        out, pattern = {at: [self.asked[at], self.identities[self.found[at]]]
                        for at in wanted}, renamed_values(mask)
        for at, line in self.located(lines, wanted):
            out[at].append(hash(pattern.sub('', line.text)))
        return {at: tuple(said) for at, said in out.items()}

    def with_origins(self, exchanges: Iterable[int]) -> set[int]:
        """Returns these exchanges, and all that say where their objects are."""
        out, objects = set(exchanges), self.objects
        waiting = list(out)
        while waiting:
            handles = self.objects_of(waiting.pop())
            more = {objects.origins[handle] for handle in handles
                    if handle < len(objects.known) and objects.known[handle]} - out
            out |= more
            waiting += more
        return out

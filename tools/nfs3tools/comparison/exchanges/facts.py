"""What any order asks of two runs: when calls were sent and answered, which changes stand otherwise
to a question, and of each run its history, the ids of its objects, and some of its exchanges.

A change stands otherwise to a question if it was answered before the question was sent in one run
and not in the other, or if it overlaps the question in either. Which came first is known by frames;
whose a change is does not matter. Most often none does: that is known without reading what the
runs say. What they say is read once, from the listing of the canonical form that is not masked.
"""
from __future__ import annotations

import operator
from array import array
from bisect import bisect_left
from collections import Counter, defaultdict
from collections.abc import Callable, Hashable, Iterable, Sequence
from functools import cache, cached_property
from itertools import accumulate
from typing import NamedTuple, Optional

from ...exchanges.answering import REPLY_STATUS
from ...exchanges.history import STILL, CarriedOut, History, HistoryKey
from ...exchanges.listing import Line
from ...exchanges.procedures import (
    ACCESS, CHANGING, LISTINGS, LOOKUP, Statement, handle_items, is_of_files, names_in_call,
    statements_in)
from ...exchanges.stored import LongValues
from ...exchanges.timelines import Spans
from ...exchanges.values import Values, read_call, read_reply
from ...recordings.taken import Taken
from ...shared.layouts import RAW
from .matching import Pair
from .outlines import Outlines
from .pairing import Pairing

# The changes that were answered before a call was sent: how many, and a hash of them that is the
# same in both runs
ChangesBefore = tuple[int, int]
KnownObject = tuple[int, str]  # an object by its handle, or by its folder's and its name
Id = tuple[str, str]  # of the file system, empty if it is not known, and of the file
READ_CALLS = CHANGING | LISTINGS | {LOOKUP, ACCESS}  # of which more than handles are asked


class Turns:
    """When the calls of a run, 0 or 1, were sent and answered, and its changes.

    begins, ends: by exchanges, the frame with which the call begins, and that of its first reply
    done: the frame of the last reply, or STILL if it was sent more often than answered: it may be
        carried out again
    sent, ended: when the changes were sent, and ended, sorted
    digests: hashes of the first changes that ended: of none, of one, of two, ..
    """

    def __init__(self, taken: Taken, pairing: Pairing, run: int) -> None:
        self.outlines = pairing.runs[run]
        self.begins, self.ends = array('Q'), array('Q')
        connections = {one.number: one for one in taken.connections}
        replies = list['array[int]']()
        for place, number in enumerate(self.outlines.connections):
            own = self.outlines.exchanges_of(place)
            calls = array('Q', connections[number].client.first_frames())
            self.begins.extend(calls[record - 1]
                               for record in self.outlines.records[own.start:own.stop])
            replies.append(array('Q', connections[number].server.first_frames()))
            self.ends.extend(replies[place][record - 1] if record else STILL
                             for record in self.outlines.replies[own.start:own.stop])
        self.done = self.ends[:]
        for at in self.outlines.again:
            again, repeated = self.outlines.sent_again(at)
            answered = [*self.outlines.replies_of(at), *repeated]
            frames = replies[self.outlines.connection_of(at)]
            self.done[at] = STILL if len(answered) <= len(again) else max(
                frames[record - 1] for record in answered)
        changes = sorted(filter(self.is_change, range(len(self.outlines))),
                         key=self.done.__getitem__)
        self.sent = array('Q', sorted(map(self.begins.__getitem__, changes)))
        self.ended = array('Q', map(self.done.__getitem__, changes))
        hashes = (hash((pairing.name_of(run, at),)) for at in changes)
        self.digests = array('q', accumulate(hashes, operator.xor, initial=0))

    def is_change(self, at: int) -> bool:
        return self.outlines.procedure_of(at) in CHANGING and at not in self.outlines.unmade

    def before(self, at: int) -> Optional[ChangesBefore]:
        """Returns the changes before a call, or None if some overlap it."""
        begin, end = self.begins[at], self.ends[at]
        number = bisect_left(self.ended, begin)
        others = bisect_left(self.sent, end) - (self.is_change(at) and begin < end)
        return (number, self.digests[number]) if number == others else None


def is_quiet(turns: Sequence[Turns], pair: Pair) -> bool:
    """Whether no change stands otherwise to a question."""
    first, second = (own.before(at) for own, at in zip(turns, pair))
    return first is not None and first == second


class Change(NamedTuple):
    """A change in one of the runs, 0 or 1: its exchange."""
    run: int
    at: int


class ChangesOfKey:
    """The changes of one key in both runs.

    farthest: by runs, of the first changes that ended, the one that ended last in the other run,
        with its turn there
    """

    def __init__(self, pairing: Pairing, histories: Sequence[History], key: HistoryKey) -> None:
        self.runs = [Spans(history.changes.get(key, ())) for history in histories]
        turns = [{change.source: turn for turn, change in enumerate(spans.ended)}
                 for spans in self.runs]
        self.farthest = list[list[tuple[int, int]]]()
        for spans, partners, other in zip(self.runs, (pairing.partners, pairing.owners),
                                          reversed(turns)):
            far = ((other.get(partners[change.source], STILL), change.source)
                   for change in spans.ended)
            self.farthest.append(list(accumulate(far, max)))

    def otherwise(self, pair: Pair, frames: Sequence[tuple[int, int]]) -> Optional[Change]:
        """Returns a change that stands otherwise to a question, if there is one."""
        before = [bisect_left(spans.ends, begin) for spans, (begin, _) in zip(self.runs, frames)]
        for run, far in enumerate(self.farthest):
            if before[run] and far[before[run] - 1][0] >= before[1 - run]:
                return Change(run, far[before[run] - 1][1])
        for run, (spans, span) in enumerate(zip(self.runs, frames)):
            over = next((one for one in spans.between(*span) if one.source != pair[run]), None)
            if over:
                return Change(run, over.source)
        return None


def handles_asked(outlines: Outlines, at: int) -> Values:
    return {item: f'{handle:x}' for item, handle in zip(
        handle_items(outlines.procedure_of(at)), outlines.objects_of(at))}


def known_object(statement: Statement) -> KnownObject:
    return int(statement.handle or '0', 16), statement.name


def id_in(statement: Statement) -> Id:
    return (str(statement.value('fsid')) if statement.has('fsid') else '',
            str(statement.value('fileid')))


class IdsOfRun:
    def __init__(self, outlines: Outlines) -> None:
        self.outlines = outlines
        self.votes = defaultdict[KnownObject, Counter[Id]](Counter)
        self.tellers = defaultdict[tuple[KnownObject, Id], list[int]](list)

    def statements(self, at: int, line: Line) -> list[Statement]:
        """Returns what a reply says of objects that have ids."""
        _, reply = read_reply(line.procedure, line.text)
        return list(statements_in(line.procedure, handles_asked(self.outlines, at), reply))

    def take(self, at: int, statements: Iterable[Statement]) -> None:
        for statement in statements:
            if statement.has('fileid') and statement.handle:
                own, its = known_object(statement), id_in(statement)
                self.votes[own][its] += 1
                self.tellers[own, its].append(at)

    @cached_property
    def of_objects(self) -> dict[KnownObject, Id]:
        """The id of each object that most answers say, of those with a file system if some are."""
        return {own: max(some, key=lambda one: (some[one] * bool(one[0]), some[one]))
                for own, some in self.votes.items()}

    @cached_property
    def odd(self) -> set[int]:
        """The exchanges that say another id of an object than its run does elsewhere."""
        return {at for (own, one), ats in self.tellers.items()
                if one[1] != self.of_objects[own][1] or one[0] and one[0] != self.of_objects[own][0]
                for at in ats}


class Facts:
    """What is read of a run: messages, which are replies as they begin, with their exchanges, and
    names of calls."""

    def __init__(self, outlines: Outlines, lines: Iterable[str], turns: Turns | None,
                 wanted: set[int]) -> None:
        """`wanted` are the exchanges that are kept. Answers about handles of others are not read,
        unless one of them lists a folder, which may have any handles."""
        self.outlines, self.turns, self.wanted = outlines, turns, wanted
        self.objects = None if any(outlines.procedure_of(at) in LISTINGS for at in wanted) else {
            handle for at in wanted for handle in (*outlines.objects_of(at), outlines.found[at])
            if handle}
        # (what an object is called in both runs, or else in its own)
        self.known_as: Callable[[str], Hashable] = cache(
            lambda handle: self.identity(handle) or ~int(handle or '0', 16))
        self.history, self.ids = History(self.known_as, turns is not None), IdsOfRun(outlines)
        self.values, self.calls = LongValues(), dict[int, Values]()
        self.messages = dict[int, list[tuple[str, CarriedOut]]]()
        self.names = dict[int, tuple[str, ...]]()
        for at, line in outlines.located(lines):
            (self.take_call if line.is_call else self.take_reply)(at, line)
        for at in self.calls.keys() - self.history.frames.keys():
            if not outlines.replies[at]:
                self.history.take(self.carried_out(at, None, {}))
        self.calls.clear()
        self.history.settle()

    def identity(self, handle: str) -> int:
        """Returns what an object is called in both runs, 0 if that is not known."""
        number, identities = int(handle or '0', 16), self.outlines.identities
        return identities[number] if number < len(identities) else 0

    def take_call(self, at: int, line: Line) -> None:
        if at in self.wanted:
            self.messages[at] = []
        if line.procedure in READ_CALLS:
            self.calls[at] = read_call(line.procedure, line.text)
            names = names_in_call(line.procedure, self.calls[at])
            if names:
                self.names[at] = tuple(name for _, name in names)

    def take_reply(self, at: int, line: Line) -> None:
        if at in self.wanted:
            self.keep(at, line)
        is_further = at in self.history.frames
        if is_further or not is_of_files(line.procedure) or not self.is_asked(at, line):
            return
        status, reply = read_reply(line.procedure, line.text)
        one = self.carried_out(at, status, reply)
        self.ids.take(at, statements_in(one.procedure, one.call, one.reply))
        self.history.take(one)

    def is_asked(self, at: int, line: Line) -> bool:
        """Whether a reply is about the objects that are asked for, or is that to a change."""
        return self.objects is None or at in self.wanted or line.procedure in READ_CALLS or any(
            handle in self.objects
            for handle in (*self.outlines.objects_of(at), self.outlines.found[at]))

    def keep(self, at: int, line: Line) -> None:
        """Keeps a reply whole, with a digest of long data."""
        text = self.values.cut(line.text)
        head = REPLY_STATUS.match(text) if line.procedure != RAW.name else None
        status, reply = read_reply(line.procedure, text, self.values) if head else (None, {})
        # (up to the status)
        begin = text[:head.end(1) if head[1] else head.end()] if head else text
        self.messages[at].append((begin, self.carried_out(at, status, reply)))

    def carried_out(self, at: int, status: int | None, reply: Values) -> CarriedOut:
        procedure, turns = self.outlines.procedure_of(at), self.turns
        call = self.calls.get(at) or handles_asked(self.outlines, at)
        if turns is None:
            return CarriedOut(at, at, at, at, procedure, call, status, reply)
        return CarriedOut(at, turns.begins[at], turns.ends[at], turns.done[at], procedure, call,
                          status, reply, turns.is_change(at))

"""The exchanges of a recording as values, and which changes overlap which exchange."""
from __future__ import annotations

import bisect
import itertools
import sys
from collections import defaultdict
from collections.abc import Iterator
from functools import cached_property
from typing import NamedTuple

from ..exchanges.in_words import short
from ..exchanges.kept import Kept
from ..exchanges.procedures import (
    CHANGING, COMMIT, CREATE, DONE, LOOKUP, NO_ENTRY, NULL, PATHCONF, REMOVING, RENAME, WRITE,
    is_of_files, names_in_call, owners_in)
from ..exchanges.values import Attributes, Values, attributes, read_call, read_reply
from .rules import Evidence

UNLINKING = REMOVING | {RENAME}  # calls that take a name away
NEVER = sys.maxsize  # the end of a call that may still be carried out
END = 1 << 64  # no file is larger
EVERYWHERE = 0, END
# Errors after which a part may have been done: IO, NOSPC, DQUOT, SERVERFAULT and JUKEBOX.
UNSURE = (5, 28, 69, 10006, 10008)
EXIST = 17
UNCHECKED, GUARDED, EXCLUSIVE = 0, 1, 2
REMOVED = 'removed'  # in place of a handle: what a removed or moved name led to
ObjectKey = tuple[str, str]  # of an object: its server and its handle


class StatedAttributes(NamedTuple):
    """What a reply says of an object: its handle, if known, and attributes now and before."""
    handle: str
    now: Attributes | None
    before: Attributes | None


class RecordedExchange:
    """A call, first sent at a time and perhaps again, and its first reply.

    sent: how often the call was sent, on this connection and before on another one
    status, reply: the status is None if the call was not accepted, or got no reply
    is_change: whether the call may change the objects of which the reply says something
    is_ok, is_done: whether it was carried out, and whether it may have been, if only a part of it
    """

    def __init__(self, recorded: 'Recorded', number: int) -> None:
        kept, name = recorded.kept, recorded.kept.listed_name(number)
        # (two servers may have one address, and differ in their ports)
        self.recorded, self.server = recorded, kept.parts[kept.part_of[number]].server
        self.procedure = name
        self.call = read_call(name, kept.asking[number], recorded.values)
        self.reply: Values = {}
        self.status: int | None = None
        frame = self.ended = 0
        for reply in kept.replies_of(number)[:1]:
            self.status, self.reply = read_reply(name, kept.answering[reply], recorded.values)
            frame, self.ended = kept.reply_frames[reply], kept.reply_times[reply]
        self.source = Evidence(number, kept.frames[number] or NEVER, recorded.end_of(number), frame,
                               kept.times[number], short(name))
        self.sent = 1 + len(kept.again.get(number, ())) + (number in kept.earlier)
        self.is_change, self.is_ok = name in CHANGING, self.status == DONE
        self.is_done = self.is_ok or self.status in UNSURE

    def sender(self, number: int, by: str) -> str:
        """Returns who was the first to send these nanoseconds, which no second has."""
        return self.recorded.senders.setdefault((self.server, number), by)

    @property
    def first(self) -> int:
        return int(self.call['offset'])

    @property
    def last(self) -> int:
        """The byte behind those that the call is about."""
        return int(self.call['offset'] + self.call['count'])

    @cached_property
    def told(self) -> list[StatedAttributes]:
        told = [StatedAttributes(handle, attributes(self.reply, owner + '.after.')
                                 or attributes(self.reply, owner + '.'),
                                 attributes(self.reply, owner + '.before.'))
                for owner, handle in owners_in(self.procedure, self.call, self.reply)]
        return told + [StatedAttributes(entry.get('fh', ''), attributes(entry), None)
                       for entry in self.reply.get('entries', ())]

    @property
    def names(self) -> tuple[ObjectKey, ...]:
        """The folders of the call, each with the name in it: two of RENAME."""
        return tuple((sys.intern(folder), sys.intern(name))
                     for folder, name in names_in_call(self.procedure, self.call))

    def says_of(self, number: int) -> bool | None:
        """Returns whether the reply says that a name is, or was, there; None if it says nothing."""
        if self.procedure == RENAME:
            return True if self.is_ok and not number else None
        if self.procedure == LOOKUP or self.procedure in UNLINKING:
            return True if self.is_ok else False if self.status == NO_ENTRY else None
        if self.procedure == CREATE and self.call['how'] != GUARDED:
            return None
        return False if self.is_ok else True if self.status == EXIST else None

    def is_unsure(self) -> bool:
        """Whether it cannot be known what the call did to its names."""
        return self.status in UNSURE or self.sent > 1 or any(
            name in change.names for name in self.names for change in self.beside(name[0]))

    def beside(self, handle: str | None = None) -> Iterator['PossibleChange']:
        """Iterates over the other changes of an object, or that of its call, that overlap it."""
        own = self.source
        changes = self.recorded.changes.get((self.server, handle or self.call['fh']), [])
        at = bisect.bisect_right(changes, PossibleChange(own.end)) if changes else 0
        while at and changes[at - 1].latest >= own.begin:
            at -= 1
            if changes[at].number != own.number and changes[at].end >= own.begin:
                yield changes[at]

    def is_alone(self, handle: str | None = None) -> bool:
        return next(self.beside(handle), None) is None

    def is_quiet(self, handle: str | None = None) -> bool:
        """Whether the exchange has an end, and nothing else changed an object meanwhile."""
        return self.source.begin < NEVER and self.source.end < NEVER and self.is_alone(handle)


class PossibleChange(NamedTuple):
    """A call that may change an object: the frames between which it was carried out, the bytes that
    a WRITE is about, and the folders and names of others. `latest` is the last end of it and of
    those that began before."""
    begin: int
    end: int = NEVER
    number: int = NEVER
    written: tuple[int, int] = EVERYWHERE
    names: tuple[ObjectKey, ...] = ()
    latest: int = 0


class Recorded:
    """The exchanges of a recording.

    insensitive: servers for which names in upper and lower case are one (PATHCONF)
    changes: of each object, in the order of their begins
    pending: objects with a change or a COMMIT that got no reply, and names that such may change
    senders: who was the first to send a number of nanoseconds that no second has, by servers
    """

    def __init__(self, kept: Kept) -> None:
        self.kept, self.has_frames = kept, 0 not in kept.frames
        self.values = kept.values
        self.insensitive = set[str]()
        self.changes = defaultdict[ObjectKey, list[PossibleChange]](list)
        self.pending, self.senders = set[tuple[str, ...]](), dict[tuple[str, int], str]()
        for number in range(len(kept)):
            procedure = kept.listed_name(number)
            if procedure in CHANGING:
                self.note_change(self.exchange(number))
            elif procedure == COMMIT and not kept.firsts[number]:
                self.pending.add((self.exchange(number).server, self.exchange(number).call['fh']))
            elif procedure == PATHCONF and self.exchange(number).reply.get('case_insensitive'):
                self.insensitive.add(self.exchange(number).server)
        for changes in self.changes.values():
            changes.sort()
            ends: Iterator[int] = itertools.accumulate((one.end for one in changes), max)
            changes[:] = [change._replace(latest=end) for change, end in zip(changes, ends)]

    def note_change(self, one: RecordedExchange) -> None:
        number, begin, end, *_ = one.source
        written = (one.first, one.last) if one.procedure == WRITE else EVERYWHERE
        change = PossibleChange(begin, end, number, written, one.names)
        keys = {(one.server, told.handle) for told in one.told if told.handle}
        keys |= {(one.server, REMOVED)} if one.procedure in UNLINKING else set()
        for key in keys:
            self.changes[key].append(change)
        if one.status is None:
            self.pending |= keys | {(one.server, *name) for name in one.names}

    def end_of(self, number: int) -> int:
        """Returns the frame of the last reply, or NEVER if there are fewer replies than calls."""
        replies = self.kept.replies_of(number)
        if len(replies) <= len(self.kept.again.get(number, ())):
            return NEVER
        return self.kept.reply_frames[replies[-1]] or NEVER

    def exchange(self, number: int) -> RecordedExchange:
        return RecordedExchange(self, number)

    def answered(self) -> Iterator[RecordedExchange]:
        """Iterates over exchanges of NFS whose call was accepted, in the order of their ends."""
        for number in sorted(range(len(self.kept)), key=self.end_of):
            name = self.kept.listed_name(number)
            if self.kept.firsts[number] and is_of_files(name) and name != NULL:
                one = self.exchange(number)
                if one.status is not None:
                    yield one

"""How often each procedure was called in a connection, how that ended, how many bytes it took, and
how long: sums over the exchanges that are kept of it. They may be by user, client or path, too.
"""
from __future__ import annotations

import math
from array import array
from collections import Counter
from collections.abc import Callable, Iterable
from dataclasses import dataclass, field
from typing import NamedTuple

from ..exchanges.kept import UNTIMED, Kept, KeptExchange, host_of
from ..shared.layouts import BY_NAME
from ..shared.screens import Screen
from .window import ALL, TimeWindow

NANOSECONDS_OF_A_MILLISECOND = 1_000_000
BY_PROCEDURE = 'procedure'


class Longest(NamedTuple):
    """A latency in nanoseconds, with the recording, connection, record and frame of its call."""
    latency: int
    recording: str
    connection: int
    record: int
    frame: int


@dataclass
class Tally:
    """What is counted of a procedure: records of calls and of replies, as `nfs3canon check` does.

    again: how many calls are retransmissions: an earlier call of the connection, or of an earlier
        connection of the same client and server, has the same xid and all the same items
    unanswered: the calls without a reply; a call and its retransmissions are one
    call_bytes, reply_bytes: of the records, with their marks
    errors: how many replies have each error, by its name in the RFCs
    latencies, longest: nanoseconds from a call to its first reply, if the frames have times, and
        the longest of them, the first of several
    """
    calls: int = 0
    again: int = 0
    replies: int = 0
    unanswered: int = 0
    call_bytes: int = 0
    reply_bytes: int = 0
    errors: Counter[str] = field(default_factory=Counter)
    latencies: 'array[int]' = field(default_factory=lambda: array('q'))
    longest: Longest | None = None

    @property
    def total(self) -> int | None:
        return sum(self.latencies) if self.latencies else None

    @property
    def mean(self) -> int | None:
        return round(sum(self.latencies) / len(self.latencies)) if self.latencies else None

    @property
    def backward(self) -> int:
        """How many latencies are negative, since the clock went back."""
        return sum(latency < 0 for latency in self.latencies)

    def took(self, longest: Longest) -> None:
        """Notes a latency, if it is longer than those before."""
        if self.longest is None or longest.latency > self.longest.latency:
            self.longest = longest

    def add(self, other: 'Tally') -> None:
        for name in ('calls', 'again', 'replies', 'unanswered', 'call_bytes', 'reply_bytes'):
            setattr(self, name, getattr(self, name) + getattr(other, name))
        self.errors.update(other.errors)
        self.latencies.extend(other.latencies)
        if other.longest:
            self.took(other.longest)

    def ranked(self, parts: Iterable[float]) -> list[int | None]:
        """Returns for each part the smallest latency that it does not exceed, `None` if none is."""
        ordered = sorted(self.latencies)
        return [ordered[max(0, math.ceil(part * len(ordered)) - 1)] if ordered else None
                for part in parts]


Tallies = dict[str, Tally]  # by the names of procedures


def sum_of(several: Iterable[Tallies]) -> Tallies:
    """Returns what several connections have together."""
    out: Tallies = {}
    for tallies in several:
        for name, tally in tallies.items():
            out.setdefault(name, Tally()).add(tally)
    return out


def procedures_in_order(names: Iterable[str]) -> list[str]:
    """Returns the names of procedures in the order of the RFC; raw ones come last."""
    places = {name: place for place, name in enumerate(BY_NAME)}
    return sorted(names, key=lambda name: (places.get(name, len(places)), name))


def milliseconds(rank: int | None, screen: Screen = Screen()) -> str:
    if rank is None:
        return '-'
    number = rank / NANOSECONDS_OF_A_MILLISECOND
    return f'{number:.3f}' if screen.width is None else f'{number:,.3f}'


# By what exchanges may be counted other than by procedure.
GROUPINGS: dict[str, Callable[[KeptExchange], str]] = {
    'user': lambda one: '-' if one.asked.user is None else str(one.asked.user),
    'client': lambda one: host_of(one.part.client) or '-', 'path': lambda one: one.path or '-'}


def who_of(one: KeptExchange) -> str:
    """Returns the user and the client of a call, as `1000@192.0.2.7`."""
    return '@'.join(filter(None, [GROUPINGS['user'](one), host_of(one.part.client)]))


def tallies_of(kept: Kept, recording: str, number: int, window: TimeWindow = ALL,
               group: str = BY_PROCEDURE) -> Tallies:
    """Counts the exchanges in a window of a connection, by its place among those that are kept."""
    tallies: Tallies = {}
    own, name_of = kept.exchanges_of(number), GROUPINGS.get(group)
    for at in own if window == ALL else (at for at in own if window.has(kept.times[at])):
        name = name_of(kept.exchange(at)) if name_of else kept.names[kept.kinds[at]]
        count_exchange(kept, at, tallies.get(name) or tallies.setdefault(name, Tally()), recording)
    return tallies


def count_exchange(kept: Kept, at: int, tally: Tally, recording: str) -> None:
    again, replies = kept.again.get(at, ()), kept.replies_of(at)
    tally.calls += 1 + len(again)
    tally.again += len(again) + (at in kept.earlier)
    tally.call_bytes += kept.sizes[at] + sum(sent.size for sent in again)
    tally.replies += len(replies)
    tally.reply_bytes += sum(map(kept.reply_sizes.__getitem__, replies))
    tally.unanswered += not replies and (at not in kept.earlier or kept.is_unanswered(at))
    tally.errors.update(kept.errors.get(at, ()))
    latency = kept.latency(at)
    if latency != UNTIMED:
        tally.latencies.append(latency)
        if tally.longest is None or latency > tally.longest.latency:
            tally.longest = Longest(latency, recording, kept.parts[kept.part_of[at]].number,
                                    kept.records[at], kept.frames[at])

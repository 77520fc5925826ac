"""Which exchanges of two runs are shown side by side: those that differ, some pairs before and
after each of them, and how many calls are between these."""
from __future__ import annotations

from array import array
from bisect import bisect_left
from collections.abc import Callable, Iterable, Iterator, Sequence
from itertools import accumulate, groupby
from typing import NamedTuple

from ...exchanges.listing import Exchange
from ..exchanges.matching import Pair
from ..exchanges.pairing import NOBODY, Pairing

PAIRS_AROUND = 3  # that are shown before and after what differs
SHOWN_AT_MOST = 2_000  # pairs that differ


class ExcerptRow(NamedTuple):
    """An exchange of each run, or None, the path of what it is about, and if it is reported."""
    first: Exchange | None
    second: Exchange | None
    path: str | None
    is_told: bool


class HiddenCalls(NamedTuple):
    """Calls of the first run that are not shown: how many are equal to those of the second run, how
    many are among what is reported, and how many are in the first run alone and left out."""
    equal: int = 0
    told: int = 0
    left_out: int = 0


class ExcerptConnection(NamedTuple):
    """The numbers of a connection in both runs, or None, and its rows and gaps in order."""
    first: int | None
    second: int | None
    rows: list[ExcerptRow | HiddenCalls]


class Shown:
    """What is shown of two runs. A pair has NOBODY in place of an exchange that one of them does
    not have.

    connections: those of which something is shown, in the order of the first run
    others, rest: how many connections the first run has besides, and what is in them
    cut: how many exchanges that the second run alone has are not shown, although they are reported
    """
    connections: list[ExcerptConnection]
    others: int
    rest: HiddenCalls

    def __init__(self, pairing: Pairing, told: Iterable[Pair], besides: Iterable[int]) -> None:
        """Chooses among the pairs that are reported, and what is near them. `besides` are more
        exchanges of the first run that are reported."""
        self.pairing, self.here, self.there = pairing, pairing.here, pairing.there
        self.told = set(told)
        # By connections of the second run: after which exchange of the first run each of its
        # exchanges comes
        self.followed = dict[int, 'array[int]']()
        self.told_of_first = sorted({*(at for at, _ in self.told if at != NOBODY), *besides})
        chosen = sorted(self.told, key=self.key_of)[:SHOWN_AT_MOST]
        self.pairs = {*chosen, *(pair for one in chosen for pair in self.near(one))}
        self.cut = sum(at == NOBODY for at, _ in self.told - self.pairs)

    def comes_after(self, to: int) -> int:
        """Returns which exchange of the first run is before one of the second, in connections that
        are matched: as many exchanges of both runs are before it as in the second run. (Calls
        before it may be reordered.)"""
        place = self.there.connection_of(to)
        own, home = (self.there.exchanges_of(place),
                     self.here.exchanges_of(self.place_of((NOBODY, to))))
        if place not in self.followed:
            paired = [at in home for at in self.pairing.owners[own.start:own.stop]]
            before = [home.start - 1, *sorted(filter(home.__contains__,
                                                     self.pairing.owners[own.start:own.stop]))]
            self.followed[place] = array('i', (before[number]
                                               for number in accumulate(paired, initial=0)))
        return self.followed[place][to - own.start]

    def place_of(self, pair: Pair) -> int:
        """Returns the place of the first run's connection where a pair is shown, or one behind."""
        at, to = pair
        if at != NOBODY:
            return self.here.connection_of(at)
        return self.pairing.places_of_homes.get(self.there.connection_of(to),
                                                len(self.pairing.homes))

    def key_of(self, pair: Pair) -> tuple[int, int, int]:
        """The order of the first run; what the second alone has comes after what is before it."""
        at, to = pair
        place = self.place_of(pair)
        if at != NOBODY:
            return place, at, NOBODY
        return place, self.comes_after(to) if place < len(self.pairing.homes) else NOBODY, to

    def near(self, pair: Pair) -> Iterator[Pair]:
        """Returns the pairs of the same connection that are a few before or after one."""
        at, to = pair
        outlines, middle, partners = (
            (self.here, at, self.pairing.partners) if at != NOBODY
            else (self.there, to, self.pairing.owners))
        own = outlines.exchanges_of(outlines.connection_of(middle))
        some = range(max(own.start, middle - PAIRS_AROUND),
                     min(own.stop, middle + PAIRS_AROUND + 1))
        return ((one, partners[one]) if at != NOBODY else (partners[one], one) for one in some
                if partners[one] != NOBODY)

    def fill(self, row: Callable[[Pair, bool], ExcerptRow]) -> 'Shown':
        """Finds what is shown. `row` takes a pair apart, given whether it is reported."""
        groups = groupby(sorted(self.pairs, key=self.key_of), self.connections_of)
        rows = {both: list(self.rows(both[0], list(pairs), row)) for both, pairs in groups}
        self.connections = [ExcerptConnection(
            None if place == NOBODY else self.here.connections[place],
            None if other == NOBODY else self.there.connections[other], own)
            for (place, other), own in rows.items()]
        others = [place for place, home in enumerate(self.pairing.homes)
                  if (place, home) not in rows]
        gaps = [self.gap(own.start, own.stop) for own in map(self.here.exchanges_of, others)]
        self.others = len(others)
        self.rest = HiddenCalls(*map(sum, zip(HiddenCalls(), *gaps)))
        return self

    def connections_of(self, pair: Pair) -> Pair:
        """Returns the places of the connections of both runs where a pair is shown."""
        place = self.place_of(pair)
        if place < len(self.pairing.homes):
            return place, self.pairing.homes[place]
        return NOBODY, self.there.connection_of(pair[1])

    def rows(self, place: int, pairs: Sequence[Pair],
             row: Callable[[Pair, bool], ExcerptRow]) -> Iterator[ExcerptRow | HiddenCalls]:
        """Returns the rows of a connection of the first run, and what is between them."""
        own = self.here.exchanges_of(place) if place != NOBODY else range(0)
        begin = own.start
        for pair in pairs:
            at = pair[0] if pair[0] != NOBODY or place == NOBODY else self.comes_after(pair[1]) + 1
            if at > begin:
                yield self.gap(begin, at)
            yield row(pair, pair in self.told)
            begin = max(begin, at + (pair[0] != NOBODY))
        if begin < own.stop:
            yield self.gap(begin, own.stop)

    def gap(self, begin: int, end: int) -> HiddenCalls:
        """Returns what some exchanges of the first run are that follow one another."""
        told = self.told_of_first[
            bisect_left(self.told_of_first, begin):bisect_left(self.told_of_first, end)]
        alone = self.pairing.partners[begin:end].count(NOBODY)
        told_alone = sum(self.pairing.partners[at] == NOBODY for at in told)
        return HiddenCalls(end - begin - alone - (len(told) - told_alone), len(told),
                           alone - told_alone)

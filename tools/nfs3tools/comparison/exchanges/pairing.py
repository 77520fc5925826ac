"""Which exchange of one run belongs to which of the other, over all connections and in any
order."""
from __future__ import annotations

from array import array
from collections import Counter, defaultdict, deque
from collections.abc import Callable, Hashable, Iterable, Iterator, Mapping, Sequence
from functools import cached_property
from itertools import groupby, islice, tee

from ...exchanges.procedures import ACCESS, GETATTR, LISTINGS, LOOKUP, NULL, STEADY
from ..values.classes import Mask
from .matching import Pair, aligned, blocks_of, increasing
from .outlines import Outlines
from .reordered import Numbered

Listing = Callable[[], Iterable[str]]
Key = Callable[[int], Hashable]  # of an exchange
KeysOfRuns = tuple[Key, Key]  # of exchanges of both runs

# Calls that change nothing. A client's caches and timers decide when they are sent. COMMIT is none:
# what it makes safe is no matter of caches.
ASKING = STEADY | LISTINGS | {NULL, GETATTR, LOOKUP, ACCESS, 'MOUNTPROC3_NULL'}
FIRST_CALLS = 50  # by which connections are brought together
ASKED_BY_MANY = 16  # connections: a call that so many begin with says nothing of one
# Calls that a gap may have in the second run above those of the first, for what may be elsewhere,
# too
SURPLUS_AT_MOST = 8
NOBODY = -1


class InOrder:
    """Exchanges of a run in an order, as `reordered` takes them."""

    def __init__(self, outlines: Outlines, order: Sequence[int]) -> None:
        self.outlines, self.order = outlines, order

    def __iter__(self) -> Iterator[Numbered]:
        outlines = self.outlines
        return (Numbered(outlines.connections[outlines.connection_of(at)],
                         [outlines.records[at]], outlines.replies_of(at)) for at in self.order)


def repeats_of(outlines: Outlines) -> Iterator[Numbered]:
    """Iterates over the retransmissions of a run, and the replies that say the same again."""
    for at in sorted(outlines.again):
        yield Numbered(outlines.record_of(at)[0], *outlines.sent_again(at))


class Pairing:
    """Two runs, and which of their exchanges are matched.

    partners, owners: for each exchange of the first run that of the second, and the other way round
    homes: for each connection of the first run that of the second, by their places among all
    """

    def __init__(self, here: Outlines, there: Outlines, homes: list[int]) -> None:
        self.here, self.there, self.homes = here, there, homes
        self.runs = here, there
        self.partners, self.owners = (array('i', [NOBODY]) * len(run) for run in self.runs)

    def bind(self, at: int, to: int) -> None:
        self.partners[at], self.owners[to] = to, at

    def pairs(self) -> Iterator[Pair]:
        return ((at, to) for at, to in enumerate(self.partners) if to != NOBODY)

    def without(self, some: Iterable[Pair]) -> 'Pairing':
        """Returns the same without some pairs, whose exchanges have no partner then."""
        out = Pairing(self.here, self.there, self.homes)
        out.partners, out.owners = self.partners[:], self.owners[:]
        for at, to in some:
            out.partners[at] = out.owners[to] = NOBODY
        return out

    def name_of(self, run: int, at: int) -> int:
        """Returns what an exchange of a run is called in both: the same as its partner."""
        other = (self.partners, self.owners)[run][at]
        return -2 - run - 2 * at if other == NOBODY else (at, other)[run]

    def matched(self, run: int) -> 'array[int]':
        """Returns the exchanges of a run that have a partner, in the order of the first run."""
        return array('I', (pair[run] for pair in self.pairs()))

    def alone(self, run: int) -> list[int]:
        return [at for at, other in enumerate((self.partners, self.owners)[run]) if other == NOBODY]

    @cached_property
    def is_in_place(self) -> bool:
        """Whether each message is in the same place in both runs."""
        return self.partners == array('i', range(len(self.there))) and all(
            getattr(self.here, name) == getattr(self.there, name)
            for name in ('connections', 'starts', 'records', 'replies', 'further', 'again',
                         'repeated'))

    def home_of(self, place: int) -> range:
        """Returns the exchanges of the second run's connection that belongs to one of the first."""
        return (self.there.exchanges_of(self.homes[place]) if self.homes[place] != NOBODY
                else range(0))

    def at_home(self, place: int) -> Iterator[Pair]:
        """Iterates over the pairs of a connection of the first run and of its partner."""
        own, home = self.here.exchanges_of(place), self.home_of(place)
        return ((at, to) for at, to in zip(own, islice(self.partners, own.start, own.stop))
                if to in home)

    @cached_property
    def sent_again(self) -> list[Pair]:
        """The pairs whose call was sent more often in one run, or answered in the same words."""
        some = {at for at in self.here.again if self.partners[at] != NOBODY}
        if self.there.again:
            some |= {at for at, to in self.pairs() if to in self.there.again}
        return [(at, self.partners[at]) for at in sorted(some)
                if list(map(len, self.here.sent_again(at)))
                != list(map(len, self.there.sent_again(self.partners[at])))]

    @cached_property
    def elsewhere(self) -> list[Pair]:
        """The pairs whose connections are not matched."""
        if self.is_in_place:
            return []
        places = ((self.here.exchanges_of(place), self.home_of(place))
                  for place in range(len(self.homes)))
        return [(at, self.partners[at]) for own, home in places for at in own
                if self.partners[at] != NOBODY and self.partners[at] not in home]

    @cached_property
    def moved(self) -> list[Pair]:
        """The pairs in matched connections whose calls are reordered."""
        if self.is_in_place:
            return []
        return [pair for place in range(len(self.homes))
                if not is_in_order(to for _, to in self.at_home(place))
                for pair in out_of_order(list(self.at_home(place)))]

    @cached_property
    def late_replies(self) -> list[tuple[int, int, int]]:
        """The connections with replies in another order: how many of them, and of how many."""
        if self.is_in_place:
            return []
        turns = [(place, self.turns_of_replies(place)) for place in range(len(self.homes))]
        return [(self.here.connections[place], len(out_of_order(list(enumerate(some)))), len(some))
                for place, some in turns if not is_in_order(some)]

    @cached_property
    def late_connections(self) -> int:
        """How many connections come in another order."""
        return len(out_of_order([(place, home) for place, home in enumerate(self.homes)
                                 if home != NOBODY]))

    @cached_property
    def places_of_homes(self) -> dict[int, int]:
        """The places of connections of the first run, by those of the second that belong there."""
        return {home: place for place, home in enumerate(self.homes) if home != NOBODY}

    def turns_of_replies(self, place: int) -> 'array[int]':
        """Returns the records of the second run's replies, in the order of the first run's."""
        turns = array('I', [0]) * (1 + len(self.here.owners[self.here.connections[place]][False]))
        for at, to in self.at_home(place):
            for record, other in zip(self.here.replies_of(at), self.there.replies_of(to)):
                turns[record] = other
        return array('I', filter(None, turns))

    # --- Matching ---

    def in_order(self) -> None:
        """Binds equal exchanges, as they follow one another in connections that are matched."""
        for place, own in enumerate(map(self.here.exchanges_of, range(len(self.homes)))):
            its = self.home_of(place)
            for at, to, size in blocks_of(self.here.said[own.start:own.stop],
                                          self.there.said[its.start:its.stop]):
                first, second = own.start + at, its.start + to
                self.partners[first:first + size] = array('i', range(second, second + size))
                self.owners[second:second + size] = array('i', range(first, first + size))

    def by_turn(self, keys: KeysOfRuns) -> None:
        """Binds exchanges of one key in their order: in matched connections first, then in any."""
        here, there = keys
        at_home: KeysOfRuns = (
            lambda at: (here(at), self.here.connection_of(at)),
            lambda to: (there(to), self.places_of_homes.get(self.there.connection_of(to))))
        for key, other_key in (at_home, keys):
            waiting = grouped(self.alone(1), other_key)
            for at in self.alone(0):
                own = waiting.get(key(at))
                if own:
                    self.bind(at, own.popleft())

    def gaps(self, more: int) -> Iterator[tuple[list[int], list[int]]]:
        """Returns what is left between two neighbours, in connections that are matched. The
        second run may have so many more calls there than the first."""
        for _, run in groupby(enumerate(self.alone(0)),
                              lambda numbered: (self.here.connection_of(numbered[1]),
                                                numbered[1] - numbered[0])):
            here = [at for _, at in run]
            place = self.here.connection_of(here[0])
            own, its = self.here.exchanges_of(place), self.home_of(place)
            before = self.partners[here[0] - 1] if here[0] > own.start else its.start - 1
            after = self.partners[here[-1] + 1] if here[-1] + 1 < own.stop else its.stop
            if before + 1 in its and after - 1 in its and after - before - 1 <= len(here) + more:
                yield here, [to for to in range(before + 1, after) if self.owners[to] == NOBODY]

    def in_gaps(self, keys: KeysOfRuns, more: int) -> None:
        """Binds exchanges of one key, as they follow one another between two bound neighbours."""
        for own, its in self.gaps(more):
            for at, to in aligned(list(map(keys[0], own)), list(map(keys[1], its))):
                self.bind(own[at], its[to])

    def as_often(self, keys: KeysOfRuns) -> None:
        """Binds exchanges of one key, if both runs have as many between two bound neighbours."""
        for own, its in self.gaps(SURPLUS_AT_MOST):
            waiting = grouped(its, keys[1])
            for key, some in grouped(own, keys[0]).items():
                if len(some) == len(waiting.get(key, ())):
                    for at, to in zip(some, waiting[key]):
                        self.bind(at, to)

    def by_key(self, keys: KeysOfRuns) -> None:
        """Binds exchanges that have a key in common: those between near neighbours first."""
        self.in_gaps(keys, SURPLUS_AT_MOST)
        self.by_turn(keys)


def begin_of(outlines: Outlines, place: int, key: Key) -> tuple[Hashable, ...]:
    """Returns the keys of the first calls of a connection."""
    return tuple(map(key, outlines.exchanges_of(place)[:FIRST_CALLS]))


def matched_connections(here: Outlines, there: Outlines) -> list[int]:
    """Returns for each connection the one of the other run that has most calls in common with it at
    its beginning, or else one that begins with the same calls, or with calls of the same
    procedures."""
    begun, votes = defaultdict[Hashable, list[int]](list), Counter[Pair]()
    keys: list[KeysOfRuns] = [(here.asked.__getitem__, there.asked.__getitem__),
                              (here.procedure_of, there.procedure_of)]
    for other in range(len(there.starts)):
        for key in set(begin_of(there, other, keys[0][1])):
            begun[key].append(other)
    for place in range(len(here.starts)):
        for key in set(begin_of(here, place, keys[0][0])):
            if len(begun[key]) <= ASKED_BY_MANY:
                votes.update((place, other) for other in begun[key])
    homes, taken = [NOBODY] * len(here.starts), set[int]()
    for (place, other), _ in sorted(votes.items(),
                                    key=lambda vote: (-vote[1], abs(vote[0][0] - vote[0][1]),
                                                      vote[0])):
        if homes[place] == NOBODY and other not in taken:
            homes[place] = other
            taken.add(other)
    for own, its in keys:
        waiting = grouped((other for other in range(len(there.starts)) if other not in taken),
                          lambda other: begin_of(there, other, its))
        for place in (place for place, home in enumerate(homes) if home == NOBODY):
            alike = waiting.get(begin_of(here, place, own))
            if alike:
                homes[place] = alike.popleft()
                taken.add(homes[place])
    return homes


def is_in_order(numbers: Iterable[int]) -> bool:
    every, following = tee(numbers)
    return all(before < after for before, after in zip(every, islice(following, 1, None)))


def out_of_order(pairs: Sequence[Pair]) -> list[Pair]:
    """Returns as few pairs as may be, sorted by their firsts, whose seconds are out of order."""
    kept = set(increasing(pairs))
    return [pair for pair in pairs if pair not in kept]


def grouped(some: Iterable[int], key: Key) -> dict[Hashable, deque[int]]:
    out = defaultdict[Hashable, deque[int]](deque)
    for at in some:
        out[key(at)].append(at)
    return out


def keys_in(first: Mapping[int, Hashable], second: Mapping[int, Hashable]) -> KeysOfRuns:
    """Returns the keys of exchanges of both runs that have one. All others are by themselves."""
    return lambda at: first.get(at, ('first', at)), lambda to: second.get(to, ('second', to))


def several(pairing: Pairing) -> tuple[set[int], set[int]]:
    """Returns the exchanges without a partner of which both runs have some that ask the same."""
    left = [{at: run.asked[at] for at in pairing.alone(number)}
            for number, run in enumerate(pairing.runs)]
    asked, asked_there = (Counter(some.values()) for some in left)
    keys = {key for key in asked.keys() & asked_there.keys() if asked[key] + asked_there[key] > 2}
    own, its = ({at for at, key in some.items() if key in keys} for some in left)
    return own, its


def paired(here: Outlines, there: Outlines, listings: tuple[Listing, Listing],
           lonely: frozenset[str],
           relaxed: Callable[[], tuple[Mask, tuple[Listing, Listing]]] | None = None) -> Pairing:
    """Brings the exchanges of two runs together: those that are equal first, also under a relaxed
    mask if there is one, which masks more; then those whose calls ask the same, then alike calls,
    then calls of one procedure between the same neighbours. Calls of the lonely procedures are
    brought together only if they ask the same, or if both runs have as many of one procedure, on
    one object, between the same neighbours: caches of clients leave no such traces, but a client
    that asks for another name does.
    """
    pairing = Pairing(here, there, matched_connections(here, there))
    pairing.in_order()
    pairing.by_turn((here.said.__getitem__, there.said.__getitem__))
    own, its = several(pairing) if relaxed else (set[int](), set[int]())
    if relaxed and own:
        mask, (first, second) = relaxed()
        pairing.by_key(keys_in(here.said_again(first(), own, mask),
                               there.said_again(second(), its, mask)))
    pairing.by_key((here.asked.__getitem__, there.asked.__getitem__))
    left, others = ({at for at in pairing.alone(number) if run.procedure_of(at) not in lonely}
                    for number, run in enumerate(pairing.runs))
    if left and others:
        pairing.by_key(keys_in(here.calls_alike(listings[0](), left),
                               there.calls_alike(listings[1](), others)))
        pairing.in_gaps(keys_in({at: here.procedure_of(at) for at in left},
                                {to: there.procedure_of(to) for to in others}), len(there))
    pairing.as_often((lambda at: (here.procedure_of(at), here.object_of(at)),
                      lambda to: (there.procedure_of(to), there.object_of(to))))
    return pairing

"""What a value of a run may be at a time, by its changes and by what answers say of it.

A timeline is of one value: the mode, an owner, the size or the number of links of an object, or to
what a name leads. It has the changes of the value, and what answers say of it, each between two
frames. A change is carried out at some time between its frames. So an answer may say what the last
change before it left, or one that overlaps it; before all changes, what other answers say that
come before them. These are the only rules, and what nobody says is not known.
"""
from __future__ import annotations

from bisect import bisect_left, bisect_right
from collections import Counter, defaultdict
from collections.abc import Hashable, Iterable, Iterator, Sequence
from functools import cached_property
from itertools import accumulate, chain
from typing import Generic, NamedTuple, Optional, TypeVar, Union

NEAREST = 8  # so many answers before a question, and after it, count links
SET_USER, SET_GROUP = 0o4000, 0o2000  # bits of a mode


class Sets(NamedTuple):
    """A change that leaves one of these values, if it says them. `found` are those before."""
    values: frozenset[Hashable] = frozenset()
    found: frozenset[Hashable] = frozenset()


class Grows(NamedTuple):
    """A WRITE of bytes up to an end, which leaves no smaller size."""
    first: int
    end: int


class Adds(NamedTuple):
    """A change that adds between two numbers of links."""
    least: int
    most: int


class Clears(NamedTuple):
    """A change that may clear the set-user-id and set-group-id bits of a mode."""


Effect = Union[Sets, Grows, Adds, Clears]


class ValueChange(NamedTuple):
    """A change: the frames between which it was carried out, its exchange, and what it does."""
    begin: int
    end: int
    source: int
    effect: Effect


class Sighting(NamedTuple):
    """What an answer says: the frames between which it was true, the exchange, and the value. That
    of a change is of what was after it, or before."""
    begin: int
    end: int
    source: int
    value: Hashable
    is_before: bool = False


class Highest:
    """Numbers in a row. The highest of a part is found without looking at all."""

    def __init__(self, numbers: Sequence[int]) -> None:
        self.size = len(numbers)
        self.tree = [0] * self.size + list(numbers)
        for node in range(self.size - 1, 0, -1):
            self.tree[node] = max(self.tree[2 * node], self.tree[2 * node + 1])

    def nodes(self, begin: int, end: int) -> Iterator[int]:
        """Iterates over nodes of the tree that together are a part of the row."""
        begin, end = begin + self.size, end + self.size
        while begin < end:
            if begin & 1:
                yield begin
                begin += 1
            if end & 1:
                end -= 1
                yield end
            begin, end = begin >> 1, end >> 1

    def of(self, begin: int, end: int) -> int:
        return max((self.tree[node] for node in self.nodes(begin, end)), default=0)

    def reaching(self, end: int, least: int) -> Iterator[int]:
        """Iterates over the places before an end whose numbers are not less than another."""
        waiting = list(self.nodes(0, end))
        while waiting:
            node = waiting.pop()
            if self.tree[node] < least:
                continue
            if node < self.size:
                waiting += (2 * node, 2 * node + 1)
            else:
                yield node - self.size


Spanned = TypeVar('Spanned', bound=Union[ValueChange, Sighting])


class Spans(Generic[Spanned]):
    """Changes or answers by their frames: in the order of their begins, and of their ends."""

    def __init__(self, some: Iterable[Spanned]) -> None:
        self.begun = sorted(some, key=lambda one: one.begin)
        self.ended = sorted(self.begun, key=lambda one: one.end)
        self.begins = [one.begin for one in self.begun]
        self.ends = [one.end for one in self.ended]
        last_begins: Iterator[int] = accumulate((one.begin for one in self.ended), max)
        self.last_begins = list(last_begins)
        self.of_source = defaultdict[int, list[Spanned]](list)
        for one in self.begun:
            self.of_source[one.source].append(one)

    @cached_property
    def highest_ends(self) -> Highest:
        return Highest([one.end for one in self.begun])

    def before(self, begin: int, most: int) -> list[Spanned]:
        """Returns the last ones that ended before a frame."""
        at = bisect_left(self.ends, begin)
        return self.ended[max(at - most, 0):at]

    def after(self, end: int, most: int) -> list[Spanned]:
        """Returns the first ones that begin after a frame."""
        at = bisect_right(self.begins, end)
        return self.begun[at:at + most]

    def between(self, begin: int, end: int) -> list[Spanned]:
        """Returns those of which a part is between two frames."""
        at = bisect_right(self.begins, end)
        return [self.begun[place] for place in sorted(self.highest_ends.reaching(at, begin))]

    def latest(self, begin: int) -> list[Spanned]:
        """Returns those that ended before a frame, and after which no other such one begins."""
        last = first = bisect_left(self.ends, begin)
        while first and self.ends[first - 1] >= self.last_begins[last - 1]:
            first -= 1
        return self.ended[first:last]


class SaidValues:
    """Values that answers say, each with at most two of these."""

    def __init__(self, some: Iterable[Sighting] = ()) -> None:
        self.sources = dict[Hashable, set[int]]()
        for one in some:
            self.take(one.source, one.value)

    def take(self, source: int, value: Hashable) -> None:
        sources = self.sources.setdefault(value, set())
        if len(sources) < 2:
            sources.add(source)

    def but(self, source: int) -> set[Hashable]:
        """Returns the values that others say."""
        return {value for value, sources in self.sources.items() if sources != {source}}


class Timeline:
    """A value that changes set, each to what it says."""

    def __init__(self, changes: Iterable[ValueChange], sights: Iterable[Sighting]) -> None:
        self.changes, self.sights = Spans(changes), Spans(sights)
        self.setters = self.with_effect(Sets)
        self.after_changes = dict[ValueChange, SaidValues]()

    def with_effect(self, kind: type[Effect]) -> Spans[ValueChange]:
        return Spans(one for one in self.changes.begun if isinstance(one.effect, kind))

    def allows(self, asked: Sighting) -> Optional[bool]:
        """Returns whether the run allows the value, None if it does not say."""
        values, is_all = self.values(asked)
        return True if asked.value in values else False if is_all else None

    def values(self, asked: Sighting) -> tuple[set[Hashable], bool]:
        """Returns the values that an answer may have, and whether they are all."""
        near, over = self.met(asked)
        left = [self.left(one, asked.source) for one in (*near, *over)]
        if not near:
            left.append(self.initial(asked.source))
        values = set[Hashable]().union(*left)
        if all(left):
            return values, True
        same = self.unchanged(self.around(asked), asked)
        return values | same, not near and not over and bool(same)

    def met(self, asked: Sighting) -> tuple[list[ValueChange], list[ValueChange]]:
        """Returns the last changes before an answer, its own too, and those that overlap it."""
        own = [] if asked.is_before else self.setters.of_source.get(asked.source, [])
        over = [one for one in self.setters.between(asked.begin, asked.end)
                if one.source != asked.source]
        return own or self.setters.latest(asked.begin), over

    def left(self, change: ValueChange, source: int) -> set[Hashable]:
        """Returns what a change left: as it was asked, and as its own answer says, or else as other
        answers say. That of the source does not count."""
        assert isinstance(change.effect, Sets)
        own = () if change.source == source else self.sights.of_source.get(change.source, ())
        told = {one.value for one in own if not one.is_before}
        return {*change.effect.values, *told} or self.shown_after(change).but(source)

    def shown_after(self, change: ValueChange) -> SaidValues:
        """Returns what answers say between a change and the next, if no other overlaps it."""
        if change not in self.after_changes:
            is_alone = self.setters.between(change.begin, change.end) == [change]
            end = next((one.begin for one in self.setters.after(change.end, 1)), None)
            begin = bisect_right(self.sights.begins, change.end)
            last = None if end is None else bisect_left(self.sights.begins, end)
            self.after_changes[change] = SaidValues(
                one for one in self.sights.begun[begin:last]
                if end is None or one.end < end) if is_alone else SaidValues(())
        return self.after_changes[change]

    def initial(self, source: Optional[int] = None) -> set[Hashable]:
        """Returns the value before all changes, as other answers say, or the first change."""
        shown, found = self.shown_first
        own = -1 if source is None else source
        return shown.but(own).union(*(values for at, values in found if at != own))

    @cached_property
    def shown_first(self) -> tuple[SaidValues, list[tuple[int, frozenset[Hashable]]]]:
        """What answers say that come before all changes, and what the first changes say."""
        setters = self.setters
        if not setters.begun:
            return SaidValues(self.sights.begun), []
        before = self.sights.ended[:bisect_left(self.sights.ends, setters.begins[0])]
        first = setters.begun[:bisect_right(setters.begins, setters.ends[0])]
        return SaidValues(before), [(one.source, one.effect.found) for one in first
                                if isinstance(one.effect, Sets)]

    def around(self, asked: Sighting) -> list[Sighting]:
        """Returns some answers before a question, all that overlap it, and some after it."""
        return [one for one in chain(self.sights.before(asked.begin, NEAREST),
                                     self.sights.between(asked.begin, asked.end),
                                     self.sights.after(asked.end, NEAREST))
                if one.source != asked.source]

    def unchanged(self, some: Iterable[Sighting], asked: Sighting) -> set[Hashable]:
        """Returns what those answers say between which and a question is no change."""
        return {one.value for one in some if not any(self.passed(one, asked))}

    def passed(self, one: Sighting,
               asked: Sighting) -> tuple[list[ValueChange], list[ValueChange]]:
        """Returns the changes that were carried out between two answers, and that may have been."""
        first, second = (one, asked) if one.end < asked.begin else (asked, one)
        is_apart = first.end < second.begin
        surely, maybe = list[ValueChange](), list[ValueChange]()
        begin, end = min(first.begin, second.begin), max(first.end, second.end)
        for change in self.changes.between(begin, end):
            if change.source in (one.source, asked.source):
                own = one if change.source == one.source else asked
                if not is_apart:
                    maybe.append(change)
                elif own.is_before is (own is first):
                    surely.append(change)
            elif is_apart and change.begin > first.end and change.end < second.begin:
                surely.append(change)
            else:
                maybe.append(change)
        return surely, maybe


class Mode(Timeline):
    """A mode, of which some changes of the file may clear two bits."""

    def __init__(self, changes: Iterable[ValueChange], sights: Iterable[Sighting]) -> None:
        super().__init__(changes, sights)
        self.clearing = self.with_effect(Clears)

    def values(self, asked: Sighting) -> tuple[set[Hashable], bool]:
        values, is_all = super().values(asked)
        if any(int(str(mode)) & (SET_USER | SET_GROUP) for mode in values) and (
                self.may_be_cleared(asked)):
            values |= {int(str(mode)) & ~bits for mode in values
                       for bits in (SET_USER, SET_GROUP, SET_USER | SET_GROUP)}
        return values, is_all

    def may_be_cleared(self, asked: Sighting) -> bool:
        """Whether a change since the mode was set may have cleared bits."""
        near, _ = self.met(asked)
        begin = min((change.begin for change in near), default=0)
        return any(change.source != asked.source or not asked.is_before
                   for change in self.clearing.between(begin, asked.end))


class FileSize(Timeline):
    """The size of a file: what was set, or the end of a WRITE, which may be done in part."""

    def __init__(self, changes: Iterable[ValueChange], sights: Iterable[Sighting]) -> None:
        super().__init__(changes, sights)
        self.writes = self.with_effect(Grows)
        self.highest = Highest([end_of_write(change) for change in self.writes.ended])
        self.turns = {change: turn for turn, change in enumerate(self.writes.ended)}

    def allows(self, asked: Sighting) -> Optional[bool]:
        bases, is_all, value = list(self.bases(asked)), True, int(str(asked.value))
        for begin, end, size in bases:
            if size is None:
                is_all = False
                continue
            at_base = self.writes.between(begin, min(end, asked.end))
            own = [] if asked.is_before else self.writes.of_source.get(asked.source, [])
            grown = max(int(str(size)), self.grown(end, at_base, asked.begin),
                        *map(end_of_write, own))
            if value == grown or value > grown and any(
                    first < value <= last for first, last in self.overlapping(at_base, asked)):
                return True
        if bases and is_all:
            return False
        # (answers may have the same size without a change between)
        same = self.unchanged(self.around(asked), asked)
        return asked.value in same if same else None

    def grown(self, end: int, at_base: Sequence[ValueChange], begin: int) -> int:
        """Returns the largest end of the WRITEs between two frames, but for some `at_base`."""
        first, last = bisect_right(self.writes.ends, end), bisect_left(self.writes.ends, begin)
        turns = [turn for turn in sorted(map(self.turns.__getitem__, at_base))
                 if first <= turn < last]
        return max((self.highest.of(before + 1, after)
                    for before, after in zip((first - 1, *turns), (*turns, last))), default=0)

    def overlapping(self, at_base: Sequence[ValueChange], asked: Sighting) -> Iterator[Grows]:
        """Iterates over the WRITEs that may be carried out in part."""
        for change in (*at_base, *self.writes.between(asked.begin, asked.end)):
            if change.source != asked.source and isinstance(change.effect, Grows):
                yield change.effect

    def bases(self, asked: Sighting) -> Iterator[tuple[int, int, Hashable]]:
        """Iterates over sizes before, each with its frames, and None for one that is not known."""
        near, over = self.met(asked)
        for change in (*near, *over):
            for size in self.left(change, asked.source) or {None}:
                yield change.begin, change.end, size
        if not near:
            begin = min([asked.begin, *self.setters.begins[:1]])
            for one in self.sights.latest(begin):
                if one.source != asked.source:
                    yield one.begin, one.end, one.value


def end_of_write(change: ValueChange) -> int:
    assert isinstance(change.effect, Grows)
    return change.effect.end


class LinkCount(Timeline):
    """A number of links: that of another answer, and what the changes between both add."""

    def allows(self, asked: Sighting) -> Optional[bool]:
        """All answers near it have to allow it."""
        ranges = [self.counted(one, asked) for one in self.around(asked)]
        value = int(str(asked.value))
        return all(least <= value <= most for least, most in ranges) if ranges else None

    def counted(self, one: Sighting, asked: Sighting) -> tuple[int, int]:
        """Returns the least and the largest number by another answer."""
        surely, maybe = ([change.effect for change in some if isinstance(change.effect, Adds)]
                         for some in self.passed(one, asked))
        value = int(str(one.value))
        least = sum(it.least for it in surely) + sum(min(it.least, 0) for it in maybe)
        most = sum(it.most for it in surely) + sum(max(it.most, 0) for it in maybe)
        if one.end < asked.begin:
            return value + least, value + most
        if one.begin > asked.end:
            return value - most, value - least
        return value + min(least, -most), value + max(most, -least)


class FolderSize(Timeline):
    """The size of a folder, of which servers make what they want. Without a change between, it is
    that of the answers next to it; else between those of them, or what one of the last changes
    shows. If these do not show it, it differs from an answer as much as others of the run do."""

    def allows(self, asked: Sighting) -> Optional[bool]:
        near = [one for one in (*self.sights.latest(asked.begin), *self.first_after(asked.end),
                                *self.sights.between(asked.begin, asked.end))
                if one.source != asked.source]
        same = self.unchanged(near, asked)
        if same:
            return asked.value in same
        sizes, value = [int(str(one.value)) for one in near], int(str(asked.value))
        if sizes and min(sizes) <= value <= max(sizes):
            return True
        is_allowed = super().allows(asked)
        if is_allowed is None and sizes:
            return any(abs(value - size) in self.steps for size in sizes)
        return is_allowed

    def first_after(self, end: int) -> list[Sighting]:
        """Returns the answers that begin after a frame and before the first of them ends."""
        near = self.sights.after(end, NEAREST)
        first = min((one.end for one in near), default=0)
        return [one for one in near if one.begin <= first]

    @cached_property
    def steps(self) -> set[int]:
        """How much answers that follow one another differ, if several pairs of them do so."""
        sizes = [int(str(one.value)) for one in self.sights.ended]
        counts = Counter(abs(size - after) for size, after in zip(sizes, sizes[1:]))
        # (a wrong answer differs from the one before it and from the one after it)
        return {step for step, number in counts.items() if number > 2}

"""What the answers of a run may say, by its changes and by its other answers.

A change is a call that changes objects or names, and was answered OK or not at all. Its effects are
those of `effects_of`, by objects and items, and by folders and names. What an answer says are its
claims. `timelines` says which of these a run allows: True, False, or None for not known.
"""
from __future__ import annotations

from bisect import bisect_left
from collections import defaultdict
from collections.abc import Callable, Hashable, Iterable, Iterator
from functools import cached_property
from itertools import accumulate
from operator import itemgetter
from typing import NamedTuple, Optional

from .procedures import (
    ACCESS, DIRECTORY, DONE, FREE_ITEMS, LINK, LISTINGS, LOOKUP, MAKING, MKDIR, NO_ENTRY,
    REMOVE, REMOVING, RENAME, RMDIR, STEADY, WRITE, Statement, handle_items, names_in_call,
    statements_in)
from .timelines import (
    Adds, Clears, Effect, FileSize, FolderSize, Grows, LinkCount, Mode, SaidValues, Sets, Sighting,
    Spans, Timeline, ValueChange)
from .values import Values, owned

STILL = 1 << 62  # when a call ends that may still be carried out
GONE, ANY_OBJECT = 'no object', 'any object'  # to what a name leads, if not to one that is known
SETTABLE = ('mode', 'uid', 'gid', 'size')
# Items of which there is a history; those that never change; and all others, which are one.
KEPT_ITEMS, LASTING_ITEMS, TIMES_ITEM = (*SETTABLE, 'nlink'), ('type', 'rdev1', 'rdev2'), 'times'
SHOWN_ITEMS = (*KEPT_ITEMS, *LASTING_ITEMS)
LISTINGS_AT_MOST = 4  # of a folder, whose order is kept
WHOLE_AT_MOST = 2  # that say which names were not there at first
# What a history is asked of: an object and an item, or a folder and a name after a slash.
HistoryKey = tuple[Hashable, str]


def name_key(folder: Hashable, name: str) -> HistoryKey:
    return folder, f'/{name}'


class CarriedOut(NamedTuple):
    """An exchange of a run, from the frame of its call on.

    answered: the frame of its first reply
    end: the frame after which it is not carried out any more, or STILL
    status, reply: None and nothing if the call was not accepted, or has no reply
    is_change: whether it changed something, or may have
    """
    source: int
    begin: int
    answered: int
    end: int
    procedure: str
    call: Values
    status: Optional[int]
    reply: Values
    is_change: bool = False

    @property
    def handle(self) -> str:
        return str(self.call.get(handle_items(self.procedure)[0], ''))


class Claim(NamedTuple):
    key: HistoryKey
    value: Hashable
    is_before: bool = False


class Listed(NamedTuple):
    """The names of a listing, each with its turn, and whether it begins and ends as its folder."""
    source: int
    names: dict[str, int]
    is_first: bool
    is_last: bool


class History:
    """The changes of a run, by keys, and what its answers say.

    known_as: what the object of a handle is called
    has_frames: whether it is known when exchanges were carried out; if not, a value has to be one
        that another answer has
    shown: by objects, what answers say: exchanges and items
    leads, names: by folders and names, to what these lead, by exchanges; the names of each folder
    listings, wholes: the longest ones of each folder, and the first that have all of its names
    results: by procedures and objects, what is said the same each time; of ACCESS what was asked
        and granted
    """

    def __init__(self, known_as: Callable[[str], Hashable], has_frames: bool = True) -> None:
        self.known_as, self.has_frames = known_as, has_frames
        self.frames = dict[int, tuple[int, int]]()
        self.waiting = list[CarriedOut]()
        self.changes = defaultdict[HistoryKey, list[ValueChange]](list)
        self.shown = defaultdict[Hashable, list[tuple[int, tuple[int, ...]]]](list)
        self.leads = defaultdict[HistoryKey, list[tuple[int, Hashable]]](list)
        self.names = defaultdict[Hashable, dict[str, None]](dict)
        self.listings = defaultdict[Hashable, list[Listed]](list)
        self.wholes = defaultdict[Hashable, list[Listed]](list)
        self.results = defaultdict[tuple[str, Hashable], SaidValues](SaidValues)
        self.equal = dict[tuple[int, ...], tuple[int, ...]]()
        self.timelines = dict[HistoryKey, Timeline]()
        self.made = defaultdict[Hashable, list[int]](list)  # by folders that MKDIR made

    # --- What answers say ---

    def take(self, one: CarriedOut) -> None:
        self.frames[one.source] = one.begin, one.answered
        if one.is_change:
            self.waiting.append(one)
        if one.status is None:
            return
        for statement in statements_in(one.procedure, one.call, one.reply):
            if statement.has('type') and not statement.name:
                items = tuple(map(statement.value, SHOWN_ITEMS))
                self.shown[self.known_as(statement.handle)].append(
                    (one.source, self.equal.setdefault(items, items)))
        for claim in self.names_claimed(one):
            self.leads[claim.key].append((one.source, claim.value))
            self.names[claim.key[0]][claim.key[1][1:]] = None
        if one.status == DONE:
            self.take_results(one)

    def take_results(self, one: CarriedOut) -> None:
        own = self.known_as(one.handle)
        if one.procedure in LISTINGS:
            self.take_listing(own, listed_in(one))
        elif one.procedure in STEADY or one.procedure == ACCESS:
            self.results[one.procedure, own].take(one.source, results_in(one))
        elif one.procedure == MKDIR and 'fh' in one.reply:
            self.made[self.known_as(one.reply['fh'])].append(one.source)

    def take_listing(self, folder: Hashable, listed: Listed) -> None:
        """Keeps the longest listings of a folder, and the first whole ones."""
        some = sorted([*self.listings[folder], listed], key=lambda other: -len(other.names))
        self.listings[folder] = some[:LISTINGS_AT_MOST]
        if listed.is_first and listed.is_last:
            some = sorted([*self.wholes[folder], listed],
                          key=lambda other: self.frames[other.source])
            self.wholes[folder] = some[:WHOLE_AT_MOST]

    def names_claimed(self, one: CarriedOut) -> Iterator[Claim]:
        """Iterates over the names of which an answer says to what they lead."""
        is_done = one.status == DONE
        if one.procedure in LISTINGS and is_done:
            folder = self.known_as(one.call['fh'])
            for entry in one.reply['entries']:
                handle = entry.get('fh')
                yield Claim(name_key(folder, entry['name']),
                            self.known_as(handle) if handle else ANY_OBJECT)
        elif one.procedure == LOOKUP and (is_done or one.status == NO_ENTRY) or (
                one.procedure in MAKING and 'fh' in one.reply):
            yield Claim(name_key(self.known_as(one.call['fh']), one.call['name']),
                        self.known_as(one.reply['fh']) if is_done else GONE)

    def claims_of(self, one: CarriedOut) -> Iterator[Claim]:
        """Iterates over what an answer says of objects."""
        for statement in statements_in(one.procedure, one.call, one.reply):
            yield from self.claims_in(statement)

    def claims_in(self, statement: Statement) -> Iterator[Claim]:
        if statement.handle and not statement.name:
            own = self.known_as(statement.handle)
            for item in SHOWN_ITEMS:
                if statement.has(item):
                    yield Claim((own, item), statement.value(item), statement.is_before)

    # --- What changes do ---

    def settle(self) -> None:
        """Notes what changes do, after all was taken, in the order in which they ended."""
        self.waiting.sort(key=lambda one: one.end)
        self.led_by = defaultdict[HistoryKey, list[tuple[int, Hashable]]](list)
        for one in self.waiting:
            for key, effect in self.effects_of(one):
                self.changes[key].append(ValueChange(one.begin, one.end, one.source, effect))
                if key[1][0] == '/' and isinstance(effect, Sets):
                    self.names[key[0]][key[1][1:]] = None
                    self.led_by[key] += ((one.end, value) for value in effect.values)
        self.waiting = []

    def effects_of(self, one: CarriedOut) -> Iterator[tuple[HistoryKey, Effect]]:
        """Iterates over what a change does: to objects, and to names and what these led to."""
        names = [name_key(self.known_as(folder), name)
                 for folder, name in names_in_call(one.procedure, one.call)]
        folders = dict.fromkeys(folder for folder, _ in names)
        for folder in folders:
            yield (folder, TIMES_ITEM), Sets()
            yield (folder, 'size'), Sets()
        if one.procedure in MAKING:
            yield from self.effects_of_making(one, names[0])
        elif one.procedure in REMOVING:
            yield from self.effects_of_removing(one, names[0])
        elif one.procedure == RENAME:
            yield from self.effects_of_rename(one, *names)
        elif one.procedure == LINK:
            own = self.known_as(one.call['file.fh'])
            yield (own, TIMES_ITEM), Sets()
            yield (own, 'nlink'), Adds(1, 1)
            yield names[0], Sets(frozenset((own,)), frozenset((GONE,)))
        else:
            yield from self.effects_on_file(one, self.known_as(one.call['fh']))

    def effects_on_file(self, one: CarriedOut,
                        own: Hashable) -> Iterator[tuple[HistoryKey, Effect]]:
        """WRITE and SETATTR. A server clears bits of the mode if it finds that right."""
        yield (own, TIMES_ITEM), Sets()
        if one.procedure == WRITE:
            first, count = one.call['offset'], one.reply.get('count', one.call['count'])
            yield (own, 'size'), Grows(first, first + count)
        asked = {item: one.call[f'set.{item}'] for item in SETTABLE if f'set.{item}' in one.call}
        for item, value in asked.items():
            yield (own, item), Sets(frozenset((value,)))
        if one.procedure == WRITE or asked.keys() - {'mode'} and 'mode' not in asked:
            yield (own, 'mode'), Clears()

    def effects_of_making(self, one: CarriedOut,
                          name: HistoryKey) -> Iterator[tuple[HistoryKey, Effect]]:
        if one.procedure == MKDIR:
            yield (name[0], 'nlink'), Adds(1, 1)
        handle = one.reply.get('fh')
        made = frozenset((self.known_as(handle),)) if handle else frozenset[Hashable]()
        yield name, Sets(made, frozenset((GONE,)))
        for own in made:
            yield (own, TIMES_ITEM), Sets()
            for item in SETTABLE:
                asked = one.call.get(f'set.{item}')
                yield (own, item), Sets(frozenset() if asked is None else frozenset((asked,)))

    def effects_of_removing(self, one: CarriedOut,
                            name: HistoryKey) -> Iterator[tuple[HistoryKey, Effect]]:
        if one.procedure == RMDIR:
            yield (name[0], 'nlink'), Adds(-1, -1)
        led = self.led(name, one.begin)
        yield name, Sets(frozenset((GONE,)), led)
        for own in led:
            yield (own, TIMES_ITEM), Sets()
            yield (own, 'nlink'), Adds(-1, -1) if one.procedure == REMOVE else Adds(-2, 0)

    def effects_of_rename(self, one: CarriedOut, source: HistoryKey,
                          target: HistoryKey) -> Iterator[tuple[HistoryKey, Effect]]:
        moved = self.led(source, one.begin)
        if not any(self.is_file(own) for own in moved):
            for folder in {source[0], target[0]}:
                yield (folder, 'nlink'), Adds(-1, 0 if source[0] == target[0] else 1)
        for own in moved:
            yield (own, TIMES_ITEM), Sets()
        if source == target:
            yield source, Sets(moved, moved)
            return
        replaced = self.led(target, one.begin)
        yield source, Sets(frozenset((GONE,)), moved)
        yield target, Sets(moved, replaced)
        for own in replaced - moved:
            yield (own, TIMES_ITEM), Sets()
            yield (own, 'nlink'), Adds(-2, 0)

    def led(self, name: HistoryKey, begin: int) -> frozenset[Hashable]:
        """Returns to which object a name led before a frame, or nothing if that is not known."""
        changed, said = self.led_by.get(name, []), self.said_of_names.get(name, [])
        last = max((some[at - 1] for some in (changed, said)
                    if (at := bisect_left(some, (begin,)))), key=itemgetter(0), default=(0, GONE))
        return frozenset() if last[1] in (GONE, ANY_OBJECT) else frozenset((last[1],))

    @cached_property
    def said_of_names(self) -> dict[HistoryKey, list[tuple[int, Hashable]]]:
        """By folders and names, the objects to which they lead, after the frames of the answers."""
        return {key: sorted(((self.frames[source][1], value) for source, value in some
                             if value not in (GONE, ANY_OBJECT)), key=itemgetter(0))
                for key, some in self.leads.items()}

    def is_file(self, own: Hashable) -> bool:
        """Whether an object is known, and no folder."""
        shown = self.shown.get(own)
        return shown is not None and type_of(shown) != DIRECTORY

    # --- What an answer may say ---

    def asked(self, source: int, claim: Claim) -> Sighting:
        return Sighting(*self.frames[source], source, claim.value, claim.is_before)

    def allows(self, source: int, claim: Claim) -> Optional[bool]:
        """Returns whether an answer may say this, None if nothing says that."""
        is_name = claim.key[1][0] == '/'
        is_allowed = self.timeline(claim.key).allows(self.asked(source, claim))
        if is_name and not is_allowed and claim.value != GONE:
            values, _ = self.values(source, claim.key)
            # (a listing may say of a name that it is there, and not to what it leads)
            if values and (claim.value == ANY_OBJECT and values != {GONE}
                           or ANY_OBJECT in values and values <= {ANY_OBJECT, GONE}):
                return True
        return is_allowed

    def values(self, source: int, key: HistoryKey) -> tuple[set[Hashable], bool]:
        """Returns what an answer may say of a key, and whether that is all."""
        return self.timeline(key).values(self.asked(source, Claim(key, None)))

    def timeline(self, key: HistoryKey) -> Timeline:
        if key not in self.timelines:
            self.timelines[key] = (self.name_line if key[1][0] == '/' else self.item_line)(key)
        return self.timelines[key]

    def name_line(self, key: HistoryKey) -> Timeline:
        """Returns to what a name leads when; by MKDIR and whole listings, that it is not there."""
        name, without = key[1][1:], list(self.made.get(key[0], ()))
        without += (one.source for one in self.wholes.get(key[0], ()) if name not in one.names)
        said = (*self.leads.get(key, ()), *((source, GONE) for source in without))
        return Timeline(self.changes.get(key, ()),
                        [Sighting(*self.frames[source], source, value) for source, value in said])

    def item_line(self, key: HistoryKey) -> Timeline:
        """Returns what an item of an object was when."""
        own, item = key
        shown, at = self.shown.get(own, []), SHOWN_ITEMS.index(item)
        sights = [Sighting(*self.frames[source], source, items[at]) for source, items in shown]
        is_folder = bool(shown) and type_of(shown) == DIRECTORY
        kinds: dict[str, type[Timeline]] = {
            'mode': Mode, 'nlink': LinkCount, 'size': FolderSize if is_folder else FileSize}
        kind: type[Timeline] = kinds.get(item, Timeline) if self.has_frames else Timeline
        return kind(self.changes.get(key, ()), sights)


def type_of(shown: list[tuple[int, tuple[int, ...]]]) -> int:
    return shown[0][1][SHOWN_ITEMS.index('type')]


def listed_in(one: CarriedOut) -> Listed:
    names = (entry['name'] for entry in one.reply['entries'])
    return Listed(one.source, {name: turn for turn, name in enumerate(names)},
                  one.call['cookie'] == 0, bool(one.reply['eof']))


def results_in(one: CarriedOut) -> tuple[Hashable, ...]:
    """Returns what an answer says beside attributes and free space, with what ACCESS asked."""
    if one.procedure == ACCESS:
        return one.call['access'], one.reply['access']
    return tuple(value for name, value in one.reply.items()
                 if not owned(name).owners and name not in FREE_ITEMS)


# --- Which names a listing has to have ---

def present(history: History, folder: Hashable, but: int) -> Spans[Sighting]:
    """Returns when each name of a folder is there for sure, as all answers say but one."""
    return Spans(time for name in history.names.get(folder, ()) for time in times_of(
        name, history.timeline(name_key(folder, name)), but))


def lacking(history: History, folder: Hashable, listed: Listed, times: Spans[Sighting]) -> Hashable:
    """Returns a name that a listing of a folder lacks: one that is there meanwhile, and, if the
    listing is not at its end, that no other listing has behind its last name."""
    begin, end = history.frames[listed.source]
    later = set[str]() if listed.is_last else names_behind(
        listed, history.listings.get(folder, ()))
    return next((time.value for time in times.between(begin, end)
                 if time.begin < begin and end < time.end
                 and time.value not in listed.names and time.value not in later), None)


def names_behind(listed: Listed, listings: Iterable[Listed]) -> set[str]:
    last = max(listed.names, key=listed.names.__getitem__)
    return {name for other in listings if other.source != listed.source
            and (last in other.names or not other.is_first) for name, at in other.names.items()
            if not other.is_first or at > other.names[last]}


def times_of(name: str, line: Timeline, but: int) -> Iterator[Sighting]:
    """Iterates over the times at which a name is there for sure, by changes and answers."""
    setters = line.setters
    begins = [*setters.begins, STILL]
    if is_there(line.initial(but)):
        yield Sighting(-1, begins[0], but, name)
    highest: Iterator[int] = accumulate((change.end for change in setters.begun), max)
    for end, following in zip(highest, begins[1:]):
        if end < following:
            left = [line.left(change, but) for change in setters.latest(following)]
            if all(map(is_there, left)):
                yield Sighting(end, following, but, name)


def is_there(values: set[Hashable]) -> bool:
    return bool(values) and GONE not in values

"""What is known of an object, and the rules about attributes that other replies show as well. A
change by somebody who is not recorded is no fault of a server, so objects are seen at rest first.
"""
from __future__ import annotations

import bisect
from collections import defaultdict
from collections.abc import Callable, Hashable, Iterable, Sequence
from dataclasses import dataclass, field
from typing import Any, NamedTuple, Union

from ..exchanges.procedures import DIRECTORY
from ..exchanges.values import Attributes, Data, Time, seconds
from .alone import SECOND
from .recorded import END, REMOVED, ObjectKey, RecordedExchange, StatedAttributes
from .rules import Evidence, Looked, RuleFinding

# Nanoseconds in which the clock of a server may stand: of one with parts of seconds, and without.
TICK, COARSE_TICK = 20_000_000, 2_100_000_000
HIDDEN = '.'  # begins names that may be in no listing
# Attributes that stay with the ctime. Of type, fsid and fileid another rule speaks.
LASTING = 'size', 'mtime', 'ctime', 'mode', 'uid', 'gid', 'nlink'
OTHERS = 'others'  # of a server: someone else is seen to change an object; of one: another object
NO_VERIFIER = ''  # a write verifier that no reply has shown
STARTED_ANEW = 'started anew'  # denies what a new start of a server may have changed
SizeAndTime = tuple[int, Time]  # the first attributes: size and mtime
Ids = tuple[int, int, int]  # type, fsid and fileid
NameTarget = Union[Ids, bool]  # what a name leads to: True for an unknown object, False for none
KnownText = tuple[str, Time, Evidence]  # of a symbolic link, its mtime, what shows them
# Up to a cookie: its folder's mtime, the cookie, the names
KnownListing = tuple[Time, int, list[str]]


class Epoch(NamedTuple):
    """A server, its write verifier, and the last exchange that shows this. What rests on it is
    taken back if the next one is another: the server was started anew."""
    server: str
    verifier: str
    source: Evidence


class FilePart(NamedTuple):
    """Bytes of a file: what shows them, the data that has them, None if they may be any, where in
    the file these data begin, the verifier of the server if they may not be committed, and a COMMIT
    that has another one."""
    begin: int
    end: int
    source: Evidence | None = None
    data: Data | None = None
    at: int = 0
    epoch: Epoch | None = None
    refused: Evidence | None = None

    def within(self, begin: int, end: int) -> FilePart:
        return self._replace(begin=max(self.begin, begin), end=min(self.end, end))


class FileContent:
    """What was read or written last of a file, in parts that do not overlap."""

    def __init__(self) -> None:
        self.parts: list[FilePart] = []

    def overlapping(self, begin: int, end: int) -> tuple[int, int]:
        """Returns the numbers of the first part that overlaps a range, and of the one behind."""
        low = bisect.bisect_right(self.parts, FilePart(begin, END))
        low -= low > 0 and self.parts[low - 1].end > begin
        return low, bisect.bisect_left(self.parts, FilePart(end, 0), low)

    def change(self, begin: int, end: int, changed: Callable[[FilePart], FilePart | None]) -> None:
        """Puts others, or nothing, in place of the parts of a range. Parts across it are split."""
        low, high = self.overlapping(begin, end)
        several = [one for part in self.parts[low:high]
                   for one in (part.within(0, begin), changed(part.within(begin, end)),
                               part.within(end, END))]
        self.parts[low:high] = [one for one in several if one and one.begin < one.end]

    def forget(self, begin: int, end: int = END) -> None:
        self.change(begin, end, lambda part: None)

    def put(self, new: FilePart) -> None:
        """Takes bytes, in place of what was known of them."""
        self.forget(new.begin, new.end)
        if new.begin < new.end:
            self.parts.insert(self.overlapping(new.begin, new.end)[0], new)

    def unlike(self, begin: int, data: bytes) -> tuple[int, FilePart | None, int]:
        """Returns where the first byte is that is not as it is known, and in which part, if there
        is one, and how many were compared."""
        (low, high), compared = self.overlapping(begin, begin + len(data)), 0
        for part in self.parts[low:high]:
            first, last = max(part.begin, begin), min(part.end, begin + len(data))
            now = data[first - begin:last - begin] if part.data is not None else b''
            was = part.data[first - part.at:last - part.at] if part.data is not None else b''
            compared += len(now)
            if was != now:
                at = next(at for at, (one, other) in enumerate(zip(was, now)) if one != other)
                return first + at, part, compared
        return 0, None, compared


class Sight(NamedTuple):
    """The attributes of an object at rest, who shows them, and the write verifier then."""
    now: Attributes
    source: Evidence
    epoch: Epoch | None


class KnownName(NamedTuple):
    """To which object a name leads, or a handle, and what shows it."""
    leads_to: NameTarget
    source: Evidence


@dataclass(eq=False)
class Object:
    """What is known of an object by one handle."""
    key: ObjectKey
    ids: KnownName | None = None  # its type, fsid and fileid
    rival: Ids | None = None  # others, which the last reply had
    seen: Sight | None = None  # when it was last at rest
    found: Attributes | None = None  # what the last exchange shows that nothing else changed
    since: int = 0  # the time when the ctime of that was seen first
    earlier: Sight | None = None  # when it was at rest before, if no recorded change came between
    # The sizes and mtimes after and before the changes since then, and whether one shows nothing.
    states: set[SizeAndTime] = field(default_factory=set)
    befores: list[SizeAndTime] = field(default_factory=list)
    is_blind: bool = False
    loose: int = 0  # the end of the last change that does not show what was before
    content: FileContent = field(default_factory=FileContent)
    unstable: FileContent = field(default_factory=FileContent)  # what is not committed
    text: KnownText | None = None  # what a symbolic link leads to
    names: dict[str, KnownName] = field(default_factory=dict)
    whole: Evidence | None = None  # a listing that has all names in it
    listing: KnownListing | None = None  # one that is not at its end

    def forget(self) -> None:
        """Forgets what somebody may have changed who is not recorded."""
        self.content, self.names, self.whole, self.listing = FileContent(), {}, None, None
        self.loose = 0

    def forget_name(self, name: str) -> None:
        self.names.pop(name, None)
        self.whole = None

    def known_of(self, name: str) -> KnownName | None:
        """Returns what is known of a name. One that is not in a whole listing is gone."""
        if name not in self.names and self.whole and not name.startswith(HIDDEN):
            return KnownName(False, self.whole)
        return self.names.get(name)


def in_words(name: str, value: Any) -> str:
    if name in ('mtime', 'ctime'):
        return seconds(value)
    return f'0{value:o}' if name == 'mode' else str(value)


def changes_in_words(names: Iterable[str], now: Iterable[object], was: Iterable[object],
                     where: object) -> str:
    return ', '.join(f'{name} is {in_words(name, value)}, {where} it was {in_words(name, other)}'
                     for name, value, other in zip(names, now, was) if value != other)


def lasting(now: Attributes, has_links: bool) -> Sequence[object]:
    """Returns the values of LASTING, with the number of links or not, but for directories."""
    is_own = now.type != DIRECTORY
    return (now.size * is_own, now.mtime, now.ctime, now.mode, now.uid, now.gid,
            now.nlink * (has_links and is_own))


class Objects:
    """The objects of a recording by servers and handles, what is found of them, and what was asked.

    denied: what takes findings back: servers with an object that somebody changed who is not
        recorded, exchanges beside such a change, servers whose times do not show changes,
        verifiers of servers that were started anew, and answers that are found to stand alone
    relinked: the end of each server's last call that removed or moved a name
    shown: the handles of objects whose state an exchange shows, and which nothing else changed
    epochs: the last write verifier of each server
    clocks: the latest ctime that each server has shown, each with the frame from which on
    others: the objects of each server that somebody changed who is not recorded
    """

    def __init__(self, looked: Looked) -> None:
        self.looked, self.findings = looked, list[RuleFinding]()
        self.denied = set[Hashable]((STARTED_ANEW,))
        self.known, self.shown = dict[ObjectKey, Object](), set[str]()
        self.relinked, self.epochs = defaultdict[str, int](int), dict[str, Epoch]()
        self.clocks = defaultdict[str, list[tuple[int, Time]]](list)
        self.others = defaultdict[str, set[ObjectKey]](set)

    def add(self, rule: str, one: Evidence, text: str, source: Evidence | None = None,
            *unless: Hashable, by: str = '') -> None:
        self.findings.append(RuleFinding(rule, one.number, text, source, unless, by))

    def at(self, one: RecordedExchange, handle: str) -> Object:
        key = one.server, handle
        if key not in self.known:
            self.known[key] = Object(key)
        return self.known[key]

    def started(self, server: str, since: Epoch | None) -> Hashable:
        """Returns what is denied if a server was started anew since, by another verifier."""
        now = self.epochs.get(server)
        is_other = now and since and since.verifier not in (NO_VERIFIER, now.verifier)
        return STARTED_ANEW if is_other else now

    def show_clock(self, one: RecordedExchange) -> None:
        """Notes the latest ctime that a server has shown, since its clock is as late."""
        clock = self.clocks[one.server]
        for told in one.told if one.is_change else ():
            if told.now and (not clock or told.now.ctime > clock[-1][1]):
                clock.append((one.source.end, told.now.ctime))

    def is_over(self, known: Object, ctime: Time, source: Evidence) -> bool:
        """Whether the tick of a ctime was over when an exchange began: that was a tick after it was
        seen first, or after the server had shown a later one."""
        tick, clock = TICK if ctime[1] else COARSE_TICK, self.clocks[known.key[0]]
        is_known = known.seen is not None and known.seen.now.ctime == ctime
        at = bisect.bisect_left(clock, (source.begin,))
        return is_known and source.begun - known.since >= tick or at > 0 and (
            (clock[at - 1][1][0] - ctime[0]) * SECOND + clock[at - 1][1][1] - ctime[1] >= tick)

    def find(self, one: RecordedExchange, known: Object, rule: str, text: str, source: Evidence,
             *unless: Hashable, waits: bool = True, whose: Hashable = None) -> None:
        """Adds what does not agree with an earlier exchange, if a change after that would be seen:
        not if the object was not at rest, nor within the tick of a clock that has whole seconds.
        Within that of another clock, for which data do not wait, or if a change since does not show
        what was before, nobody else may be seen to change any object of the server, or any other
        one than `whose`."""
        if known.seen is None or known.found is None:
            return
        ctime = known.found.ctime
        is_over = not waits and ctime[1] > 0 or self.is_over(known, ctime, source)
        if is_over or ctime[1]:
            is_sure = is_over and known.loose < source.frame
            self.add(rule, one.source, text, source,
                     None if is_sure else (whose or one.server, OTHERS), *unless)

    def observe(self, one: RecordedExchange, told: StatedAttributes) -> None:
        """Takes what a reply says of an object before it is known what the call did."""
        known = self.at(one, told.handle)
        if told.now:
            self.same_object(one, known, told.now)
        if one.is_change and one.is_done:
            known.earlier = None
            if told.before:
                known.befores.append(told.before[:2])
            else:
                known.loose = one.source.end
        is_made = one.is_change and told.handle == one.reply.get('fh')
        if is_made or not one.is_quiet(told.handle):
            return
        found = told.before if one.is_change else told.now
        if found:
            self.shown.add(told.handle)
            known.found = found
            if known.is_blind:
                known.forget()
            if known.seen:
                self.at_rest(one, known, known.seen, found)
        elif one.is_change:
            if one.is_ok and told.now and told.handle == one.call.get('file.fh'):
                self.linked(one, known, told.now)
            known.is_blind, known.loose = True, one.source.end

    def same_object(self, one: RecordedExchange, known: Object, told: Attributes) -> None:
        """A handle is of one object. Ids that two replies have in turn are its own from then on."""
        now = told.type, told.fsid, told.fileid
        known.ids = known.ids or KnownName(now, one.source)
        was, source = known.ids
        if now == known.rival:
            known.ids = KnownName(now, one.source)
        elif now != was and isinstance(was, tuple):
            text = changes_in_words(('type', 'fsid', 'fileid'), now, was, source)
            self.add('handle-object', one.source, f'handle 0x{known.key[1]}: {text}', source)
            known.rival = now
            return
        known.rival = None

    def linked(self, one: RecordedExchange, known: Object, now: Attributes) -> None:
        """LINK makes one link more, if no name is removed meanwhile. Its reply does not show what
        was before, so nobody else may have changed any object of the server."""
        seen = known.seen
        if not one.is_alone(REMOVED) or one.sent > 1:
            return
        if now.nlink < 2:
            self.add('link-nlink', one.source, f'nlink is {now.nlink}')
        elif seen and not known.states and not known.is_blind \
                and self.relinked[one.server] < seen.source.begin \
                and now.nlink != seen.now.nlink + 1:
            text = changes_in_words(('nlink',), (now.nlink,), (seen.now.nlink,), seen.source)
            self.find(one, known, 'link-nlink', text, seen.source, (one.server, OTHERS))

    def at_rest(self, one: RecordedExchange, known: Object, seen: Sight, found: Attributes) -> None:
        """Looks at an object that nothing else changed during an exchange."""
        states, is_moved = known.states | {seen.now[:2]}, known.states or known.is_blind
        # (the first of the changes since then has found what was seen)
        is_first = not known.befores or seen.now[:2] in known.befores
        if not is_first or not states.issuperset(known.befores) \
                or found.mtime not in {it[1] for it in states} \
                or not is_moved and found[:2] not in states:
            known.forget()
            if not known.is_blind:
                self.denied.add((known.key[0], OTHERS))
                self.others[known.key[0]].add(known.key)
        if is_moved:
            return
        self.looked.attributes += 1
        if one.is_change:
            self.before(one, known, seen, found)
        elif found[:-1] != seen.now[:-1]:
            self.other(known, seen, Sight(found, one.source, self.epochs.get(one.server)))

    def before(self, one: RecordedExchange, known: Object, seen: Sight, found: Attributes) -> None:
        """Looks at what was before a change. The times of other changes do not go back, and those
        under one ctime are the same."""
        was, is_file = seen.now, seen.now.type != DIRECTORY
        if found.ctime < was.ctime or found.ctime == was.ctime and (
                found.mtime != was.mtime or is_file and found.size != was.size):
            names, now = Attributes._fields[:3], found[:3]
            text = changes_in_words(names, now, was, seen.source)
            self.find(one, known, 'wcc-before', f'before the call {text}', seen.source,
                      self.started(one.server, seen.epoch), waits=found.ctime == was.ctime,
                      whose=known.key)

    def other(self, known: Object, seen: Sight, now: Sight) -> None:
        """Looks at attributes that are others, though no recorded change came between. They do not
        change without the ctime, and do not come back with their old one: no change can do that, so
        what was between was never there."""
        server, earlier = known.key[0], known.earlier
        has_links = self.relinked[server] < seen.source.end
        is_same = now.now.ctime == seen.now.ctime
        values, was = lasting(now.now, has_links), lasting(seen.now, has_links)
        start = self.started(server, (earlier or seen).epoch)
        is_over = not is_same or self.is_over(known, seen.now.ctime, seen.source)
        if not is_same:
            self.denied.add(now.source.number)
        known.earlier = seen
        if earlier and values == lasting(earlier.now, has_links) != was \
                and earlier.source.end < seen.source.begin \
                and seen.source.end < now.source.begin:
            # (of the three answers that of the middle stands alone, and is one finding)
            self.denied.add((known.key, seen.source.number))
            where = f'before ({earlier.source.words}) and after ({now.source.words})'
            self.add('returns', seen.source, changes_in_words(LASTING, was, values, where),
                     now.source, start, None if is_over else (known.key, OTHERS))
            known.earlier = None
        elif is_same and values != was and is_over:
            self.add('same-ctime', now.source, changes_in_words(LASTING, values, was, seen.source),
                     seen.source, (known.key, now.source.number), start)

    def settle(self, one: RecordedExchange, told: StatedAttributes) -> None:
        """Takes the attributes of an object as those of rest, if nothing else changed it."""
        known, now, is_change = self.at(one, told.handle), told.now, one.is_change and one.is_done
        if now and one.is_quiet(told.handle):
            if known.seen is None or is_change or now.ctime != known.seen.now.ctime:
                known.since = one.ended
            known.seen = Sight(now, one.source, self.epochs.get(one.server))
            known.states, known.befores, known.is_blind = set(), [], False
            if now.size == 0:
                known.content = FileContent()
        elif is_change and now:
            known.states.add(now[:2])
        elif is_change:
            known.is_blind = True

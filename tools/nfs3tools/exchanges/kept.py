"""The exchanges of a recording. What they say is kept in a temporary file, and read if it is asked
for.
"""
from __future__ import annotations

from array import array
from collections import defaultdict
from collections.abc import Mapping, Sequence
from typing import NamedTuple

from ..recordings.selection import BEGUN_BEFORE
from ..recordings.spool import Spool
from ..recordings.taken import Completion, TakenConnection
from ..shared.layouts import BY_NAME, RAW
from .answering import Answering, error_in
from .in_words import Asked, answer_in, asked_in, short
from .listing import is_call, line_of, listed_of, name_of_call
from .objects import GIVING_HANDLES, TEACHING, UNKNOWN, Paths, below
from .stored import LongValues, Texts, without_long
from .values import handle_found

UNTIMED = -1 << 63  # means no latency
WIDTH = 7  # of GETATTR and SETATTR, and of names that are shorter


class KeptConnection(NamedTuple):
    """A connection whose exchanges are kept.

    paths: those of its handles, at times that are frames, or in a capture numbers of exchanges
    has_all_replies: whether a call of which no reply is listed got none
    """
    number: int
    client: str
    server: str
    paths: Paths
    is_refused: bool
    has_all_replies: bool

    def path(self, handle: str | None, entry: str | None, frame: int) -> str | None:
        """Returns the path of an object, or of a name in a folder, at a time; `?` is not known."""
        if handle is None:
            return entry
        path = self.paths.at(handle, frame) or UNKNOWN
        return path if entry is None else below(path, entry)


class SentRecord(NamedTuple):
    """A record, with the frame that completed it, when, and how many bytes it has with its
    marks. Frame and time are 0 if they are not known."""
    record: int
    frame: int
    time: int
    size: int


class KeptExchange:
    """A call, with its retransmissions and its replies. What they say is read once it is asked for.

    record, frame, time: those of its call
    again, answered: its retransmissions, and its replies
    latency: nanoseconds to the first reply
    is_error: whether a reply is no success, or the call got none
    earlier, later: the positions of the same call on an earlier connection, of which it is a
        retransmission, as `7:3182`, and on a later one
    procedure: its name in the listing, or of a raw call that of its program and its procedure
    """

    def __init__(self, kept: 'Kept', at: int) -> None:
        self.kept, self.at, self.part = kept, at, kept.parts[kept.part_of[at]]
        self.record, self.frame, self.time = kept.records[at], kept.frames[at], kept.times[at]
        self.procedure, self.listed = kept.names[kept.kinds[at]], kept.listed_name(at)
        self.again: Sequence[SentRecord] = kept.again.get(at, ())
        self.errors: Sequence[str] = kept.errors.get(at, ())
        self.is_error = bool(self.errors) if kept.firsts[at] else self.part.has_all_replies
        self.is_unanswered = kept.is_unanswered(at)
        self.earlier = kept.position(kept.earlier.get(at))
        self.later = kept.position(kept.later.get(at))
        latency = kept.latency(at)
        self.latency = None if latency == UNTIMED else latency
        # What was asked for; `cached_property` takes more time
        self.known_asked: Asked | None = None
        self.known_answers: list[str] | None = None

    @property
    def answered(self) -> Sequence[SentRecord]:
        return [self.kept.reply(number) for number in self.kept.replies_of(self.at)]

    @property
    def asked(self) -> Asked:
        if self.known_asked is None:
            self.known_asked = asked_in(self.listed, self.kept.asking[self.at])
        return self.known_asked

    @property
    def path(self) -> str | None:
        asked = self.asked
        return self.part.path(asked.handle, asked.entry, self.frame or self.at + 1)

    @property
    def other_names(self) -> list[str]:
        """The other paths that its object had, before or after it was renamed."""
        if not self.part.paths.moves:
            return []
        handle = self.asked.handle if self.asked.entry is None else self.made
        names = self.part.paths.all_of(handle) if handle else []
        return [name for name in names if name != self.path]

    @property
    def made(self) -> str | None:
        """The handle that a reply gave of a name in a folder."""
        replies = self.kept.replies_of(self.at)
        if not replies or self.errors or self.listed not in GIVING_HANDLES:
            return None
        return handle_found(self.listed, self.kept.answering[replies[0]]) or None

    @property
    def other_path(self) -> str | None:
        """The second path of RENAME and LINK."""
        asked = self.asked
        return self.part.path(asked.other, asked.other_entry, self.frame or self.at + 1)

    @property
    def answers(self) -> list[str]:
        if self.known_answers is None:
            self.known_answers = [answer_in(self.listed, self.kept.answering[number])
                                  for number in self.kept.replies_of(self.at)]
        return self.known_answers

    @property
    def answer(self) -> str:
        """What the replies say, or that there is none."""
        words = self.answers
        if len(words) == 1:
            return words[0]
        if len(words) > 1 and words.count(words[0]) == len(words):
            return f'{words[0]} ({len(words)} replies)'
        if words:
            return ', then '.join(words)
        if self.part.has_all_replies:
            return 'no reply'
        return 'not judged' if self.part.is_refused else 'no reply recorded'

    @property
    def waited(self) -> int | None:
        """Nanoseconds without a reply: to one on a later connection, or the recording's end."""
        kept = self.kept
        if kept.firsts[self.at] or self.part.is_refused:
            return None
        later = kept.answered_later(self.at)
        end = kept.ended if later is None else kept.reply_times[kept.firsts[later] - 1]
        return end - self.time if end and self.time else None


def call_text(one: KeptExchange, width: int = 0) -> str:
    """A call with its paths and its other arguments. Names of procedures are as wide as that."""
    asked, words, path = one.asked, [short(one.procedure).ljust(width)], one.path
    if path is not None:
        words.append(path)
    if asked.other is not None:
        words.append(f'-> {one.other_path}')
    if asked.words:
        words.append(asked.words)
    if one.again:
        words.append(f'(sent {len(one.again) + 1} times)')
    if one.earlier:
        words.append(f'(again, as {one.earlier})')
    # (an empty path is none in a sentence)
    return ' '.join(words if width else filter(None, words))


class Kept:
    """The exchanges of a recording, numbered from 0, connection after connection.

    parts, starts, part_of: the connections, the first exchange of each, and that of each exchange
    names, kinds: the procedures, and that of each exchange
    again, errors: retransmissions and errors of replies, by exchanges
    """

    def __init__(self, has_values: bool = False, has_texts: bool = True) -> None:
        """Long values may be lost. Without texts it is only kept when an exchange was, its
        procedure and its errors."""
        self.spool, self.has_texts = Spool(), has_texts
        self.values = LongValues(self.spool)
        self.cut = self.values.cut if has_values else without_long
        self.parts, self.starts = list[KeptConnection](), list[int]()
        # What each call says, and each reply.
        self.asking, self.answering = Texts(self.spool), Texts(self.spool)
        # By the address of the server, since other servers may have equal handles.
        self.paths: dict[str, Paths] = {}
        self.names, self.numbers, self.kinds = list[str](), dict[str, int](), array('H')
        self.part_of, self.records, self.xids = array('I'), array('I'), array('I')
        self.sizes = array('I')
        self.frames, self.times = array('Q'), array('q')
        self.again, self.errors = dict[int, list[SentRecord]](), dict[int, list[str]]()
        self.said = list[Sequence[int]]()  # hashes of what the calls of each connection say
        # Calls that were sent again on a later connection, both ways, and when all began and ended.
        self.later, self.earlier = dict[int, int](), dict[int, int]()
        self.begun = self.ended = 0
        # The first reply of each, from 1 in the order of all replies, 0 for none; and more.
        self.firsts, self.further = array('I'), dict[int, list[int]]()
        # Of each reply.
        self.reply_records, self.reply_sizes = array('I'), array('I')
        self.reply_frames, self.reply_times = array('Q'), array('q')

    def __len__(self) -> int:
        return len(self.records)

    def close(self) -> None:
        self.spool.close()

    def take(self, program: str, connection: TakenConnection, is_refused: bool) -> None:
        """Takes the exchanges of a connection, up to its fault. Raises what `listed_of` does."""
        paths = self.paths.setdefault(host_of(connection.server_end), Paths())
        # (all replies are recorded if the end is, and no byte is missing but for the beginning)
        lacks = bool(connection.missing or {*connection.lacks} - {BEGUN_BEFORE})
        has_all = not is_refused and connection.is_closed and not lacks
        self.starts.append(len(self))
        self.parts.append(KeptConnection(connection.number, connection.client_end,
                                         connection.server_end, paths, is_refused, has_all))
        self.rule = Answering(len(self))
        for line, completion in listed_of(program, connection, is_refused):
            (self.take_call if is_call(line) else self.take_reply)(line, completion)
        self.names = list(self.numbers)
        # (a retransmission says the same)
        self.said.append(array('q', dict(zip(self.rule.owners, self.rule.said)).values()))

    def take_call(self, line: str, completion: Completion) -> None:
        _, _, record, xid, name, text = line_of(line)
        (size, frame, time), (at, is_first) = completion, self.rule.call(xid, text)
        if not is_first:
            self.again.setdefault(at, []).append(SentRecord(record, frame, time, size))
            return
        self.part_of.append(len(self.parts) - 1)
        called = name_of_call(name, text)
        self.kinds.append(self.numbers.setdefault(called, len(self.numbers)))
        self.records.append(record)
        self.xids.append(xid)
        self.sizes.append(size)
        self.frames.append(frame)
        self.times.append(time)
        self.firsts.append(0)
        if self.has_texts:
            self.asking.append(self.cut(text))

    def take_reply(self, line: str, completion: Completion) -> None:
        _, _, record, xid, name, text = line_of(line)
        (size, frame, time), at = completion, self.rule.reply(xid)
        number = len(self.reply_records)
        if self.has_texts:
            self.answering.append(self.cut(text))
        self.reply_records.append(record)
        self.reply_sizes.append(size)
        self.reply_frames.append(frame)
        self.reply_times.append(time)
        if self.firsts[at]:
            self.further.setdefault(at, []).append(number)
        else:
            self.firsts[at] = number + 1
        error = error_in(name, text)
        if error:
            self.errors.setdefault(at, []).append(error)
        elif self.has_texts and name in TEACHING:
            self.parts[-1].paths.take(name, self.asking[at], text, frame or at + 1)

    def link(self) -> None:
        """Finds the calls that were sent again on a later connection of the same client and server:
        they have the same xid, and say the same."""
        several = defaultdict[tuple[str, str], list[int]](list)
        for number, part in enumerate(self.parts):
            if part.client:
                several[host_of(part.client), part.server].append(number)
        for numbers in several.values():
            last = dict[int, int]()  # the last call with each xid
            for number in numbers if len(numbers) > 1 else ():
                own = self.exchanges_of(number)
                xids = self.xids[own.start:own.stop]
                if not last.keys().isdisjoint(xids):
                    self.link_calls(own, last)
                if number != numbers[-1]:
                    last.update(zip(xids, own))

    def link_calls(self, own: range, last: Mapping[int, int]) -> None:
        """Links the calls of a connection with those that were sent before."""
        for at in own:
            before = last.get(self.xids[at])
            if before is not None and self.frames[before] <= self.frames[at] and (
                    self.kinds[before] == self.kinds[at]) and (
                    self.said_by(before) == self.said_by(at)):
                self.earlier[at], self.later[before] = before, at

    def said_by(self, at: int) -> int:
        """Returns a hash of what a call says."""
        number = self.part_of[at]
        return self.said[number][at - self.starts[number]]

    def latency(self, at: int) -> int:
        """Returns the nanoseconds to the first reply, `UNTIMED` if they are not known."""
        first, sent = self.firsts[at], self.times[at]
        answered = self.reply_times[first - 1] if first and sent else 0
        return answered - sent if answered else UNTIMED

    def is_unanswered(self, at: int) -> bool:
        """Whether a call got no reply, nor did the same one on an earlier connection."""
        if self.firsts[at] or self.parts[self.part_of[at]].is_refused:
            return False
        before = self.earlier.get(at)
        return before is None or bool(self.firsts[before])

    def answered_later(self, at: int) -> int | None:
        """Returns the same call on a later connection on which it was answered, if there is one."""
        later = self.later.get(at)
        while later is not None and not self.firsts[later]:
            later = self.later.get(later)
        return later

    def exchange(self, at: int) -> KeptExchange:
        return KeptExchange(self, at)

    def position(self, at: int | None) -> str | None:
        """Returns the position of an exchange, as `7:3182`."""
        return None if at is None else f'{self.parts[self.part_of[at]].number}:{self.records[at]}'

    def exchanges_of(self, number: int) -> range:
        """Returns the exchanges of a connection, by its place among `parts`."""
        ends = [*self.starts[1:], len(self)]
        return range(self.starts[number], ends[number])

    def listed_name(self, at: int) -> str:
        name = self.names[self.kinds[at]]
        return name if name in BY_NAME else RAW.name

    def replies_of(self, at: int) -> Sequence[int]:
        first = self.firsts[at]
        return (first - 1, *self.further.get(at, ())) if first else ()

    def reply(self, number: int) -> SentRecord:
        return SentRecord(self.reply_records[number], self.reply_frames[number],
                          self.reply_times[number], self.reply_sizes[number])

    def in_order(self, by_latency: bool) -> list[int]:
        """Returns the numbers of the exchanges by time, or with the longest latency first."""
        if by_latency:
            return sorted(range(len(self)), key=self.latency, reverse=True)
        return sorted(range(len(self)), key=self.times.__getitem__)

    @property
    def backward(self) -> int:
        """How many latencies are negative, since the clock went back."""
        return sum(UNTIMED < self.latency(at) < 0 for at in range(len(self)))

    @property
    def has_latencies(self) -> bool:
        return any(self.latency(at) != UNTIMED for at in range(len(self)))


def host_of(end: str) -> str:
    """Returns the address of an end, as a recording has it: of IPv6 in brackets."""
    return end.rpartition(':')[0]

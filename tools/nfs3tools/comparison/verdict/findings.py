"""Two runs compared: which exchanges are matched, and what differs."""
from __future__ import annotations

import itertools
from collections import Counter
from collections.abc import Iterable, Iterator, Sequence
from dataclasses import dataclass, field, replace

from ...exchanges.in_words import short
from ...exchanges.listing import Exchange, Framing, Message
from ...exchanges.objects import GIVING_HANDLES, TEACHING, UNKNOWN, Paths, below
from ...exchanges.stored import LongValues
from ...exchanges.whose import Item
from ...recordings.selection import count, plural
from ..exchanges.explained import RUNS, Explanation
from ..exchanges.facts import Change
from ..exchanges.matching import Pair
from ..exchanges.outlines import Outlines
from ..exchanges.pairing import NOBODY, Listing, Pairing
from ..values.classes import Mask
from .differences import ABOUT, Comparison, Difference, arguments_of, results_of
from .excerpt import ExcerptRow, Shown

ELSEWHERE = 'the call is on another connection'


@dataclass
class Run:
    """One of two runs: its listing, begun anew by a call, and what finds frames."""
    listing: Listing
    framing: Framing


@dataclass(frozen=True)
class Finding:
    """What is said of one place: the messages of both runs (None if it has none there), and how
    they differ. A call of one run alone has its arguments. `statuses` are those of the replies of
    both runs, if a call is alone, or the replies are of another number; `results` is what replies
    say that the other run does not have.

    A call that is left out is of kind 'only', 'explained' or 'sent again'. The remark is the change
    that explains it, or how often it was sent. One of kind 'noted' says why its run does not allow
    an answer.
    """
    # 'changed', 'only', 'moved', 'sent again', 'replies', 'order', 'connection' or 'explained'
    kind: str
    first: Message | None
    second: Message | None
    path: str | None = None
    differences: tuple[Difference, ...] = ()
    remark: str = ''
    arguments: tuple[Item, ...] = ()
    statuses: tuple[str, str] = ('', '')
    results: tuple[Item, ...] = ()

    @property
    def message(self) -> Message:
        """That of the first run, or else that of the second."""
        message = self.first or self.second
        assert message
        return message

    @property
    def messages(self) -> list[Message]:
        return [*filter(None, (self.first, self.second))]

    @property
    def run(self) -> str:
        return RUNS[self.first is None]

    @property
    def beside_path(self) -> list[Item]:
        """The arguments but for the first handle and the first name, which its path names."""
        about = {one.name: one for one in reversed(self.arguments) if one.name in ABOUT}
        return [one for one in self.arguments if one != about.get(one.name)]


@dataclass
class Compared:
    """All findings, in the order of the first run, and what is matched under the mask.

    exchanges, calls: how many exchanges were brought together, and how many calls each run has
    moved, elsewhere: how many of those are reordered, or are on another connection
    late, late_connections: how many replies come in another order, and on how many connections
    lonely: how many calls the first and the second run have alone, which are reported
    silent: all calls that are left out
    noted: pairs whose answers are equal, and which a run does not allow; they count for nothing
    beside: what differs with some pairs before and after it, to show both runs side by side
    explained: how many pairs are left out whose answers differ as an order explains
    """
    findings: list[Finding] = field(default_factory=list)
    exchanges: int = 0
    calls: tuple[int, int] = (0, 0)
    moved: int = 0
    elsewhere: int = 0
    late: int = 0
    late_connections: int = 0
    lonely: tuple[int, int] = (0, 0)
    silent: list[Finding] = field(default_factory=list)
    noted: list[Finding] = field(default_factory=list)
    explained: int = 0
    beside: Shown | None = None
    mask: Mask = field(default_factory=dict)

    @property
    def left_out(self) -> list[Counter[str]]:
        """How often each procedure was left out that the first, or the second run alone has."""
        return [Counter(call.message.procedure for call in self.silent
                        if call.kind == 'only' and call.run == name) for name in RUNS]

    def fields(self) -> Counter[tuple[str, str]]:
        """Returns how often each field of each procedure differs."""
        return Counter((finding.message.procedure, difference.field)
                       for finding in self.findings for difference in finding.differences)


class ParsedExchanges:
    """Exchanges of a run that are taken apart, with paths. Long values are in a temporary file."""

    def __init__(self, run: Run, outlines: Outlines, wanted: Iterable[int]) -> None:
        self.exchanges, self.paths, values = dict[int, Exchange](), Paths(), LongValues()
        kept = outlines.with_origins(wanted)
        for at, line in outlines.located(run.listing() if kept else (), kept):
            message = line.message(values)
            message.framing = run.framing
            if message.is_call:
                self.exchanges[at] = Exchange(message)
            else:
                self.exchanges[at].replies.append(message)
        for call, reply in ((one.call, reply) for one in self.exchanges.values()
                            if one.call.procedure in TEACHING for reply in one.replies):
            self.paths.take(call.procedure, call.text, reply.text)

    def path(self, at: int) -> str | None:
        """Returns the path of what a call is about. A folder whose path is not known is `?`."""
        call = self.exchanges[at].call
        path, name = self.paths.at(call.value_of('fh') or ''), call.value_of('name')
        return path if name is None else below(path or '?', name.strip('"'))


class OneOfTwo:
    """One of two runs whose exchanges are brought together: what it has alone, and what of it is
    taken apart.

    order: the exchanges that have a partner
    reported, silent: those that have none, and are reported, or left out
    connections: those of which no exchange has one: the first exchange of each, and how many it has
    """
    apart: ParsedExchanges

    def __init__(self, number: int, run: Run, pairing: Pairing, leaves_out: frozenset[str],
                 explanation: Explanation) -> None:
        self.number, self.run, self.outlines = number, run, pairing.runs[number]
        self.order = pairing.matched(number)
        # Calls of the procedures that are left out which count all the same
        self.counted = explanation.counted[number]
        self.reported, self.silent, self.connections = list[int](), list[int](), dict[int, int]()
        explained = {pair[number] for pair in explanation.pairs}
        only = (at for at in pairing.alone(number) if at not in explained)
        procedure_of = self.outlines.procedure_of
        for place, group in itertools.groupby(only, self.outlines.connection_of):
            some = list(group)
            silent = [at for at in some
                      if procedure_of(at) in leaves_out and at not in self.counted]
            if len(silent) < len(some) == len(self.outlines.exchanges_of(place)):
                self.connections[some[0]] = len(some)
            else:
                self.reported += sorted({*some} - {*silent})
                self.silent += silent

    def number_told(self) -> int:
        return len(self.reported) + sum(self.connections.values())

    def alone(self, kind: str, at: int, remark: str = '', mask: Mask | None = None) -> Finding:
        """Returns what is said of an exchange that it has alone, under a mask with the arguments
        and statuses. What is said of a connection has no path."""
        one, path = self.apart.exchanges[at], None if kind == 'connection' else self.apart.path(at)
        finding = Finding(kind, one.call, None, path, remark=remark)
        if mask is not None:
            finding = replace(finding, arguments=arguments_of(one.call, mask),
                              statuses=(statuses_of(one), ''),
                              results=tuple(self.results(at, mask)))
        return finding if self.number == 0 else replace(
            finding, first=None, second=one.call, statuses=finding.statuses[::-1])

    def results(self, at: int, mask: Mask) -> Iterator[Item]:
        """Iterates over what replies say. Of an object it is the path, or that it is new."""
        for reply in self.apart.exchanges[at].replies:
            for one in results_of(reply, mask):
                if one.name == 'fh':
                    is_new = reply.procedure in GIVING_HANDLES and self.outlines.is_new(at)
                    path = self.apart.paths.at(str(one.value)) or UNKNOWN
                    one = one._replace(value='new' if is_new else path)
                yield one

    def of_the_lonely(self, mask: Mask) -> Iterator[Finding]:
        yield from (self.alone('only', at, self.counted.get(at, ''), mask) for at in self.reported)
        for at, number in self.connections.items():
            yield self.alone('connection', at, f'a connection of {count(number, "call")} that the '
                                               'other run does not have')


class Explaining:
    """Finds what differs between two runs whose exchanges are brought together. What is in one run
    alone is reported, unless its procedure is one of those that are left out."""

    def __init__(self, runs: Sequence[Run], pairing: Pairing, leaves_out: frozenset[str],
                 explanation: Explanation) -> None:
        """Pairs that are explained were taken apart again, and are left out."""
        self.pairing, self.explanation = pairing, explanation
        first, second = (OneOfTwo(number, run, pairing, leaves_out, explanation)
                         for number, run in enumerate(runs))
        self.runs = first, second

    def explained(self, unequal: set[int], named: set[int], mask: Mask, tells_order: bool,
                  is_shown: bool) -> Compared:
        """Returns what differs in the pairs of the unequal turns, and besides.

        named: the turns of equal pairs that say what belongs to what
        is_shown: whether both runs are shown side by side
        """
        pairing, (here, there) = self.pairing, self.runs
        moved = [*pairing.moved, *pairing.elsewhere, *pairing.sent_again] if tells_order else []
        changed = list(self.of_turns(unequal, self.take_apart(unequal | named, moved),
                                     Comparison(mask)))
        # Whether each pair that differs has a finding: those that share values may have none.
        self.are_all_told = len(unequal) == len({pair for pair, _ in changed})
        findings = [*(finding for _, finding in changed), *here.of_the_lonely(mask),
                    *there.of_the_lonely(mask), *(self.of_order() if tells_order else ())]
        return Compared(
            sorted(findings, key=self.place_of), exchanges=len(here.order),
            calls=(len(pairing.here), len(pairing.there)), moved=len(pairing.moved),
            elsewhere=len(pairing.elsewhere), late_connections=pairing.late_connections,
            late=sum(number for _, number, _ in pairing.late_replies),
            lonely=(here.number_told(), there.number_told()),
            silent=list(self.of_the_silent(tells_order)),
            noted=[self.of_both('noted', *note) for note in self.explanation.noted.items()],
            explained=sum(map(bool, self.explanation.pairs.values())), mask=mask,
            beside=self.beside([*(pair for pair, _ in changed), *moved]) if is_shown else None)

    def has_another_order(self) -> bool:
        """Returns whether it makes a difference that the order does not count."""
        pairing = self.pairing
        return bool(self.explanation.pairs or any(own.silent for own in self.runs)
                    or pairing.moved or pairing.elsewhere or pairing.late_replies
                    or pairing.late_connections or pairing.sent_again)

    def take_apart(self, turns: set[int], moved: Iterable[Pair]) -> set[int]:
        """Takes the exchanges of some turns apart, and all that are reported. Returns the turns,
        with those of the exchanges that say where the files are."""
        here, there = self.runs
        pairs = [*((here.order[turn], there.order[turn]) for turn in turns), *moved]
        first, second = both = [own.outlines.with_origins(
            {*(pair[own.number] for pair in pairs), *own.reported, *own.connections})
            for own in self.runs]
        turns = {turn for turn, (at, to) in enumerate(zip(here.order, there.order))
                 if at in first or to in second}
        explained = self.explanation.pairs
        left_out = [*explained, *self.pairing.sent_again, *self.explanation.noted]
        causes = [change for some in explained.values() for change in some[:1]]
        for own, some in zip(self.runs, both):
            some.update(own.silent, (pair[own.number] for pair in left_out),
                        (change.at for change in causes if change.run == own.number),
                        map(own.order.__getitem__, turns))
            own.apart = ParsedExchanges(own.run, own.outlines, some)
        return turns

    def of_turns(self, unequal: set[int], turns: set[int],
                 comparison: Comparison) -> Iterator[tuple[Pair, Finding]]:
        """The differences between matched exchanges. Equal ones bind what belongs to what."""
        here, there = self.runs
        for turn in (*sorted(turns - unequal), *sorted(unequal)):
            at, to = here.order[turn], there.order[turn]
            found = list(of_pair(here.apart.exchanges[at], there.apart.exchanges[to],
                                 here.apart.path(at), comparison))
            if turn in unequal:
                yield from (((at, to), self.completed(finding, (at, to))) for finding in found)

    def completed(self, finding: Finding, pair: Pair) -> Finding:
        """Returns a finding with the paths of handles, and why no order explains a reply."""
        is_told = finding.kind == 'changed' and not finding.message.is_call and not all(
            one.is_equal for one in finding.differences)
        return replace(finding, differences=tuple(map(self.with_paths, finding.differences)),
                       remark=self.explanation.remarks.get(pair, '') if is_told
                       else finding.remark)

    def with_paths(self, one: Difference) -> Difference:
        """Returns a difference with the paths of both values if they are file handles."""
        if one.name != 'fh' or one.first is None or one.second is None:
            return one
        first, second = (own.apart.paths.at(str(handle))
                         for own, handle in zip(self.runs, (one.first, one.second)))
        return replace(one, objects=(first, second)) if first and second else one

    def of_both(self, kind: str, pair: Pair, remark: str) -> Finding:
        first, second = (own.apart.exchanges[at].call for own, at in zip(self.runs, pair))
        return Finding(kind, first, second, self.runs[0].apart.path(pair[0]), remark=remark)

    def of_order(self) -> Iterator[Finding]:
        """What is elsewhere in the second run, or sent again."""
        pairing = self.pairing
        for pairs, remark in ((pairing.moved, 'the call is reordered'),
                              (pairing.elsewhere, ELSEWHERE)):
            yield from (self.of_both('moved', pair, remark) for pair in pairs)
        yield from self.of_sent_again()
        for connection, number, among in pairing.late_replies:
            first_reply = Message(connection, False, 1, 0, '', '')
            first_reply.framing = self.runs[0].run.framing
            yield Finding(
                'order', first_reply, None,
                remark=f'{number} of {among} replies of the connection come in another order')

    def of_sent_again(self) -> Iterator[Finding]:
        """How often calls were sent and answered in both runs."""
        for pair in self.pairing.sent_again:
            (calls, answers), (others, others_there) = (
                own.outlines.sent_again(at) for own, at in zip(self.runs, pair))
            what, one, other = (('sent', calls, others) if len(calls) != len(others)
                                else ('answered', answers, others_there))
            yield self.of_both('sent again', pair, f'{what} {times(len(one) + 1)} in the first '
                                                   f'run, {times(len(other) + 1)} in the second')

    def of_the_silent(self, is_strict: bool) -> Iterator[Finding]:
        for pair, changes in self.explanation.pairs.items():
            why = self.named(changes[0]) if changes else 'other places of its entries'
            yield self.of_both('explained', pair, why)
        yield from () if is_strict else self.of_sent_again()
        for own in self.runs:
            yield from (own.alone('only', at) for at in own.silent)

    def named(self, change: Change) -> str:
        apart = self.runs[change.run].apart
        call, path = apart.exchanges[change.at].call, apart.path(change.at) or '?'
        return f'{short(call.procedure)} {path} at {call.place} of the {RUNS[change.run]} run'

    def place_of(self, finding: Finding) -> tuple[int, int, bool]:
        """Where a finding stands: in the order of the first run, or at its own place."""
        message, is_second = finding.message, finding.first is None
        place = self.runs[is_second].outlines.place_of(message.connection)
        if is_second:
            place = self.pairing.places_of_homes.get(place, len(self.pairing.homes))
        return place, message.record, is_second

    def beside(self, changed: Iterable[Pair]) -> Shown:
        """Returns some pairs that are reported, what one run alone has, and pairs around that. Of a
        connection that one run alone has it is the first exchange."""
        first, second = self.runs
        told = [*changed, *((at, NOBODY) for at in (*first.reported, *first.connections)),
                *((NOBODY, to) for to in (*second.reported, *second.connections))]
        besides = itertools.chain.from_iterable(range(at, at + number)
                                                for at, number in first.connections.items())
        shown = Shown(self.pairing, told, besides)
        here, there = (ParsedExchanges(own.run, own.outlines, (
            pair[own.number] for pair in shown.pairs if pair[own.number] != NOBODY))
            for own in self.runs)
        return shown.fill(lambda pair, is_told: ExcerptRow(
            here.exchanges.get(pair[0]), there.exchanges.get(pair[1]),
            there.path(pair[1]) if pair[0] == NOBODY else here.path(pair[0]), is_told))


def replies(number: int) -> str:
    return f'{number:,} {plural(number, "reply", "replies")}'


def times(number: int) -> str:
    return 'once' if number == 1 else f'{number} times'


def statuses_of(exchange: Exchange) -> str:
    """Returns the statuses of the replies of an exchange: of NFS or MOUNT, or of RPC."""
    return ', '.join(reply.value_of('status') or f'accept_stat {reply.value_of("accept_stat")}'
                     if reply.value_of('reject_stat') is None
                     else f'reject_stat {reply.value_of("reject_stat")}'
                     for reply in exchange.replies)


def of_pair(one: Exchange, other: Exchange, path: str | None,
            comparison: Comparison) -> Iterator[Finding]:
    """How two exchanges differ: their calls, and then their replies, in their order."""
    for message, its in ((one.call, other.call), *zip(one.replies, other.replies)):
        found = comparison.of_messages(message, its, one.call, other.call)
        if found:
            yield Finding('changed', message, its, path, tuple(found))
    if len(one.replies) != len(other.replies):
        yield Finding('replies', one.call, other.call, path,
                      statuses=(statuses_of(one), statuses_of(other)),
                      results=tuple(further_results(one, other, comparison.mask)),
                      remark=f'{replies(len(one.replies))} in the first run, '
                             f'{len(other.replies)} in the second')


def further_results(one: Exchange, other: Exchange, mask: Mask) -> Iterator[Item]:
    """Iterates over what replies of one exchange alone say. A handle is the first one, or not."""
    for reply in (*one.replies[len(other.replies):], *other.replies[len(one.replies):]):
        first = (one if reply in one.replies else other).replies[0].value_of('fh')
        for result in results_of(reply, mask):
            yield result if result.name != 'fh' else result._replace(
                value='as before' if result.value == first else 'another')

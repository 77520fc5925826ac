"""What is said of two runs: what differs, whether they are the same in another order than their
own, and the comparison as a whole in words."""
from __future__ import annotations

from collections import Counter, defaultdict
from collections.abc import Iterable, Iterator, Sequence
from dataclasses import dataclass, replace
from functools import partial
from heapq import merge
from itertools import chain, groupby, zip_longest
from operator import itemgetter
from typing import Literal, Optional

from ...exchanges.in_words import short
from ...exchanges.listing import Line, line_of
from ...judgement.known import Known
from ...recordings.coverage import Allowed
from ...recordings.selection import count
from ..exchanges.explained import RUNS, Explanation, explanation_of
from ..exchanges.followed import Followed, with_values
from ..exchanges.outlines import Outlines, classes_of_items, renamed_values
from ..exchanges.pairing import ASKING, Listing, Pairing
from ..values.classes import CLASSES, Mask, Way
from .accepted import Split, divided
from .cover import Cover
from .findings import Compared, Explaining, Finding, Run, replies
from .trial import Trial

FIELDS_IN_SUMMARY = 4
LONGEST_LINE = 200  # characters of the comparison in words
# Why calls of both runs are left out.
WHY_LEFT_OUT = {'explained': 'explained by order', 'sent again': 'sent again'}
IN_ANOTHER_ORDER, BUT_IDS, BUT_LEFT_OUT = (
    'same in another order', 'same but for ids', 'same but for calls left out')
Order = Optional[Literal['strict', 'any']]
# Classes that follow their objects together.
GROUPS = frozenset(('ids', 'fsids')), frozenset(('cookies',)), frozenset(('createverfs',))

# Whether lines are of replies, the turn of their exchange, the run, 0 or 1, and of each line the
# procedure and the items
KeyedLines = tuple[tuple[bool, int], int, list[tuple[str, str]]]


@dataclass(frozen=True)
class Choices:
    """How runs are compared, and whether both are shown side by side.

    order: whether the order counts; if it is None, any order is tried, and counts if it makes a
        difference
    masks: that of the comparison, and those of any order, each with more than the one before
    leaves_out: the procedures whose calls are left out in any order if one run alone has them
    accepted: the findings that are known, if there is a file of them
    follows: the classes whose values follow their objects in any order, if they are not one to one
    """
    order: Order
    masks: Sequence[Mask]
    follows: frozenset[str] = frozenset()
    leaves_out: frozenset[str] = ASKING
    is_shown: bool = False
    accepted: Known | None = None


@dataclass(frozen=True)
class Outcome:
    """What was found: all that differs and is matched, and the mask under which the runs are
    the same in another order, if they are.

    accepted: the findings that were accepted, which are not among those of `compared`
    is_rest_same: whether the runs are the same in their own order without the exchanges of these
    whole: the comparison with all findings that count, accepted or not, if there are some
    follows: whether ids and their like follow their objects, since they are not one to one
    """
    compared: Compared
    same_under: Mask | None = None
    accepted: Split | None = None
    is_rest_same: bool = False
    whole: Compared | None = None
    follows: bool = False


class NothingToCompare(Exception):
    """A run has no call that can be compared and is not left out; the text is for the user."""


class Orders:
    """Two runs whose exchanges are brought together, and their captures in one order."""

    def __init__(self, trial: Trial, runs: Sequence[Run], choices: Choices) -> None:
        self.trial, self.runs, self.choices = trial, runs, choices
        is_strict, (mask, *more) = choices.order == 'strict', choices.masks
        self.leaves_out = frozenset[str]() if is_strict else choices.leaves_out
        # (to bring exchanges together it is all one whether a class is numbered or zero)
        self.take(trial.paired([mask] if is_strict else [mask, *more[-1:]], self.leaves_out),
                  Explanation())

    def take(self, pairing: Pairing, explanation: Explanation) -> None:
        """Takes exchanges that were brought together, but for pairs that an order explains."""
        self.pairing = pairing.without(explanation.pairs) if explanation.pairs else pairing
        self.is_in_place = self.pairing.is_in_place
        self.captures = (self.trial.captures if self.is_in_place
                         else self.trial.in_one_order(self.pairing))
        self.explaining = Explaining(self.runs, self.pairing, self.leaves_out, explanation)

    def found(self) -> Outcome:
        """Finds what differs, or that another order is the same, and what was accepted."""
        found = self.found_of_all()
        found = replace(found, whole=found.compared if found.same_under is None else None)
        if self.choices.accepted is None:
            return found
        compared, accepted = divided(found.compared, self.choices.accepted)
        is_all = bool(accepted.findings) and not compared.findings and found.same_under is None
        found = replace(found, compared=compared, accepted=accepted)
        return self.with_rest(found, accepted.findings) if is_all else found

    def with_rest(self, found: Outcome, accepted: Sequence[Finding]) -> Outcome:
        """Finds whether the runs are the same without the exchanges of all findings, which were
        accepted. That is the word of the program, as without them."""
        mask = found.compared.mask
        some = {self.pairing.here.exchange_of(one.first.connection, one.first.is_call,
                                              one.first.record)
                for one in accepted if one.first and one.second}
        rest = self.pairing.without((at, self.pairing.partners[at]) for at in some)
        if not len(rest.matched(0)):
            return found
        self.captures = self.trial.in_one_order(rest)
        if self.is_in_own_order():
            # (if the connections of both runs are matched in their order)
            here, there = rest.here.connections, rest.there.connections
            is_alike = here == there and rest.homes == list(range(len(here))) and len(
                {len(taken.connections) for taken in self.trial.runs}) == 1
            return replace(found, is_rest_same=is_alike and self.is_same(mask))
        return replace(found, same_under=mask) if self.is_same(mask) else found

    def is_in_own_order(self) -> bool:
        """Whether the order counts, or makes no difference: reordered calls are findings."""
        order = self.choices.order
        return order == 'strict' or order is None and not self.explaining.has_another_order()

    def found_of_all(self) -> Outcome:
        mask = self.choices.masks[0]
        if self.is_in_own_order():
            return Outcome(self.explained(mask))
        if self.leaves_out:
            self.leave_out_explained(mask)
        found = self.found_under(mask)
        classes = frozenset() if found.same_under is not None or not self.leaves_out else (
            self.not_one_to_one(found.compared, mask))
        if not classes:
            return found
        self.follow(classes)
        left = {name: way for name, way in mask.items() if name not in classes}
        return replace(self.found_under(left), follows=True)

    def not_one_to_one(self, compared: Compared, mask: Mask) -> frozenset[str]:
        """Returns the classes that are to follow their objects: those of values that differ. If
        pairs differ of which no field is reported, values are shared by other messages."""
        names = {one.name for finding in compared.findings for one in finding.differences}
        told = {one.name for one in CLASSES if names & one.items}
        groups = [group & self.choices.follows for group in GROUPS]
        if self.explaining.are_all_told:
            return frozenset().union(*(group for group in groups if group & told))
        own = self.listed(mask).unequal()
        zeros = [{**mask, **dict.fromkeys(group, Way.ZERO)} for group in groups]
        return frozenset().union(*(group for group, zero in zip(groups, zeros)
                                   if group & told or self.listed(zero).unequal() < own))

    def found_under(self, mask: Mask) -> Outcome:
        """Finds what differs under a mask in any order, or that nothing does."""
        is_lonely = any(own.number_told() for own in self.explaining.runs)
        if is_lonely or not self.is_same(mask):
            return Outcome(self.explained(mask))
        if not len(self.explaining.runs[0].order):
            raise NothingToCompare('nothing to compare: no call of one run is in the other')
        return Outcome(self.explained(mask), mask)

    def leave_out_explained(self, mask: Mask) -> None:
        """Leaves out what an order explains. What is left decides."""
        trial = self.trial
        self.all_paired, self.explanation = self.pairing, explanation_of(
            trial.runs, self.pairing, partial(trial.canonical, trial.captures), self.leaves_out,
            mask)
        if self.explanation.pairs or any(self.explanation.counted):
            self.take(self.all_paired, self.explanation)
        self.explaining.explanation = self.explanation

    def follow(self, classes: frozenset[str]) -> None:
        """Takes the second run with the first run's values of some classes."""
        (first, second), trial = self.runs, self.trial
        values = Followed(self.all_paired, trial.canonical(trial.captures), classes).values
        self.trial = trial.with_second(with_values(trial.runs[1], values))
        self.runs = first, replace(second, listing=self.trial.listing(1, self.trial.captures[1]))
        self.take(self.all_paired, self.explanation)

    def is_same(self, mask: Mask) -> bool:
        return not self.trial.difference(self.captures, mask)

    def listed(self, mask: Mask) -> TwoListings:
        first, second = self.trial.canonical(self.captures, mask)
        if self.is_in_place:
            return ListedInPlace(first, second, mask, self.pairing.here)
        return TwoListings(first, second, mask)

    def explained(self, mask: Mask) -> Compared:
        """Finds what differs between the pairs under a mask."""
        listed = self.listed(mask)
        differing = listed.unequal()
        return self.explaining.explained(differing, listed.turns_of_values(differing), mask,
                                         self.choices.order == 'strict', self.choices.is_shown)


# --- Which exchanges of two captures in one order differ, by their listings ---

class TwoListings:
    """Two captures in canonical form, in one order and one connection: call N of both has the xid
    N. A call may have any number of replies. The turns of exchanges are numbered from 0."""

    def __init__(self, first: Listing, second: Listing, mask: Mask) -> None:
        self.first, self.second = first, second
        self.classes, self.pattern = classes_of_items(mask), renamed_values(mask)
        # The renamed values of what differs in the first run, and raw bytes
        self.values, self.has_rest = set[tuple[str, str]](), False

    def note(self, line: str) -> None:
        """Notes which renamed values a line has that differs, and whether raw bytes."""
        self.has_rest |= ' rest=' in line
        self.values.update((self.classes[name], value)
                           for name, value in self.pattern.findall(line))

    def turn_of(self, line: Line) -> int:
        return line.xid - 1

    def messages(self, run: int, lines: Iterable[str]) -> Iterator[KeyedLines]:
        """Returns the calls, and then the replies to each call, without their records' numbers."""
        return ((key, run, [line[4:] for line in some]) for key, some in groupby(
            map(line_of, lines), lambda line: (not line.is_call, self.turn_of(line))))

    def unequal(self) -> set[int]:
        """Returns the turns of the exchanges that are listed in another way."""
        first, second = iter(self.first()), iter(self.second())
        # (what is equal at the beginning is not taken apart)
        one, other = next(((one, other) for one, other in zip_longest(first, second)
                           if one != other), (None, None))
        both = merge(self.messages(0, chain(filter(None, [one]), first)),
                     self.messages(1, chain(filter(None, [other]), second)))
        out = set[int]()
        for (_, turn), some in groupby(both, itemgetter(0)):
            said = {run: lines for _, run, lines in some}
            if said.get(0) != said.get(1):
                out.add(turn)
                self.note(''.join(text for _, text in said.get(0, ())))
        return out

    def turns_of_values(self, unequal: set[int]) -> set[int]:
        """Returns the turns of exchanges that are equal, and are the first ones with what the
        unequal ones have: their handles, and other renamed values."""
        out, seen = set[int](), set[str]()
        for line in self.first() if self.values or self.has_rest else ():
            # (raw bytes may have any handle)
            some = [(name, value) for name, value in self.pattern.findall(line)
                    if (self.classes[name], value) in self.values or self.has_rest and name == 'fh'
                    and value not in seen]
            turn = self.turn_of(line_of(line)) if some else -1
            if some and turn not in unequal:
                out.add(turn)
                self.values.difference_update((self.classes[name], value) for name, value in some)
                seen.update(value for _, value in some)
            if not self.values and not self.has_rest:
                break
        return out


class ListedInPlace(TwoListings):
    """The same of exchanges that are in the same places: the turns are their numbers."""

    def __init__(self, first: Listing, second: Listing, mask: Mask, outlines: Outlines) -> None:
        super().__init__(first, second, mask)
        self.outlines = outlines

    def turn_of(self, line: Line) -> int:
        return self.outlines.exchange_of(*line[:3])

    def unequal(self) -> set[int]:
        out = set[int]()
        for one, other in zip_longest(self.first(), self.second(), fillvalue=''):
            if one != other:
                out.add(self.turn_of(line_of(one or other)))
                self.note(one)
        return out


# --- The result ---

@dataclass(frozen=True)
class Report:
    """What is said of two runs: where they differ, or nothing if the program calls them the same,
    what was found as it was asked for, and how much of both is compared."""
    place: str
    found: Outcome
    choices: Choices
    covers: Sequence[Cover]

    @property
    def is_same(self) -> bool:
        """Whether the runs are the same, if the order counts as was asked for."""
        return not self.place or self.found.same_under is not None and self.choices.order == 'any'

    @property
    def is_in_part(self) -> bool:
        """Whether something of a run is not compared."""
        return not all(cover.is_good(Allowed()) for cover in self.covers)

    @property
    def is_different(self) -> bool:
        """Whether the runs differ in any order."""
        return bool(self.place) and self.found.same_under is None

    @property
    def losses(self) -> str:
        """What of both runs is not compared, in words."""
        return ', '.join(words for run, cover in zip(RUNS, self.covers)
                         for words in cover.lacking(run))

    def word(self) -> str:
        if self.is_different:
            return 'differ'
        return word_of(self.found) + ' in part' * self.is_in_part

    def lines(self) -> list[str]:
        """What is printed of the verdict: how much was compared, and in which part."""
        if not self.is_different:
            return ['; '.join(self.words_of_same()) + (f', {self.losses}' if self.losses else '')]
        any_order = ' in any order' * (self.choices.order == 'any')
        return [f'differ{any_order} at {self.place}',
                *([f'compared in part: {self.losses}'] if self.losses else [])]

    def words_of_same(self) -> list[str]:
        """How much of runs that are the same was compared, and all that does not count for that."""
        found, verdict, compared = self.found, word_of(self.found), [str(self.covers[0].size)]
        if found.same_under is not None:
            explained = found.compared.explained
            verdict += f', {count(explained, "answer")} explained by order' if explained else ''
            compared = of_same(found, self.choices.masks[0])
        number = len(found.accepted.findings) if found.accepted else 0
        but = f' but for {number:,} known' if number else ''
        return [f'{verdict}{" in part" if self.losses else ""}{but}: {compared[0]}', *compared[1:]]


def run_of(trial: Trial, number: int) -> Run:
    taken, listing = trial.runs[number], trial.listing(number, trial.captures[number])
    return Run(listing, lambda place: [
        frame.number for frame in taken.frames(place)] if taken.is_recording else [])


def judged_runs(trial: Trial, choices: Choices, covers: Sequence[Cover]) -> Report:
    """Compares both runs of a trial. They are brought together if they differ, or for a page."""
    place = trial.placed(trial.difference(trial.captures, choices.masks[0]))
    if not place and not choices.is_shown:
        first, second = (cover.size.calls for cover in covers)
        compared = Compared(exchanges=first, calls=(first, second))
        split = divided(compared, choices.accepted)[1] if choices.accepted else None
        return Report('', Outcome(compared, accepted=split), choices, covers)
    order: Order = choices.order if place else 'strict'
    runs = [run_of(trial, number) for number in (0, 1)]
    found = Orders(trial, runs, replace(choices, order=order)).found()
    if found.is_rest_same:
        place = ''
    elif place and found.same_under is None and found.compared.findings:
        # (where the first finding is that was not accepted)
        first_left = found.compared.findings[0]
        place = f'{first_left.message.place}' + ' of the second run' * (first_left.first is None)
    return Report(place, found, choices, covers)


# --- In words ---

def turns(compared: Compared) -> list[str]:
    """What is elsewhere in the second run, or nothing."""
    some = ((f'{compared.moved:,}', compared.moved), (replies(compared.late), compared.late),
            (count(compared.late_connections, 'connection'), compared.late_connections))
    out = [f'{what} reordered' for what, number in some if number]
    return [*out, f'{compared.elsewhere:,} on another connection'] if compared.elsewhere else out


def left_out(compared: Compared) -> Iterator[tuple[str, str]]:
    for name, procedures in zip(RUNS, compared.left_out):
        for procedure, number in sorted(procedures.items()):
            yield f'{number:,} {short(procedure)}', name


def of_both(compared: Compared) -> Iterator[str]:
    """The calls of both runs that are left out, by why and procedure, and their only path."""
    paths = defaultdict[tuple[str, str], list[str]](list)
    for call in compared.silent:
        if call.kind != 'only':
            paths[call.kind, call.message.procedure].append(call.path or '?')
    for (kind, procedure), some in sorted(paths.items()):
        where = some[0] if len(set(some)) == 1 else f'{len(set(some)):,} paths'
        yield f'{len(some):,} {short(procedure)} of {where}, {WHY_LEFT_OUT[kind]}'


def word_of(found: Outcome) -> str:
    """Returns what is said of runs that are the same, or would be if the order does not count."""
    compared = found.compared
    if found.same_under is None:
        return 'same'
    if turns(compared) or compared.explained:
        return IN_ANOTHER_ORDER
    if found.follows:
        return BUT_IDS
    return BUT_LEFT_OUT if compared.silent else IN_ANOTHER_ORDER


def of_same(found: Outcome, mask: Mask) -> list[str]:
    """What follows these words: how the order differs, and all else that does not count."""
    words = [f'{count(found.compared.exchanges, "call")}', *turns(found.compared)]
    some = [*(f'{what} of the {name} run' for what, name in left_out(found.compared)),
            *of_both(found.compared)]
    if some:
        words.append('left out: ' + ', '.join(some))
    if found.follows and found.same_under is not None:
        followed = sorted(mask.keys() - found.same_under.keys())
        words.append(f'{" and ".join(followed)} follow their objects')
    return words


def frequent_fields(compared: Compared) -> Iterator[str]:
    """The fields that differ most often, over all procedures."""
    fields = Counter[tuple[str, bool]]()
    for finding in compared.findings:
        fields.update((difference.field, finding.message.is_call)
                      for difference in finding.differences)
    for (name, is_call), number in fields.most_common(FIELDS_IN_SUMMARY):
        yield f'{name} in ' + (count(number, 'call') if is_call else replies(number))
    if len(fields) > FIELDS_IN_SUMMARY:
        yield '..'


def compared_in_words(compared: Compared) -> str:
    """The verdict in a line of words: what is matched, and what is not."""
    words = [f'{compared.exchanges:,} of {count(max(compared.calls), "call")} matched',
             *turns(compared)]
    words += [f'left out: {what} only in the {name} run' for what, name in left_out(compared)]
    words += [f'left out: {what}' for what in of_both(compared)]
    words += [f'{number:,} only in the {name} run' for name, number in zip(RUNS, compared.lonely)
              if number]
    words += frequent_fields(compared)
    while len('; '.join(words)) > LONGEST_LINE:
        words[-2:] = ['..']
    return '; '.join(words)

"""The rule: which answers of two runs may differ, and which calls of one run alone are left out.

A difference between two answers to one question is explained if a change of this very value stands
otherwise to the question in both runs (`facts`), and each of both answers is one that the history
of its own run allows at that time (`history`). What a history does not know must be equal.
compare.1 has the same in more words, and when a call that only asks is left out.
"""
from __future__ import annotations

from collections import Counter
from collections.abc import Callable, Iterator, Sequence
from dataclasses import dataclass, field
from functools import cache
from typing import Any

from ...exchanges.history import (
    ANY_OBJECT, GONE, KEPT_ITEMS, LASTING_ITEMS, TIMES_ITEM, Claim, HistoryKey, lacking, listed_in,
    name_key, present, results_in)
from ...exchanges.in_words import short
from ...exchanges.objects import DOTS
from ...exchanges.procedures import (
    ACCESS, BEFORE, DONE, LISTINGS, LOOKUP, NO_ENTRY, STEADY, is_of_files, owners_in,
    statements_of_entry)
from ...exchanges.timelines import SaidValues
from ...exchanges.values import Values, owned
from ...recordings.taken import Taken
from ..values.classes import CLASSES, Mask, Way
from .facts import Change, ChangesOfKey, Facts, Turns, is_quiet
from .followed import partners_of
from .matching import Pair
from .outlines import is_silly
from .pairing import NOBODY, Listing, Pairing

TIMES_OF_FILES = frozenset(('atime', 'mtime', 'ctime', 'used'))
# Values that follow their objects and entries.
FOLLOWING_ITEMS = {'fileid': 'ids', 'fsid': 'fsids', 'cookie': 'cookies',
                   'cookieverf': 'cookieverfs'}
NOT_KNOWN, NOT_ALLOWED = (
    'not known: no recorded change and no other answer of the {} run says what it was',
    'the recorded changes and the other answers of the {} run do not allow it')
RUNS = ('first', 'second')
FEW, SHARE = 10, 10  # so many calls of a procedure, or one of so many
EntryKey = object  # the name of an entry, or the object of one whose name is masked
Question = tuple[str, int, tuple[str, ...]]  # the procedure, the object, and the name
ReasonsOfCalls = tuple[dict[int, str], dict[int, str]]  # calls of both runs, each with a reason


class Unexplained(Exception):
    """A difference that no order explains, and why, if a change stands otherwise."""


def free_items(mask: Mask) -> frozenset[str]:
    """Returns the names of the items that may differ under a mask."""
    masked = {name for one in CLASSES for name in one.items if mask.get(one.name) is Way.ZERO
              and not one.is_of_changes and not one.has_names}
    # (a time is one value)
    return frozenset(masked) | {time for time in TIMES_OF_FILES if f'{time}_sec' in masked} | {
        name for name, way in FOLLOWING_ITEMS.items() if way in mask}


class Reply:
    """The only reply of an exchange of a run, 0 or 1."""

    def __init__(self, facts: Facts, run: int, at: int) -> None:
        self.facts, self.history, self.run, self.at = facts, facts.history, run, at
        ((self.head, self.one),) = facts.messages[at]
        self.reply = self.one.reply
        self.owners = {owner: self.shared(handle) for owner, handle in owners_in(
            self.one.procedure, self.one.call, self.reply)}

    def shared(self, handle: str) -> object:
        """Returns what an object is called in both runs, None if that is not known."""
        return self.facts.identity(handle) or None

    @property
    def folder(self) -> object:
        return self.facts.known_as(self.one.call['fh'])

    def claim(self, label: str, value: Any, own: object) -> Claim | None:
        """Returns what an item of the reply, or of an entry of an object, says of a history."""
        owners, item = owned(label)
        own = self.owners.get(owners[0], own) if owners else own
        kept = (TIMES_ITEM if item in TIMES_OF_FILES else
                item if item in KEPT_ITEMS or item in LASTING_ITEMS else '')
        return Claim((own, kept), value, owners[-1:] == (BEFORE,)) if (
            kept and own is not None) else None

    def object_in(self, entry: Values) -> object:
        return self.shared(entry['fh']) if 'fh' in entry else None

    def entries(self, mask: Mask) -> dict[EntryKey, Values]:
        """Returns the entries of a listing by their names, or by objects if these are masked."""
        return {self.object_in(entry) if 'sillynames' in mask and is_silly(entry['name'])
                else entry['name']: entry for entry in self.reply.get('entries', ())}


class OrderRule:
    """The rule for two runs. Items that are `free` may differ."""

    def __init__(self, pairing: Pairing, facts: Sequence[Facts], mask: Mask) -> None:
        self.pairing, self.facts, self.mask, self.free = pairing, facts, mask, free_items(mask)
        self.histories = [own.history for own in facts]
        self.turns = [own.turns for own in facts if own.turns]
        self.changes_of = cache(lambda key: ChangesOfKey(pairing, self.histories, key))
        self.present = cache(present)

    # --- Two answers ---

    def explained(self, pair: Pair) -> list[Change]:
        """Returns changes that explain how two answers differ: none if only places of masked names
        do. Raises `Unexplained` if something else does."""
        runs = list(zip(self.facts, pair))
        asked = {(own.outlines.asked[at], *map(own.outlines.identities.__getitem__,
                                               own.outlines.objects_of(at))) for own, at in runs}
        if len(asked) > 1 or any(at in own.ids.odd or len(own.messages[at]) != 1
                                 for own, at in runs):
            raise Unexplained
        first, second = (Reply(own, run, at) for run, (own, at) in enumerate(runs))
        if first.head != second.head:
            raise Unexplained
        # (both ask from the beginning of a folder, or neither does)
        if len({reply.one.call.get('cookie') == 0 for reply in (first, second)}) > 1:
            raise Unexplained
        return list(dict.fromkeys(self.of_replies(first, second)))

    def of_replies(self, first: Reply, second: Reply) -> Iterator[Change]:
        if first.one.procedure == LOOKUP and found_in(first) != found_in(second):
            return self.of_lookup(first, second)
        if first.one.status != second.one.status:
            raise Unexplained
        if first.one.procedure in LISTINGS and first.one.status == DONE:
            return self.of_listing(first, second)
        return self.of_values((first, second), (first.reply, second.reply))

    def otherwise(self, pair: Pair, key: HistoryKey) -> Change | None:
        """Returns a change of a key that stands otherwise to a question, if there is one."""
        return self.changes_of(key).otherwise(
            pair, [(own.begins[at], own.ends[at]) for own, at in zip(self.turns, pair)])

    def change(self, both: Sequence[Reply], key: HistoryKey | None) -> Change:
        """Returns a change of a key that stands otherwise. There has to be one."""
        first, second = both
        change = key and self.otherwise((first.at, second.at), key)
        if not change:
            raise Unexplained
        return change

    def check(self, reply: Reply, claim: Claim, label: str) -> None:
        """Raises `Unexplained` if a run does not allow what its answer says."""
        is_allowed = self.allows(reply.run, reply.at, claim)
        if not is_allowed:
            why = NOT_KNOWN if is_allowed is None else NOT_ALLOWED
            raise Unexplained(f'{label}: {why.format(RUNS[reply.run])}')

    def allows(self, run: int, at: int, claim: Claim) -> bool | None:
        """Returns whether a run allows what an answer says. Before all changes of a name it leads
        where it does in the other run."""
        own, other = self.histories[run], self.histories[1 - run]
        is_allowed = own.allows(at, claim)
        if is_allowed is None and claim.key[1][0] == '/' and not (
                own.timeline(claim.key).met(own.asked(at, claim))[0]):
            initial = other.timeline(claim.key).initial()
            return claim.value in initial or ANY_OBJECT in initial and claim.value != GONE if (
                initial) else None
        return is_allowed

    def of_values(self, both: Sequence[Reply], values: Sequence[Values],
                  own: object = None) -> Iterator[Change]:
        """Iterates over changes that explain how items of one layout differ."""
        first, second = values
        if first.keys() != second.keys():
            raise Unexplained
        for label in (label for label in first if label != 'entries'):
            one, other = (reply.shared(its[label]) if label == 'fh' else its[label]
                          for reply, its in zip(both, values))
            if one != other and owned(label).name not in self.free:
                yield self.of_claims(both, label, [reply.claim(label, its[label], own)
                                                   for reply, its in zip(both, values)])

    def of_claims(self, both: Sequence[Reply], label: str,
                  claims: Sequence[Claim | None]) -> Change:
        keys = {claim and claim.key for claim in claims}
        change = self.change(both, keys.pop() if len(keys) == 1 else None)
        for reply, claim in zip(both, claims):
            if claim and claim.key[1] != TIMES_ITEM:
                self.check(reply, claim, label)
        return change

    def of_lookup(self, first: Reply, second: Reply) -> Iterator[Change]:
        """Each answer is as changes of the name leave it."""
        both, key = (first, second), name_key(first.folder, first.one.call['name'])
        yield self.change(both, key)
        for reply in both:
            if reply.one.status not in (DONE, NO_ENTRY):
                raise Unexplained
            self.check(reply, Claim(key, found_in(reply)), 'name')
            for claim in reply.history.claims_of(reply.one):
                if claim.key[0] == found_in(reply):
                    self.check(reply, claim, f'obj.{claim.key[1]}')
        yield from self.of_values(both, [
            {label: value for label, value in reply.reply.items()
             if owned(label).owners[:1] == ('dir',)}
            for reply in both])

    # --- Folders ---

    def of_listing(self, first: Reply, second: Reply) -> Iterator[Change]:
        """Entries may differ whose names were changed otherwise. All others are in one order."""
        both = first, second
        yield from self.of_values(both, (first.reply, second.reply))
        entries = [reply.entries(self.mask) for reply in both]
        for reply, own, others in zip(both, entries, reversed(entries)):
            for key in (key for key in own if key not in others):
                yield self.of_alone(both, key)
                self.check_entry(reply, own[key])
        for reply in both:
            wrong = self.wrong_names(reply)
            if wrong:
                raise Unexplained(f'{wrong} in the {RUNS[reply.run]} run')
        common = [[key for key in own if key in others and self.has_a_place(first, key)]
                  for own, others in zip(entries, reversed(entries))]
        if common[0] != common[1]:
            raise Unexplained
        for key, entry in entries[0].items():
            if key in entries[1]:
                yield from self.of_entry(both, key, (entry, entries[1][key]))

    def has_a_place(self, reply: Reply, key: EntryKey) -> bool:
        """Whether an entry was there all the time: others come where the server puts them."""
        if not isinstance(key, str):
            return False
        name = name_key(reply.folder, key)
        return not any(name in history.changes for history in self.histories)

    def of_entry(self, both: Sequence[Reply], key: EntryKey,
                 entries: Sequence[Values]) -> Iterator[Change]:
        objects = [reply.object_in(entry) for reply, entry in zip(both, entries)]
        values = [{label: value for label, value in entry.items()
                   if isinstance(key, str) or label != 'name'} for entry in entries]
        # (a name that was made meanwhile may have no attributes yet)
        if objects[0] == objects[1] and values[0].keys() == values[1].keys():
            yield from self.of_values(both, values, objects[0])
            return
        for reply, entry in zip(both, entries):
            self.check_entry(reply, entry)
        yield self.of_alone(both, key)

    def of_alone(self, both: Sequence[Reply], key: EntryKey) -> Change:
        """Returns a change of an entry's name, or of its object, that stands otherwise."""
        if isinstance(key, str):
            return self.change(both, name_key(both[0].folder, key))
        return self.change(both, (key, TIMES_ITEM) if key is not None else None)

    def check_entry(self, reply: Reply, entry: Values) -> None:
        for statement in statements_of_entry(reply.one.procedure, reply.one.call, entry):
            for claim in reply.history.claims_in(statement):
                self.check(reply, claim, f'entry.{claim.key[1]}')

    def wrong_names(self, reply: Reply) -> str:
        """Returns why a listing has not the names that the changes of its run leave, or nothing."""
        listed, names = listed_in(reply.one), reply.reply['entries']
        if len(listed.names) < len(names):
            return 'it has a name twice'
        for claim in reply.history.names_claimed(reply.one):
            if claim.key[1][1:] not in DOTS:
                is_allowed = self.allows(reply.run, reply.at, claim)
                if is_allowed is False:
                    return 'it has a name that is gone, or of another object'
                if is_allowed is None and not any(
                        claim.key in history.changes for history in self.histories):
                    return 'it has a name that no other answer has'
        if not names or not listed.is_first:
            return ''
        # (one of the listings that say which names are not there is no witness of itself)
        wholes = {whole.source for whole in reply.history.wholes.get(reply.folder, ())}
        times = self.present(reply.history, reply.folder, reply.at if reply.at in wholes else -1)
        return 'it lacks a name' if lacking(reply.history, reply.folder, listed, times) else ''

    def equal_and_wrong(self) -> Iterator[tuple[Pair, str]]:
        """Iterates over pairs that say the same of a value, which one of their runs does not allow
        though a change of it stands otherwise: each with why."""
        keys = self.histories[0].changes.keys() & self.histories[1].changes.keys()
        for key in (key for key in keys if key[1] != TIMES_ITEM):
            lines = [history.timeline(key) for history in self.histories]
            for pair in ((one.source, self.pairing.partners[one.source])
                         for one in lines[0].sights.begun
                         if not lines[0].changes.of_source.get(one.source)):
                is_asked = pair[1] != NOBODY and self.otherwise(pair, key)
                wrong = [run for run, (line, at) in enumerate(zip(lines, pair)) if is_asked
                         for one in line.sights.of_source.get(at, ())
                         if self.allows(run, at, Claim(key, one.value)) is False]
                if wrong:
                    label = 'name' if key[1][0] == '/' else key[1]
                    yield pair, f'{label}: {NOT_ALLOWED.format(RUNS[wrong[0]])}'

    def wrong_answer(self, run: int, at: int) -> str:
        """Returns why an answer is not all allowed by its run, or nothing."""
        reply = Reply(self.facts[run], run, at)
        if at in self.facts[run].ids.odd:
            return 'it has another file id than its run elsewhere'
        for claim in reply.history.claims_of(reply.one):
            is_allowed = self.allows(run, at, claim)
            if is_allowed is None:
                return f'no other answer has its {claim.key[1]}'
            if not is_allowed:
                return f'its {claim.key[1]} is not what the changes of its run leave'
        if not self.facts[run].turns:
            return ''
        if reply.one.procedure == LOOKUP:
            name = name_key(reply.folder, reply.one.call['name'])
            is_right = self.allows(run, at, Claim(name, found_in(reply)))
            return '' if is_right else 'the name leads elsewhere'
        return self.wrong_names(reply) if reply.one.procedure in LISTINGS else ''


def found_in(reply: Reply) -> object:
    """Returns to what the name of a LOOKUP leads."""
    if reply.one.status != DONE:
        return GONE if reply.one.status == NO_ENTRY else None
    return reply.facts.known_as(reply.reply['fh'])


class Extras:
    """The calls of a run that the other run does not have, and only ask."""

    def __init__(self, rule: OrderRule, run: int, some: Sequence[int]) -> None:
        self.rule, self.run, self.some, self.facts = rule, run, some, rule.facts[run]
        self.outlines, self.objects = self.facts.outlines, {*self.facts.outlines.identities} - {0}
        own = set(self.some)
        # Handles of calls that the other run has, too: it knows what they are.
        self.shared = {handle for at in rule.pairing.matched(run)
                       for handle in (*self.outlines.objects_of(at), self.outlines.found[at])}
        self.names = {(self.outlines.object_of(at), name) for at, names in self.facts.names.items()
                      if at not in own for name in names}

    def asked(self, at: int) -> Question:
        """Returns what a call asks, whoever asks."""
        return (self.outlines.procedure_of(at), self.outlines.object_of(at),
                self.facts.names.get(at, ()))

    def more_than(self, other: 'Extras') -> dict[str, str]:
        """Returns the procedures of which this run has too many more calls, each in words."""
        own, its = (Counter(map(one.outlines.procedure_of, one.some)) for one in (self, other))
        totals = Counter(map(self.outlines.procedure_of, range(len(self.outlines))))
        return {procedure: f'{short(procedure)}: {more:,} more than {most:,}'
                for procedure, number in own.items()
                if (more := number - its[procedure]) > (
                    most := max(FEW, totals[procedure] // SHARE))}

    def wrong(self, at: int, other: 'Extras') -> str:
        """Returns why a call is no matter of caches, or nothing."""
        replies = self.facts.messages[at]
        if len(replies) != 1:
            return 'it has no reply' if not replies else 'it has several replies'
        one = replies[0][1]
        if one.status is None:
            return 'it is not accepted'
        if one.status != DONE and (one.status, one.procedure) != (NO_ENTRY, LOOKUP):
            return 'it has failed'
        folder = self.outlines.object_of(at)
        if self.outlines.folders[at] not in self.shared and folder not in other.objects:
            return 'the other run does not know the object'
        names = [(folder, name) for name in self.facts.names.get(at, ())]
        if not other.names.issuperset(names):
            return 'the other run does not know the name'
        return self.rule.wrong_answer(self.run, at) or self.wrong_results(at, other)

    def wrong_results(self, at: int, other: 'Extras') -> str:
        """Returns why its results are not those of the same question. Of ACCESS each bit counts."""
        one = self.facts.messages[at][0][1]
        key = one.procedure, self.facts.known_as(one.handle)
        own, others = (run.facts.history.results.get(key, SaidValues()).but(source)
                       for run, source in ((self, at), (other, -1)))
        if one.procedure == ACCESS:
            asked, granted = one.call['access'], one.reply['access']
            told: set[Any] = own | others
            is_told = all(any(mask & bit and bits & bit == granted & bit for mask, bits in told)
                          for place in range(asked.bit_length()) if asked & (bit := 1 << place))
            return '' if is_told else 'it grants something else'
        is_told = one.procedure not in STEADY or results_in(one) in (own or others)
        return '' if is_told else 'no other answer has its results'


def refused(first: Extras, second: Extras) -> ReasonsOfCalls:
    """Returns the calls of both runs that are differences all the same, each with the reason."""
    common = set(map(first.asked, first.some)) & set(map(second.asked, second.some))
    out: ReasonsOfCalls = {}, {}
    for run, other, found in ((first, second, out[0]), (second, first, out[1])):
        more = run.more_than(other)
        for at in run.some:
            again = 'the other run has such a call alone, too' * (run.asked(at) in common)
            why = run.wrong(at, other) or more.get(run.outlines.procedure_of(at), again)
            if why:
                found[at] = why
    return out


@dataclass
class Explanation:
    """What an order explains.

    pairs: those whose answers differ, with the changes that explain it
    counted: calls of both runs alone that only ask and count all the same, with the reasons
    remarks: why answers of others are not explained, if it is not for want of a change
    noted: pairs whose answers are equal, and which their run does not allow, with why
    """
    pairs: dict[Pair, list[Change]] = field(default_factory=dict)
    counted: ReasonsOfCalls = field(default_factory=lambda: (dict[int, str](), dict[int, str]()))
    remarks: dict[Pair, str] = field(default_factory=dict)
    noted: dict[Pair, str] = field(default_factory=dict)


def explanation_of(taken: Sequence[Taken], pairing: Pairing,
                   listings: Callable[[], tuple[Listing, Listing]], leaves_out: frozenset[str],
                   mask: Mask) -> Explanation:
    """Returns what an order explains of two runs. `listings` returns those of the canonical forms
    without a mask, which are read if something differs as an order may explain."""
    out, (here, there) = Explanation(), pairing.runs
    unequal = dict.fromkeys((at, to) for at, to in pairing.pairs()
                            if here.said[at] != there.said[to])
    extras = [[at for at in pairing.alone(run) if own.procedure_of(at) in leaves_out]
              for run, own in enumerate(pairing.runs)]
    if not unequal and not any(extras):
        return out
    identify(pairing)
    turns = [Turns(one, pairing, run) for run, one in enumerate(taken)
             if all(other.is_recording for other in taken)]
    # (of what MOUNT or another program answers a history knows nothing)
    doubtful = [pair for pair in unequal if turns and is_of_files(here.procedure_of(pair[0])) and (
        here.procedure_of(pair[0]) in LISTINGS or not is_quiet(turns, pair))]
    if not doubtful and not any(extras):
        return out
    rule = OrderRule(pairing, [
        Facts(own, listing(), turns[run] if turns else None,
              {pair[run] for pair in doubtful}.union(extras[run]))
        for run, (own, listing) in enumerate(zip(pairing.runs, listings()))], mask)
    for pair in doubtful:
        try:
            out.pairs[pair] = rule.explained(pair)
        except Unexplained as why:
            out.remarks[pair] = str(why)
    if turns:
        out.noted = {pair: why for pair, why in sorted(rule.equal_and_wrong())
                     if pair not in unequal}
    if any(extras):
        out.counted = refused(*(Extras(rule, run, some) for run, some in enumerate(extras)))
    return out


def identify(pairing: Pairing) -> None:
    """Gives objects without a path one identity in both runs, if they are most often in exchanges
    that belong together: a recording may begin after the mount."""
    partners = partners_of(pairing)
    for other, handle in partners.items():
        if not pairing.there.identities[other] and not pairing.here.identities[handle]:
            identity = hash(('without a path', handle))
            pairing.here.identities[handle] = pairing.there.identities[other] = identity

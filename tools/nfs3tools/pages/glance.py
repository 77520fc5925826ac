"""What differs between two runs, in a few phrases with paths: of which file how many bytes, which
calls one run has more, and which fields, as `1 byte of <code>/w/d3/f2</code> (1 WRITE, 2 READs)`.
"""
from __future__ import annotations

from collections import Counter, defaultdict
from collections.abc import Sequence
from dataclasses import replace
from html import escape
from itertools import chain
from typing import Any

from ..comparison.verdict.findings import ELSEWHERE, Compared, Finding
from ..exchanges.in_words import short
from ..recordings.selection import count, plural
from ..reporting.telling import is_of_equal_values, up_to
from .markup import code

FIELDS_IN_PHRASE = 3  # of a phrase, and arguments
LONGEST_SHOWN = 40  # characters of a value
DATA, ONLY, CONNECTION, FIELDS, REPLIES, ORDER, EQUAL = range(7)  # the order of phrases
# What is only counted, by the kind of its findings: its order, what it is, and the words after it.
COUNTED = {'connection': (CONNECTION, 'connection', ' only in the {} run'),
           'order': (ORDER, 'connection', ' with replies in another order'),
           'sent again': (ORDER, 'call', ' sent again'), 'moved': (ORDER, 'call', ' reordered')}
Group = Sequence[Finding]  # of one phrase
Common = tuple[int, tuple[Any, ...]]  # the order of a phrase, and what its findings have in common


def phrases(compared: Compared) -> list[str]:
    """Returns what differs, data first, as HTML."""
    groups = defaultdict[Common, list[Finding]](list)
    for finding in chain.from_iterable(map(data_and_rest, compared.findings)):
        groups[common_of(finding)].append(finding)
    # (those of one order stay in that of the first run)
    return [phrase_of(*one) for one in sorted(groups.items(), key=lambda one: one[0][0])]


def data_and_rest(finding: Finding) -> list[Finding]:
    """Returns what differs in the data of a message, and what differs besides, by themselves."""
    parts = [tuple(one for one in finding.differences if (one.name == 'data') is is_data)
             for is_data in (True, False)]
    return [replace(finding, differences=part) for part in parts] if all(parts) else [finding]


def common_of(finding: Finding) -> Common:
    if any(one.name == 'data' for one in finding.differences):
        return DATA, (finding.path,)
    if finding.kind == 'only':
        return ONLY, (finding.run, finding.message.procedure)
    if is_of_equal_values(finding):
        return EQUAL, ('message', ' that correspond to others elsewhere')
    if finding.kind in COUNTED:
        order, what, words = COUNTED[finding.kind]
        return order, (what, ' on another connection' if finding.remark == ELSEWHERE
                       else words.format(finding.run))
    return (REPLIES if finding.kind == 'replies' else FIELDS,
            (fields_of_finding(finding), finding.message.is_call))


def fields_of_finding(finding: Finding) -> tuple[str, ...]:
    return tuple(dict.fromkeys(one.field for one in finding.differences))


def phrase_of(common: Common, some: Group) -> str:
    order, words = common
    if order in (DATA, ONLY):
        return data_phrase(some) if order == DATA else of_only(some)
    if order in (FIELDS, REPLIES):
        return of_fields(some, order == REPLIES)
    return f'{"values of " * (order == EQUAL)}{count(len(some), words[0])}{words[1]}'


def phrase(before: str, path: str | None = None, after: str = '') -> str:
    return f'{escape(before)}{code(path) if path else ""}{escape(after)}'


def data_phrase(some: Group) -> str:
    """How many bytes of a file differ. They are counted if all messages show the same bytes."""
    # (of two values of one size, whose offset in the file is known)
    bytes_of_each = {(one.apart.offset, one.apart.differing) if one.apart
                     and one.apart.offset is not None and len({*one.apart.sizes}) == 1 else (0, 0)
                     for finding in some for one in finding.differences}
    number = bytes_of_each.pop()[1] if len(bytes_of_each) == 1 and some[0].path else 0
    calls = Counter(short(finding.message.procedure) for finding in some)
    # (what is written comes before what is read)
    told = ', '.join(count(number, name) for name, number in sorted(calls.items(), reverse=True))
    return phrase(f'{count(number, "byte") if number else "bytes"} of ',
                  some[0].path or 'files without a known path', f' ({told})')


def of_only(some: Group) -> str:
    """Which calls one run has more, and of one their arguments."""
    run, paths = some[0].run, paths_of(some)
    words = f'{count(len(some), short(some[0].message.procedure))} only in the {run} run'
    if len(paths) != 1:
        return phrase(f'{words}: {len(paths):,} paths' if paths else words)
    if len(some) > 1:
        return phrase(f'{words}: ', paths[0], and_others(some))
    asked = [f'{one.name} {one.meaning or one.value}'
             for one in some[0].beside_path if len(str(one.value)) <= LONGEST_SHOWN]
    return phrase(f'{words}: ', paths[0],
                  f' {up_to(FIELDS_IN_PHRASE, asked, " ")}' if asked else '')


def of_fields(some: Group, is_of_replies: bool) -> str:
    """Which fields differ, and of one field that always differs alike its values."""
    paths, fields = paths_of(some), fields_of_finding(some[0])
    what = 'another number of replies' if is_of_replies else up_to(FIELDS_IN_PHRASE, fields)
    values = both_values(some)
    after = f'{f": {values}" if values else ""} ({counted_messages(some)})'
    if not paths:
        return phrase(what + after)
    if len(paths) > 1:
        return phrase(f'{what} of {len(paths):,} paths, the first ', paths[0], after)
    return phrase(f'{what} of ', paths[0], and_others(some) + after)


def counted_messages(some: Group) -> str:
    """How many messages they are, and of which procedures."""
    names, is_call = {short(one.message.procedure): 0 for one in some}, some[0].message.is_call
    if len(names) > 1:
        return f'{len(some):,} {"calls of" if is_call else "replies to"} {", ".join(names)}'
    name = next(iter(names))
    return (count(len(some), name) if is_call
            else f'{len(some):,} {name} {plural(len(some), "reply", "replies")}')


def both_values(some: Group) -> str:
    """Returns both values of the only field, if they are the same in all findings."""
    one = next(iter(some[0].differences), None)
    if (one is None or len(some[0].differences) != 1 or one.apart or one.remark
            or not (one.first and one.second)
            or any((other.first, other.second) != (one.first, one.second)
                   for finding in some for other in finding.differences)):
        return ''
    first, second = (meaning or str(value)
                     for value, meaning in zip((one.first, one.second), one.meanings))
    return f'{first} → {second}' if len(first + second) <= 2 * LONGEST_SHOWN else ''


def and_others(some: Group) -> str:
    """What is said after a path, if others are not known."""
    return ' and others' if any(one.path is None for one in some) else ''


def paths_of(some: Group) -> list[str]:
    return list(dict.fromkeys(one.path for one in some if one.path))

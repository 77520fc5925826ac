"""Findings that are known by a file: they are counted apart, and what is left decides."""
from __future__ import annotations

import json
import re
from collections.abc import Iterable, Iterator, Mapping, Sequence
from dataclasses import replace
from fnmatch import translate
from itertools import compress
from typing import Any, NamedTuple

from ...exchanges.in_words import short
from ...exchanges.whose import ANY
from ...judgement.known import Known, KnownLine
from ...shared.layouts import BY_NAME
from ..exchanges.explained import RUNS
from ..values.classes import CLASSES, RENAMED, Mask, Way
from .differences import Difference
from .findings import Compared, Finding

OLD_VERSION = 2  # of the form of the files of --accept
# Findings that are stated by their kind: calls in another place, sent again, and other numbers of
# replies.
PLAIN_KINDS = ('moved', 'sent again', 'replies')
NO_VALUE_THERE = 'nothing'  # in place of a value that a run does not have
OWN_VALUES = 'its own -> its own'  # in place of values of which each run has its own
# The members of an object of these files: `field`, `only` or `kind` says what it is about.
OLD_MEMBERS = frozenset(('procedure', 'path', 'is_call', 'field', 'first', 'second', 'only', 'kind',
                         'asks', 'status', 'says', 'times'))


class Split(NamedTuple):
    """The findings of a comparison that are known, and the lines that fit none."""
    findings: Sequence[Finding]
    no_longer_found: Sequence[str]


def divided(compared: Compared, known: Known) -> tuple[Compared, Split]:
    """Returns what is left of a comparison, and what is known of it. A finding of which some fields
    are known is in both, with its own fields in each."""
    left, taken = list[Finding](), list[Finding]()
    for finding in compared.findings:
        is_known = [known.take(*texts) for texts in lines_of_finding(finding, compared.mask)]
        if not finding.differences:
            (taken if is_known == [True] else left).append(finding)
            continue
        taken += with_fields(finding, is_known)
        left += with_fields(finding, (not one for one in is_known))
    sides = [one.first is None for one in taken if one.kind == 'only']
    lonely = compared.lonely[0] - sides.count(False), compared.lonely[1] - sides.count(True)
    return replace(compared, findings=left, lonely=lonely), Split(taken, known.no_longer_found())


def with_fields(finding: Finding, wanted: Iterable[bool]) -> list[Finding]:
    """Returns a finding with some of its fields, or nothing if there are none."""
    its = tuple(compress(finding.differences, wanted))
    return [replace(finding, differences=its)] if its else []


def lines_of_finding(finding: Finding, mask: Mask) -> Iterator[tuple[str, ...]]:
    """Iterates over the lines of a finding: one for each field, which may have two names, or one of
    a call, with what it asks and what its replies say. What is said of a whole connection has
    none."""
    message, path = finding.message, finding.path
    if finding.kind in ('connection', 'order'):
        return
    about, told = subject(message.procedure, path), words_besides_fields(finding, mask)
    if told:
        yield f'{about}: {told}',
    for one in finding.differences:
        is_own = one.objects is None and is_of_run(one.name, message.is_call, mask)
        values = OWN_VALUES if is_own else both_values_of(one)
        yield tuple(f'{about}{"" if message.is_call else " reply"}: {field}={values}'
                    for field in (one.label, one.field))


def subject(procedure: str, path: str | None) -> str:
    return ' '.join(filter(None, [short(procedure), path]))


def words_besides_fields(finding: Finding, mask: Mask) -> str:
    """Returns what a line says besides fields: of a call of one run alone which run, what it asks,
    but for values that are its run's own, and what its replies say; of replies the statuses of both
    runs, and what those say that one run does not have."""
    asks, says = (' '.join(f'{one.label}={one.value}' for one in some if one.name == 'fh'
                           and not is_call or not is_of_run(one.name, is_call, mask))
                  for is_call, some in ((True, finding.arguments), (False, finding.results)))
    if finding.kind == 'only':
        return only_words(finding.run, asks, finding.statuses[finding.first is None], says)
    if finding.kind == 'replies':
        return replies_words(*finding.statuses, says)
    return finding.kind if finding.kind in PLAIN_KINDS else ''


def only_words(run: str, asks: str, status: str, says: str) -> str:
    return '; '.join(filter(None, [f'only in the {run} run', asks, f'status {status}', says]))


def replies_words(first: str, second: str, says: str) -> str:
    return '; '.join(filter(None, [f'replies {first} -> {second}', says]))


def both_values_of(difference: Difference) -> str:
    """Returns both values: digests of long ones, paths of file handles."""
    both = difference.objects or (difference.first, difference.second)
    return ' -> '.join(NO_VALUE_THERE if value is None else str(value) for value in both)


def is_of_run(name: str, is_call: bool, mask: Mask) -> bool:
    """Whether each run has values of its own of an item, so that the next one has others."""
    return name in RENAMED or any(
        mask.get(one.name) is Way.NUMBER and one.has(name, is_call) for one in CLASSES)


def texts_of(findings: Iterable[Finding], mask: Mask) -> list[str]:
    """Returns the lines in which findings are known."""
    return [texts[0] for finding in findings for texts in lines_of_finding(finding, mask)]


def older_entries(content: bytes) -> list[KnownLine]:
    """Reads a file of `--accept`, of before 0.2.0. Raises what a wrong one leads to."""
    whole = json.loads(content)
    assert whole['version'] == OLD_VERSION and isinstance(whole['accepted'], list)
    return [line_of_entry(entry) for entry in whole['accepted']]


def line_of_entry(entry: Mapping[str, Any]) -> KnownLine:
    """Returns the line of an entry, in which any path or value may be missing."""
    assert entry.keys() <= OLD_MEMBERS and len({'field', 'only', 'kind'} & entry.keys()) == 1
    assert entry['procedure'] in (ANY, *BY_NAME) and entry.get('only', RUNS[0]) in RUNS
    assert entry.get('times', 1) > 0 and str(entry.get('path')).encode()
    procedure, path = entry['procedure'], entry.get('path', ANY)
    name = '[^ ]+(?: [^ ]+)?' if procedure == ANY else re.escape(short(procedure))
    # (a path that is not known is none)
    where = '' if path is None else f' {translate(path)[4:-3]}'
    where = f'(?:{where})?' if path == ANY else where
    values = (('.*' if one not in entry else re.escape(NO_VALUE_THERE if entry[one] is None
                                                       else entry[one])) for one in RUNS)
    if 'field' in entry:
        sides: Mapping[object, str] = {True: '', False: ' reply'}
        side = sides.get(entry.get('is_call'), '(?: reply)?')
        told = f'{re.escape(entry["field"])}=(?:{" -> ".join(values)}|{re.escape(OWN_VALUES)})'
    elif 'only' in entry:
        side, told = '', re.escape(only_words(entry['only'], ' '.join(entry['asks']),
                                              entry['status'], ' '.join(entry['says'])))
    elif entry['kind'] == 'replies':
        side, told = '', re.escape(replies_words(entry['first'], entry['second'],
                                                 ' '.join(entry['says'])))
    else:
        assert entry['kind'] in PLAIN_KINDS
        side, told = '', entry['kind']
    return KnownLine(json.dumps(dict(entry)), entry.get('times', 1),
                     re.compile(f'{name}{where}{side}: {told}'))

"""What is printed of a comparison, and the same as JSON and as JUnit XML."""
from __future__ import annotations

import json
from collections import Counter, defaultdict
from collections.abc import Callable, Iterable, Iterator, Sequence
from itertools import chain
from typing import Any, NamedTuple, Union

from ..comparison.exchanges.explained import RUNS
from ..comparison.values import long_values
from ..comparison.values.classes import Mask
from ..comparison.verdict.accepted import Split
from ..comparison.verdict.cover import Cover, cause_of
from ..comparison.verdict.decision import WHY_LEFT_OUT, Report
from ..comparison.verdict.differences import Difference
from ..comparison.verdict.findings import Compared, Finding
from ..exchanges.in_words import short
from ..exchanges.listing import Message
from ..exchanges.stored import Long, Value
from ..shared.printed import escaped, printable
from .junit import Suite
from .rows import json_members

OF_CONNECTIONS = ('order', 'connection')  # kinds of findings
LONGEST_VALUE, LONGEST_NAME = 128, 1024  # characters, as the listing spells them
LONGEST_LIST = 4  # frames
FIELDS_AT_MOST = 12
REPORT_VERSION = 2  # of the form of JSON
CASES_AT_MOST = 1_000  # of findings
FIELDS_IN_CASE_NAME = 4
KIND_WORDS = {'moved': 'reordered', 'sent again': 'sent again',
              'replies': 'another number of replies'}
# Arguments by which calls on one file differ that are one finding: where in it they read or write,
# and what.
PLACES = frozenset(('fh', 'offset', 'count', 'data', 'cookie', 'cookieverf', 'dircount',
                    'maxcount', 'createverf'))


def shortened(value: Value) -> str:
    """Returns a value as it is printed alone. Handles and names are whole."""
    if isinstance(value, Long):
        return f'{value.shown(LONGEST_VALUE)}.. ({2 * value.size} characters)'
    most = LONGEST_NAME if long_values.is_quoted(value) else LONGEST_VALUE
    return value if len(value) <= most else f'{value[:most]}.. ({len(value)} characters)'


def frames_text(message: Message) -> str:
    """Returns the numbers of the frames that carry a message, or nothing of a capture."""
    numbers = message.frames
    if not numbers:
        return ''
    some = ', '.join(str(number) for number in numbers[:LONGEST_LIST])
    return f' (frame {some}{" .." if len(numbers) > LONGEST_LIST else ""})'


class SignedLine(NamedTuple):
    """A value after its label, its sign, as `diff` has it, `=` for both runs, and a remark."""
    text: str
    sign: str
    remark: str = ''

    @property
    def words(self) -> str:
        return self.text + (f'    # {self.remark}' if self.remark else '')

    def __str__(self) -> str:
        return f'  {self.sign} {self.words}'


PrintedLine = Union[str, SignedLine]


def signed_rows(difference: Difference) -> list[SignedLine]:
    """The values of both runs, of which the last one has a remark. A value that is equal in both
    runs is one."""
    signs = [('=', 0)] if difference.is_equal else [
        (sign, run) for run, sign in enumerate('-+')
        if (difference.first, difference.second)[run] is not None]
    apart = [long_values.parting_in_words(difference.apart)] if difference.apart else []
    remark = '; '.join(filter(None, [*apart, difference.remark]))
    return [SignedLine(f'{difference.label}={value_of(difference, run)}', sign,
                       remark if (sign, run) == signs[-1] else '') for sign, run in signs]


def value_of(difference: Difference, number: int) -> str:
    """Returns a value as it is printed, with its name: that of the first run, 0, or the second."""
    if difference.apart:
        return str(difference.apart.shown[number])
    return value_with_meaning(difference.name, (difference.first, difference.second)[number] or '',
                              difference.meanings[number])


def value_with_meaning(name: str, value: Value, meaning: str) -> str:
    """Returns the value of an item with its name, if it has one; of a mode octal digits first."""
    if name == 'mode' and meaning:
        return f'{meaning} ({value})'
    return shortened(value) + (f' ({meaning})' if meaning else '')


def of_arguments(finding: Finding) -> list[SignedLine]:
    """Returns the arguments of a call that one run alone has, but for those that its path names."""
    sign = '+' if finding.first is None else '-'
    return [SignedLine(f'{one.label}={value_with_meaning(one.name, one.value, one.meaning)}', sign)
            for one in (finding.beside_path if finding.path is not None else finding.arguments)]


def groups_alike(findings: Iterable[Finding]) -> list[list[Finding]]:
    """Returns findings in groups that say the same, in the order of their first ones."""
    groups: dict[object, list[Finding]] = {}
    for number, finding in enumerate(findings):
        groups.setdefault(said_by(finding) or number, []).append(finding)
    return list(groups.values())


def is_of_equal_values(finding: Finding) -> bool:
    """Whether all that a finding says is that values correspond to others elsewhere."""
    return (bool(finding.differences) and not finding.remark
            and all(difference.is_equal for difference in finding.differences))


def said_by(finding: Finding) -> object:
    """Returns what a finding says: of renamed values, of which each finding has others, only what
    they have in common. Calls of one run alone say which file they ask for, and what of it. Returns
    None for what is said of a connection."""
    message = finding.message
    if finding.kind in OF_CONNECTIONS:
        return None
    if is_of_equal_values(finding):
        return 'equal values'
    said = tuple((one.label, one.alike) if one.alike
                 else (one.label, one.first, one.second, one.remark) for one in finding.differences)
    path = finding.path if finding.kind == 'only' else None
    asked = tuple((one.label, one.value) for one in finding.arguments if one.name not in PLACES)
    return (finding.kind, finding.first is None, message.procedure, message.is_call, path,
            finding.remark, said, asked)


def is_summed(findings: Sequence[Finding]) -> bool:
    """Whether findings are one line: several that print no other values than equal ones."""
    return len(findings) > 1 and is_of_equal_values(findings[0])


def messages_text(findings: Sequence[Finding], of_call: str = ' call') -> str:
    """Which messages they are, several by their number. `of_call` is after the name of a call."""
    message, number = findings[0].message, len(findings)
    if is_summed(findings):
        return (f'{number:,} messages have values that are equal in both runs, '
                'and that correspond to others elsewhere')
    if number == 1:
        return f'{short(message.procedure)}{of_call if message.is_call else " reply"}'
    return f'{number:,} {"calls" if message.is_call else "replies"} of {short(message.procedure)}'


def only_in(finding: Finding) -> str:
    """What is said before what one run alone has. The order of replies is of both."""
    is_of_both = finding.kind == 'order' or finding.first and finding.second
    return '' if is_of_both else f'only in the {finding.run} run: '


def group_heading(findings: Sequence[Finding]) -> str:
    """Which messages they are, and the places of the first in both runs."""
    finding, paths = findings[0], {finding.path for finding in findings}
    if finding.kind in OF_CONNECTIONS:
        return f'{only_in(finding)}connection {finding.message.connection}'
    what, known = messages_text(findings, ''), len(paths - {None})
    path = f' {finding.path}' if finding.path else ''
    if is_summed(findings):
        what += ', first'
    elif len(paths) == 1:
        what += path + ', first' * (len(findings) > 1)
    else:
        what += f' on {known:,} paths' * (known > 1) + f', first{path}'
    return f'{only_in(finding)}{what}: {places_text(finding)}'


def of_group(findings: Sequence[Finding]) -> Iterator[PrintedLine]:
    if is_summed(findings):
        yield brief_of(findings)
        return
    yield group_heading(findings)
    if findings[0].remark:
        yield f'  {findings[0].remark}'
    yield from chain.from_iterable(map(signed_rows, findings[0].differences))
    yield from of_arguments(findings[0])


def brief_of(findings: Sequence[Finding]) -> str:
    """One line for findings that say the same."""
    finding = findings[0]
    if is_summed(findings):
        fields = Compared([*findings]).fields()
        said = [fields_text(fields.most_common(FIELDS_AT_MOST))]
    else:
        said = [*filter(None, [finding.remark]), *map(brief_difference, finding.differences),
                *(f'{line.sign}{line.text}' for line in of_arguments(finding))]
    return ': '.join(filter(None, [group_heading(findings), '; '.join(said)]))


def brief_difference(difference: Difference) -> str:
    """A difference in a part of a line. An item of one run alone has its sign, and no remark."""
    *before, last = signed_rows(difference)
    if last.sign == '=':
        words = f'{last.text} in both runs'
    elif before:
        words = f'{before[0].text} -> {value_of(difference, 1)}'
    else:
        return last.sign + last.text
    return f'{words} ({last.remark})' if last.remark else words


def of_silent(compared: Compared, most: int | None) -> Iterator[str]:
    """The calls that are left out, by procedures and paths, up to `most`, or each by itself."""
    groups = silent_groups(compared) if most is not None else [[one] for one in compared.silent]
    return first_of(groups, most, silent_line, ' left out')


def silent_groups(compared: Compared) -> list[list[Finding]]:
    groups = defaultdict[object, list[Finding]](list)
    for call in compared.silent:
        groups[call.kind, call.first is None, call.message.procedure, call.path].append(call)
    return [*groups.values()]


def why_left_out(call: Finding) -> str:
    return WHY_LEFT_OUT.get(call.kind, f'only in the {call.run} run')


def cause_of_silence(call: Finding) -> str:
    """Returns the change that explains a call, or how often it was sent."""
    return f', {"by " * (call.kind == "explained")}{call.remark}' if call.remark else ''


def first_of(several: Sequence[Any], most: int | None, line_of_one: Callable[[Any], str],
             what: str) -> Iterator[str]:
    """Iterates over lines of several, up to `most`, and how many more there are."""
    yield from map(line_of_one, several[:most])
    if most is not None and len(several) > most:
        yield f'.. and {len(several) - most:,} more{what} (--all prints them)'


def silent_line(some: Sequence[Finding]) -> str:
    call, path = some[0], f' {some[0].path}' if some[0].path else ''
    whom = '' if call.first and call.second else f' of the {call.run} run'
    kind = f', {WHY_LEFT_OUT[call.kind]}' if call.kind in WHY_LEFT_OUT else ''
    return (f'left out{whom}: {len(some):,} {short(call.message.procedure)}{path}{kind}'
            f'{", first" * (len(some) > 1)}: {places_text(call)}{cause_of_silence(call)}')


def of_notes(compared: Compared, most: int | None) -> Iterator[str]:
    """The pairs whose answers are equal and which their run does not allow, up to `most`."""
    return first_of(compared.noted, most, lambda one: (
        f'note: {short(one.message.procedure)}{f" {one.path}" if one.path else ""}, '
        f'equal in both runs: {places_text(one)}, {one.remark}'), ' notes')


def places_text(one: Finding) -> str:
    """Returns the places of messages in both runs, with their frames."""
    return ' | '.join(f'{message.place}{frames_text(message)}' for message in one.messages)


def of_compared(compared: Compared, most: int | None,
                is_brief: bool = False) -> Iterator[PrintedLine]:
    """The findings, those together that say the same, up to `most` of such groups, or each by
    itself, and each in a line if that is asked for. Then which fields differ how often."""
    groups = [[finding]
              for finding in compared.findings] if most is None else groups_alike(compared.findings)
    for group in groups[:most]:
        yield from [brief_of(group)] if is_brief else of_group(group)
    if most is not None and len(groups) > most:
        yield f'.. and {len(groups) - most:,} more (--all prints them)'
    fields = compared.fields()
    if fields:
        more = ', ..' if len(fields) > FIELDS_AT_MOST else ''
        yield ('fields that differ, and how often: '
               f'{fields_text(fields.most_common(FIELDS_AT_MOST))}{more}')
    if not compared.findings:
        yield ('no field of matched messages differs; '
               'only which messages share a value, or empty connections, can')


def each_accepted(accepted: Split | None) -> list[str]:
    """A line for each finding that was accepted."""
    return [f'known: {brief_of([one])}'
            for one in (accepted.findings if accepted else ())]


def of_accepted(accepted: Split | None) -> list[str]:
    """How many findings were accepted, and which entries fit none any more. Nothing if there is no
    file of them."""
    return [] if accepted is None else [f'{len(accepted.findings):,} known', *(
        printable(f'no longer found: {line}') for line in accepted.no_longer_found)]


def fields_text(fields: Iterable[tuple[tuple[str, str], int]]) -> str:
    return ', '.join(f'{name} of {short(procedure)} {number:,}'
                     for (procedure, name), number in fields)


def up_to(most: int, some: Sequence[str], comma: str = ', ') -> str:
    """Returns some words, or the first of them if they are more."""
    return comma.join([*some[:most], *(['..'] if len(some) > most else [])])


# --- JSON ---

def json_of_comparison(report: Report, compared: Compared) -> Iterator[bytes]:
    """The comparison, in pieces: an object, each of whose findings is a line."""
    found, runs = report.found, zip(report.covers, compared.lonely, compared.left_out)
    head = {
        'version': REPORT_VERSION, 'verdict': report.word(), 'position': report.place or None,
        'mask': ways_by_class(report.choices.masks[0]),
        'same_under': found.same_under and ways_by_class(found.same_under),
        'runs': [{**cover_members(cover), 'only': only, 'left_out': dict(left)}
                 for cover, only, left in runs],
        'order': {'together': compared.exchanges, 'calls': compared.moved, 'replies': compared.late,
                  'connections': compared.late_connections,
                  'on_another_connection': compared.elsewhere},
        'fields': field_counts(compared.fields()),
        'left_out': [{**asked_members(one), 'kind': one.kind, 'why': one.remark or None}
                      for one in compared.silent],
        **({'noted': [{**asked_members(one), 'why': one.remark} for one in compared.noted]}
           if compared.noted else {}),
        'accepted': found.accepted and {
            'count': len(found.accepted.findings),
            'findings': [of_finding(one) for one in found.accepted.findings],
            'no_longer_found': found.accepted.no_longer_found}}
    yield f'{{\n{json_members(head)},\n "findings": ['.encode()
    for number, one in enumerate(compared.findings):
        yield b',\n  ' if number else b'\n  '
        yield json.dumps(of_finding(one)).encode()
    yield b'\n ]\n}\n'


def cover_members(cover: Cover) -> dict[str, Any]:
    """How much of a run is compared: size, missing bytes, counts, and what is not judged whole."""
    return {'name': escaped(cover.name), **cover.size._asdict(), 'missing': cover.missing,
            'counts': cover.counts().members(),
            'not_judged': [{'word': one.state, 'connection': one.connection,
                            'ends': one.covered.ends or None, 'reason': cause_of(one)}
                           for one in cover.rows()]}


def ways_by_class(mask: Mask) -> dict[str, str]:
    return {name: way.value for name, way in mask.items()}


def field_counts(fields: Counter[tuple[str, str]]) -> list[dict[str, Any]]:
    return [{'procedure': procedure, 'field': field, 'count': number}
            for (procedure, field), number in fields.most_common()]


def of_finding(finding: Finding) -> dict[str, Any]:
    message = finding.message
    return {'kind': finding.kind, 'procedure': message.procedure, 'is_call': message.is_call,
            'path': finding.path, **both_positions(finding), 'remark': finding.remark,
            'differences': [difference_object(one) for one in finding.differences],
            'arguments': [{'label': one.label, 'value': short_value(one.value),
                           'name': one.meaning or None} for one in finding.arguments]}


def asked_members(one: Finding) -> dict[str, Any]:
    return {'procedure': one.message.procedure, 'path': one.path, **both_positions(one)}


def both_positions(one: Finding) -> dict[str, Any]:
    return {run: message and {'position': str(message.place), 'frames': [*message.frames]}
            for run, message in zip(RUNS, (one.first, one.second))}


def difference_object(difference: Difference) -> dict[str, Any]:
    """Values are as the listing spells them. Long ones are cut, and have a digest."""
    both, apart = (difference.first, difference.second), difference.apart
    parting = apart and {
        'at': apart.at, 'offset': apart.offset, 'differing': apart.differing,
        'sizes': apart.sizes, 'shown': [*map(str, apart.shown)],
        'sha256': [value.digest if isinstance(value, Long) else None for value in both]}
    return {'field': difference.field, 'label': difference.label,
            **dict(zip(RUNS, map(short_value, both))),
            'remark': difference.remark, 'names': [name or None for name in difference.meanings],
            'apart': parting}


def short_value(value: Value | None) -> str | None:
    return shortened(value) if isinstance(value, Long) else value


# --- JUnit XML ---

class Cases:
    """The cases of a suite about two runs."""

    def __init__(self, names: Sequence[str], covers: Sequence[Cover] = (),
                 accepted: Split | None = None) -> None:
        self.suite = Suite('nfs3canon compare', properties_of(covers, accepted))
        self.about, self.number_of = ' | '.join(map(escaped, names)), Counter[str]()
        for run, cover in zip(RUNS, covers):
            if cover.faults():
                self.add(f'the {run} run is valid', 'error', '; '.join(cover.faults()))

    def add(self, given: str, tag: str | None = None, message: str = '',
            text: Iterable[object] = (), **attributes: str) -> None:
        """Adds a case, which passed if there is no tag. Equal names are numbered."""
        name = printable(given)
        self.number_of[name] += 1
        name += f' ({self.number_of[name]})' if self.number_of[name] > 1 else ''
        lines = '\n'.join(printable(str(line)) for line in text)
        self.suite.add(self.about, name, tag, printable(message), lines, attributes)

    def written(self) -> bytes:
        return self.suite.written(('failures', 'errors', 'skipped', 'tests'))


def properties_of(covers: Sequence[Cover], accepted: Split | None) -> Iterator[tuple[str, object]]:
    """The four counts of both runs, and how many findings were accepted."""
    for run, cover in zip(RUNS, covers):
        counts = cover.counts()
        yield from ((f'{run} run: {name}', number) for name, number in counts.numbers().items())
        yield from ((f'{run} run: raw: {name}', number) for name, number in counts.raw.items())
    if accepted is not None:
        yield 'known', len(accepted.findings)
        yield 'no longer found', len(accepted.no_longer_found)


def junit_of_comparison(report: Report, compared: Compared, is_good: bool) -> bytes:
    """The verdict as a case, which passed if it is good, and else each finding as one that failed.
    Findings that say the same are one. The counts are properties, and each run of which a part is
    refused has a case with an error."""
    groups, line = [] if is_good else groups_alike(compared.findings), '; '.join(report.lines())
    accepted = report.found.accepted
    cases = Cases([cover.name for cover in report.covers], report.covers, accepted)
    more = len(groups) - CASES_AT_MOST
    silent = [*each_accepted(accepted), *of_accepted(accepted),
              *of_silent(compared, CASES_AT_MOST), *of_notes(compared, CASES_AT_MOST)]
    if is_good:
        cases.add('the runs are the same', text=[line, *silent])
    else:
        untold = [f'{more:,} more findings have no case'] * (more > 0)
        cases.add('the runs are the same', 'failure', line, [*untold, *silent], type=report.word())
    for group in groups[:CASES_AT_MOST]:
        cases.add(case_name(group), 'failure', brief_of(group), of_group(group), type=group[0].kind)
    return cases.written()


def case_name(group: Sequence[Finding]) -> str:
    """Returns the name of a case. It is the same in the next run if that differs in the same way:
    it has no numbers of records and frames, no ports, and does not say how many there are."""
    finding, paths = group[0], {one.path for one in group}
    only = only_in(finding)
    if finding.kind in OF_CONNECTIONS:
        return f'{only}a connection' if only else 'the order of replies'
    if is_summed(group):
        return 'values that correspond to others elsewhere'
    name = short(finding.message.procedure) + ('' if finding.message.is_call else ' reply')
    path = finding.path if len(paths) == 1 else None
    fields = list(dict.fromkeys(one.field for one in finding.differences))
    words = ' '.join(filter(None, [name, path, up_to(FIELDS_IN_CASE_NAME, fields)]))
    kind = KIND_WORDS.get(finding.kind)
    return f'{only}{words}' + (f': {kind}' if kind else '')


def junit_of_error(names: Sequence[str], message: str) -> bytes:
    """Runs that were not compared, as a case with an error."""
    cases = Cases(names)
    cases.add('the runs are the same', 'error', message)
    return cases.written()

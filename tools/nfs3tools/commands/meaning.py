"""Finds what calls and replies say against each other: valid bytes that are wrong answers.

    tools/meaning [--all] [--rule NAME,..] [--notes] [--json | --csv] [--junit FILE] [--html FILE]
                  [--known FILE] [--known-new FILE] RECORDING|CAPTURE ..
    tools/meaning --explain RULE

The manual page, tools/man/meaning.1, has the rest.

The status is 0 if that of tools/verdicts is and nothing was found but notes and what is known, 1
if not, 2 and 3 as there. --json and --csv print all findings for programs, --junit writes a case
for each rule and server, and --html a page for a browser.
"""
from __future__ import annotations

import argparse
import contextlib
import json
import os
import sys
from collections import Counter
from collections.abc import Iterator, Sequence
from dataclasses import dataclass, field
from functools import partial
from html import escape
from itertools import chain

from ..exchanges.in_words import short
from ..exchanges.kept import Kept, call_text
from ..judgement.known import ANY_OFTEN, KnownLine, add_known, file_of_known, known_line
from ..judgement.verdict import (
    Verdict, counts_after, kept_in, status_of, sums_of, verdict_members)
from ..meaning.across import findings_in
from ..meaning.recorded import Recorded
from ..meaning.rules import CLIENT, ITEMS, NOTE, RULES, SECTIONS, Looked, RuleFinding
from ..pages import markup
from ..pages.judged import (
    BAD, PARTIAL, Headline, Seen, ShownTable, headline_of, judged_page, of_table,
    row_of_cells, shown_messages, table_of)
from ..recordings.parts import Part, files_in
from ..recordings.selection import count
from ..recordings.taken import Taken
from ..reporting.junit import Suite
from ..reporting.messages import add_recordings, allowed_of, command_of, parser_of
from ..reporting.rows import add_forms, form_of
from ..shared.names import as_called
from ..shared.outputs import Refused, is_read_from, writing
from ..shared.places import Place
from ..shared.printed import escaped, near, printable
from ..shared.screens import Colour, Screen, Styled, screen_of, table_lines
from .calls import call_time, tell_verdicts
from .verdicts import judge_of

FINDINGS_VERSION = 2
FINDING_COLUMNS = ('recording', 'rule', 'section', 'by', 'client', 'server', 'connection', 'record',
                   'reply_record', 'frame', 'time_ns', 'procedure', 'path', 'text',
                   'against_record', 'against_frame', 'accepted')
KNOWN, FINDING = 'known', 'finding'
FINDING_HEADS = ('rule', 'section', 'by', 'server', 'found', 'first')
FINDING_NUMBERS = range(4, 5)  # columns that are set to the right
SHOWN_FINDINGS = 50  # of a recording, with their messages


@dataclass
class FindingRow:
    """How often exchanges with a server break a rule in a recording, by which sections, whether
    that is known, and the first of them in words."""
    recording: str
    rule: str
    by: str
    server: str
    accepted: bool
    first: str
    found: int = 0
    sections: dict[str, None] = field(default_factory=dict)

    @property
    def section(self) -> str:
        return ', '.join(self.sections)

    @property
    def cells(self) -> tuple[str, ...]:
        """The cells below FINDING_HEADS."""
        known = ' known' if self.kind == KNOWN else ''
        return (self.rule, self.section, self.by, self.server or '-', f'{self.found:,}{known}',
                self.first)

    @property
    def kind(self) -> str:
        """What these are: a finding alone changes the status."""
        return NOTE if self.by == NOTE else KNOWN if self.accepted else FINDING


class RecordingFindings:
    """The findings of a recording, by the rules that are wanted. Calls are in a temporary file."""

    def __init__(self, recording: str, told: FindingsReport) -> None:
        self.name, self.recording, self.told = recording, escaped(recording), told
        self.chosen, self.looked = told.chosen, told.looked
        self.looked_before = told.looked.exchanges
        self.kept, self.parts = Kept(), list[Part]()
        self.rows = dict[tuple[str, str, str, bool], FindingRow]()
        self.all = list[tuple[RuleFinding, FindingRow]]()
        self.articles = list[str]()

    def close(self) -> None:
        self.kept.close()

    def take(self, program: str, taken: Taken, verdicts: list[Verdict]) -> None:
        """Takes the exchanges of the connections that were judged, and puts the rules to them."""
        self.kept = kept_in(program, taken, verdicts, has_values=True)
        self.parts += taken.parts
        is_whole = {verdict.state for verdict in verdicts} <= {'ok', 'note'}
        for finding in findings_in(Recorded(self.kept), self.looked, is_whole):
            if finding.rule in self.chosen.rule:
                row = self.row_of(finding)
                row.found += 1
                self.all.append((finding, row))
        self.all.sort(key=lambda one: self.kept.times[one[0].number])
        if self.chosen.html:
            shown = [(one, row) for one, row in self.all if row.kind != NOTE]
            self.articles += [''.join(self.article(taken, number, *one)) for number, one in
                              enumerate(shown[:SHOWN_FINDINGS], len(self.told.articles) + 1)]
            self.articles += ['<p>More findings are in the output of <code>--all</code>.</p>'
                              ] * (len(shown) > SHOWN_FINDINGS)

    def row_of(self, finding: RuleFinding) -> FindingRow:
        rule, one = RULES[finding.rule], self.kept.exchange(finding.number)
        by = finding.by or rule.by
        line = printable(f'{rule.name} {one.part.server or "-"}: {call_text(one)}')
        if by != NOTE:
            self.told.lines_of_known.append(line)
        key = rule.name, by, one.part.server, by != NOTE and self.chosen.known.take(line)
        if key not in self.rows:
            self.rows[key] = FindingRow(self.recording, *key, self.words(finding))
        self.rows[key].sections[rule.section(short(one.procedure))] = None
        return self.rows[key]

    def frame(self, finding: RuleFinding) -> int:
        one = self.kept.exchange(finding.number)
        is_call = (finding.by or RULES[finding.rule].by) == CLIENT or not one.answered
        return one.frame if is_call else one.answered[0].frame

    def words(self, finding: RuleFinding) -> str:
        one = self.kept.exchange(finding.number)
        where = f'frame {self.frame(finding)}' if one.frame else self.position(one.at)
        return printable(f'{where}: {call_text(one)}: {finding.text}')

    def position(self, at: int) -> str:
        """Returns the position of a call, and its frame if it is known."""
        frame = self.kept.frames[at]
        return f'{self.kept.position(at)}' + (f' frame {frame}' if frame else '')

    def values(self) -> Iterator[Sequence[object]]:
        """Iterates over the values of FINDING_COLUMNS of all findings, by time."""
        for finding, row in self.all:
            one, source = self.kept.exchange(finding.number), finding.source
            section = RULES[row.rule].section(short(one.procedure))
            yield (self.recording, row.rule, section, row.by, one.part.client, one.part.server,
                   one.part.number, one.record,
                   one.answered[0].record if one.answered else None, self.frame(finding) or None,
                   one.time or None, one.procedure, one.path, finding.text,
                   self.kept.position(source.number) if source else None,
                   source.frame or None if source else None, row.accepted)

    def print(self, screen: Screen) -> None:
        """Prints a table for a reader, or all findings; of several recordings after their names."""
        rows = [row for row in self.rows.values() if self.chosen.notes or row.kind != NOTE]
        if len(self.chosen.recordings) > 1:
            print(f'{self.recording}:')
        if rows and not self.chosen.all:
            # (red is what is wrong, yellow a note, and what is known)
            cells = (Styled(row.cells, Colour.RED if row.kind == FINDING else Colour.YELLOW)
                     for row in rows)
            print(*table_lines([Styled(FINDING_HEADS), *cells], screen), sep='\n')
        for one, row in self.all if self.chosen.all else ():
            if row in rows:
                time = call_time(self.kept.times[one.number], self.kept.begun)
                print(f'{time}  {one.rule}  {self.words(one)}')

    def article(self, taken: Taken, number: int, finding: RuleFinding,
                row: FindingRow) -> Iterator[str]:
        """What a page says of a finding: in words, the messages that show it with their bytes, its
        rule, and what to type next."""
        one, source = self.kept.exchange(finding.number), finding.source
        name = f' {escape(self.recording)}' if len(self.chosen.recordings) > 1 else ''
        frames = [self.frame(finding), *([source.frame] if source else [])]
        filters = markup.filters(self.parts, sorted({*filter(None, frames)}))
        look = BAD if row.kind == FINDING else PARTIAL
        yield f'<article id=f{number}><h3><a href=#f{number}>{number}</a> {row.rule}{name}</h3>'
        yield f'<p class={look}>{escape(self.words(finding))}{filters}</p>'
        section = RULES[row.rule].section(short(one.procedure))
        client, server = (escape(end or '-') for end in (one.part.client, one.part.server))
        yield (f'<p class=quiet>RFC 1813, {section}; broken by the {row.by}; client {client}, '
               f'server {server}</p>')
        is_call = row.by == CLIENT or not one.answered
        place = self.place(finding.number, is_call)
        other = source and self.place(source.number,
                                      source.frame == self.kept.frames[source.number])
        place, pieces = shown_messages(taken, ITEMS.get(row.rule, ()), place, other)
        yield from pieces
        yield from markup.folded('others', 'the rule and its likely cause',
                                 markup.paragraphs(explained(row.rule)[:2]))
        commands = markup.next_commands(self.name, place.brief, one.frame > 0)
        yield f'{markup.commands(commands)}</article>'

    def place(self, at: int, is_call: bool) -> Place:
        """Returns where the call of an exchange is, or its first reply."""
        number, replies = self.kept.parts[self.kept.part_of[at]].number, self.kept.replies_of(at)
        if is_call or not replies:
            return Place(number, 'client', self.kept.records[at])
        return Place(number, 'server', self.kept.reply_records[replies[0]])


class FindingsReport:
    """What is said of all recordings: the table of each, and all rows and verdicts."""

    def __init__(self, chosen: argparse.Namespace) -> None:
        self.chosen, self.looked = chosen, Looked()
        self.rows, self.articles = list[FindingRow](), list[str]()
        self.lines_of_known = list[str]()  # of all findings
        self.seen, self.verdicts = list[Seen](), list[Verdict]()

    def add(self, found: RecordingFindings, verdicts: list[Verdict]) -> None:
        """Adds what is found in a recording, with the verdicts on it."""
        self.verdicts += verdicts
        self.seen.append(Seen(found.name, verdicts))
        self.rows += found.rows.values()
        if self.chosen.html:
            self.articles += found.articles

    @property
    def status(self) -> int:
        return self.verdict_status() or int(self.numbers()[FINDING] > 0)

    def verdict_status(self) -> int:
        return status_of(self.verdicts, allowed_of(self.chosen))

    def numbers(self) -> Counter[str]:
        """Returns how many findings, notes and known findings there are."""
        numbers = Counter[str]()
        for row in self.rows:
            numbers[row.kind] += row.found
        return numbers

    def rules(self) -> str:
        return count(len({row.rule for row in self.rows if row.kind == FINDING}), 'rule')

    def members(self) -> dict[str, object]:
        names = (*FINDING_HEADS[:-1], 'accepted')
        rows = [{name: getattr(row, name) for name in names} for row in self.rows]
        return {'rules': rows, 'looked_at': self.looked.members(),
                **verdict_members(self.verdicts)}

    def no_longer_found(self) -> list[str]:
        return [printable(f'no longer found: {line}')
                for line in self.chosen.known.no_longer_found()]

    def lines(self) -> list[str]:
        """What is no longer found, the numbers of findings, what was looked at, and the counts."""
        numbers = self.numbers()
        taken = f', {numbers[KNOWN]:,} known' if self.chosen.known.path else ''
        return [*self.no_longer_found(),
                f'{count(numbers[FINDING], FINDING)} by {self.rules()}, '
                f'{count(numbers[NOTE], NOTE)}{taken}; looked at:',
                *(f'  {line}' for line in self.looked.lines()), sums_of(self.verdicts)]


def print_all(told: FindingsReport) -> None:
    """Judges all recordings, and prints what is found."""
    chosen, judge, screen = told.chosen, judge_of(told.chosen), screen_of(told.chosen.color)
    form = form_of(chosen, FINDINGS_VERSION, 'findings', FINDING_COLUMNS)
    for recording in chosen.recordings:
        found = RecordingFindings(recording, told)
        with contextlib.closing(found):
            told.add(found, judge.verdicts(recording, partial(found.take, judge.program)))
            if form:
                form.add(found.values())
            else:
                found.print(screen)
    tell_verdicts(told.verdicts)
    if form:
        form.end(told.members())
    if not chosen.json:
        print(*told.lines(), sep='\n', file=sys.stderr if form else sys.stdout)


def junit_of_findings(told: FindingsReport) -> Iterator[bytes]:
    """A case for each rule and server, and one for the verdicts, with the counts as properties."""
    counts, tag = counts_after(told.verdicts).numbers(), 'failure'
    suite = Suite('nfs3canon meaning', [*counts.items(), *told.looked.groups().items()])
    for row in told.rows:
        is_wrong = row.kind == FINDING
        suite.add(row.recording, f'{row.rule}: {row.server or "-"}', tag if is_wrong else None,
                  f'{row.found:,} found, first {row.first}', '' if is_wrong else row.first)
    suite.add('nfs3canon', 'all calls are judged', tag if told.verdict_status() else None,
              sums_of(told.verdicts))
    yield suite.written(('tests', 'failures'))


def headline_of_findings(told: FindingsReport) -> Headline:
    """Returns what was found, with the status of the command: green if something was asked."""
    numbers, allowed = told.numbers(), allowed_of(told.chosen)
    headline = (headline_of(told.seen, allowed, 'No answer is known to be wrong', 'same')
                if told.looked.exchanges else
                headline_of(told.seen, allowed, 'No call was looked at', 'part'))
    if numbers[FINDING]:
        are = {row.by for row in told.rows if row.kind == FINDING}
        what = count(numbers[FINDING], 'message' if CLIENT in are else 'answer')
        refused = f'{headline.words}, and ' if headline.look == 'differ' else ''
        headline = headline._replace(look='differ', status=told.status,
                                     words=f'{refused}{what} by {told.rules()} cannot be right')
    return headline._replace(counts=[
        (numbers[kind], kind if kind == KNOWN else f'{kind}s', look)
        for kind, look in ((FINDING, BAD), (KNOWN, PARTIAL), (NOTE, PARTIAL))])


def findings_page(told: FindingsReport) -> Iterator[bytes]:
    """The page of the findings."""
    names = dict.fromkeys(row.recording for row in told.rows)
    tables = [ShownTable(name if len(told.seen) > 1 else 'Findings', FINDING_HEADS, [
        row_of_cells(row.cells, FINDING_NUMBERS, FINDING_HEADS,
                     BAD if row.kind == FINDING else PARTIAL)
        for row in told.rows if row.recording == name], 'cards') for name in names]
    looked = markup.section('Looked at', markup.paragraphs(
        [*told.no_longer_found(), *told.looked.lines()]))
    each = markup.section('Each finding', told.articles) if told.articles else ()
    last = chain(each, looked, [of_table(table_of(told.seen), 'h2')])
    return judged_page(told.seen, allowed_of(told.chosen), tables,
                       headline=headline_of_findings(told), last=last)


# --- The command ---

def rule_names(word: str) -> frozenset[str]:
    """The names of rules, as `read-data,listing`."""
    return frozenset(rule_name(name.strip()) for name in word.split(','))


def rule_name(name: str) -> str:
    """The name of a rule. Raises `ArgumentTypeError` for any other, with those that are near."""
    if name not in RULES:
        meant = near(name, RULES) or ', see the manual page'
        raise argparse.ArgumentTypeError(f'no rule: {name}{meant}')
    return name


def older_rules(content: bytes) -> list[KnownLine]:
    """Reads a file of `--accept` of before 0.2.0: rules and servers, either of which may be any."""
    whole = json.loads(content)
    entries = [(entry['rule'], entry['server']) for entry in whole['accepted']]
    assert whole['version'] == 1 and all(rule in ('*', *RULES) for rule, _ in entries)
    return [known_line(f'{rule} {server}: *')._replace(text=f'{rule} {server}', often=ANY_OFTEN)
            for rule, server in entries]


def explained(name: str) -> list[str]:
    """Returns what is to know of a rule, and what to do next."""
    rule = RULES[name]
    by = 'This is permitted, and worth knowing.' if rule.by == NOTE else f'Broken by the {rule.by}.'
    about = f'section {rule.sections}' if rule.subjects[0] in SECTIONS else rule.sections
    return [f'{name}: {rule.sentence} (RFC 1813, {about}).', f'{by} {rule.cause}',
            as_called(f'All of them: tools/meaning --all --rule {name} RECORDING'),
            as_called("The fields of one: tools/explain RECORDING 'frame N'"),
            as_called("Its frames alone: tools/cut RECORDING 'frame N' OUT")]


def command_line_of_meaning(words: list[str]) -> argparse.Namespace:
    parser = parser_of(__doc__, 'meaning')
    parser.add_argument('--all', action='store_true', help='lists each finding')
    parser.add_argument('--rule', metavar='NAME,..', type=rule_names,
                        default=frozenset(RULES), help='finds only what breaks these rules')
    parser.add_argument('--notes', action='store_true', help='prints notes as well')
    parser.add_argument('--explain', metavar='RULE', type=rule_name,
                        help='says what a rule is, and what may be the cause')
    add_known(parser, older_rules)
    parser.add_argument('--junit', metavar='FILE', help='writes JUnit XML')
    parser.add_argument('--html', metavar='FILE', help='writes a page for a browser')
    add_forms(parser)
    add_recordings(parser, '*')
    chosen = parser.parse_args(words)
    if bool(chosen.explain) == bool(chosen.recordings):
        parser.error('it takes recordings, or --explain RULE')
    return chosen


def main(words: list[str]) -> int:
    chosen = command_line_of_meaning(words)
    if chosen.explain:
        print(*explained(chosen.explain), sep='\n')
        return 0
    told, known = FindingsReport(chosen), chosen.known.path
    inputs = [*files_in(chosen.recordings), *([known] if known else [])]
    if known and is_read_from(known, os.fstat(1)):
        raise Refused(f'{escaped(known)} is an input, and is not written')
    with writing(inputs, (chosen.junit, lambda: junit_of_findings(told)),
                 (chosen.html, lambda: findings_page(told)),
                 (chosen.known_new, lambda: file_of_known(told.lines_of_known))):
        print_all(told)
    return told.status


command = command_of(__name__, 'meaning', main)

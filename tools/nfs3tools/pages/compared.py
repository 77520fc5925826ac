"""A comparison as one page for a browser: what differs at a glance, which fields differ, each
difference, and the calls around that. It is made in pieces, and all that comes from a recording is
escaped. What does not count for the verdict is folded.
"""
from __future__ import annotations

import os
from collections import defaultdict
from collections.abc import Iterator, Sequence
from dataclasses import dataclass
from functools import cached_property
from html import escape
from itertools import chain, groupby, starmap, zip_longest
from typing import Optional

from ..comparison.exchanges.explained import RUNS
from ..comparison.values.classes import mask_text
from ..comparison.verdict.cover import cause_of
from ..comparison.verdict.decision import Report, compared_in_words
from ..comparison.verdict.excerpt import (
    SHOWN_AT_MOST, ExcerptConnection, ExcerptRow, HiddenCalls)
from ..comparison.verdict.findings import Compared, Finding
from ..exchanges.in_words import short
from ..exchanges.listing import Message
from ..judgement.verdict import Verdict
from ..recordings.coverage import named_calls
from ..recordings.parts import files_of
from ..recordings.selection import count, plural
from ..reporting import telling
from ..reporting.frames import frame_time
from ..shared.places import Place
from ..shared.printed import escaped
from . import fields, markup
from .fields import SIGNS, SIGN_CLASSES
from .glance import phrases
from .markup import code

# Places of findings that say the same as one: of one, and about so many of all
OTHERS_AT_MOST, OTHERS_OF_ALL = 300, 20_000
NOT_JUDGED_AT_MOST = 20  # connections of a run that are named
PHRASES_AT_MOST = 6  # of what differs, under the title
MANY = 2_000  # messages whose calls are shown
BOTH, NO_VALUE = (0, 1), 'nothing'
NOTHING_BUT = ('the order', 'what is masked')  # differs
BothPlaces = tuple[Optional[Place], Optional[Place]]


def both_places(first: Message | None, second: Message | None) -> BothPlaces:
    return first.place if first else None, second.place if second else None


def message_pairs(row: ExcerptRow) -> Iterator[tuple[Message | None, Message | None]]:
    """Returns the messages of a row: its calls, and then its replies in their order."""
    first, second = row.first, row.second
    yield first.call if first else None, second.call if second else None
    yield from zip_longest(first.replies if first else (), second.replies if second else ())


# --- The whole ---

def compared_page(content: ComparedContent) -> Iterator[bytes]:
    word = content.report.word()
    names = ' and '.join(escaped(cover.name) for cover in content.covers)
    is_same = not content.report.is_different
    look = 'differ' if not is_same else 'part' if content.report.is_in_part else 'same'
    bar = [markup.bar('difference', 'call')] if content.groups else []
    about = markup.folded('about', 'About these runs', facts(content))
    return markup.whole_page(
        f'{word}: {names}', look, f'The runs {"are the " if is_same else ""}{word}',
        chain(head(content, is_same), about, bar, content.fields(), content.findings(),
              content.silent(), content.accepted_ones(), content.calls()))


def head(content: ComparedContent, is_same: bool) -> Iterator[str]:
    """The verdict in words, or what differs in a few phrases, and what is not compared."""
    report = content.report
    found = [] if is_same else phrases(content.compared)
    more = len(found) - PHRASES_AT_MOST
    shown = [*found[:PHRASES_AT_MOST], *(
        [f'<a href=#findings>{count(more, "more difference")}</a>'] if more > 0 else [])]
    if is_same:
        # (how the order differs is said below)
        words = report.words_of_same()
        yield f'<p>{code(words[0] if words[1:] else report.lines()[0])}</p>'
    if shown:
        yield f'<p class=glance>{" · ".join(shown)}</p>'
    if report.losses and not (is_same and not words[1:]):
        yield f'<p class=part>Compared in part: {escape(report.losses)}.</p>'


def facts(content: ComparedContent) -> Iterator[str]:
    """Both runs, how their calls are matched, what is masked, and what else does not count."""
    yield ''.join(f'<p>{code(line)}</p>' for line in content.report.lines())
    yield f'<p>{escape(compared_in_words(content.compared))}.</p>'
    # (what neither of them has is not there)
    rows = ((first[0], first[1], second[1])
            for first, second in zip(*(facts_of(content, at) for at in BOTH))
            if first[1] != first[2] or second[1] != second[2])
    yield from markup.table(('', '- first run', '+ second run'), (
        f'<tr><th>{what}</th><td>{escape(one)}</td><td>{escape(other)}</td></tr>'
        for what, one, other in rows), 'runs')
    yield '<dl>'
    yield from (f'<dt>{what}</dt><dd>{words}</dd>' for what, words in words_of_masks(content))
    yield '</dl>'


def facts_of(content: ComparedContent, at: int) -> Iterator[tuple[str, str, str]]:
    """Iterates over what a run is: a name, what it has, and what that is if it has nothing."""
    compared, cover = content.compared, content.covers[at]
    counts, files = cover.counts(), files_of(cover.name)
    yield 'name', escaped(cover.name), ''
    yield 'file', (count(sum(map(os.path.getsize, files)), 'byte')
                   if all(map(os.path.isfile, files)) else 'size not known'), ''
    for what, frame in zip(('first frame', 'last frame'), cover.taken.ends() or (None, None)):
        yield what, (f'{frame_time(frame)}, frame {frame.number}' if frame
                     else 'no frames'), 'no frames'
    yield from ((what, f'{number:,}', '') for what, number in cover.size._asdict().items())
    yield 'missing', count(cover.missing, 'byte'), count(0, 'byte')
    yield from ((what, f'{number:,}', '') for what, number in counts.numbers().items())
    yield 'raw', named_calls(counts.raw) or NO_VALUE, NO_VALUE
    not_judged = [*map(not_judged_text, cover.rows())]
    more = len(not_judged) - NOT_JUDGED_AT_MOST
    yield ('not judged as a whole', ('; '.join(not_judged[:NOT_JUDGED_AT_MOST]) or NO_VALUE)
           + (f'; .. and {more:,} more' if more > 0 else ''), NO_VALUE)
    yield 'only in this run', count(compared.lonely[at], 'call'), count(0, 'call')
    left_out = (f'{number:,} {short(name)}'
                for name, number in sorted(compared.left_out[at].items()))
    yield 'calls left out', ', '.join(left_out) or NO_VALUE, NO_VALUE


def not_judged_text(one: Verdict) -> str:
    number = f'connection {one.connection}' if one.connection is not None else ''
    return ': '.join(filter(None, [number, one.covered.ends, one.state, cause_of(one)]))


def words_of_masks(content: ComparedContent) -> Iterator[tuple[str, str]]:
    """What does not count, as HTML."""
    yield 'masked', (f'{code(mask_text(content.report.choices.masks[0], ", "))}. '
                     'Xids, file handles and write verifiers are renamed one to one.')
    if content.compared.silent:
        yield 'left out', ('Calls that only ask, which one run alone has, answers that an order '
                           'explains, and calls that were sent again.')


# --- Findings ---

def is_of_fields(finding: Finding) -> bool:
    return bool(finding.differences) or finding.kind == 'only'


def keys_of(finding: Finding) -> list[tuple[str, str]]:
    name, only = finding.message.procedure, f'only in the {finding.run} run'
    said = {'only': only, 'connection': only, 'moved': finding.remark,
            'replies': 'another number of replies', 'order': 'replies in another order'}
    return [(name, one.field) for one in finding.differences] or [
        ('connections' if finding.kind in telling.OF_CONNECTIONS else name,
         said.get(finding.kind, finding.kind))]


@dataclass
class ComparedContent:
    """What a page is made of: the report, and the comparison. Findings that say the same are one,
    and have a number from 1 on."""
    report: Report
    compared: Compared

    def __post_init__(self) -> None:
        assert self.compared.beside
        self.covers, self.beside = self.report.covers, self.compared.beside
        self.groups = telling.groups_alike(self.compared.findings)
        self.shown = self.groups[:SHOWN_AT_MOST]
        self.others_at_most = min(OTHERS_AT_MOST, OTHERS_OF_ALL // max(1, len(self.shown)))

    @cached_property
    def found(self) -> dict[BothPlaces, list[tuple[int, Finding]]]:
        """By the places of two messages: what is found there, with its numbers."""
        out = defaultdict[BothPlaces, list[tuple[int, Finding]]](list)
        for number, finding in self.numbered():
            if finding.kind != 'order':
                out[both_places(finding.first, finding.second)].append((number, finding))
        return {**out}

    def numbered(self) -> Iterator[tuple[int, Finding]]:
        return ((number, finding) for number, group in enumerate(self.groups, 1)
                for finding in group)

    @cached_property
    def anchors(self) -> dict[BothPlaces, int]:
        """By the places of two messages: the number of their row."""
        rows = (row for connection in self.beside.connections for row in connection.rows
                if isinstance(row, ExcerptRow))
        return {both_places(*both): number for number, row in enumerate(rows, 1)
                for both in message_pairs(row)}

    def fields(self) -> Iterator[str]:
        names = ['procedure', 'fields, and how often', 'path']
        if self.groups:
            yield from markup.section('What differs', markup.table(names, self.rows_of_fields()))

    def where(self) -> dict[tuple[str, str], list[tuple[int, str | None]]]:
        """Returns where each field of a procedure is reported: numbers of findings, and paths."""
        out = defaultdict[tuple[str, str], list[tuple[int, Optional[str]]]](list)
        for number, finding in self.numbered():
            for key in keys_of(finding):
                out[key].append((number, finding.path))
        return out

    def rows_of_fields(self) -> Iterator[str]:
        """A row for each procedure, with all its fields in a cell."""
        every = sorted(self.where().items(),
                       key=lambda item: (item[0][0], -len(item[1]), item[0][1]))
        for procedure, some in groupby(every, lambda item: item[0][0]):
            fields = [*some]
            paths = {path for _, where in fields for _, path in where if path}
            path = code(min(paths)) if len(paths) == 1 else f'{len(paths):,} paths' if paths else ''
            cells = (f'<span>{escape(field)} {self.to_first(where[0][0], len(where))}</span>'
                     for (_, field), where in fields)
            yield (f'<tr><td>{escape(short(procedure))}</td><td class=several>'
                   f'{"".join(cells)}</td><td>{path}</td></tr>')

    def to_first(self, number: int, often: int) -> str:
        """Returns how often a field differs, as a link to the first finding if it is shown."""
        return f'<a href=#f{number}>{often:,}</a>' if number <= len(self.shown) else f'{often:,}'

    # --- Findings ---

    def findings(self) -> Iterator[str]:
        """How many differences there are, and each; those that say the same as one."""
        articles = chain.from_iterable(starmap(self.article, enumerate(self.shown, 1)))
        more, total = sum(map(len, self.groups[SHOWN_AT_MOST:])), len(self.compared.findings)
        last = (f'<p id=more>.. and {count(more, "message")} more. <code>--json FILE</code> '
                'writes all.</p>')
        if not total:
            return markup.section('No differences', [f'<p>{self.remark()}</p>'], ' id=findings')
        return markup.section(
            f'{count(len(self.groups), "difference")} in {count(total, "message")}',
            chain(articles, [last] if more else []), ' id=findings')

    def remark(self) -> str:
        """Returns what is to be known of there being no differences."""
        report = self.report
        if not report.is_different:
            return f'Nothing differs but {NOTHING_BUT[not report.place]}.'
        return ('No field of matched messages differs. '
                'Only which messages share a value, or empty connections, can.')

    def article(self, number: int, group: Sequence[Finding]) -> Iterator[str]:
        """A finding, and the places of those that say the same."""
        finding = group[0]
        yield (f'<article id=f{number} data-messages={len(group)}>'
               f'<h3><a href=#f{number}>{number}</a> {self.title(group)}</h3>')
        for at, message in zip(BOTH, (finding.first, finding.second)):
            if message and finding.kind != 'order':
                place = (f'{message.place}{telling.frames_text(message)}'
                         + markup.filters(self.covers[at].taken.parts, message.frames))
                yield (f'<div class=place><span class="sign {SIGN_CLASSES[at]}">{SIGNS[at]}</span>'
                       f'<span>{place}</span></div>')
        if finding.remark:
            yield f'<p>{escape(finding.remark)}</p>'
        if is_of_fields(finding):
            yield from fields.changed_values(finding)
        yield self.to_calls(finding, '<p>{}</p>', 'among the calls around it', '')
        if len(group) > 1:
            yield from self.others(group)
        yield '</article>'

    def title(self, group: Sequence[Finding]) -> str:
        """Which messages they are, and the path of the first, as HTML."""
        finding, paths = group[0], {finding.path for finding in group} - {None}
        what, only = telling.messages_text(group), telling.only_in(finding)
        if telling.is_summed(group):
            return what
        if finding.kind in telling.OF_CONNECTIONS:
            return f'{only}connection {finding.message.connection}'
        path = f' {code(finding.path)}' if finding.path else ''
        return f'{only}{what}{path}' + (f', the first of {len(paths):,} paths' if len(paths) > 1
                                        else '')

    def others(self, group: Sequence[Finding]) -> Iterator[str]:
        """The places of the findings that say the same as the first."""
        left = len(group) - 1 - self.others_at_most
        more = f'<p>.. and {left:,} more</p>' if left > 0 else ''
        return markup.folded('others', f'{count(len(group) - 1, "position")} more', chain(
            ['<ol start=2>'], map(self.other, group[1:1 + self.others_at_most]), [f'</ol>{more}']))

    def other(self, finding: Finding) -> str:
        places = telling.places_text(finding)
        path = f'{code(finding.path)}: ' if finding.path else ''
        return f'<li>{path}{self.to_calls(finding, "{}", places, places)}</li>'

    def to_calls(self, finding: Finding, form: str, words: str, otherwise: str) -> str:
        """Returns a link to the calls around a finding, or other words if they are not shown."""
        anchor = self.anchors.get(both_places(finding.first, finding.second))
        return form.format(f'<a href=#r{anchor}>{words}</a>') if anchor else otherwise

    def silent(self) -> Iterator[str]:
        """The calls that are left out, by reasons, procedures and paths."""
        groups = sorted(telling.silent_groups(self.compared), key=lambda some: (
            telling.why_left_out(some[0]), -len(some)))
        more = len(groups) - OTHERS_AT_MOST
        rows = (f'<tr><td>{why}</td><td>{short(some[0].message.procedure)}</td><td>'
                f'{code(some[0].path) if some[0].path else ""}</td><td class=count>{len(some):,}'
                f'</td><td>{telling.places_text(some[0])}{escape(cause)}</td></tr>'
                for some in groups[:OTHERS_AT_MOST] for why, cause in [
                    (telling.why_left_out(some[0]), telling.cause_of_silence(some[0]))])
        if groups:
            yield from markup.section('Left out', chain(['<div class=cards>'], markup.table(
                ('reason', 'procedure', 'path', 'how often', 'first'), rows), ['</div>'],
                [f'<p>.. and {more:,} more</p>'] * (more > 0)))
        notes = list(telling.of_notes(self.compared, OTHERS_AT_MOST))
        if notes:
            yield from markup.section('Notes', markup.paragraphs(notes))

    def accepted_ones(self) -> Iterator[str]:
        """How many findings were accepted, and these folded."""
        accepted = self.report.found.accepted
        shown = telling.each_accepted(accepted)
        yield from markup.paragraphs(telling.of_accepted(accepted), 'accepted')
        if shown:
            yield from markup.folded('others', count(len(shown), 'accepted finding'),
                                     markup.paragraphs(shown[:OTHERS_AT_MOST]))

    # --- Calls ---

    def calls(self) -> Iterator[str]:
        """The calls that differ, those around them, and how many are between, by connections."""
        # (a browser lays out many rows only as they come into sight)
        many = ' class=many' if len(self.anchors) > MANY else ''
        return markup.section('Calls', self.connections(), f' id=calls{many}')

    def connections(self) -> Iterator[str]:
        if self.beside.connections:
            yield ('<p class=quiet>In the order of the first run. '
                   'A click opens the fields of a call and its replies.</p>')
        for connection in self.beside.connections:
            yield f'<div class=connection><h3>{connection_heading(connection)}</h3>'
            yield from chain.from_iterable(self.row(row, connection) if isinstance(row, ExcerptRow)
                                           else gap(row) for row in connection.rows)
            yield '</div>'
        if self.beside.others:
            which = count(self.beside.others,
                          'other connection' if self.beside.connections else 'connection')
            yield from gap(self.beside.rest, f' in {which}')
        if self.beside.cut:
            yield (f'<p class=gap>{count(self.beside.cut, "call")} more '
                   f'{plural(self.beside.cut, "is", "are")} only in the second run</p>')

    def row(self, row: ExcerptRow, connection: ExcerptConnection) -> Iterator[str]:
        """An exchange of both runs: what it is, where, and its fields on a click."""
        messages, (mark, said) = list(message_pairs(row)), self.mark(row)
        calls, own = messages[0], (connection.first, connection.second)
        # (the place of a call is short if it is on the connection that is named above)
        places = ' | '.join(
            (f'record {call.record}' if call.connection == number else str(call.place))
            + telling.frames_text(call) for call, number in zip(calls, own) if call)
        yield (f'<details class="row{" told" if mark != "=" else ""}" '
               f'id=r{self.anchors[both_places(*calls)]}>'
               f'<summary><b class=mark>{mark}</b> {short(next(filter(None, calls)).procedure)}'
               f'{f" {code(row.path)}" if row.path else ""} '
               f'<span class=quiet>{places}</span>{said}</summary>')
        yield from chain.from_iterable(starmap(self.message, messages))
        yield '</details>'

    def mark(self, row: ExcerptRow) -> tuple[str, str]:
        """Returns a sign for what a row is, and what is said of it, as HTML."""
        numbers = sorted({number for both in message_pairs(row)
                          for number, _ in self.found.get(both_places(*both), ())})
        links = ', '.join(f'<a href=#f{number}>finding {number}</a>' for number in numbers
                          if number <= len(self.shown))
        if row.first is None or row.second is None:
            return (SIGNS[row.first is None],
                    f' <span>{links or f"only in the {RUNS[row.first is None]} run"}</span>')
        if numbers:
            return '≠', f' <span>{links or "differs"}</span>'
        return ('≠', ' <span>differs in what is known</span>') if row.is_told else ('=', '')

    def message(self, first: Message | None, second: Message | None) -> Iterator[str]:
        """A message of both runs: where it is, and its fields."""
        # (the frames of the call are in the line of its row)
        places = ' | '.join(f'{one.place}{"" if one.is_call else telling.frames_text(one)}'
                            for one in (first, second) if one)
        what = 'call' if next(filter(None, (first, second))).is_call else 'reply'
        yield f'<h4>{what}: {places}</h4>'
        found = self.found.get(both_places(first, second), ())
        yield from fields.of_messages(first, second, next(
            (finding for _, finding in found if is_of_fields(finding)), None))


def connection_heading(connection: ExcerptConnection) -> str:
    both = connection.first, connection.second
    of_one = f' of the {RUNS[connection.first is None]} run' if None in both else ''
    return ' | '.join(f'connection {number}' for number in both if number is not None) + of_one


def gap(some: HiddenCalls, where: str = '') -> Iterator[str]:
    """A line for calls that are not shown."""
    words = [(some.equal, count(some.equal, 'equal call')),
             (some.told,
              f'{count(some.told, "call")} that {plural(some.told, "differs", "differ")}'),
             (some.left_out, f'{count(some.left_out, "call")} of the first run left out')]
    if any(some):
        yield f'<p class=gap>{", ".join(said for number, said in words if number)}{where}</p>'

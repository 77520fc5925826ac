"""Verdicts as one page for a browser: how much was judged, the tables that the tool prints, faults
with their fields, and a time line of latencies for each recording. A page is green only for what
was judged. It is made in pieces, and all that comes from a recording is escaped.
"""
from __future__ import annotations

import contextlib
from collections.abc import Container, Iterable, Iterator, Sequence
from html import escape
from itertools import chain, starmap, zip_longest
from typing import NamedTuple

from ..captures.explained import (
    NO_REASON, REASONS, item_of, items_in, tell_record)
from ..captures.located import FoundRecord, Within
from ..exchanges.kept import Kept
from ..judgement.verdict import (
    COVERED, VERDICT_HEADS, Verdict, counts_after, is_row, status_of, subject_of, verdict_notes,
    verdict_row)
from ..recordings.coverage import Allowed, Counts, named_calls
from ..recordings.parts import Part
from ..recordings.selection import count, plural
from ..recordings.taken import Taken
from ..shared.places import NoPlace, Place
from ..shared.printed import escaped, printable
from . import markup
from .markup import class_of
from .time_line import FORMS, TimeLine, of_time_line, time_line_of

# How words of verdicts look: good, judged in part, at fault.
GOOD, PARTIAL, BAD = 'plus', 'part', 'minus'
LOOKS = {'ok': GOOD, **dict.fromkeys(COVERED, PARTIAL), 'refused': BAD, 'error': BAD}
LOOKS_OF_COUNTS = (*((word, PARTIAL) for word in COVERED), ('errors', BAD))
FAULTS_IN_RECORDING, FAULTS_OF_EACH = 500, 200  # on a page, and of a recording
LINES_AT_MOST = 200  # of a message


class ExplainedMessage(NamedTuple):
    """A message: what `tools/explain` says of a position in it, and all its fields."""
    item: list[str]
    message: list[str]

    def pieces(self) -> Iterator[str]:
        yield markup.block('pre', self.item)
        if self.message:
            yield from markup.folded('others', 'all fields of the message',
                                     [markup.block('pre', self.message)])


class ExplainedFault(NamedTuple):
    """A verdict that refuses, and the message at fault."""
    verdict: Verdict
    message: ExplainedMessage


class Seen(NamedTuple):
    """A recording: its name, its verdicts, and what a page shows besides, if there is to be one."""
    recording: str
    verdicts: list[Verdict]
    faults: Sequence[ExplainedFault] = ()
    line: TimeLine | None = None
    parts: Sequence[Part] = ()


def verdicts_in(seen: Iterable[Seen]) -> list[Verdict]:
    return [verdict for one in seen for verdict in one.verdicts]


def seen_in(kept: Kept, taken: Taken, recording: str, verdicts: list[Verdict]) -> Seen:
    """Returns what is shown of a recording, by the exchanges of its connections."""
    refused = [verdict for verdict in verdicts if verdict.state == 'refused']
    faults = [explained_fault(taken, verdict) for verdict in refused[:FAULTS_OF_EACH]]
    return Seen(recording, verdicts, faults, time_line_of(kept), tuple(taken.parts))


class ShownTable(NamedTuple):
    """A table below its title: its heads, and its rows as HTML. One of cards has its rows one below
    the other in a narrow window, and a wide one can be moved sideways there. Valid rows are folded
    below the others."""
    title: str
    heads: Sequence[str]
    rows: Sequence[str]
    look: str = 'wide'
    valid: Sequence[str] = ()


class Headline(NamedTuple):
    """With what a page begins that has another question than whether all is valid: how its heading
    looks, what that says, the status of the command, and counts with their words and looks."""
    look: str
    words: str
    status: int
    counts: Sequence[tuple[int, str, str]] = ()


def judged_page(seen: Sequence[Seen], allowed: Allowed, tables: Sequence[ShownTable],
                of_each: Sequence[Sequence[ShownTable]] = (), headline: Headline | None = None,
                last: Iterable[str] = ()) -> Iterator[bytes]:
    """The page, in pieces, of recordings, what does not change the status, the tables of all of
    them and of each, its headline if that is not about validity, and what comes last."""
    counts, names = counts_after(verdicts_in(seen)), [escaped(one.recording) for one in seen]
    more = f' and {len(names) - 1:,} more' if len(names) > 1 else ''
    look, words, status, own = headline or Headline(
        *title_of(counts), status_of(verdicts_in(seen), allowed))
    several = (f'<section>{of_table(table, "h2")}</section>' for table in tables)
    recordings = (of_recording(number, one, tables_of, len(names) > 1, headline is None)
                  for number, (one, tables_of) in enumerate(zip(
                      seen, of_each or [()] * len(names)), 1))
    notes = [line for verdict in verdicts_in(seen) for line in verdict_notes(verdict)]
    return markup.whole_page(f'{words}: {names[0]}{more}', look, words, chain(
        [FORMS], of_counts(counts, own, headline is None), of_status(counts, status, allowed),
        [markup.bar('finding' if headline else 'fault', 'row')], several, last,
        of_faults(seen), chain.from_iterable(recordings),
        markup.section('Notes', markup.paragraphs(notes)) if notes else ()))


def title_of(counts: Counts) -> tuple[str, str]:
    """Returns how the heading looks, and what it says: that all is valid only if all was judged."""
    lacking = counts.in_part + counts.left_out + counts.not_checked
    if counts.known and counts.known == counts.refused + counts.errors + (
            lacking - counts.without_calls):
        return 'part', f'Nothing is wrong but {count(counts.known, "known finding")}'
    if counts.refused:
        connections, are = count(counts.judged, 'connection'), plural(counts.refused, 'is', 'are')
        return 'differ', f'{counts.refused:,} of {connections} {are} refused'
    if counts.errors:
        return 'differ', 'Not all could be read'
    if lacking > counts.without_calls or not counts.ok:
        return 'part', 'Not all was judged'
    if lacking:
        are = plural(lacking, 'is', 'are')
        return '', f'{count(lacking, "connection")} without a call {are} left out'
    return 'same', 'Every call of NFS and MOUNT version 3 is valid'


def headline_of(seen: Sequence[Seen], allowed: Allowed, words: str, look: str = '') -> Headline:
    """Returns what is said of another question, or else that not all was judged."""
    title = title_of(counts_after(verdicts_in(seen)))
    return Headline(*((look, words) if title[0] == 'same' else title),
                    status_of(verdicts_in(seen), allowed))


def of_counts(counts: Counts, own: Sequence[tuple[int, str, str]] = (),
              is_of_validity: bool = True) -> Iterator[str]:
    """The counts, each with its word and its colour, which one of nothing does not have."""
    good, valid = (GOOD, 'valid') if is_of_validity else ('', 'ok')
    look = BAD if counts.refused else good if counts.ok else ''
    shown = [*own, (counts.judged,
                    f'judged ({counts.ok:,} {valid}, {counts.refused:,} refused)', look),
             *((counts.numbers()[word], word, one) for word, one in LOOKS_OF_COUNTS)]
    if counts.unanswered:
        calls = plural(counts.unanswered, 'call', 'calls')
        shown.append((counts.unanswered, f'{calls} without a reply', PARTIAL))
    if counts.known is not None:
        shown.append((counts.known, 'known', PARTIAL))
    yield '<ul class=counts>'
    yield from (f'<li{class_of(one) if number else ""}><b>{number:,}</b> {words}</li>'
                for number, words, one in shown)
    yield '</ul>'


def of_status(counts: Counts, status: int, allowed: Allowed) -> Iterator[str]:
    """The status, and what does not change it."""
    options = [option for option, is_given in (('--allow-losses', allowed.losses),
                                               ('--allow-not-checked', allowed.not_checked))
               if is_given]
    under = f' under <code>{" ".join(options)}</code>' if options else ''
    yield f'<p>The status is <b>{status}</b>{under}.'
    if counts.without_calls:
        yield f' {counts.without_calls:,} of those that are left out show no call.'
    if counts.raw:
        calls = escape(named_calls(counts.raw))
        yield f' Calls of other programs, which are taken as they are: {calls}.'
    yield '</p>'


def of_table(table: ShownTable, level: str) -> str:
    def of_rows(rows: Sequence[str]) -> Iterator[str]:
        return chain([f'<div class={table.look}>'], markup.table(table.heads, rows), ['</div>'])
    title = [f'<{level}>{escape(table.title)}</{level}>']
    shown = of_rows(table.rows) if table.rows or not table.valid else ()
    folded = markup.folded('valid', count(len(table.valid), 'connection') + ' ok',
                           of_rows(table.valid), '' if table.rows else ' open')
    return ''.join(chain(title, shown, folded if table.valid else ()))


def row_of_cells(cells: Sequence[str], numbers: Container[int], heads: Sequence[str] = (),
                 look: str = '', link: str = '') -> str:
    """A row of a table, the last of whose cells has a look, or leads somewhere. Cells that are
    given their heads are beside them in a narrow window."""
    texts = [escape(cell) for cell in cells]
    texts[-1] = f'<a href={link}>{texts[-1]}</a>' if link else texts[-1]
    looks = [*('count' if at in numbers else '' for at in range(len(texts) - 1)), look]
    inner = (f'<td{class_of(one)}{f" data-head={head}" if head else ""}>{text}</td>'
             for text, one, head in zip_longest(texts, looks, heads))
    return f'<tr class=row>{"".join(inner)}</tr>'


def table_of(seen: Sequence[Seen]) -> ShownTable:
    """The table of `tools/verdicts`, whose faults lead to what is said of them. What is refused or
    could not be read comes first, and what is ok is folded."""
    verdicts = [*filter(is_row, verdicts_in(seen))]
    links = {(fault.verdict.recording, fault.verdict.connection): f'#f{number}'
             for number, fault, _ in numbered_faults(seen)}

    def rows(some: Iterable[Verdict]) -> list[str]:
        # (a verdict is green only if calls were checked)
        return [row_of_cells(verdict_row(verdict, said_of(verdict)), range(4, 6), VERDICT_HEADS,
                             PARTIAL if verdict.is_known else
                             '' if verdict.state == 'ok' and is_raw(verdict)
                             else LOOKS[verdict.state],
                             links.get((verdict.recording, verdict.connection), '')
                             if verdict.state == 'refused' else '')
                for verdict in some]
    wrong = sorted((verdict for verdict in verdicts if verdict.state != 'ok'),
                   key=lambda verdict: LOOKS[verdict.state] != BAD)
    valid = rows(verdict for verdict in verdicts if verdict.state == 'ok')
    return ShownTable('Connections', VERDICT_HEADS, rows(wrong), 'cards', valid)


def is_raw(verdict: Verdict) -> bool:
    """Whether all calls of a connection are those of other programs."""
    return (verdict.calls or 0) <= sum(verdict.raw.values())


def said_of(verdict: Verdict) -> str:
    """Returns the words of a verdict. Nothing in part, or not checked, is called ok."""
    if verdict.state != 'ok':
        return verdict.told + ', known' * bool(verdict.is_known)
    raw = f'{named_calls(verdict.raw)} raw' if verdict.raw else ''
    return '; '.join(filter(None, ['' if is_raw(verdict) else 'ok', raw])) or 'no calls'


def numbered_faults(seen: Sequence[Seen]) -> list[tuple[int, ExplainedFault, Seen]]:
    faults = [(fault, one) for one in seen for fault in one.faults]
    return [(number, *both) for number, both in enumerate(faults[:FAULTS_IN_RECORDING], 1)]


def explained_fault(taken: Taken, verdict: Verdict) -> ExplainedFault:
    fault, message = verdict.fault, ExplainedMessage([], [])
    with contextlib.suppress(NoPlace):
        if fault and isinstance(fault.place, Place):
            found = Within(taken.spool, None, taken).record(fault.place)
            message = explained_message(found, fault.place, fault.reason)
    return ExplainedFault(verdict, message)


def explained_message(found: FoundRecord, place: Place,
                      reason: str | None = None) -> ExplainedMessage:
    item, message = FirstLines(), FirstLines()
    tell_record(found, place, reason, item.take)
    if place.byte is not None:
        tell_record(found, place._replace(byte=None), None, message.take)
    return ExplainedMessage(item.all(), message.all())


def shown_messages(taken: Taken, names: Container[str], place: Place,
                   other: Place | None) -> tuple[Place, list[str]]:
    """Returns the position of an item with one of these names, if there is one, and what is said of
    its message, and of another that shows it."""
    within = Within(taken.spool, None, taken)
    found, found_other = within.record(place), other and within.record(other)
    others = items_in(found_other, other) if found_other and other else []
    item = item_of(items_in(found, place), names, others)
    at = place._replace(byte=item and item.begin)
    pieces = [*explained_message(found, at).pieces()]
    if found_other and other:
        same = item and item_of(others, (item.name,))
        it = explained_message(found_other, other._replace(byte=same and same.begin))
        pieces += markup.folded('others', 'the message that shows it', it.pieces(), ' open')
    return at, pieces


class FirstLines(list[str]):
    """The first lines of what is said, and how many are left."""
    more = 0

    def take(self, line: str) -> None:
        if len(self) < LINES_AT_MOST:
            self.append(printable(line))
        else:
            self.more += 1

    def all(self) -> list[str]:
        return [*self, *([f'.. and {self.more:,} lines more'] if self.more else [])]


def of_faults(seen: Sequence[Seen]) -> Iterator[str]:
    """What is refused: where, why, in which frames, and the fields of the message."""
    shown = numbered_faults(seen)
    more = sum(verdict.state == 'refused' for one in seen for verdict in one.verdicts) - len(shown)
    last = [f'<p id=more>.. and {count(more, "fault")} more.</p>'] if more else []
    if shown:
        yield from markup.section(
            count(len(shown) + more, 'fault'),
            chain(chain.from_iterable(starmap(of_fault, shown)), last), ' id=faults')


def of_fault(number: int, fault: ExplainedFault, seen: Seen) -> Iterator[str]:
    verdict, name = fault.verdict, escape(printable(subject_of(fault.verdict)))
    yield f'<article id=f{number}><h3><a href=#f{number}>{number}</a> {name}</h3>'
    filters = markup.filters(seen.parts, [frame.number for frame in verdict.frames])
    yield f'<p class=minus>{escape(printable(verdict.message))}{filters}</p>'
    if verdict.client:
        yield f'<p class=quiet>client {escape(verdict.client)}, server {escape(verdict.server)}</p>'
    yield from fault.message.pieces()
    yield from cause_and_commands(verdict)
    yield '</article>'


def cause_and_commands(verdict: Verdict) -> Iterator[str]:
    """What is likely the cause of a fault, and what to type next."""
    fault = verdict.fault
    if fault:
        yield f'<p>Likely cause: {escape(REASONS.get(fault.reason, NO_REASON)[1])}.</p>'
        if isinstance(fault.place, Place):
            yield markup.commands(markup.next_commands(verdict.recording, fault.place.brief,
                                                       bool(verdict.frames)))


def of_recording(number: int, seen: Seen, tables: Sequence[ShownTable], has_counts: bool,
                 is_of_validity: bool) -> Iterator[str]:
    """The time line of a recording, its own counts if that is asked for, and its tables: that of
    all its connections, and those of each folded."""
    shown = [of_table(table, 'h3') for table in tables]
    words = f'{count(len(shown) - 1, "table")} of single connections'
    counts = of_counts(counts_after(seen.verdicts), (), is_of_validity)
    pieces = chain(counts if has_counts else (),
                   of_time_line(seen.line, seen.recording, number) if seen.line else (), shown[:1],
                   markup.folded('others', words, shown[1:]) if shown[1:] else ())
    is_empty = seen.line is None and not shown
    return iter(()) if is_empty else markup.section(escape(escaped(seen.recording)), pieces)

"""Says what is to be known first of a recording: is it valid, what got no reply or an error, which
answers are wrong, what was slow, and who did it.

    tools/report [--html FILE] RECORDING|CAPTURE ..

The manual page, tools/man/report.1, has the rest.

The status is 0 if that of tools/verdicts is and tools/meaning finds nothing but notes, 1 if not,
2 and 3 as there. --html writes a page for a browser.
"""
from __future__ import annotations

import argparse
import contextlib
import shlex
from collections import Counter
from collections.abc import Iterator, Sequence
from functools import partial
from html import escape
from itertools import chain
from typing import NamedTuple

from ..exchanges.kept import UNTIMED, call_text
from ..judgement.known import Known
from ..judgement.tallies import milliseconds, who_of
from ..judgement.verdict import Verdict, not_ok, status_of, sums_of, tell_notes
from ..meaning.rules import NOTE, RULES
from ..pages import markup
from ..pages.judged import BAD, GOOD, PARTIAL, judged_page, of_table, table_of
from ..recordings.parts import files_in
from ..recordings.selection import count
from ..reporting.messages import add_recordings, allowed_of, command_of, parser_of
from ..shared.names import as_called
from ..shared.outputs import writing
from ..shared.printed import escaped, printable
from ..shared.screens import Colour, Screen, screen_of
from .calls import answer_of
from .meaning import (
    FINDING, FindingsReport, RecordingFindings, headline_of_findings)
from .procedures import most_first
from .verdicts import judge_of

LINES_OF_A_SECTION, USERS_AT_MOST = 4, 6  # that are printed
LOOK_COLOURS = {BAD: Colour.RED, PARTIAL: Colour.YELLOW, GOOD: Colour.GREEN}


class ReportSection(NamedTuple):
    """What is said of one question: a sum, some lines, how it looks, and the tool for more."""
    name: str
    total: str
    lines: Sequence[str] = ()
    look: str = ''
    tool: str = ''

    def shown(self) -> list[str]:
        more = len(self.lines) - LINES_OF_A_SECTION
        return [*filter(None, [self.total]), *self.lines[:LINES_OF_A_SECTION],
                *([f'.. and {more:,} more'] if more > 0 else [])]


def sections_of(found: RecordingFindings, verdicts: list[Verdict]) -> Iterator[ReportSection]:
    """Iterates over what is said of a recording."""
    kept, allowed = found.kept, allowed_of(found.chosen)
    wrong = [verdict for verdict in verdicts if verdict.state in ('refused', 'error')]
    look = BAD if wrong else PARTIAL if status_of(verdicts, allowed) else GOOD
    yield ReportSection('verdicts', sums_of(verdicts), not_ok(wrong or verdicts), look,
                        'tools/verdicts -q' if not_ok(verdicts) else '')
    silent = [*map(kept.exchange, filter(kept.is_unanswered, range(len(kept))))]
    yield ReportSection('no reply', count(len(silent), 'call'), [
        f'{found.position(one.at)} {call_text(one)}: {answer_of(one)}' for one in silent],
        PARTIAL if silent else '', 'tools/calls --no-reply' if silent else '')
    errors = Counter(chain.from_iterable(kept.errors.values()))
    yield ReportSection('errors', ', '.join(
        f'{name} {number:,}' for name, number in most_first(errors)) or 'none', (), '',
        'tools/calls --errors' if errors else '')
    yield of_meaning(found)
    slowest = [kept.exchange(at) for at in kept.in_order(True)[:LINES_OF_A_SECTION]
               if kept.latency(at) != UNTIMED]
    yield ReportSection('slowest', '' if slowest else 'no latency is known', [
        f'{milliseconds(one.latency)} ms {found.position(one.at)} {call_text(one)}'
        for one in slowest], '', 'tools/procedures --total' if slowest else '')
    users = Counter(who_of(kept.exchange(at)) for at in range(len(kept)))
    yield ReportSection('who', ', '.join(
        f'{name} {number:,}' for name, number in users.most_common(USERS_AT_MOST))
        + f', and {len(users) - USERS_AT_MOST:,} more' * (len(users) > USERS_AT_MOST),
        (), '', 'tools/procedures --total --by user' if users else '')


def of_meaning(found: RecordingFindings) -> ReportSection:
    """What is said of wrong answers: nothing is green if nothing was asked."""
    numbers = Counter[str]()
    for row in found.rows.values():
        numbers[row.kind] += row.found
    asked = found.looked.exchanges - found.looked_before
    return ReportSection(
        'meaning', f'{count(numbers[FINDING], FINDING)}, {count(numbers[NOTE], "note")} in '
        f'{count(asked, "call")} with a reply',
        [f'{row.rule} {row.found:,}, first {row.first}' for row in found.rows.values()
         if row.kind == FINDING], BAD if numbers[FINDING] else GOOD if asked else '',
        'tools/meaning --all' if numbers[FINDING] else '')


def lines_of_report(sections: Sequence[ReportSection], name: str,
                    screen: Screen) -> Iterator[str]:
    """Iterates over the lines of a recording: each section after its name, and what to do next."""
    width = max(len(one.name) for one in sections) + 2
    for one in sections:
        for number, line in enumerate(map(printable, one.shown())):
            colour = LOOK_COLOURS.get(one.look)
            yield (one.name if number == 0 else '').ljust(width) + screen.painted(line, colour)
    tools = [one.tool for one in sections if one.tool]
    yield from (f'{"" if number else "next":<{width}}{as_called(tool)} {shlex.quote(name)}'
                for number, tool in enumerate(tools))


def row_of_section(one: ReportSection) -> str:
    answer = ''.join(markup.paragraphs(map(printable, one.shown()), one.look))
    return f'<tr class=row><th>{one.name}</th><td>{answer}</td></tr>'


def report_page(told: FindingsReport,
                several: Sequence[Sequence[ReportSection]]) -> Iterator[bytes]:
    """The page: what is printed, and each fault and finding."""
    parts = chain.from_iterable(markup.section(escape(escaped(seen.recording)), markup.table(
        ('question', 'answer'), map(row_of_section, sections), 'runs'))
        for seen, sections in zip(told.seen, several))
    each = markup.section('Each finding', told.articles) if told.articles else ()
    return judged_page(told.seen, allowed_of(told.chosen), (),
                       headline=headline_of_findings(told),
                       last=chain(parts, each, [of_table(table_of(told.seen), 'h2')]))


def command_line_of_report(words: list[str]) -> argparse.Namespace:
    parser = parser_of(__doc__, 'report')
    parser.set_defaults(rule=frozenset(RULES), known=Known(), explain=None)
    parser.add_argument('--html', metavar='FILE', help='writes a page for a browser')
    add_recordings(parser)
    return parser.parse_args(words)


def main(words: list[str]) -> int:
    chosen = command_line_of_report(words)
    told, several = FindingsReport(chosen), list[list[ReportSection]]()
    screen = screen_of(chosen.color)
    with writing(files_in(chosen.recordings), (chosen.html, lambda: report_page(told, several))):
        judge = judge_of(chosen)
        for recording in chosen.recordings:
            found = RecordingFindings(recording, told)
            with contextlib.closing(found):
                verdicts = judge.verdicts(recording, partial(found.take, judge.program))
                told.add(found, verdicts)
                several.append([*sections_of(found, verdicts)])
            if chosen.recordings[1:]:
                print(f'{found.recording}:')
            print(*lines_of_report(several[-1], recording, screen), sep='\n')
        tell_notes(told.verdicts)
    return told.status


command = command_of(__name__, 'report', main)

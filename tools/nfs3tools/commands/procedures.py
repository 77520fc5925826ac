"""Counts calls, errors, bytes and latencies by procedure, user, client or path.

    tools/procedures [--by GROUP] [--total] [--sort COLUMN] [--width N] [--json FILE]
                     [--csv FILE] [--html FILE] RECORDING|CAPTURE ..
    tools/procedures --beside A B

The manual page, tools/man/procedures.1, has the rest.

The status is 0 if that of tools/verdicts is, and 1 to 3 as there; --allow-losses and
--allow-not-checked are the same.
"""
from __future__ import annotations

import argparse
import contextlib
import csv
import io
import json
import sys
import typing
from collections import Counter
from collections.abc import Iterator, Sequence

from ..exchanges.in_words import short
from ..judgement.tallies import (
    BY_PROCEDURE, GROUPINGS, Tallies, Tally, milliseconds, procedures_in_order, sum_of,
    tallies_of)
from ..judgement.verdict import (
    VERDICTS_VERSION, Verdict, colour_of, counts_after, is_row, kept_in, not_ok, status_of,
    subject_of, sums_of, tell_notes, verdict_members)
from ..judgement.window import add_window, window_of
from ..pages.judged import (
    Seen, ShownTable, headline_of, judged_page, row_of_cells, said_of, verdicts_in)
from ..pages.time_line import TimeLine, time_line_of, unit_of
from ..recordings.parts import files_in
from ..recordings.selection import count, plural
from ..recordings.taken import Taken
from ..reporting.messages import add_recordings, allowed_of, command_of, parser_of
from ..shared.outputs import writing
from ..shared.places import Place
from ..shared.printed import escaped, printable
from ..shared.screens import Colour, Screen, Styled, add_width, screen_of, table_lines
from .verdicts import Judge, judge_of

QUANTILES = (0.5, 0.99, 1)  # of the latencies: the median, the 99th percentile, and the longest
# The numbers of a row: their names in JSON and CSV, their heads, and the words that sort by them
NUMBER_NAMES, NUMBER_HEADS, NUMBER_WORDS = zip(
    ('calls', 'calls', 'calls'), ('again', 'again', 'again'), ('replies', 'replies', 'replies'),
    ('unanswered', 'no reply', 'no-reply'), ('call_bytes', 'call bytes', 'call-bytes'),
    ('reply_bytes', 'reply bytes', 'reply-bytes'), ('median_ns', 'median ms', 'median'),
    ('p99_ns', '99 % ms', 'p99'), ('most_ns', 'most ms', 'most'), ('mean_ns', 'mean ms', 'mean'),
    ('sum_ns', 'sum ms', 'sum'))
COUNT_COLUMNS, RANK_COLUMNS = slice(6), slice(6, None)  # of these: counts, and latencies
PROCEDURE_HEADS = (*NUMBER_HEADS, 'errors')  # after what is counted
PROCEDURE_NUMBERS = range(1, len(PROCEDURE_HEADS))  # the columns that are set to the right
LONGEST_COLUMN = 'longest'  # is before the errors in tables of one recording
IN_ALL = 'in all'
ON_PAGE = Screen(sys.maxsize)  # on which numbers are as on a terminal
# The columns by which rows are sorted: in the order of the RFC, or with the largest number first
SORT_COLUMNS = (*NUMBER_WORDS, 'errors')
SLOWER = 'slower'  # sorts two recordings by how much more time the calls took
# Where the columns of a page come from: latencies are right after the calls.
PAGE_ORDER = (0, 1, 7, 8, 9, 2, 3, 4, 5, 6)
SIZES_FROM = 4  # the first column whose change is printed in per cent


class TallyTable(typing.NamedTuple):
    """What is counted of a connection, or of all of a recording (then the verdict is None), or of
    all recordings (then there is no recording either), and by what."""
    recording: str | None
    verdict: Verdict | None
    tallies: Tallies
    group: str = BY_PROCEDURE

    def rows(self, column: str = BY_PROCEDURE) -> Iterator[tuple[str, Tally]]:
        """Iterates over the procedures, sorted by a column, and then all of them."""
        for name in sorted_by(column, procedures_in_order(self.tallies), self.tallies):
            yield name, self.tallies[name]
        yield IN_ALL, total_of(self.tallies)


def sorted_by(column: str, names: list[str], *several: Tallies) -> list[str]:
    """Returns names by the largest number of a column in several tables; those without are last."""
    if column == BY_PROCEDURE:
        return names
    if column == SLOWER:
        return sorted(names, key=lambda name: -time_lost(*(one.get(name) for one in several)))
    at = SORT_COLUMNS.index(column)
    def rank(name: str) -> tuple[bool, int]:
        found = ([*numbers_of(one[name]), sum(one[name].errors.values())][at]
                 for one in several if name in one)
        numbers = [number for number in found if number is not None]
        return not numbers, -max(numbers, default=0)
    return sorted(names, key=rank)


def time_lost(first: Tally | None = None, second: Tally | None = None) -> int:
    """Returns by how much the median has grown, times the calls of the second recording."""
    was, now = ((one or Tally()).ranked(QUANTILES[:1])[0] for one in (first, second))
    return 0 if was is None or now is None or second is None else (now - was) * second.calls


class CountedRecording(typing.NamedTuple):
    """A recording with what a page shows of it, the tables of its connections, and that of all."""
    seen: Seen
    tables: list[TallyTable]
    in_all: TallyTable


def total_of(tallies: Tallies) -> Tally:
    """Returns the sum of all procedures."""
    total = Tally()
    for tally in tallies.values():
        total.add(tally)
    return total


def numbers_of(tally: Tally) -> list[int | None]:
    """Returns the numbers of a row: the counts, and the latencies."""
    return [*(getattr(tally, name) for name in NUMBER_NAMES[COUNT_COLUMNS]),
            *tally.ranked(QUANTILES), tally.mean, tally.total]


def counted(judge: Judge, recording: str, chosen: argparse.Namespace) -> CountedRecording:
    """Judges a recording or capture, and counts the calls that are chosen of each connection that
    was judged. What a page shows is looked for if there is to be one."""
    tables, lines = list[TallyTable](), list[TimeLine]()

    def look(taken: Taken, verdicts: list[Verdict]) -> None:
        judged = {verdict.connection: verdict for verdict in verdicts}
        with contextlib.closing(kept_in(judge.program, taken, verdicts,
                                        has_texts=bool(chosen.html or chosen.by in GROUPINGS))
                                ) as kept:
            window = window_of(chosen, kept.begun)
            tables.extend(TallyTable(recording, judged[part.number], tallies_of(
                kept, recording, number, window, chosen.by), chosen.by)
                          for number, part in enumerate(kept.parts))
            if chosen.html:
                lines.append(time_line_of(kept, window))
    verdicts = judge.verdicts(recording, look)
    in_all = TallyTable(recording, None, sum_of(table.tallies for table in tables), chosen.by)
    return CountedRecording(Seen(recording, verdicts, line=lines[0] if lines else None), tables,
                            in_all)


def tally_row(name: str, tally: Tally, is_named: bool, screen: Screen) -> Styled:
    """A row. The longest latency is named by its recording, or not."""
    cells = [short(name), *number_texts(numbers_of(tally), screen), longest_of(tally, is_named),
             ', '.join(f'{error} {screen.number(number)}'
                       for error, number in most_first(tally.errors)) or '-']
    return Styled(cells, Colour.RED if tally.errors else None)


def number_texts(numbers: Sequence[int | None], screen: Screen) -> list[str]:
    """The numbers of a row as they are printed."""
    return [*(screen.number(number or 0) for number in numbers[COUNT_COLUMNS]),
            *(milliseconds(rank, screen) for rank in numbers[RANK_COLUMNS])]


def longest_of(tally: Tally, is_named: bool) -> str:
    longest = tally.longest
    if longest is None:
        return '-'
    place = f'{longest.connection}:{longest.record} frame {longest.frame}'
    return printable(f'{escaped(longest.recording)} {place}') if is_named else place


def most_first(errors: Counter[str]) -> list[tuple[str, int]]:
    return sorted(errors.items(), key=lambda error: (-error[1], error[0]))


def print_table(title: str, table: TallyTable, column: str, screen: Screen) -> None:
    """Prints an empty line, a title and a table below it, if there is something in it."""
    print(f'\n{title}{told_of_clock(total_of(table.tallies))}')
    if not table.tallies:
        return
    rows = table_rows(table, column, screen)
    print(*table_lines(rows, screen, PROCEDURE_NUMBERS, is_cut=True), sep='\n')


def table_rows(table: TallyTable, column: str, screen: Screen) -> list[Styled]:
    """The rows of a table, that of the heads first."""
    return [Styled((table.group, *NUMBER_HEADS, LONGEST_COLUMN, PROCEDURE_HEADS[-1])),
            *(tally_row(*row, table.recording is None, screen) for row in table.rows(column))]


def told_of_clock(tally: Tally) -> str:
    number = tally.backward
    are = plural(number, 'latency is', 'latencies are')
    return f'; the clock went back: {number:,} {are} negative' if number else ''


def table_title(verdict: Verdict, message: str, screen: Screen = Screen()) -> str:
    ends = f': client {verdict.client}, server {verdict.server}' if verdict.client else ''
    how_far = '; counted up to there' if verdict.state == 'refused' else ''
    word = screen.painted(printable(message), colour_of(verdict))
    return f'{printable(f"{subject_of(verdict)}{ends}")}: {word}{how_far}'


def print_tables(found: Sequence[CountedRecording], is_total: bool, column: str,
                 screen: Screen) -> None:
    """Prints the tables of each recording, and what is said of it that is none of a connection."""
    for one in found:
        for table in [] if is_total else one.tables:
            assert table.verdict
            title = table_title(table.verdict, table.verdict.message, screen)
            print_table(title, table, column, screen)
        for verdict in one.seen.verdicts:
            if is_row(verdict) and (verdict.state == 'error' or verdict.connection is None):
                print('\n' + table_title(verdict, verdict.message, screen))
        title = printable(f'{escaped(one.seen.recording)} in all: {sums_of(one.seen.verdicts)}')
        print_table(title, one.in_all, column, screen)
    if len(found) > 1:
        sums = sums_of(verdicts_in(one.seen for one in found))
        print_table(f'all recordings: {sums}', in_all_of(found), column, screen)


def in_all_of(found: Sequence[CountedRecording]) -> TallyTable:
    return TallyTable(None, None, sum_of(one.in_all.tallies for one in found),
                      found[0].in_all.group)


def print_beside(first: CountedRecording, second: CountedRecording, column: str,
                 screen: Screen) -> None:
    for name, one in zip('AB', (first, second)):
        seen, told = one.seen, told_of_clock(total_of(one.in_all.tallies))
        title = printable(f'{name}: {escaped(seen.recording)}: {sums_of(seen.verdicts)}{told}')
        print(*not_ok(seen.verdicts), title, sep='\n')
    rows = rows_beside(first, second, column, screen)
    print(*table_lines(rows, screen, PROCEDURE_NUMBERS, is_cut=True), sep='\n')


def rows_beside(first: CountedRecording, second: CountedRecording, column: str,
                screen: Screen) -> list[Styled]:
    here, there = (dict(one.in_all.rows()) for one in (first, second))
    names = [*sorted_by(column, procedures_in_order({*here, *there} - {IN_ALL}), here, there),
             IN_ALL]
    return [Styled((first.in_all.group, *PROCEDURE_HEADS)), *(
        Styled(cells_beside(name, here.get(name, Tally()), there.get(name, Tally()), screen))
        for name in names)]


def cells_beside(name: str, first: Tally, second: Tally, screen: Screen) -> list[str]:
    """The cells of a row about two recordings."""
    both = numbers_of(first), numbers_of(second)
    numbers = zip(*(number_texts(one, screen) for one in both), *both)
    errors = (f'{error} ' + both_cells(*(screen.number(tally.errors[error])
                                         for tally in (first, second)))
              for error, _ in most_first(first.errors + second.errors))
    changes = (both_cells(here, there, percent_change(number, other) * (at >= SIZES_FROM))
               for at, (here, there, number, other) in enumerate(numbers))
    return [short(name), *changes, ', '.join(errors) or '-']


def both_cells(first: str, second: str, change: str = '') -> str:
    """What both recordings have, or else what each of them has, and the change."""
    return first if first == second else f'{first} -> {second}{change}'


def percent_change(first: int | None, second: int | None) -> str:
    """The change in per cent, if there is something that it is of."""
    return (f' ({round(100 * (second - first) / first):+d} %)' if first and second is not None
            else '')


def procedures_page(found: Sequence[CountedRecording],
                    chosen: argparse.Namespace) -> Iterator[bytes]:
    """The page: the tables that are printed, and a time line for each recording."""
    column, whole, of_each = chosen.sort, list[ShownTable](), list[list[ShownTable]]()
    if chosen.beside:
        names = [escaped(one.seen.recording) for one in found]
        whole = [shown_of(f'A: {names[0]} | B: {names[1]}',
                          rows_beside(found[0], found[1], column, ON_PAGE))]
    else:
        if len(found) > 1:
            whole = [shown_table('all recordings', in_all_of(found), column)]
        of_each = [[shown_table('in all', one.in_all, column),
                    *(shown_table(table_title(table.verdict, said_of(table.verdict)), table, column)
                      for table in one.tables if table.verdict and not chosen.total)]
                   for one in found]
    seen, allowed = [one.seen for one in found], allowed_of(chosen)
    silent = counts_after(verdicts_in(seen)).unanswered or 0
    words = ', '.join(filter(None, [
        count(sum(verdict.calls or 0 for verdict in verdicts_in(seen)), 'call'),
        f'{silent:,} without a reply', slowest_of(in_all_of(found).tallies),
        *(slower_of(*(one.in_all.tallies for one in found)) if chosen.beside else ())]))
    return judged_page(seen, allowed, whole, of_each, headline_of(seen, allowed, words))


def slowest_of(tallies: Tallies) -> str:
    """Returns which procedure had the longest latency, and how long that was."""
    name, tally = max(tallies.items(), default=('', Tally()), key=lambda one: (
        one[1].longest or (-1,))[0])
    most = tally.longest
    return f'slowest {short(name)} {duration_text(most.latency)}' if most else ''


def slower_of(first: Tallies, second: Tallies) -> Iterator[str]:
    """What became slower most, if anything did."""
    both = first.keys() & second.keys()
    name = max(both, default='', key=lambda one: time_lost(first[one], second[one]))
    if name and time_lost(first[name], second[name]) > 0:
        was, now = (one[name].ranked(QUANTILES[:1])[0] or 0 for one in (first, second))
        yield (f'{short(name)} became slower: median {duration_text(was)} -> {duration_text(now)}')


def duration_text(nanoseconds: int) -> str:
    """Returns a duration in its own unit, as `1.2 s`."""
    power, unit = unit_of(len(str(max(1, nanoseconds))) - 1)
    return f'{nanoseconds / 10 ** power:.3g} {unit}'


def shown_table(title: str, table: TallyTable, column: str) -> ShownTable:
    return shown_of(title + told_of_clock(total_of(table.tallies)),
                    table_rows(table, column, ON_PAGE))


def shown_of(title: str, styled: Sequence[Styled]) -> ShownTable:
    """The same of rows. Errors come last, and are folded."""
    places = [*PAGE_ORDER, *range(len(PAGE_ORDER), len(styled[0].cells))]
    heads, *rows = ([row.cells[at] for at in places] for row in styled)
    numbers = [at for at, head in enumerate(heads) if head in NUMBER_HEADS]
    return ShownTable(title, heads, [row_of_cells(cells, numbers, look='folded') for cells in rows])


def tally_object(name: str, tally: Tally, group: str = BY_PROCEDURE) -> dict[str, typing.Any]:
    numbers, longest = numbers_of(tally), tally.longest
    position = longest and str(Place(longest.connection, 'client', longest.record))
    counts, ranks = ([*zip(NUMBER_NAMES, numbers)][part] for part in (COUNT_COLUMNS, RANK_COLUMNS))
    return {group: name, **dict(counts), 'errors': dict(most_first(tally.errors)),
            'latencies': len(tally.latencies), **dict(ranks), 'most_position': position,
            'most_frame': longest and longest.frame, 'negative': tally.backward}


def whose(table: TallyTable) -> dict[str, typing.Any]:
    verdict = table.verdict or Verdict('')
    return {'recording': None if table.recording is None else escaped(table.recording),
            'connection': verdict.connection, 'client': verdict.client, 'server': verdict.server}


def json_of_tables(found: Sequence[CountedRecording], column: str) -> bytes:
    """The verdicts and the tables; of each the last object of its procedures is the sum."""
    verdicts = verdicts_in(one.seen for one in found)
    tables = [{**whose(table), 'procedures': [tally_object(*row, table.group)
                                              for row in table.rows(column)]}
              for one in found for table in (*one.tables, one.in_all)]
    whole = {'version': VERDICTS_VERSION, **verdict_members(verdicts), 'tables': tables}
    return json.dumps(whole, indent=1).encode() + b'\n'


def csv_of(found: Sequence[CountedRecording], column: str) -> bytes:
    """The tables in one, without sums. The rows of a recording in all have no connection."""
    text = io.StringIO()
    rows = [{**whose(table), **tally_object(*row, table.group),
             'errors': ' '.join(f'{name}={number}' for name, number in most_first(row[1].errors))}
            for one in found for table in (*one.tables, one.in_all) for row in table.rows(column)
            if row[0] != IN_ALL]
    heads = [*whose(TallyTable(None, None, {})),
             *tally_object('', Tally(), found[0].in_all.group)]
    writer = csv.DictWriter(text, heads)
    writer.writeheader()
    writer.writerows(rows)
    return text.getvalue().encode()


def command_line_of_procedures(words: list[str]) -> argparse.Namespace:
    parser = parser_of(__doc__, 'procedures')
    parser.add_argument('--beside', action='store_true',
                        help='prints two recordings side by side, with what changed')
    parser.add_argument('--by', choices=[BY_PROCEDURE, *GROUPINGS], default=BY_PROCEDURE,
                        help='what has a row: each procedure, or each user, client or path')
    parser.add_argument('--total', action='store_true', help='prints no tables of connections')
    parser.add_argument('--sort', metavar='COLUMN',
                        choices=[BY_PROCEDURE, *SORT_COLUMNS, SLOWER],
                        help=f'has the largest of a column first: {", ".join(SORT_COLUMNS)}, or '
                             f'of two recordings what became slower: {SLOWER}')
    parser.add_argument('--json', metavar='FILE', help='writes the verdicts and the tables as JSON')
    parser.add_argument('--csv', metavar='FILE', help='writes the tables as comma-separated values')
    parser.add_argument('--html', metavar='FILE',
                        help='writes a page for a browser, with the tables and latencies')
    add_window(parser)
    add_width(parser)
    add_recordings(parser)
    chosen = parser.parse_args(words)
    if chosen.beside and len(chosen.recordings) != 2:
        parser.error('--beside takes two recordings')
    if chosen.sort == SLOWER and not chosen.beside:
        parser.error(f'--sort {SLOWER} takes --beside')
    chosen.sort = chosen.sort or (SLOWER if chosen.beside else BY_PROCEDURE
                                  if chosen.by == BY_PROCEDURE else SORT_COLUMNS[0])
    return chosen


def main(words: list[str]) -> int:
    chosen = command_line_of_procedures(words)
    with writing(files_in(chosen.recordings),
                 (chosen.json, lambda: [json_of_tables(found, chosen.sort)]),
                 (chosen.csv, lambda: [csv_of(found, chosen.sort)]),
                 (chosen.html, lambda: procedures_page(found, chosen))):
        judge = judge_of(chosen)
        found = [counted(judge, recording, chosen) for recording in chosen.recordings]
        verdicts = verdicts_in(one.seen for one in found)
        tell_notes(verdicts)
        screen = screen_of(chosen.color, chosen.width)
        if chosen.beside:
            print_beside(found[0], found[1], chosen.sort, screen)
        else:
            print_tables(found, chosen.total, chosen.sort, screen)
    return status_of(verdicts, allowed_of(chosen))


command = command_of(__name__, 'procedures', main)

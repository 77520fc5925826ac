"""Lists each call with its answer: which failed, which took long, and in which frame they are.

    tools/calls --errors RECORDING|CAPTURE ..
    tools/calls --slow 100ms --procedure WRITE,COMMIT --path '/d*' RECORDING ..
    tools/calls --no-reply --utc --from 10:03 --to 10:05:30 RECORDING ..

The manual page, tools/man/calls.1, has the rest.

The status is 0 if that of tools/verdicts is, whatever is listed. It is 1 to 3 as there;
--allow-losses and --allow-not-checked are the same.
"""
from __future__ import annotations

import argparse
import contextlib
import fnmatch
import ipaddress
import os
import re
import sys
import typing
from collections.abc import Callable, Iterator, Sequence

from ..comparison.values.long_values import bytes_of
from ..exchanges.in_words import short
from ..exchanges.kept import WIDTH, Kept, KeptExchange, call_text, host_of
from ..judgement.tallies import GROUPINGS, milliseconds, who_of
from ..judgement.verdict import (
    VERDICTS_VERSION, Verdict, kept_in, not_ok, status_of, sums_of, tell_notes, verdict_members)
from ..judgement.window import ALL, DAY, add_window, window_of
from ..recordings.coverage import PROCEDURES, call_named
from ..recordings.selection import count, plural
from ..reporting.messages import add_recordings, allowed_of, command_of, parser_of
from ..reporting.rows import add_forms, form_of
from ..shared.layouts import BY_NUMBER
from ..shared.printed import escaped, like, near, printable
from ..shared.screens import Colour, Screen, screen_of
from .verdicts import Judge, judge_of

CALL_HEADS = ('time', 'ms', 'frame', 'conn', 'who', 'call', 'answer')  # `who` if asked for
WHO = CALL_HEADS.index('who')
NOT_RIGHT = 2  # columns that are not set to the right, the last ones
WIDEST = 72  # of the calls
KNOWN_AT_MOST = 12  # users, clients, procedures or paths that are named
LINES_AT_ONCE = 1_000  # lines whose columns are set together
NANOSECONDS_OF_UNIT = {'us': 1_000, 'ms': 1_000_000, 's': 1_000_000_000}
CALL_COLUMNS = ('recording', 'connection', 'record', 'client', 'server', 'frame', 'time_ns',
                'latency_ns', 'user', 'procedure', 'path', 'second_path', 'other_names',
                'arguments', 'sent_again', 'earlier', 'later', 'answer', 'waited_ns', 'is_error',
                'replies')
# The last names of procedures, also of those of other programs.
LAST_NAMES = {**{one.name: one.last for one in BY_NUMBER.values()}, **{
    call_named(program, version, number): name for (program, version), some in PROCEDURES.items()
    for number, name in enumerate(some)}}
Condition = Callable[[KeptExchange], bool]


class ListedRecording(typing.NamedTuple):
    """A recording whose exchanges are listed: its name, from when times count, `None` for the time
    of day, and the numbers of those that are wanted."""
    recording: str
    begun: int | None
    kept: Kept
    wanted: Sequence[int]

    def exchanges(self) -> Iterator[KeptExchange]:
        return map(self.kept.exchange, self.wanted)


def wanted_by(chosen: argparse.Namespace) -> list[Condition]:
    # (a word alone is a last name)
    path = chosen.path or ''
    pattern = path if set(path) & set('*?[/') else f'*/{path}'
    fits = re.compile(fnmatch.translate(pattern)).match
    conditions: list[tuple[bool, Condition]] = [
        (chosen.errors, lambda one: one.is_error),
        (chosen.no_reply, lambda one: one.is_unanswered),
        (chosen.slow is not None,
         lambda one: bool((one.latency or one.waited or 0) >= chosen.slow)),
        (bool(chosen.procedure),
         lambda one: LAST_NAMES.get(one.procedure, '') in chosen.procedure),
        (chosen.user is not None, lambda one: bool(one.asked.user == chosen.user)),
        (bool(chosen.client), lambda one: bool(host_of(one.part.client) == chosen.client)),
        (chosen.path is not None, lambda one: any(
            path is not None and fits(os.fsdecode(bytes_of(f'"{path}"')) if '\\' in path else path)
            for path in (one.path, one.other_path, *one.other_names)))]
    return [holds for is_given, holds in conditions if is_given]


def listed(judge: Judge, recording: str, chosen: argparse.Namespace,
           verdicts: list[Verdict]) -> ListedRecording:
    """Judges a recording, adds its verdicts, and returns the exchanges of what was judged."""
    found = list[Kept]()
    verdicts += judge.verdicts(recording, lambda taken, judged: found.append(
        kept_in(judge.program, taken, judged)))
    kept = (found or [Kept()])[0]
    order, conditions = kept.in_order(chosen.sort == 'latency'), wanted_by(chosen)
    window = window_of(chosen, kept.begun)
    if window != ALL:
        order = [at for at in order if window.has(kept.times[at])]
    if conditions:
        order = [at for at, one in zip(order, map(kept.exchange, order))
                 if all(holds(one) for holds in conditions)]
    return ListedRecording(recording, None if chosen.utc else kept.begun, kept, order)


def call_time(time: int, begun: int | None) -> str:
    """A time as seconds from the first frame, or as that of the day (UTC), `10:03:07.250000`."""
    if not time:
        return '-'
    if begun is not None:
        return f'{(time - begun) / 1_000_000_000:.6f}'
    seconds, rest = divmod(time % DAY, 1_000_000_000)
    return f'{seconds // 3_600:02}:{seconds // 60 % 60:02}:{seconds % 60:02}.{rest // 1_000:06}'


def cells_of(one: KeptExchange, begun: int | None) -> tuple[str, ...]:
    answer = one.answer if one.kept.firsts[one.at] else answer_of(one)
    return (call_time(one.time, begun), milliseconds(one.latency), str(one.frame or '-'),
            f'{one.part.number}:{one.record}', who_of(one), call_text(one, WIDTH), answer)


def answer_of(one: KeptExchange) -> str:
    """What is said of a call without a reply: also for how long it waited."""
    if one.waited is None:
        return one.answer
    answered = one.kept.position(one.kept.answered_later(one.at))
    later = f'answered as {answered}' if answered else one.later and f'sent again as {one.later}'
    waited = f'{one.answer} in {one.waited / 1_000_000_000:.3f} s'
    return f'{waited}, {later}' if later else waited


class AlignedLines:
    """Lines of cells in columns. Blocks never get narrower, and a long call moves its answer."""

    def __init__(self, screen: Screen, has_who: bool) -> None:
        self.screen, self.has_who, self.rows = screen, has_who, list[tuple[str, ...]]()
        self.errors = set[int]()  # rows whose answers are errors
        self.add(CALL_HEADS, False)
        self.widths = [0] * (len(self.rows[0]) - 1)

    def add(self, row: tuple[str, ...], is_error: bool) -> None:
        if is_error:
            self.errors.add(len(self.rows))
        self.rows.append(row if self.has_who else (*row[:WHO], *row[WHO + 1:]))
        if len(self.rows) > LINES_AT_ONCE:
            self.print()

    def print(self) -> None:
        columns = zip(self.widths, zip(*self.rows))
        self.widths = [max(width, *map(len, column)) for width, column in columns]
        self.widths[-1] = min(self.widths[-1], WIDEST)
        right = (f'{{:>{width}}}' for width in self.widths[:1 - NOT_RIGHT])
        line = '  '.join([*right, f'{{:<{self.widths[-1]}}}', '{}'])
        sys.stdout.writelines(self.styled(number, row, line.format(*row)) + '\n'
                              for number, row in enumerate(self.rows))
        self.rows, self.errors = [], set()

    def styled(self, number: int, row: tuple[str, ...], line: str) -> str:
        colour = Colour.RED if number in self.errors else None
        return line[:len(line) - len(row[-1])] + self.screen.painted(row[-1], colour)


def tell_verdicts(verdicts: list[Verdict]) -> None:
    """Prints on standard error which connections are not judged whole, with all notes."""
    tell_notes(verdicts)
    for line in not_ok(verdicts):
        print(line, file=sys.stderr)


def tell_of_times(found: ListedRecording, chosen: argparse.Namespace) -> None:
    """Says on standard error if an option asks for latencies or addresses that are not there, and
    what there is if nothing is listed."""
    kept, number = found.kept, found.kept.backward
    are = plural(number, 'latency is', 'latencies are')
    lines = [
        (number, f'the clock went back: {number:,} {are} negative'),
        (chosen.slow is not None and len(kept) and not kept.has_latencies,
         'no latency is known, so --slow lists nothing'),
        ((chosen.begin or chosen.end) and len(kept) and not any(kept.times),
         'no time is known, so --from and --to list nothing'),
        (chosen.client and any(not part.client for part in kept.parts),
         'a capture has no addresses, so --client lists nothing')]
    for line in (*(line for is_so, line in lines if is_so), *what_there_is(found, chosen)):
        print(printable(f'{escaped(found.recording)}: {line}'), file=sys.stderr)


def what_there_is(found: ListedRecording, chosen: argparse.Namespace) -> Iterator[str]:
    """If nothing is listed, what there is of each kind that was chosen."""
    kept = found.kept
    every = [] if found.wanted else [*map(kept.exchange, range(len(kept)))]
    for word, what, name_of in (
            (chosen.user, 'users', GROUPINGS['user']),
            (chosen.client, 'clients', GROUPINGS['client']),
            (chosen.procedure, 'procedures', lambda one: short(one.procedure)),
            (chosen.path, 'paths', GROUPINGS['path'])):
        is_chosen = word is not None and word != frozenset()
        names = sorted({*map(name_of, every)} - {'-'} if is_chosen else ())
        some = names if len(names) <= KNOWN_AT_MOST else [
            *like(str(word), names), *names][:KNOWN_AT_MOST] + ['..']
        if names:
            yield f'{what}: {", ".join(some)}'
    times = [one.time for one in every if one.time and (chosen.begin or chosen.end)]
    if times:
        ends = (call_time(end, found.begun) for end in (min(times), max(times)))
        yield f'times: {" to ".join(ends)}'


def column_values(one: KeptExchange, recording: str, is_line: bool) -> Sequence[object]:
    """The values of CALL_COLUMNS; of the replies objects, or in a line their number."""
    part, names, replies = one.part, one.other_names, [
        {'record': reply.record, 'frame': reply.frame or None, 'answer': words}
        for reply, words in zip(one.answered, one.answers)]
    return (escaped(recording), part.number, one.record, part.client, part.server,
            one.frame or None, one.time or None, one.latency, one.asked.user, one.procedure,
            one.path, one.other_path, ' '.join(names) if is_line else names, one.asked.words,
            len(one.again), one.earlier, one.later, one.answer, one.waited, one.is_error,
            len(replies) if is_line else replies)


class Text:
    """Lines for a reader. Those of several recordings come after their names."""

    def __init__(self, is_one: bool, screen: Screen, has_who: bool) -> None:
        self.is_one, self.screen, self.number, self.all = is_one, screen, 0, 0
        self.has_who = has_who

    def add(self, found: ListedRecording) -> None:
        lines = AlignedLines(self.screen, self.has_who)
        if not self.is_one:
            print(f'{escaped(found.recording)}:')
        for one in found.exchanges():
            lines.add(cells_of(one, found.begun), one.is_error)
        lines.print()
        self.number, self.all = self.number + len(found.wanted), self.all + len(found.kept)

    def end(self) -> None:
        print(count(self.all, 'exchange') if self.number == self.all
              else f'{self.number:,} of {count(self.all, "exchange")}')


def duration(word: str) -> int:
    """The nanoseconds of a time, as `100ms`."""
    found = re.fullmatch(r'(\d{1,9}(?:\.\d{1,9})?)(us|ms|s)', word)
    if not found:
        raise argparse.ArgumentTypeError(f'no time: {word} (as in 100ms, 1.5s or 250us)')
    return round(float(found[1]) * NANOSECONDS_OF_UNIT[found[2]])


def procedure_names(word: str) -> frozenset[str]:
    words = (name.strip() for name in word.upper().split(','))
    names = frozenset(LAST_NAMES.get(name) or name.rpartition(' ')[2] for name in words)
    for name in names - {*LAST_NAMES.values()}:
        meant = near(name, LAST_NAMES.values()) or ' (as in WRITE,COMMIT)'
        raise argparse.ArgumentTypeError(f'no procedure: {name}{meant}')
    return names


def address(word: str) -> str:
    """An address of IPv4 or IPv6, as the ends of connections have it."""
    try:
        found = ipaddress.ip_address(word.strip('[]'))
        return f'[{found}]' if found.version == 6 else str(found)
    except ValueError:
        raise argparse.ArgumentTypeError(
            f'no address: {word} (as in 192.0.2.7 or 2001:db8::7)') from None


def user_id(word: str) -> int:
    if not (word.isascii() and word.isdigit()):
        raise argparse.ArgumentTypeError(f'no uid: {word} (a number, as `id -u` prints it)')
    return int(word)


def command_line_of_calls(words: list[str]) -> argparse.Namespace:
    parser = parser_of(__doc__, 'calls')
    parser.add_argument('--errors', action='store_true',
                        help='lists calls whose reply is no success, or that got none')
    parser.add_argument('--no-reply', action='store_true',
                        help='lists calls that got no reply, or one on a later connection alone')
    parser.add_argument('--slow', metavar='TIME', type=duration,
                        help='lists calls with at least this latency, as 100ms, or that waited '
                             'as long')
    parser.add_argument('--procedure', metavar='NAME,..', type=procedure_names,
                        help='lists calls of these procedures')
    parser.add_argument('--path', metavar='PATTERN', help='lists calls whose path fits a pattern')
    parser.add_argument('--user', metavar='UID', type=user_id,
                        help='lists calls of this user by AUTH_SYS')
    parser.add_argument('--client', metavar='ADDRESS', type=address,
                        help='lists calls of the client with this address')
    parser.add_argument('--who', action='store_true',
                        help='prints the user and the client of each call')
    parser.add_argument('--sort', choices=['time', 'latency'], default='time',
                        help='the order of the lines; by latency the longest is first')
    add_forms(parser)
    parser.add_argument('--utc', action='store_true',
                        help='prints the time of day (UTC) of each call')
    add_window(parser)
    add_recordings(parser)
    return parser.parse_args(words)


def main(words: list[str]) -> int:
    chosen, verdicts = command_line_of_calls(words), list[Verdict]()
    judge, form = judge_of(chosen), form_of(chosen, VERDICTS_VERSION, 'calls', CALL_COLUMNS)
    text = Text(len(chosen.recordings) == 1, screen_of(chosen.color), chosen.who)
    for recording in chosen.recordings:
        found = listed(judge, recording, chosen, verdicts)
        with contextlib.closing(found.kept):
            if form:
                form.add(column_values(one, recording, chosen.csv) for one in found.exchanges())
            else:
                text.add(found)
            tell_of_times(found, chosen)
    tell_verdicts(verdicts)
    if form:
        form.end(verdict_members(verdicts))
    else:
        text.end()
    if not chosen.json:
        print(sums_of(verdicts), file=sys.stderr if form else sys.stdout)
    return status_of(verdicts, allowed_of(chosen))


command = command_of(__name__, 'calls', main)

"""A time line of latencies as SVG: a dot for each call, whose height is its latency on a log scale.

Places from left to right are parts of the width in per cent, so the line is as wide as its page,
and its texts keep their size.
"""
from __future__ import annotations

import math
from collections.abc import Iterable, Iterator, Sequence
from html import escape
from typing import NamedTuple

from ..exchanges.kept import Kept, KeptExchange, call_text
from ..judgement.tallies import milliseconds
from ..judgement.window import ALL, TimeWindow
from ..recordings.selection import count, plural
from .markup import commands, next_commands, paragraphs

PIXEL_COLUMNS = 1_000  # of pixels, into which dots are sorted
DOTS_AT_MOST = 2_000  # of which none is left out
ERRORS_AT_MOST = 10_000
WORDS_AT_MOST = 240  # characters of a dot's title
HEIGHT, SCALE_TOP, SCALE_BOTTOM = 330, 44, 290  # of the line, and of the scale in it
LANE = 18  # the height of calls without a latency
TICKS_AT_MOST = 6
NO_LATENCIES = (1_000, 1_000_000)  # nanoseconds, on a scale without any
# The forms of dots, once for a page: of a call that was answered, of an error, and of a call of
# which no reply is recorded.
FORMS = ('<svg class=forms><defs><circle id=good r=3 class=good />'
         '<path id=bad class=bad d="M0-4.5L4.5 3.5H-4.5Z" />'
         '<circle id=open r=3.5 class=open /></defs></svg>')
UNITS = ((9, 's'), (6, 'ms'), (3, '\u00b5s'), (0, 'ns'))


class Dot(NamedTuple):
    """A call: nanoseconds from the first frame of the recording, its latency, None if it has none,
    whether it failed, what is said of it, and its position."""
    time: int
    latency: int | None
    is_error: bool
    words: str
    place: str = ''


class TimeLine(NamedTuple):
    """Some dots of the calls of a recording, and how many of its errors are not among them.

    The last of all calls begins after `end` nanoseconds; some may have no time."""
    dots: Sequence[Dot]
    end: int
    calls: int
    errors: int = 0
    untimed: int = 0


def of_time_line(line: TimeLine, name: str = '', number: int = 1) -> Iterator[str]:
    """The time line, and below it what its forms mean, how many calls are left out, and room for
    the call of the dot that is chosen, by the name of its recording and its own number."""
    if line.dots:
        scale = Scale(line, f'#call{number}')
        yield f'<svg class=line height={HEIGHT} role=img aria-label="latencies over time">'
        yield from scale.axes()
        yield from map(scale.dot, line.dots)
        yield '</svg>'
        yield ('<p class=quiet><svg class=key><use href=#good x=8 y=8 /></svg> answered '
               '<svg class=key><use href=#bad x=8 y=8 /></svg> an error, or no reply '
               '<svg class=key><use href=#open x=8 y=8 /></svg> no reply recorded</p>')
    yield from paragraphs(drawn_in_words(line), 'quiet')
    if line.dots:
        yield (f'<div id=call{number} class=chosen><p class=quiet>A click on a dot shows its call '
               f'here.</p><div hidden>{commands(next_commands(name, "PLACE"))}</div></div>')


def drawn_in_words(line: TimeLine) -> Iterator[str]:
    """How many calls are drawn, and which are left out."""
    drawn = len(line.dots)
    if line.untimed:
        are = plural(line.untimed, 'call has', 'calls have')
        yield f'{line.untimed:,} {are} no time, and {plural(line.untimed, "is", "are")} not drawn.'
    left = line.calls - line.untimed - drawn
    if not line.calls:
        yield 'No call was judged.'
    elif not left and drawn:
        yield f'{count(drawn, "call")} {plural(drawn, "is", "are")} drawn.'
    elif drawn:
        errors = f', {line.errors:,} of them errors' if line.errors else ''
        yield (f'{drawn:,} of {count(line.calls - line.untimed, "call")} are drawn: errors, calls '
               f'without a reply, and the slowest call of each pixel column. {left:,} are left '
               f'out{errors}.')


class Scale:
    """Where the dots of a line are."""

    def __init__(self, line: TimeLine, target: str) -> None:
        self.end, self.target = max(1, line.end), target
        known = [dot.latency for dot in line.dots if dot.latency is not None and dot.latency > 0]
        known = known or [*NO_LATENCIES]
        self.low = math.floor(math.log10(min(known)))
        self.high = max(self.low + 1, math.ceil(math.log10(max(known))))

    def across(self, time: int) -> str:
        # (the clock may have gone back to before the first frame)
        return f'{100 * max(0, time) / self.end:.2f}%'

    def down(self, latency: int | None) -> float:
        """Returns the height of a latency. One that is not positive is at the bottom."""
        if latency is None:
            return LANE
        part = (math.log10(latency) - self.low) / (self.high - self.low) if latency > 0 else 0.0
        return round(SCALE_BOTTOM - part * (SCALE_BOTTOM - SCALE_TOP), 1)

    def dot(self, dot: Dot) -> str:
        form = 'bad' if dot.is_error else 'good' if dot.latency is not None else 'open'
        return (f'<a href={self.target} data-place={dot.place or "-"}><use href=#{form} '
                f'x={self.across(dot.time)} y={self.down(dot.latency):g}>'
                f'<title>{escape(dot.words)}</title></use></a>')

    def axes(self) -> Iterator[str]:
        """A line and a label for each decade, for times, and for calls without a latency."""
        yield svg_text(-8, LANE + 4, 'no reply', 'end')
        yield f'<line x2=100% y1={LANE} y2={LANE} class=lane />'
        for decade in range(self.low, self.high + 1):
            height, (power, unit) = self.down(10 ** decade), unit_of(decade)
            yield f'<line x2=100% y1={height:g} y2={height:g} />'
            yield svg_text(-8, height + 4, f'{10 ** (decade - power):,} {unit}', 'end')
        power, unit = unit_of(math.floor(math.log10(self.end)))
        for time in ticks(self.end):
            at = self.across(time)
            yield (f'<line x1={at} x2={at} y1={SCALE_TOP} y2={SCALE_BOTTOM + 5} />'
                   f'{svg_text(at, SCALE_BOTTOM + 20, f"{time / 10 ** power:g} {unit}", "middle")}')
        yield svg_text('100%', HEIGHT - 4, 'time from the first frame', 'end')
        yield svg_text(-60, HEIGHT - 4, 'latency, log scale', 'start')


def svg_text(across: float | str, down: float, words: str, anchor: str) -> str:
    return f'<text x={across} y={down:g} text-anchor={anchor}>{escape(words)}</text>'


def unit_of(decade: int) -> tuple[int, str]:
    """Returns the unit in which a power of ten of nanoseconds is named, and its own power."""
    return next(one for one in UNITS if one[0] <= decade)


def ticks(end: int) -> Iterator[int]:
    """Returns round times up to an end, a few of them."""
    step = 10 ** max(0, math.floor(math.log10(end)) - 1)
    factor = next(one for one in (1, 2, 5, 10, 20, 50) if end // (step * one) < TICKS_AT_MOST)
    return iter(range(0, end + 1, step * factor))


def time_line_of(kept: Kept, window: TimeWindow = ALL) -> TimeLine:
    """Returns the time line of the calls of a window that have a time: all of them if they are few,
    or else the errors, those without a reply, and the slowest of each column."""
    own = [at for at in range(len(kept)) if window.has(kept.times[at])]
    timed = [at for at in own if kept.times[at]]
    end = max((kept.times[at] for at in timed), default=kept.begun) - kept.begun
    errors = [at for at in timed if kept.exchange(at).is_error]
    chosen = {*timed} if len(timed) <= DOTS_AT_MOST else {
        *errors[:ERRORS_AT_MOST], *filter(kept.is_unanswered, timed),
        *slowest(kept, timed, end)}
    return TimeLine([dot_of(kept.exchange(at)) for at in sorted(chosen)], end, len(own),
                    sum(at not in chosen for at in errors), len(own) - len(timed))


def slowest(kept: Kept, timed: Sequence[int], end: int) -> Iterable[int]:
    """Returns the call with the longest latency of each column, the first of several."""
    found = dict[int, int]()
    for at in timed:
        column = (kept.times[at] - kept.begun) * PIXEL_COLUMNS // (end + 1)
        if kept.latency(at) > kept.latency(found.setdefault(column, at)):
            found[column] = at
    return found.values()


def dot_of(one: KeptExchange) -> Dot:
    call, answer = (words if len(words) <= WORDS_AT_MOST else f'{words[:WORDS_AT_MOST]}..'
                    for words in (call_text(one), one.answer))
    latency = 'no latency' if one.latency is None else f'{milliseconds(one.latency)} ms'
    where = f'connection {one.part.number} client record {one.record}, frame {one.frame}'
    return Dot(one.time - one.kept.begun, one.latency, one.is_error,
               f'{call}: {answer}; {where}, {latency}', f'{one.part.number}:{one.record}')

"""A window of time in a recording, as the options --from and --to choose it."""
from __future__ import annotations

import argparse
import re
import sys
from typing import NamedTuple

from ..recordings.index import NANOSECONDS

SECONDS = re.compile(r'\d{1,12}(?:\.\d{1,9})?')
OF_DAY = re.compile(r'([01]?\d|2[0-3]):([0-5]\d)(?::([0-5]\d(?:\.\d{1,9})?))?')
DAY = 86_400 * NANOSECONDS


class Moment(NamedTuple):
    """Nanoseconds from the first frame of a recording, or from the midnight of a day (UTC)."""
    time: int
    is_of_day: bool = False

    def after(self, begun: int) -> int:
        """Returns it as nanoseconds since 1970, for a recording that begins then. A time of day is
        that of its first day, or of the next if it is half a day before the first frame."""
        if not self.is_of_day:
            return begun + self.time
        found = begun - begun % DAY + self.time
        return found + DAY if found < begun - DAY // 2 else found


class TimeWindow(NamedTuple):
    """From when on, and up to when, calls are chosen."""
    begin: int = -sys.maxsize
    end: int = sys.maxsize

    def has(self, time: int) -> bool:
        """Whether a call of this time is in it. One without a time is so if there are no ends."""
        return self == ALL or bool(time) and self.begin <= time <= self.end


ALL = TimeWindow()


def window_of(chosen: argparse.Namespace, begun: int) -> TimeWindow:
    """Returns the window that was chosen, of a recording that begins then."""
    first, last = chosen.begin, chosen.end
    return TimeWindow(ALL.begin if first is None else first.after(begun),
                      ALL.end if last is None else last.after(begun))


def moment(word: str) -> Moment:
    """Reads a time, as `12.5` or `10:03:07`."""
    if SECONDS.fullmatch(word):
        return Moment(nanoseconds(word))
    found = OF_DAY.fullmatch(word)
    if not found:
        raise argparse.ArgumentTypeError(f'no time: {word} (as in 12.5, 10:03 or 10:03:07.25)')
    minutes = int(found[1]) * 60 + int(found[2])
    return Moment(minutes * 60 * NANOSECONDS + nanoseconds(found[3] or '0'), True)


def nanoseconds(seconds: str) -> int:
    whole, _, part = seconds.partition('.')
    return int(whole) * NANOSECONDS + int(part.ljust(9, '0') if part else 0)


def add_window(parser: argparse.ArgumentParser) -> None:
    for option, name, words in (('--from', 'begin', 'from a time on'),
                                ('--to', 'end', 'up to a time')):
        parser.add_argument(option, dest=name, metavar='TIME', type=moment,
                            help=f'takes calls {words}: seconds from the first frame, or a time '
                                 'of day (UTC), as 10:03:07')

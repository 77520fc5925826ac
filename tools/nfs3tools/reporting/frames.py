"""How frames of a recording are printed: their times, and display filters of Wireshark."""
from __future__ import annotations

import datetime
import sys
import typing
from collections.abc import Sequence

from ..recordings.parts import Part
from ..recordings.taken import FrameRef, Taken
from ..shared.places import FilePlace, Place
from ..shared.printed import escaped

TIMED_FRAMES_AT_MOST = 12  # frames of which the time is printed


def place_lines(taken: Taken, place: Place | FilePlace,
                frames: list[FrameRef]) -> typing.Iterator[str]:
    if isinstance(place, Place):
        connection = taken.connections[place.connection - 1]
        yield (f'{place}: client {connection.client_end}, server {connection.server_end}, '
               f'tcp.stream == {connection.stream_number}')
    else:
        yield str(place)
    for frame in frames[:TIMED_FRAMES_AT_MOST]:
        yield f'frame {frame.number}, {frame_time(frame)}'
    if len(frames) > TIMED_FRAMES_AT_MOST:
        yield (f'and {len(frames) - TIMED_FRAMES_AT_MOST} more, the last of them '
               f'frame {frames[-1].number}, {frame_time(frames[-1])}')
    for name, text in filters_of(taken.parts, [frame.number for frame in frames]):
        yield f'{name}: {text}' if name else text


def frame_time(frame: FrameRef) -> str:
    """The time of a frame as Wireshark prints it in UTC."""
    if not frame.time:
        return 'without a time'
    seconds, nanoseconds = divmod(frame.time, 1_000_000_000)
    try:
        moment = datetime.datetime.fromtimestamp(seconds, datetime.timezone.utc)
    except (OverflowError, ValueError, OSError):
        return f'{seconds}.{nanoseconds:09} seconds after 1970'
    return f'{moment:%Y-%m-%d %H:%M:%S}.{nanoseconds:09} UTC'


def filters_of(parts: Sequence[Part], numbers: Sequence[int]) -> typing.Iterator[tuple[str, str]]:
    """Iterates over display filters of Wireshark for frames: one after an empty name, or for each
    part of a recording that has such frames one with its own numbers, after the part's name."""
    if not parts:
        yield '', filter_of(numbers)
    for part, after in zip(parts, [*(part.before for part in parts[1:]), sys.maxsize]):
        own = [number - part.before for number in numbers if part.before < number <= after]
        if own:
            yield escaped(part.path), filter_of(own)


def filter_of(numbers: Sequence[int]) -> str:
    """A display filter of Wireshark for frames."""
    if len(numbers) == 1:
        return f'frame.number == {numbers[0]}'
    ranges = [[numbers[0], numbers[0]]]
    for number in numbers[1:]:
        if number == ranges[-1][1] + 1:
            ranges[-1][1] = number
        else:
            ranges.append([number, number])
    return 'frame.number in {%s}' % ', '.join(str(low) if low == high else f'{low}..{high}'
                                              for low, high in ranges)

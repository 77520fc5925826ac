"""Which records a frame of a recording carries."""
from __future__ import annotations

from collections.abc import Iterator

from ..shared.places import SIDES, FilePlace, FramePlace, NoPlace, Place
from .records import Window, extents
from .taken import Taken, TakenStream


def places_at(taken: Taken, place: Place | FilePlace | FramePlace) -> list[Place | FilePlace]:
    """Returns the records that a frame carries, or any other place by itself. Raises `NoPlace`."""
    if not isinstance(place, FramePlace):
        return [place]
    found: list[Place | FilePlace] = [
        Place(connection.number, side, record) for connection in taken.connections for side in SIDES
        for record in records_in(connection.stream(side), place.frame)]
    last = None if found else taken.ends()
    if last and place.frame > last[1].number:
        raise NoPlace(f'{place} is after all frames with bytes of a record; the last of them is '
                      f'frame {last[1].number}')
    if not found:
        raise NoPlace(f'{place} carries no bytes of a record, or only bytes that another frame had '
                      'brought before')
    return found


def records_in(stream: TakenStream, frame: int) -> Iterator[int]:
    """Iterates over the numbers of the records of which a frame brought bytes."""
    runs = list(runs_of(stream, frame))
    if runs:
        for number, extent in enumerate(extents(Window(stream), 0, stream.size), 1):
            if any(begin < extent.end and extent.begin < end for begin, end in runs):
                yield number


def runs_of(stream: TakenStream, frame: int) -> Iterator[tuple[int, int]]:
    """Iterates over the runs of bytes of a stream that a frame brought."""
    if stream.sent is None:
        return
    for (low, high), at in zip(stream.ranges, stream.begins):
        begins = [(max(brought.begin, low), brought.number)
                  for brought in stream.sent.between(low, high)]
        for (begin, number), (end, _) in zip(begins, [*begins[1:], (high, 0)]):
            if number == frame:
                yield begin - low + at, end - low + at

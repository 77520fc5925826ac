"""What one end of a connection sent, as the runs of an index have it."""
from __future__ import annotations

import bisect
import functools
import typing
from collections.abc import Iterator, Sequence

from .index import FIRST_POSITION, RUN_WORDS, SEQUENCE_SPACE, StreamRow

SIZE_OF_RUN = 0xffffffff  # the lower half of its last word


class PlacesReader(typing.Protocol):
    def read(self, at: int, size: int) -> bytes:
        """Returns the bytes of a place of a file."""

    def joined(self, places: Sequence[tuple[int, int]]) -> bytes:
        """Returns the bytes of some places of a file, one after another."""


class Mark(typing.NamedTuple):
    """A position of a stream, and the frame that names it."""
    position: int
    frame: int


class Gap(typing.NamedTuple):
    """Bytes that are missing: after how many bytes of the stream, how many, and the frame that
    shows it."""
    position: int
    size: int
    frame: int


class Stretch(typing.NamedTuple):
    """Bytes without a gap, from one position up to another, and the gap before them."""
    begin: int
    end: int
    gap: Gap | None


class Brought(typing.NamedTuple):
    """A frame that brought bytes of a stream: where they begin, its number, and its time."""
    begin: int
    number: int
    time: int


class Stream:
    """What one end sent, in order. Positions count from the byte after SYN; if that was not
    recorded, from the first byte that was.

    first: the sequence number of position 0
    is_whole: whether it is of a connection that nfs3streams found whole
    opened, end, acknowledged, reset: SYN, FIN, the highest acknowledgment, and RST, as far as they
        were recorded
    strays, stray: how many segments have a number that is none of the stream, and the first frame
    """

    def __init__(self, row: StreamRow, file: PlacesReader, times: memoryview,
                 is_whole: bool = False) -> None:
        self.file, self.times, self.runs, self.is_whole = file, times, row.runs, is_whole
        begin, end, acknowledged, reset = (
            Mark(*row.marks[at:at + 2]) if row.marks[at + 1] else None for at in (0, 2, 4, 6))
        base = begin.position if begin else self.runs[0] if self.runs else FIRST_POSITION
        self.base, self.first = base, (row.first + base - FIRST_POSITION) % SEQUENCE_SPACE
        self.opened, self.end, self.acknowledged, self.reset = (
            mark and Mark(mark.position - base, mark.frame)
            for mark in (begin, end, acknowledged, reset))
        self.strays, self.stray = row.marks[8:]
        if self.end and self.end.position < 0:  # before the beginning
            self.strays, self.stray, self.end = self.strays + 1, self.stray or self.end.frame, None
        self.pairs = row.pairs
        self.positions = self.runs[::RUN_WORDS]
        self.low = self.run_at(0)
        self.high = (len(self.positions) if self.end is None
                     else bisect.bisect_left(self.positions, base + self.end.position))

    def changed(self) -> tuple[int, int]:
        """Returns how many frames repeat bytes with other content, and the first of them."""
        if self.is_whole:
            return 0, 0
        words, frames = iter(self.pairs), set[int]()
        for _, first, again, last in zip(words, words, words, words):
            size, frame = last & SIZE_OF_RUN, last >> 32
            if self.file.joined([(first, size)]) != self.file.joined([(again, size)]):
                frames.add(frame)
        return len(frames), min(frames, default=0)

    def run_at(self, position: int) -> int:
        """Returns the index of the first run that ends behind a position."""
        at = bisect.bisect_right(self.positions, self.base + position) - 1
        return at if at >= 0 and self.end_of_run(at) > position else at + 1

    def end_of_run(self, at: int) -> int:
        return self.positions[at] - self.base + (self.runs[RUN_WORDS * at + 2] & SIZE_OF_RUN)

    @property
    def is_begin(self) -> bool:
        """Whether the bytes at position 0 are the first that were sent."""
        return self.opened is not None

    @functools.cached_property
    def size(self) -> int:
        """The position after the last byte."""
        if self.low >= self.high:
            return 0
        last = self.end_of_run(self.high - 1)
        return last if self.end is None else min(last, self.end.position)

    @property
    def left_out(self) -> Gap | None:
        """Bytes that were recorded and are none of the stream: before its begin, or behind its
        end. They have no position."""
        number, frame = 0, 0
        for at in (*range(min(self.low + 1, len(self.positions))),
                   *range(max(self.high - 1, 0), len(self.positions))):
            size = self.runs[RUN_WORDS * at + 2] & SIZE_OF_RUN
            begin = self.positions[at] - self.base
            kept = max(0, min(begin + size, self.size) - max(begin, 0))
            number += size - kept
            frame = frame or (self.frame_of(at) if kept < size else 0)
        return Gap(0, number, frame) if number else None

    def frame_of(self, at: int) -> int:
        return int(self.runs[RUN_WORDS * at + 2] >> 32)

    def read(self, begin: int, size: int) -> bytes:
        """Returns the bytes from `begin` on: `size` of them, or fewer before a gap or the end."""
        end, at, places = min(begin + size, self.size), self.run_at(begin), []
        while begin < end and at < self.high:
            start = self.positions[at] - self.base
            if start > begin:
                break
            stop = min(end, self.end_of_run(at))
            places.append((self.runs[RUN_WORDS * at + 1] + begin - start, stop - begin))
            begin, at = stop, at + 1
        return self.file.joined(places) if places else b''

    def forward(self) -> typing.Callable[[int, int], bytes]:
        """Returns a function that does the same for places none of which is before the last one. It
        goes from run to run, which is faster than a search."""
        at, last, end, read = self.low, self.high - 1, self.size, self.file.read
        base, positions, runs = self.base, self.positions, self.runs

        def piece(begin: int, size: int) -> bytes:
            nonlocal at
            position = base + begin
            while at < last and positions[at + 1] <= position:
                at += 1
            start, place, word = runs[RUN_WORDS * at:RUN_WORDS * (at + 1)]
            offset = position - start
            if 0 <= offset <= (word & SIZE_OF_RUN) - size and begin + size <= end:
                return read(place + offset, size)
            return self.read(begin, size)
        return piece

    @functools.cached_property
    def stretches(self) -> list[Stretch]:
        """The bytes without a gap, in order, each with the gap before it."""
        if self.is_whole:
            return [Stretch(0, self.size, None)] if self.size else []
        found, begin, last, gap = list[Stretch](), 0, 0, None
        for at in range(self.low, self.high):
            start = max(0, self.positions[at] - self.base)
            if start > last:
                if last > begin:
                    found.append(Stretch(begin, last, gap))
                begin, gap = start, Gap(last, start - last, self.frame_of(at))
            last = self.end_of_run(at)
        return found + [Stretch(begin, self.size, gap)] if self.size else []

    def gap_at_end(self) -> Gap | None:
        """The bytes that are missing after the last one."""
        shown = self.end or self.acknowledged
        if shown is None or shown.position <= self.size:
            return None
        return Gap(self.size, shown.position - self.size, shown.frame)

    def between(self, begin: int, end: int) -> Iterator[Brought]:
        """Iterates over the frames that brought the bytes from `begin` up to `end`, in order of the
        bytes."""
        for at in range(self.run_at(begin), self.high):
            start = self.positions[at] - self.base
            if start >= end:
                return
            frame = self.frame_of(at)
            yield Brought(start, frame, self.times[frame - 1])

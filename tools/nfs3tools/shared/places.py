"""Positions of a capture, as the program prints them."""
from __future__ import annotations

import re
import typing

Side = typing.Literal['client', 'server']
SIDES: tuple[Side, Side] = ('client', 'server')


class NoPlace(Exception):
    """A text that names no position."""


class Place(typing.NamedTuple):
    """A record, or a byte of its body. Connections and records count from 1, bytes from 0."""
    connection: int
    side: Side
    record: int
    byte: typing.Optional[int] = None

    def __str__(self) -> str:
        return f'connection {self.connection} {self.in_connection}'

    @property
    def in_connection(self) -> str:
        """The same without the connection."""
        record = f'{self.side} record {self.record}'
        return record if self.byte is None else f'{record} byte {self.byte}'

    @property
    def brief(self) -> str:
        """The same in a few characters: of a call as tools/calls prints it, `7:3182`."""
        record = (f'{self.connection}:{self.record}' if self.side == 'client'
                  else f'{self.connection} server {self.record}')
        return record if self.byte is None else f'{record} byte {self.byte}'


class FilePlace(typing.NamedTuple):
    """A byte of the capture file, numbered from 0."""
    byte: int

    def __str__(self) -> str:
        return f'file {self.byte}'


class FramePlace(typing.NamedTuple):
    """A frame, numbered from 1 as Wireshark counts: the records whose bytes it carries."""
    frame: int

    def __str__(self) -> str:
        return f'frame {self.frame}'


AnyPlace = typing.Union[Place, FilePlace, FramePlace]


class Fault(typing.NamedTuple):
    """What `check` prints of a capture that it refuses."""
    place: Place | FilePlace
    reason: str

    def __str__(self) -> str:
        return f'{self.place}: {self.reason}'


PLACE = re.compile(r'(?:first: |second: |differ at )?'
                   r'(?:(?:connection )?(\d{1,18}) (client|server) (?:record )?(\d{1,18})'
                   r'(?: byte (\d{1,18}))?|file (\d{1,18}))(?:: (\w+)| xid=.*)?')
COUNTED_CALL = re.compile(r'(\d{1,18}):(\d{1,18})(?: byte (\d{1,18}))?(?: frame \d{1,18})?')
FRAME = re.compile(r'frame (\d{1,18})')
EXAMPLE = "as in '7:3182', 'frame 12' or '7 server 19 byte 24'"


def parse_place(text: str) -> AnyPlace:
    """Reads a position from a line of `check`, `same` or `show`, a call as tools/calls prints it
    (`7:3182`, or a byte of it), or a frame. Of several lines the first that is one counts. Before
    and after it only what these print there may be. Raises `NoPlace` if there is none."""
    for line in map(str.strip, text.splitlines()):
        if found := PLACE.fullmatch(line):
            return matched_place(found)
        if counted := COUNTED_CALL.fullmatch(line):
            return Place(int(counted[1]), 'client', int(counted[2]), byte_in(counted[3]))
        if frame := FRAME.fullmatch(line):
            return FramePlace(int(frame[1]))
    word = text.strip()[:200]
    if not word:
        raise NoPlace(f'give a position ({EXAMPLE})')
    meant = f"is 'frame {word}' meant?" if word.isdecimal() else EXAMPLE
    raise NoPlace(f'no position: {word} ({meant})')


def byte_in(found: str | None) -> int | None:
    return None if found is None else int(found)


def matched_place(found: re.Match[str]) -> Place | FilePlace:
    if found[5] is not None:
        return FilePlace(int(found[5]))
    return Place(int(found[1]), typing.cast(Side, found[2]), int(found[3]), byte_in(found[4]))


def parse_fault(text: str) -> Fault | None:
    """Reads a line of `check` that refuses a capture; returns `None` for any other line."""
    lines = (PLACE.fullmatch(line.strip()) for line in text.splitlines())
    return next((Fault(matched_place(found), found[6]) for found in lines if found and found[6]),
                None)
